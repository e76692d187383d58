/*
 * What the tests of the calls have in common: counted expectations, and tables made by document 01. Files are in heap
 * buffers of exactly their length, so that valgrind sees any access beyond them.
 */
#ifndef COMMON_H
#define COMMON_H

#include <paradox.h>

#include <stdio.h>
#include <stdlib.h>
#include <string.h>

enum { HEADER = 512, BLOCK = 1024, NAMES_BEHIND_FIELDS = 83 };

static unsigned passed;
static unsigned failed;

static inline void expect(const char *what, uint64_t got, uint64_t wanted)
{
    if (got == wanted) {
        passed++;
        return;
    }
    failed++;
    printf("%s: %llx, expected %llx\n", what, (unsigned long long)got, (unsigned long long)wanted);
}

/* Prints how many expectations were met. Answers the program's exit status. */
static inline int verdict(const char *test)
{
    printf("%s: %u passed, %u failed\n", test, passed, failed);
    return failed == 0 ? 0 : 1;
}

static inline void put_word(uint8_t *bytes, size_t offset, unsigned word)
{
    bytes[offset] = (uint8_t)(word & 0xff);
    bytes[offset + 1] = (uint8_t)(word >> 8);
}

static inline uint8_t *zeros(size_t len)
{
    uint8_t *bytes = (uint8_t *)calloc(len, 1);
    if (bytes == NULL) {
        puts("no memory");
        exit(2);
    }
    return bytes;
}

/* A field as a table stores it. */
struct field {
    uint8_t code;
    uint8_t width;
    const char *name;
};

static inline size_t file_len(unsigned blocks)
{
    return HEADER + (size_t)blocks * BLOCK;
}

static inline uint8_t *block_of(uint8_t *file, unsigned block)
{
    return file + file_len(block - 1);
}

/* Numbers that a table's and an index's header have in common. */
static inline uint8_t *file_of(unsigned record_size, unsigned type, unsigned blocks)
{
    uint8_t *file = zeros(file_len(blocks));
    put_word(file, 0x00, record_size);
    put_word(file, 0x02, HEADER);
    file[0x04] = (uint8_t)type;
    file[0x05] = 1;
    put_word(file, 0x0c, blocks);
    file[0x39] = 0x09;
    return file;
}

/* A table of version 09 without records; its blocks are in no chain yet. */
static inline uint8_t *table_of(const struct field *fields, unsigned count, unsigned key_fields, unsigned blocks)
{
    unsigned record_size = 0;
    for (unsigned i = 0; i < count; i++) {
        record_size += fields[i].width;
    }
    uint8_t *table = file_of(record_size, key_fields > 0 ? 0 : 2, blocks);
    put_word(table, 0x21, count);
    put_word(table, 0x23, key_fields);
    uint8_t *area = table + 0x78;
    char *names = (char *)area + 6 * count + NAMES_BEHIND_FIELDS;
    for (unsigned i = 0; i < count; i++) {
        area[2 * i] = fields[i].code;
        area[2 * i + 1] = fields[i].width;
        strcpy(names, fields[i].name);
        names += strlen(fields[i].name) + 1;
    }
    return table;
}

/* Where the chains begin, where the used one ends, and how many records there are. */
static inline void set_chains(uint8_t *table, unsigned first, unsigned last, unsigned first_free, unsigned records)
{
    put_word(table, 0x06, records);
    put_word(table, 0x0e, first);
    put_word(table, 0x10, last);
    put_word(table, 0x4d, first_free);
}

/* A block's head and its records. */
static inline void set_block(uint8_t *table, unsigned block, unsigned next, unsigned previous,
                             const uint8_t *records, unsigned count)
{
    unsigned record_size = paradox_word(table, 0x00);
    uint8_t *at = block_of(table, block);
    put_word(at, 0, next);
    put_word(at, 2, previous);
    put_word(at, 4, ((count + 0xffff) * record_size) & 0xffff); /* count - 1, as a signed word */
    if (count > 0) {
        memcpy(at + 6, records, (size_t)count * record_size);
    }
}

#endif
