/*
 * What the examples have in common: a file read whole, and a refusal in words.
 */
#ifndef COMMON_H
#define COMMON_H

#include <paradox.h>

#include <errno.h>
#include <stdio.h>
#include <stdlib.h>
#include <string.h>

/* Each refusal in words. */
static const struct {
    uint32_t number;
    const char *words;
} REFUSALS[] = {
    {PARADOX_TOO_SHORT, "the table is too short to have a header"},
    {PARADOX_NOT_A_TABLE, "the file given as the table is not one"},
    {PARADOX_UNKNOWN_VERSION, "the table's version is not known"},
    {PARADOX_ENCRYPTED, "the table is encrypted"},
    {PARADOX_HEADER_LIMIT, "a number in the table's header is out of its limits"},
    {PARADOX_WRONG_LENGTH, "the table is longer or shorter than its header says"},
    {PARADOX_FIELD_RULE, "the table's fields are damaged"},
    {PARADOX_CHAIN_RULE, "the table's chain of blocks is broken"},
    {PARADOX_WRONG_COUNT, "the table's record counts are wrong"},
    {PARADOX_KEY_ORDER, "the table's keys are out of order"},
    {PARADOX_NO_MEANING, "the cell has no meaning"},
    {PARADOX_BLOB_CELL, "the cell is a memo or another blob"},
    {PARADOX_BAD_ARGUMENT, "the table has no key, or a key of another length"},
    {PARADOX_SHORT_BUFFER, "a buffer is too short"},
    {PARADOX_UNFIT_BLOB, "the blob does not fit the MB file"},
    {PARADOX_INDEX_TOO_SHORT, "the index is too short to have a header"},
    {PARADOX_NOT_AN_INDEX, "the file given as the index is not a primary index"},
    {PARADOX_INDEX_VERSION, "the index's version is not known"},
    {PARADOX_INDEX_LIMIT, "a number in the index's header is out of its limits or does not suit the table"},
    {PARADOX_INDEX_LENGTH, "the index is longer or shorter than its header says"},
    {PARADOX_INDEX_TREE, "the index does not fit the table; have Paradox rebuild it"},
};

/* Bytes on the heap: how many there are, and how many there is room for. */
struct bytes {
    uint8_t *at;
    size_t len;
    size_t room;
};

/* Says a refusal by its number and in words. */
static void say_refused(uint32_t number)
{
    const char *words = "unknown refusal";
    for (size_t i = 0; i < sizeof REFUSALS / sizeof REFUSALS[0]; i++) {
        if (REFUSALS[i].number == number) {
            words = REFUSALS[i].words;
        }
    }
    fprintf(stderr, "refused %lu: %s\n", (unsigned long)number, words);
}

/* Makes room for so many bytes more. Answers 0 where there is no memory for them. */
static int make_room(struct bytes *bytes, size_t more)
{
    if (bytes->room - bytes->len >= more) {
        return 1;
    }
    size_t room = bytes->room == 0 ? 4096 : bytes->room;
    while (room - bytes->len < more) {
        if (room > SIZE_MAX / 2) {
            return 0;
        }
        room *= 2;
    }
    uint8_t *at = (uint8_t *)realloc(bytes->at, room);
    if (at == NULL) {
        return 0;
    }
    bytes->at = at;
    bytes->room = room;
    return 1;
}

/* Reads an open file to its end. Answers NULL, or what went wrong. */
static const char *read_to_end(FILE *file, struct bytes *bytes)
{
    while (!feof(file)) {
        if (!make_room(bytes, 1)) {
            return "too large for the memory there is";
        }
        bytes->len += fread(bytes->at + bytes->len, 1, bytes->room - bytes->len, file);
        if (ferror(file)) {
            return strerror(errno);
        }
    }
    return NULL;
}

/* Reads a whole file. Answers 0, with a message, where it cannot be read. The caller frees the bytes in either case. */
static int read_file(const char *name, struct bytes *bytes)
{
    errno = 0;
    FILE *file = fopen(name, "rb");
    const char *trouble = file == NULL ? strerror(errno) : read_to_end(file, bytes);
    if (trouble != NULL) {
        fprintf(stderr, "%s: %s\n", name, trouble);
    }
    if (file != NULL) {
        fclose(file);
    }
    return trouble == NULL;
}

#endif
