/*
 * Reader of Paradox tables (DB), their primary indexes (PX) and their memos and other blobs (MB): calls over lent
 * bytes. Link libparadox.a.
 *
 * For each call:
 * - A buffer is a pointer and a length: in bytes beside a `uint8_t *`, in numbers beside a `uint64_t *`. Any bytes get
 *   an answer: torn, empty or hostile files too.
 * - A length may be 0; the pointer beside it is then not used and may be anything, NULL too.
 * - `const` buffers are not changed and may overlap each other. A buffer that is not `const` overlaps no other one.
 * - Nothing is kept after the call: no state, no heap. Calls may run at the same time in several threads, as long as
 *   nobody else writes to a buffer that a call reads, or uses one that it writes.
 *
 * The manual (docs/MANUAL.md, installed as share/doc/paradox/MANUAL.md) says of each call which refusals it gives, and
 * of each refusal when it comes and what to do about it.
 */
#ifndef PARADOX_H
#define PARADOX_H

#include <stddef.h>
#include <stdint.h>
#include <string.h>

#ifdef __cplusplus
extern "C" {
#endif

/* What a call answers, or what paradox_refusal() takes from its answer. Any number but 0 is a refusal. */
enum {
    PARADOX_ACCEPTED = 0,          /* no refusal: every rule that the call judges is kept */

    /* the table */
    PARADOX_TOO_SHORT = 1,         /* fewer than 120 bytes */
    PARADOX_NOT_A_TABLE = 2,       /* byte 04 is not that of a table */
    PARADOX_UNKNOWN_VERSION = 3,   /* version byte outside 03..0B */
    PARADOX_ENCRYPTED = 4,         /* encrypted */
    PARADOX_HEADER_LIMIT = 5,      /* a number of the header breaks its limit */
    PARADOX_WRONG_LENGTH = 6,      /* the length is not that of header and blocks */
    PARADOX_FIELD_RULE = 7,        /* a field's type, width or name is wrong, or the widths' sum */
    PARADOX_CHAIN_RULE = 8,        /* a chain of blocks is broken */
    PARADOX_WRONG_COUNT = 9,       /* a record count is wrong */
    PARADOX_KEY_ORDER = 10,        /* keys do not strictly ascend */

    /* cells, arguments and buffers */
    PARADOX_NO_MEANING = 11,       /* a cell's bytes have no meaning, or a value has no stored form */
    PARADOX_BLOB_CELL = 12,        /* a memo or another blob; only from calls that are not lent an MB file */
    PARADOX_BAD_ARGUMENT = 13,     /* an argument doesn't fit: a block, place, field, key, type, value or cursor */
    PARADOX_SHORT_BUFFER = 14,     /* a lent buffer is too short: fewer marks than blocks, or no room for the answer */
    PARADOX_UNFIT_BLOB = 18,       /* the MB file has no such blob as the cell says */

    /* the index */
    PARADOX_INDEX_TOO_SHORT = 21,  /* fewer than 88 bytes */
    PARADOX_NOT_AN_INDEX = 22,     /* byte 04 is not that of a primary index */
    PARADOX_INDEX_VERSION = 23,    /* version byte outside 03..0B */
    PARADOX_INDEX_LIMIT = 25,      /* a number of the header breaks its limit, or suits another key length */
    PARADOX_INDEX_LENGTH = 26,     /* the length is not that of header and blocks */
    PARADOX_INDEX_TREE = 27        /* the tree is broken, or does not fit the table */
};

/* No accepted table has more blocks: a mark buffer of so many bytes is always long enough. */
#define PARADOX_MOST_BLOCKS 32767

/* No accepted table has more fields: PARADOX_MOST_FIELDS * PARADOX_CELL_NUMBERS numbers have room for every record. */
#define PARADOX_MOST_FIELDS 255

/* ---- Checks ---- */

/*
 * Checks a table. Answers PARADOX_ACCEPTED or the number of the first rule that is broken.
 *
 * The mark buffer has at least one byte for each block. With 1 to 7 and 14 it is as it was. With 8 its first bytes, one
 * for each block, are 0. With 9, 10 and acceptance byte b - 1 is 1 where block b is used and 2 where it is free.
 * Bytes behind those of the blocks never change.
 */
uint32_t paradox_table_check(const uint8_t *table, size_t table_len, uint8_t *marks, size_t marks_len);

/*
 * Checks that a table keeps every rule and that the index is its index. Answers PARADOX_ACCEPTED or a refusal: the
 * table's, 13 for a table without key fields, then the index's. Once it accepts, for every key of the table's key
 * length paradox_walk and paradox_scan (with a mark for each block) find the same block and place, or both say absent,
 * and neither refuses. The two numbers are not equal: the walk's has the index blocks read in it.
 *
 * The mark buffer holds what paradox_table_check leaves; with 13 and 21 to 27 that is the marks of an accepted table.
 */
uint32_t paradox_pair_check(const uint8_t *table, size_t table_len, const uint8_t *index, size_t index_len,
                            uint8_t *marks, size_t marks_len);

/* ---- Lookups ---- */

/*
 * Looks a key up by a scan: checks the table, then looks through its records. Answers a packed number, see below.
 * `key` has the bytes of the key fields as they are stored (paradox_write makes them); 13 is for a table without key
 * fields or a key of another length.
 *
 * The mark buffer holds what paradox_table_check leaves; with 13 and an answer of found or absent that is the marks of
 * an accepted table.
 */
uint64_t paradox_scan(const uint8_t *table, size_t table_len, const uint8_t *key, size_t key_len,
                      uint8_t *marks, size_t marks_len);

/*
 * Looks a key up by a walk down the index. Answers a packed number, see below. `key` is as for paradox_scan, and so is
 * 13. It judges both headers, one index block a level and one data block, and nothing else: ask paradox_pair_check
 * first after any change of the files.
 *
 * No lent memory is written.
 */
uint64_t paradox_walk(const uint8_t *table, size_t table_len, const uint8_t *index, size_t index_len,
                      const uint8_t *key, size_t key_len);

/*
 * A lookup's answer in its parts. A refusal has 0 for every other part. A key that is absent has neither a refusal nor
 * a record: block and place are 0. Some of these functions also take what other calls give.
 */

/* PARADOX_ACCEPTED, or the number of the refusal. Of a start's, a step's or a blob's answer too. */
static inline uint32_t paradox_refusal(uint64_t answer)
{
    return (uint32_t)(answer & 0xff);
}

/* 1 where a record has the key, else 0: absent or refused. Of a start's or a step's answer: 1 where a record came. */
static inline int paradox_is_found(uint64_t answer)
{
    return (answer >> 8 & 0xff) == 1;
}

/* The block of the record found, or of the record that a cursor stands on, from 1. */
static inline uint16_t paradox_block(uint64_t answer)
{
    return (uint16_t)(answer >> 16 & 0xffff);
}

/* The place of that record in its block, from 0. */
static inline uint16_t paradox_place(uint64_t answer)
{
    return (uint16_t)(answer >> 32 & 0xffff);
}

/* How many index blocks a walk has read; 0 for a scan. */
static inline uint16_t paradox_index_blocks_read(uint64_t answer)
{
    return (uint16_t)(answer >> 48 & 0xffff);
}

/* ---- Header, fields and cells ---- */

/*
 * The calls of this part put numbers into a lent buffer and answer PARADOX_ACCEPTED or a refusal: first the table's 1
 * to 7, then 14 where the buffer has fewer numbers than the answer takes, then the call's own. With a refusal every
 * number of the buffer is 0, however long it is. Else the answer's numbers stand in front, and those behind are as they
 * were.
 *
 * Of the table they judge rules 1 to 7 and what they read, and nothing else: ask paradox_table_check first.
 */

/* What a cell is, and the kind of a field. */
enum {
    PARADOX_REFUSED, /* 0: no value; in a record the cell's own refusal stands in the value's place */
    PARADOX_BLANK,   /* 1: a cell of any kind that has nothing in it */
    PARADOX_SHORT,   /* 2: a signed number, -32,767 to 32,767 */
    PARADOX_LONG,    /* 3: a signed number, -2,147,483,647 to 2,147,483,647 */
    PARADOX_DATE,    /* 4: a day's number, 36,160 to 3,652,059; 1 January 0001 is 1 */
    PARADOX_NUMBER,  /* 5: a finite double; of currency fields too */
    PARADOX_LOGICAL, /* 6: 0 false, 1 true */
    PARADOX_TEXT,    /* 7: bytes of the table, at least one */
    PARADOX_BLOB     /* 8: a memo or another blob; a field's kind only, never a cell's */
};

/* Where the numbers of a header stand, and how many there are. */
enum {
    PARADOX_HEADER_VERSION,      /* 03 to 0B */
    PARADOX_HEADER_SIZE,         /* in bytes; block 1 begins there */
    PARADOX_HEADER_BLOCK_SIZE,   /* in bytes */
    PARADOX_HEADER_BLOCKS,       /* blocks in the file */
    PARADOX_HEADER_RECORD_SIZE,  /* in bytes */
    PARADOX_HEADER_RECORDS,      /* the record count */
    PARADOX_HEADER_FIRST_BLOCK,  /* of the used chain, from 1; 0 for none */
    PARADOX_HEADER_LAST_BLOCK,   /* of the used chain */
    PARADOX_HEADER_FIRST_FREE,   /* first block of the free chain */
    PARADOX_HEADER_FIELDS,       /* fields of a record, 1 to 255 */
    PARADOX_HEADER_KEY_FIELDS,   /* how many of them, from the first, are the key; 0 for none */
    PARADOX_HEADER_KEY_LENGTH,   /* the widths of the key fields added up */
    PARADOX_HEADER_FIELD_AREA,   /* where the types and widths of the fields begin in the table */
    PARADOX_HEADER_NAMES,        /* where the names of the fields begin in the table */
    PARADOX_HEADER_NUMBERS       /* how many there are */
};

/* Where the numbers of a field stand, and how many there are. */
enum {
    PARADOX_FIELD_CODE,          /* its type as stored, 01 to 10 */
    PARADOX_FIELD_KIND,          /* PARADOX_SHORT to PARADOX_BLOB */
    PARADOX_FIELD_WIDTH,         /* in bytes */
    PARADOX_FIELD_OFFSET,        /* where it begins in a record: the widths of the fields before it added up */
    PARADOX_FIELD_NAME,          /* where its name begins in the table */
    PARADOX_FIELD_NAME_LENGTH,   /* 1 to 25, without the zero that ends it */
    PARADOX_FIELD_NUMBERS        /* how many there are */
};

/* Where the numbers of a cell stand, and how many there are. */
enum {
    PARADOX_CELL_WHAT,           /* PARADOX_BLANK to PARADOX_TEXT; in a record PARADOX_REFUSED too */
    PARADOX_CELL_VALUE,          /* the functions below take it; of a text where it begins in the table, of a blank 0 */
    PARADOX_CELL_LENGTH,         /* of a text its length in bytes, else 0 */
    PARADOX_CELL_RESERVED,       /* 0 */
    PARADOX_CELL_NUMBERS         /* how many there are */
};

/* The numbers of a table's header: PARADOX_HEADER_NUMBERS of them. */
uint32_t paradox_header(const uint8_t *table, size_t table_len, uint64_t *numbers, size_t numbers_len);

/* The numbers of a field, counted from 1: PARADOX_FIELD_NUMBERS of them. 13 where there is no such field. */
uint32_t paradox_field(const uint8_t *table, size_t table_len, size_t field, uint64_t *numbers, size_t numbers_len);

/*
 * The cell at a block (from 1), a place (from 0) and a field (from 1): PARADOX_CELL_NUMBERS numbers. Its own refusals
 * are, in this order: 13 for no such block or field, 9 for the block's count, 13 for no such place, 12 for a blob
 * (paradox_blob reads it), 11 for bytes without meaning. Whether the block is used is not judged.
 */
uint32_t paradox_cell(const uint8_t *table, size_t table_len, size_t block, size_t place, size_t field,
                      uint64_t *cell, size_t cell_len);

/*
 * Every cell of the record at a block and a place, in the order of the fields: PARADOX_CELL_NUMBERS numbers for each
 * field. Its own refusals are, in this order: 13 for no such block, 9 for the block's count, 13 for no such place.
 *
 * A cell without meaning, or of a blob, does not refuse the record: its numbers are PARADOX_REFUSED, 11 or 12, 0, 0.
 */
uint32_t paradox_record(const uint8_t *table, size_t table_len, size_t block, size_t place,
                        uint64_t *cells, size_t cells_len);

/* Where a field's name begins; it is paradox_name_length() bytes long. `field` is what paradox_field gave. */
static inline const uint8_t *paradox_name(const uint8_t *table, const uint64_t *field)
{
    return table + field[PARADOX_FIELD_NAME];
}

/* The length of a field's name in bytes. */
static inline size_t paradox_name_length(const uint64_t *field)
{
    return (size_t)field[PARADOX_FIELD_NAME_LENGTH];
}

/* The numbers of one field's cell, among those of a record. The field is counted from 1. */
static inline const uint64_t *paradox_cell_of(const uint64_t *cells, size_t field)
{
    return cells + (field - 1) * PARADOX_CELL_NUMBERS;
}

/*
 * The value of a cell, one function for each kind. Each takes what PARADOX_CELL_WHAT has said for granted.
 */

/* Of a cell in a record: PARADOX_ACCEPTED, or its own refusal. */
static inline uint32_t paradox_cell_refusal(const uint64_t *cell)
{
    return cell[PARADOX_CELL_WHAT] == PARADOX_REFUSED ? (uint32_t)cell[PARADOX_CELL_VALUE] : 0;
}

/* Of PARADOX_SHORT and PARADOX_LONG: the number. */
static inline int32_t paradox_integer(const uint64_t *cell)
{
    int64_t integer;
    memcpy(&integer, &cell[PARADOX_CELL_VALUE], sizeof integer);
    return (int32_t)integer;
}

/* Of PARADOX_DATE: the day's number. */
static inline uint32_t paradox_day(const uint64_t *cell)
{
    return (uint32_t)cell[PARADOX_CELL_VALUE];
}

/* Of PARADOX_NUMBER: the double. */
static inline double paradox_double(const uint64_t *cell)
{
    double number;
    memcpy(&number, &cell[PARADOX_CELL_VALUE], sizeof number);
    return number;
}

/* Of PARADOX_LOGICAL: 1 for true, 0 for false. */
static inline int paradox_truth(const uint64_t *cell)
{
    return cell[PARADOX_CELL_VALUE] != 0;
}

/* Of PARADOX_TEXT: where it begins; it is paradox_text_length() bytes long, and a zero need not follow. */
static inline const uint8_t *paradox_text(const uint8_t *table, const uint64_t *cell)
{
    return table + cell[PARADOX_CELL_VALUE];
}

/* Of PARADOX_TEXT: its length in bytes. */
static inline size_t paradox_text_length(const uint64_t *cell)
{
    return (size_t)cell[PARADOX_CELL_LENGTH];
}

/* ---- Memos and other blobs ---- */

/*
 * The cell of a blob is a leader and ten bytes behind it: offset, length and modification number. A blob no longer than
 * the leader is the leader's first bytes, a part of the table. Any other is a part of the MB file, in a block of its
 * own or in a suballocated block, where an entry names it.
 */

/* In which file a blob stands. */
enum {
    PARADOX_IN_NEITHER,   /* 0: the cell is blank, or the call has refused */
    PARADOX_IN_TABLE,     /* 1: in the leader */
    PARADOX_IN_MB         /* 2: in the MB file */
};

/* Where the numbers of a part stand, and how many there are. */
enum {
    PARADOX_PART_START,   /* where it begins in its file */
    PARADOX_PART_LENGTH,  /* in bytes */
    PARADOX_PART_NUMBERS  /* how many there are */
};

/*
 * Where the blob at a block (from 1), a place (from 0) and a field (from 1) stands, with the whole MB file of the table
 * lent as `mb`. The answer has a refusal, which paradox_refusal() takes, or the file, which paradox_blob_file() takes.
 * No byte of the blob is copied: the functions below take the part from the lent file.
 *
 * Refuses, in this order: 1 to 7 of the table; 14 where `part` has fewer than PARADOX_PART_NUMBERS numbers; 13 for no
 * such block or field, or a field that is no blob; 9 for the block's count; 13 for no such place; 18 where the
 * cell's offset or length does not suit the MB file (the manual says how). Never 12 or 11. Of a blank cell and of a
 * blob in the leader neither the offset nor the MB file is looked at. So `mb_len` may be 0: every blob that is not in
 * the table is then 18.
 *
 * - An answer of 0 is a blank cell: every byte of it is 0, those of the leader too. Both numbers of the part are 0.
 * - PARADOX_IN_TABLE: the part begins where the cell does, and is no longer than the leader. Its length may be 0, if
 *   the cell is not all zeros.
 * - PARADOX_IN_MB: the part is inside a block, behind its head and entries, and all units of the block are in the MB
 *   file. Its length is what both the cell and the block or entry state.
 *
 * Nothing else of the MB file is judged: not its own header, not its length, no modification number, no other block.
 * The leader of a blob in the MB file is not compared with it. Whether the table's block is used is not judged.
 *
 * With a refusal every number of `part` is 0, however long it is. Else the two numbers stand in front, and those behind
 * are as they were.
 */
uint32_t paradox_blob(const uint8_t *table, size_t table_len, const uint8_t *mb, size_t mb_len,
                      size_t block, size_t place, size_t field, uint64_t *part, size_t part_len);

/* PARADOX_IN_TABLE or PARADOX_IN_MB; PARADOX_IN_NEITHER of a blank cell and of a refusal. */
static inline uint32_t paradox_blob_file(uint32_t answer)
{
    return answer >> 8 & 0xff;
}

/* Where the blob begins, in `table` or in `mb`; NULL where it is in neither. No zero need follow it. */
static inline const uint8_t *paradox_blob_bytes(uint32_t answer, const uint8_t *table, const uint8_t *mb,
                                                const uint64_t *part)
{
    switch (paradox_blob_file(answer)) {
    case PARADOX_IN_TABLE:
        return table + part[PARADOX_PART_START];
    case PARADOX_IN_MB:
        return mb + part[PARADOX_PART_START];
    default:
        return NULL;
    }
}

/* The length of the blob in bytes; 0 of a blank cell and of a refusal. */
static inline size_t paradox_blob_length(const uint64_t *part)
{
    return (size_t)part[PARADOX_PART_LENGTH];
}

/* ---- A value written ---- */

/*
 * Writes a value as it is stored in a field of this type code and width, into the first `width` bytes of `buffer`: a
 * cell, or a part of a key to look up. `what` and `value` are as in a cell; the bytes of a text are lent as `text`. Not
 * looked at are the value of a blank or a text, and the text beside anything else.
 *
 * Answers PARADOX_ACCEPTED or a refusal. In this order: 13 for a code that is none or a width that it does not permit,
 * or, if the code is no blob's, for a value of another kind; 12 for a blob's code; 14 for a buffer of fewer than
 * `width` bytes; 11 for a value without stored form. A blank suits every kind, a number both number and currency. A
 * value of no kind is 13 too: `what` not PARADOX_BLANK to PARADOX_TEXT, a short that needs more than 16 bits, a long or
 * a date that needs more than 32, a logical but 0 and 1.
 *
 * With a refusal the buffer is as it was. Bytes behind the width never change.
 *
 * Of two shorts, two longs, two dates, or two numbers or currencies, the lesser has the bytes that memcmp puts first; a
 * blank's come before them all. Equal values have equal bytes, except that those of negative zero come just before
 * those of zero.
 */
uint32_t paradox_write(uint64_t code, size_t width, uint64_t what, uint64_t value,
                       const uint8_t *text, size_t text_len, uint8_t *buffer, size_t buffer_len);

/* The value of a short or a long. */
static inline uint64_t paradox_from_integer(int32_t integer)
{
    return (uint64_t)(int64_t)integer;
}

/* The value of a number. */
static inline uint64_t paradox_from_double(double number)
{
    uint64_t value;
    memcpy(&value, &number, sizeof value);
    return value;
}

/* ---- Records, one after another ---- */

/*
 * A cursor is one number, the first of a lent buffer. It stands on a record, or has ended. paradox_block() and
 * paradox_place() give the record it stands on, as they do of a lookup's answer: the bits are the same.
 *
 * Both calls answer a small number: paradox_refusal() takes a refusal from it, and paradox_is_found() is 1 where the
 * cursor has come to a record. 0 is the end. In a table that paradox_table_check has accepted every record comes once,
 * in chain order, and nothing is refused.
 */

/*
 * Puts a cursor on the first record. Refuses, in this order: 1 to 7 of the table, 14 where no number is lent, then 8
 * for a block outside the file or a move too many, or 9 for a block's count, whichever is met first. Blocks without
 * records are passed over. Each further block is a move, and a table of n blocks allows n - 1.
 *
 * With a refusal every number of the buffer is 0. Else the first is the cursor, and the others are as they were. A
 * cursor that has ended is 0.
 */
uint32_t paradox_start(const uint8_t *table, size_t table_len, uint64_t *cursor, size_t cursor_len);

/*
 * Moves a cursor to the next record. Refuses, in this order: 1 to 7 of the table, 14 where no number is lent; of a
 * cursor that has not ended, 13 for a block outside the file or too many moves, 9 for the block's count, 13 for no such
 * place; then 8 or 9 on the way, as paradox_start. Any number is taken for a cursor and judged by its parts.
 *
 * With a refusal every number is as it was, the cursor too. Else the first is the next cursor, and the others are as
 * they were.
 */
uint32_t paradox_step(const uint8_t *table, size_t table_len, uint64_t *cursor, size_t cursor_len);

/* 1 where the cursor stands on a record, 0 where it has ended. */
static inline int paradox_is_on_record(uint64_t cursor)
{
    return (cursor >> 8 & 0xff) != 0;
}

/* How often the cursor has gone from one block to the next. */
static inline uint16_t paradox_moves(uint64_t cursor)
{
    return (uint16_t)(cursor >> 48 & 0xffff);
}

/* ---- A table's bytes ---- */

/* The little-endian word at an offset. */
static inline uint16_t paradox_word(const uint8_t *bytes, size_t offset)
{
    return (uint16_t)(bytes[offset] | bytes[offset + 1] << 8);
}

/* How many marks are enough for this table: the word at 0C, 0 for a file too short to have it. At most 65,535. */
static inline size_t paradox_blocks(const uint8_t *table, size_t table_len)
{
    return table_len < 0x0e ? 0 : paradox_word(table, 0x0c);
}

/* Where a record begins in a table that was accepted. Block and place are those of a record that is there. */
static inline size_t paradox_record_at(const uint8_t *table, uint16_t block, uint16_t place)
{
    size_t record_size = paradox_word(table, 0x00);
    size_t header_size = paradox_word(table, 0x02);
    size_t block_size = (size_t)table[0x05] * 1024;
    return header_size + ((size_t)block - 1) * block_size + 6 + place * record_size;
}

#ifdef __cplusplus
}
#endif

#endif
