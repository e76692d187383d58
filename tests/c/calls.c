/*
 * The checks and the lookups as C sees them: empty buffers, mark buffers of every kind, answers in their parts. The
 * files are document 01's example of two records and an index of one level for it.
 */
#include "common.h"

enum { TABLE = HEADER + 2 * BLOCK, INDEX = HEADER + BLOCK, KEY = 3, BEFORE = 0x5a };

/* A keyed 3-byte text and a short. Block 1 holds cog, 12 and nut, blank; block 2 is free. */
static uint8_t *make_table(void)
{
    static const struct field FIELDS[] = {{0x01, 3, "Part"}, {0x03, 2, "Stock"}};
    static const uint8_t RECORDS[] = {'c', 'o', 'g', 0x80, 0x0c, 'n', 'u', 't', 0x00, 0x00};
    uint8_t *table = table_of(FIELDS, 2, 1, 2);
    set_chains(table, 1, 1, 2, 2);
    set_block(table, 1, 0, 0, RECORDS, 2);
    return table;
}

/* One block with one entry: cog, block 1. */
static uint8_t *make_index(void)
{
    static const uint8_t ENTRY[] = {'c', 'o', 'g', 0x80, 0x01, 0x80, 0x00, 0x80, 0x00};
    uint8_t *index = file_of(KEY + 6, 1, 1);
    put_word(index, 0x1e, 1);
    index[0x20] = 1;
    set_block(index, 1, 0, 0, ENTRY, 1);
    return index;
}

static void empty_buffers(void)
{
    expect("table check of nothing", paradox_table_check(NULL, 0, NULL, 0), PARADOX_TOO_SHORT);
    expect("pair check of nothing", paradox_pair_check(NULL, 0, NULL, 0, NULL, 0), PARADOX_TOO_SHORT);
    expect("scan of nothing", paradox_scan(NULL, 0, NULL, 0, NULL, 0), PARADOX_TOO_SHORT);
    expect("walk of nothing", paradox_walk(NULL, 0, NULL, 0, NULL, 0), PARADOX_TOO_SHORT);
    expect("marks for nothing", paradox_blocks(NULL, 0), 0);
}

/* Two of three marks are the blocks'; the third never changes. */
static void expect_marks(const char *what, const uint8_t *marks, unsigned first, unsigned second)
{
    expect(what, (uint64_t)marks[0] << 16 | (uint64_t)marks[1] << 8 | marks[2],
           (uint64_t)first << 16 | (uint64_t)second << 8 | BEFORE);
}

static void checks(uint8_t *table, const uint8_t *index)
{
    uint8_t *marks = zeros(3);
    expect("marks needed", paradox_blocks(table, TABLE), 2);
    expect("no marks", paradox_table_check(table, TABLE, NULL, 0), PARADOX_SHORT_BUFFER);
    memset(marks, BEFORE, 3);
    expect("one mark of two", paradox_table_check(table, TABLE, marks, 1), PARADOX_SHORT_BUFFER);
    expect("a cut table", paradox_table_check(table, TABLE - 1, marks, 3), PARADOX_WRONG_LENGTH);
    expect_marks("marks after 14 and 6", marks, BEFORE, BEFORE);
    expect("table check", paradox_table_check(table, TABLE, marks, 3), PARADOX_ACCEPTED);
    expect_marks("marks after acceptance", marks, 1, 2);
    put_word(table, 0x4d, 1);
    expect("a block in two chains", paradox_table_check(table, TABLE, marks, 3), PARADOX_CHAIN_RULE);
    expect_marks("marks after 8", marks, 0, 0);
    put_word(table, 0x4d, 2);
    memset(marks, BEFORE, 3);
    expect("pair check", paradox_pair_check(table, TABLE, index, INDEX, marks, 2), PARADOX_ACCEPTED);
    expect_marks("marks after a pair", marks, 1, 2);
    memset(marks, BEFORE, 3);
    expect("pair without index", paradox_pair_check(table, TABLE, NULL, 0, marks, 3), PARADOX_INDEX_TOO_SHORT);
    expect_marks("marks after 21", marks, 1, 2);
    expect("pair without marks", paradox_pair_check(table, TABLE, index, INDEX, NULL, 0), PARADOX_SHORT_BUFFER);
    free(marks);
}

static void expect_found(const char *what, uint64_t answer, unsigned place, unsigned reads)
{
    expect(what, paradox_refusal(answer), PARADOX_ACCEPTED);
    expect(what, (uint64_t)paradox_is_found(answer), 1);
    expect(what, paradox_block(answer), 1);
    expect(what, paradox_place(answer), place);
    expect(what, paradox_index_blocks_read(answer), reads);
}

static void expect_refused(const char *what, uint64_t answer, uint32_t number)
{
    expect(what, answer, number);
    expect(what, paradox_refusal(answer), number);
    expect(what, (uint64_t)paradox_is_found(answer), 0);
}

static void lookups(const uint8_t *table, const uint8_t *index)
{
    uint8_t *marks = zeros(2);
    const uint8_t *cog = table + paradox_record_at(table, 1, 0);
    const uint8_t *nut = table + paradox_record_at(table, 1, 1);
    const uint8_t *oar = (const uint8_t *)"oar";
    const uint8_t *awl = (const uint8_t *)"awl";
    expect("a record's place", (uint64_t)(nut - table), HEADER + 6 + 5);
    expect_found("cog by scan", paradox_scan(table, TABLE, cog, KEY, marks, 2), 0, 0);
    expect_found("nut by scan", paradox_scan(table, TABLE, nut, KEY, marks, 2), 1, 0);
    expect_found("cog by walk", paradox_walk(table, TABLE, index, INDEX, cog, KEY), 0, 1);
    expect_found("nut by walk", paradox_walk(table, TABLE, index, INDEX, nut, KEY), 1, 1);
    expect("oar by scan", paradox_scan(table, TABLE, oar, KEY, marks, 2), 0);
    expect("oar by walk", paradox_walk(table, TABLE, index, INDEX, oar, KEY), (uint64_t)1 << 48);
    expect("awl by walk", paradox_walk(table, TABLE, index, INDEX, awl, KEY), (uint64_t)1 << 48);
    expect_refused("scan, no key", paradox_scan(table, TABLE, NULL, 0, marks, 2), PARADOX_BAD_ARGUMENT);
    expect_refused("scan, short key", paradox_scan(table, TABLE, cog, 2, marks, 2), PARADOX_BAD_ARGUMENT);
    expect_refused("scan, no marks", paradox_scan(table, TABLE, cog, KEY, NULL, 0), PARADOX_SHORT_BUFFER);
    expect_refused("walk, no key", paradox_walk(table, TABLE, index, INDEX, NULL, 0), PARADOX_BAD_ARGUMENT);
    expect_refused("walk, no index", paradox_walk(table, TABLE, NULL, 0, cog, KEY), PARADOX_INDEX_TOO_SHORT);
    expect_refused("walk, a table as index", paradox_walk(table, TABLE, table, TABLE, cog, KEY), PARADOX_NOT_AN_INDEX);
    free(marks);
}

int main(void)
{
    uint8_t *table = make_table();
    uint8_t *index = make_index();
    empty_buffers();
    checks(table, index);
    lookups(table, index);
    free(index);
    free(table);
    return verdict("calls");
}
