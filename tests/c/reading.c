/*
 * Header, fields, cells, records and cursors as C sees them: every lent number after answers and after refusals.
 */
#include "numbers.h"

enum {
    FIELDS = 9,
    RECORD = 46,
    BLOCKS = 4,
    CELLS = FIELDS * PARADOX_CELL_NUMBERS,
    LENT = CELLS + 3, /* more numbers than any answer takes */
    NAMES_AT = 0x78 + 6 * FIELDS + NAMES_BEHIND_FIELDS
};

static const struct field OF_TABLE[FIELDS] = {
    {0x01, 3, "Part"}, {0x03, 2, "Stock"}, {0x04, 4, "Sold"}, {0x02, 4, "Delivered"}, {0x05, 8, "Price"},
    {0x06, 8, "Metres"}, {0x09, 1, "Open"}, {0x0c, 11, "Note"}, {0x01, 5, "Shelf"},
};

/* Every kind; every kind blank, with a memo that is not; every kind without meaning, but for short and long. */
static const uint8_t COG_AND_NUT[] = {
    'c', 'o', 'g', 0x80, 0x0c, 0x7f, 0xff, 0xff, 0xff, 0x80, 0x0b, 0x1e, 0xcf, 0xbf, 0xf0, 0, 0, 0, 0, 0, 0,
    0xff, 0xef, 0xff, 0xff, 0xff, 0xff, 0xff, 0xff, 0x81, 0, 0, 0, 0, 0, 0, 0, 0, 0, 0, 0, 'A', '4', 0, 0, 0,
    'n', 'u', 't', 0, 0, 0, 0, 0, 0, 0, 0, 0, 0, 0, 0, 0, 0, 0, 0, 0, 0,
    0, 0, 0, 0, 0, 0, 0, 0, 0, 'm', 'e', 'm', 'o', 0, 0, 0, 0, 0, 0, 0, 0, 0, 0, 0, 0,
};
static const uint8_t OAR[] = {
    'o', 'a', 'r', 0x7f, 0xff, 0xff, 0xff, 0xff, 0xff, 0x80, 0x00, 0x8d, 0x3f, 0xff, 0xf0, 0, 0, 0, 0, 0, 0,
    0x00, 0x0f, 0xff, 0xff, 0xff, 0xff, 0xff, 0xff, 0x82, 0, 0, 0, 0, 0, 0, 0, 0, 0, 0, 0, 0, 'B', 0, 0, 0,
};

/* The used chain is 3, 1 and 2, of which 1 has no records; 4 is free and has a count of its own. */
static uint8_t *make_table(void)
{
    uint8_t *table = table_of(OF_TABLE, FIELDS, 1, BLOCKS);
    set_chains(table, 3, 2, 4, 3);
    set_block(table, 3, 1, 0, COG_AND_NUT, 2);
    set_block(table, 1, 2, 3, NULL, 0);
    set_block(table, 2, 0, 1, OAR, 1);
    set_block(table, 4, 0, 0, OAR, 1);
    return table;
}

static void header_refused(const char *what, const uint8_t *table, size_t len, size_t lent, uint32_t number)
{
    uint64_t *numbers = lend(lent);
    expect(what, paradox_header(table, len, numbers, lent), number);
    expect_all(what, numbers, lent, 0);
}

static void headers(const uint8_t *table, size_t len)
{
    static const uint64_t WANTED[] = {0x09, HEADER, BLOCK, BLOCKS, RECORD, 3, 3, 2, 4, FIELDS, 1, 3, 0x78, NAMES_AT};
    uint64_t *numbers = lend(LENT);
    expect("header", paradox_header(table, len, numbers, LENT), PARADOX_ACCEPTED);
    expect("header's version", numbers[PARADOX_HEADER_VERSION], 0x09);
    expect("header's size", numbers[PARADOX_HEADER_SIZE], HEADER);
    expect("header's block size", numbers[PARADOX_HEADER_BLOCK_SIZE], BLOCK);
    expect("header's blocks", numbers[PARADOX_HEADER_BLOCKS], BLOCKS);
    expect("header's record size", numbers[PARADOX_HEADER_RECORD_SIZE], RECORD);
    expect("header's records", numbers[PARADOX_HEADER_RECORDS], 3);
    expect("header's first block", numbers[PARADOX_HEADER_FIRST_BLOCK], 3);
    expect("header's last block", numbers[PARADOX_HEADER_LAST_BLOCK], 2);
    expect("header's first free block", numbers[PARADOX_HEADER_FIRST_FREE], 4);
    expect("header's fields", numbers[PARADOX_HEADER_FIELDS], FIELDS);
    expect("header's key fields", numbers[PARADOX_HEADER_KEY_FIELDS], 1);
    expect("header's key length", numbers[PARADOX_HEADER_KEY_LENGTH], 3);
    expect("header's field area", numbers[PARADOX_HEADER_FIELD_AREA], 0x78);
    expect("header's names", numbers[PARADOX_HEADER_NAMES], NAMES_AT);
    expect_numbers("header's numbers", numbers, LENT, WANTED, PARADOX_HEADER_NUMBERS);
    numbers = lend(PARADOX_HEADER_NUMBERS);
    expect("header, room enough", paradox_header(table, len, numbers, PARADOX_HEADER_NUMBERS), PARADOX_ACCEPTED);
    expect_numbers("header, room enough", numbers, PARADOX_HEADER_NUMBERS, WANTED, PARADOX_HEADER_NUMBERS);
    header_refused("header, too little room", table, len, PARADOX_HEADER_NUMBERS - 1, PARADOX_SHORT_BUFFER);
    header_refused("header of a cut table", table, len - 1, LENT, PARADOX_WRONG_LENGTH);
    header_refused("header of a cut table, little room", table, len - 1, 1, PARADOX_WRONG_LENGTH);
    header_refused("header of nothing", NULL, 0, LENT, PARADOX_TOO_SHORT);
    expect("header without room", paradox_header(table, len, NULL, 0), PARADOX_SHORT_BUFFER);
    expect("header of nothing without room", paradox_header(NULL, 0, NULL, 0), PARADOX_TOO_SHORT);
}

static void field_refused(const char *what, const uint8_t *table, size_t len, size_t field, size_t lent,
                          uint32_t number)
{
    uint64_t *numbers = lend(lent);
    expect(what, paradox_field(table, len, field, numbers, lent), number);
    expect_all(what, numbers, lent, 0);
}

static void fields(const uint8_t *table, size_t len)
{
    static const uint64_t KINDS[FIELDS] = {PARADOX_TEXT, PARADOX_SHORT, PARADOX_LONG, PARADOX_DATE, PARADOX_NUMBER,
                                           PARADOX_NUMBER, PARADOX_LOGICAL, PARADOX_BLOB, PARADOX_TEXT};
    uint64_t offset = 0;
    uint64_t name = NAMES_AT;
    for (unsigned i = 0; i < FIELDS; i++) {
        const struct field *field = &OF_TABLE[i];
        size_t name_len = strlen(field->name);
        uint64_t wanted[] = {field->code, KINDS[i], field->width, offset, name, name_len};
        uint64_t *numbers = lend(LENT);
        expect(field->name, paradox_field(table, len, i + 1, numbers, LENT), PARADOX_ACCEPTED);
        expect("name's length", paradox_name_length(numbers), name_len);
        expect("name", (uint64_t)memcmp(paradox_name(table, numbers), field->name, name_len), 0);
        expect("code", numbers[PARADOX_FIELD_CODE], field->code);
        expect("kind", numbers[PARADOX_FIELD_KIND], KINDS[i]);
        expect("width", numbers[PARADOX_FIELD_WIDTH], field->width);
        expect("offset", numbers[PARADOX_FIELD_OFFSET], offset);
        expect_numbers(field->name, numbers, LENT, wanted, PARADOX_FIELD_NUMBERS);
        offset += field->width;
        name += name_len + 1;
    }
    field_refused("field 0", table, len, 0, LENT, PARADOX_BAD_ARGUMENT);
    field_refused("field 10", table, len, FIELDS + 1, LENT, PARADOX_BAD_ARGUMENT);
    field_refused("the last number there is", table, len, SIZE_MAX, LENT, PARADOX_BAD_ARGUMENT);
    field_refused("field 0, too little room", table, len, 0, PARADOX_FIELD_NUMBERS - 1, PARADOX_SHORT_BUFFER);
    field_refused("field of a cut table", table, len - 1, 0, LENT, PARADOX_WRONG_LENGTH);
    expect("field without room", paradox_field(table, len, 1, NULL, 0), PARADOX_SHORT_BUFFER);
    expect("field of nothing", paradox_field(NULL, 0, 1, NULL, 0), PARADOX_TOO_SHORT);
}

/* What the cells of a record are: four numbers a field. `at` is where the record begins. */
static void cells_of_cog(size_t at, uint64_t *cells)
{
    const uint64_t wanted[CELLS] = {PARADOX_TEXT, at, 3, 0, PARADOX_SHORT, 12, 0, 0, PARADOX_LONG, UINT64_MAX, 0, 0,
                                    PARADOX_DATE, 728783, 0, 0, PARADOX_NUMBER, 0x3ff0000000000000, 0, 0,
                                    PARADOX_NUMBER, 0x7fefffffffffffff, 0, 0, PARADOX_LOGICAL, 1, 0, 0,
                                    PARADOX_REFUSED, 12, 0, 0, PARADOX_TEXT, at + 41, 2, 0};
    memcpy(cells, wanted, sizeof wanted);
}

static void cells_of_nut(size_t at, uint64_t *cells)
{
    const uint64_t wanted[CELLS] = {PARADOX_TEXT, at, 3, 0, PARADOX_BLANK, 0, 0, 0, PARADOX_BLANK, 0, 0, 0,
                                    PARADOX_BLANK, 0, 0, 0, PARADOX_BLANK, 0, 0, 0, PARADOX_BLANK, 0, 0, 0,
                                    PARADOX_BLANK, 0, 0, 0, PARADOX_REFUSED, 12, 0, 0, PARADOX_BLANK, 0, 0, 0};
    memcpy(cells, wanted, sizeof wanted);
}

static void cells_of_oar(size_t at, uint64_t *cells)
{
    const uint64_t wanted[CELLS] = {PARADOX_TEXT, at, 3, 0, PARADOX_SHORT, UINT64_MAX, 0, 0,
                                    PARADOX_LONG, 0x7fffffff, 0, 0, PARADOX_REFUSED, 11, 0, 0,
                                    PARADOX_REFUSED, 11, 0, 0, PARADOX_REFUSED, 11, 0, 0,
                                    PARADOX_REFUSED, 11, 0, 0, PARADOX_REFUSED, 12, 0, 0, PARADOX_REFUSED, 11, 0, 0};
    memcpy(cells, wanted, sizeof wanted);
}

/* A record read whole and cell by cell: a cell's own refusal is that of the call, which then leaves zeros. */
static void expect_record(const uint8_t *table, size_t len, unsigned block, unsigned place, const uint64_t *wanted)
{
    uint64_t *cells = lend(LENT);
    expect("record", paradox_record(table, len, block, place, cells, LENT), PARADOX_ACCEPTED);
    for (size_t field = 1; field <= FIELDS; field++) {
        const uint64_t *cell = paradox_cell_of(wanted, field);
        uint64_t *numbers = lend(LENT);
        uint32_t number = paradox_cell_refusal(cell);
        expect("cell", paradox_cell(table, len, block, place, field, numbers, LENT), number);
        if (number == PARADOX_ACCEPTED) {
            expect_numbers("cell's numbers", numbers, LENT, cell, PARADOX_CELL_NUMBERS);
        } else {
            expect_all("a refused cell's numbers", numbers, LENT, 0);
        }
    }
    expect_numbers("record's numbers", cells, LENT, wanted, CELLS);
}

static void values(const uint8_t *table, size_t len)
{
    uint64_t cells[CELLS];
    expect("record", paradox_record(table, len, 3, 0, cells, CELLS), PARADOX_ACCEPTED);
    expect("integer of a short", (uint64_t)paradox_integer(paradox_cell_of(cells, 2)), 12);
    expect("integer of a long", paradox_integer(paradox_cell_of(cells, 3)) == -1, 1);
    expect("day", paradox_day(paradox_cell_of(cells, 4)), 728783);
    expect("double", paradox_double(paradox_cell_of(cells, 5)) == 1.0, 1);
    expect("largest double", paradox_double(paradox_cell_of(cells, 6)) == 1.7976931348623157e308, 1);
    expect("truth", (uint64_t)paradox_truth(paradox_cell_of(cells, 7)), 1);
    expect("text's length", paradox_text_length(paradox_cell_of(cells, 9)), 2);
    expect("text", (uint64_t)memcmp(paradox_text(table, paradox_cell_of(cells, 9)), "A4", 2), 0);
    expect("refusal of a blob", paradox_cell_refusal(paradox_cell_of(cells, 8)), PARADOX_BLOB_CELL);
    expect("value of an integer", paradox_from_integer(-1), UINT64_MAX);
    expect("value of a double", paradox_from_double(1.0), 0x3ff0000000000000);
    expect("value of negative zero", paradox_from_double(-0.0), 0x8000000000000000);
}

/* Stored doubles in the order of their bytes, on both sides of each limit: the bits of the double, or the refusal. */
static const struct {
    const char *stored;
    uint64_t bits;
    uint32_t refusal;
} DOUBLES[] = {
    {"\0\0\0\0\0\0\0\1", 0, PARADOX_NO_MEANING},
    {"\0\x0f\xff\xff\xff\xff\xff\xfe", 0, PARADOX_NO_MEANING},
    {"\0\x0f\xff\xff\xff\xff\xff\xff", 0, PARADOX_NO_MEANING},
    {"\0\x10\0\0\0\0\0\0", 0xffefffffffffffff, PARADOX_ACCEPTED},
    {"\x40\x0f\xff\xff\xff\xff\xff\xff", 0xbff0000000000000, PARADOX_ACCEPTED},
    {"\x7f\xef\xff\xff\xff\xff\xff\xff", 0x8010000000000000, PARADOX_ACCEPTED},
    {"\x7f\xf0\0\0\0\0\0\0", 0x800fffffffffffff, PARADOX_ACCEPTED},
    {"\x7f\xff\xff\xff\xff\xff\xff\xfe", 0x8000000000000001, PARADOX_ACCEPTED},
    {"\x7f\xff\xff\xff\xff\xff\xff\xff", 0x8000000000000000, PARADOX_ACCEPTED},
    {"\x80\0\0\0\0\0\0\0", 0, PARADOX_ACCEPTED},
    {"\x80\0\0\0\0\0\0\1", 1, PARADOX_ACCEPTED},
    {"\x80\x0f\xff\xff\xff\xff\xff\xff", 0x000fffffffffffff, PARADOX_ACCEPTED},
    {"\x80\x10\0\0\0\0\0\0", 0x0010000000000000, PARADOX_ACCEPTED},
    {"\xff\xef\xff\xff\xff\xff\xff\xff", 0x7fefffffffffffff, PARADOX_ACCEPTED},
    {"\xff\xf0\0\0\0\0\0\0", 0, PARADOX_NO_MEANING},
    {"\xff\xf0\0\0\0\0\0\1", 0, PARADOX_NO_MEANING},
    {"\xff\xff\xff\xff\xff\xff\xff\xff", 0, PARADOX_NO_MEANING},
};

/* Each stored double in turn, as the one cell of a table: a currency or a number. */
static void doubles(uint8_t code)
{
    const struct field field = {code, 8, "Price"};
    uint8_t *table = table_of(&field, 1, 0, 1);
    set_chains(table, 1, 1, 0, 1);
    for (size_t i = 0; i < sizeof DOUBLES / sizeof DOUBLES[0]; i++) {
        const uint64_t wanted[PARADOX_CELL_NUMBERS] = {PARADOX_NUMBER, DOUBLES[i].bits, 0, 0};
        uint64_t *cell = lend(LENT);
        set_block(table, 1, 0, 0, (const uint8_t *)DOUBLES[i].stored, 1);
        expect("stored double", paradox_cell(table, file_len(1), 1, 0, 1, cell, LENT), DOUBLES[i].refusal);
        if (DOUBLES[i].refusal == PARADOX_ACCEPTED) {
            expect_numbers("bits of a double", cell, LENT, wanted, PARADOX_CELL_NUMBERS);
        } else {
            expect_all("a refused double's numbers", cell, LENT, 0);
        }
    }
    free(table);
}

static void cell_refused(const char *what, const uint8_t *table, const size_t *asked, size_t lent, uint32_t number)
{
    uint64_t *numbers = lend(lent);
    expect(what, paradox_cell(table, file_len(BLOCKS), asked[0], asked[1], asked[2], numbers, lent), number);
    expect_all(what, numbers, lent, 0);
}

static void record_refused(const char *what, const uint8_t *table, const size_t *asked, size_t lent, uint32_t number)
{
    uint64_t *numbers = lend(lent);
    expect(what, paradox_record(table, file_len(BLOCKS), asked[0], asked[1], numbers, lent), number);
    expect_all(what, numbers, lent, 0);
}

/* What is asked for and is not there, as block, place and field. Block 4 has a bad count. */
static void refusals(const uint8_t *table)
{
    static const struct {
        size_t asked[3];
        uint32_t of_cell;
        uint32_t of_record;
    } ASKED[] = {
        {{0, 0, 1}, PARADOX_BAD_ARGUMENT, PARADOX_BAD_ARGUMENT},
        {{5, 0, 1}, PARADOX_BAD_ARGUMENT, PARADOX_BAD_ARGUMENT},
        {{SIZE_MAX, SIZE_MAX, SIZE_MAX}, PARADOX_BAD_ARGUMENT, PARADOX_BAD_ARGUMENT},
        {{3, 2, 1}, PARADOX_BAD_ARGUMENT, PARADOX_BAD_ARGUMENT},
        {{3, 0x10000, 1}, PARADOX_BAD_ARGUMENT, PARADOX_BAD_ARGUMENT},
        {{0x10003, 0, 1}, PARADOX_BAD_ARGUMENT, PARADOX_BAD_ARGUMENT},
        {{1, 0, 1}, PARADOX_BAD_ARGUMENT, PARADOX_BAD_ARGUMENT},
        {{4, 0, 1}, PARADOX_WRONG_COUNT, PARADOX_WRONG_COUNT},
        {{4, 99, 1}, PARADOX_WRONG_COUNT, PARADOX_WRONG_COUNT},
        {{4, 0, 0}, PARADOX_BAD_ARGUMENT, PARADOX_WRONG_COUNT},
        {{4, 0, 10}, PARADOX_BAD_ARGUMENT, PARADOX_WRONG_COUNT},
        {{3, 2, 8}, PARADOX_BAD_ARGUMENT, PARADOX_BAD_ARGUMENT},
    };
    for (size_t i = 0; i < sizeof ASKED / sizeof ASKED[0]; i++) {
        cell_refused("a cell that is not there", table, ASKED[i].asked, LENT, ASKED[i].of_cell);
        cell_refused("too little room", table, ASKED[i].asked, PARADOX_CELL_NUMBERS - 1, PARADOX_SHORT_BUFFER);
        record_refused("a record that is not there", table, ASKED[i].asked, LENT, ASKED[i].of_record);
        record_refused("too little room", table, ASKED[i].asked, CELLS - 1, PARADOX_SHORT_BUFFER);
    }
    expect("cell without room", paradox_cell(table, file_len(BLOCKS), 3, 0, 1, NULL, 0), PARADOX_SHORT_BUFFER);
    expect("record without room", paradox_record(table, file_len(BLOCKS), 3, 0, NULL, 0), PARADOX_SHORT_BUFFER);
    expect("cell of nothing", paradox_cell(NULL, 0, 3, 0, 1, NULL, 0), PARADOX_TOO_SHORT);
    expect("record of nothing", paradox_record(NULL, 0, 3, 0, NULL, 0), PARADOX_TOO_SHORT);
}

static void cells_and_records(uint8_t *table, size_t len)
{
    uint64_t wanted[CELLS];
    cells_of_cog(paradox_record_at(table, 3, 0), wanted);
    expect_record(table, len, 3, 0, wanted);
    cells_of_nut(paradox_record_at(table, 3, 1), wanted);
    expect_record(table, len, 3, 1, wanted);
    cells_of_oar(paradox_record_at(table, 2, 0), wanted);
    expect_record(table, len, 2, 0, wanted);
    cells_of_oar(paradox_record_at(table, 4, 0), wanted); /* a free block is read as any other */
    expect_record(table, len, 4, 0, wanted);
    values(table, len);
    put_word(block_of(table, 4), 4, RECORD - 1);
    refusals(table);
    put_word(block_of(table, 4), 4, 0);
}

/* A cursor that stands on a record. */
static uint64_t cursor_at(uint64_t block, uint64_t place, uint64_t moves)
{
    return (uint64_t)1 << 8 | block << 16 | place << 32 | moves << 48;
}

/* A step from a cursor: the answer, and what becomes of the cursor and the number behind it. */
static void expect_step(const char *what, const uint8_t *table, uint64_t cursor, uint32_t answer, uint64_t after)
{
    const uint64_t wanted[1] = {after};
    uint64_t *numbers = lend(2);
    numbers[0] = cursor;
    expect(what, paradox_step(table, file_len(BLOCKS), numbers, 2), answer);
    expect_numbers(what, numbers, 2, wanted, 1);
}

static void expect_start(const char *what, const uint8_t *table, uint32_t answer, uint64_t after)
{
    const uint64_t wanted[1] = {after};
    uint64_t *numbers = lend(2);
    expect(what, paradox_start(table, file_len(BLOCKS), numbers, 2), answer);
    if (paradox_refusal(answer) == PARADOX_ACCEPTED) {
        expect_numbers(what, numbers, 2, wanted, 1);
    } else {
        expect_all(what, numbers, 2, 0);
    }
}

enum { CAME = 1 << 8, END = 0 };

static void cursors(const uint8_t *table, size_t len)
{
    uint64_t *cursor = lend(1);
    uint64_t last = cursor_at(2, 0, 2);
    expect_start("start", table, CAME, cursor_at(3, 0, 0));
    expect_step("to nut", table, cursor_at(3, 0, 0), CAME, cursor_at(3, 1, 0));
    expect_step("to oar, past block 1", table, cursor_at(3, 1, 0), CAME, last);
    expect_step("to the end", table, last, END, 0);
    expect_step("from the end", table, 0, END, 0);
    expect("on a record", (uint64_t)paradox_is_on_record(last), 1);
    expect("ended", (uint64_t)paradox_is_on_record(0), 0);
    expect("cursor's block", paradox_block(last), 2);
    expect("cursor's place", paradox_place(cursor_at(3, 1, 0)), 1);
    expect("cursor's moves", paradox_moves(last), 2);
    expect("a record came", (uint64_t)paradox_is_found(CAME), 1);
    expect("one number is enough", paradox_start(table, len, cursor, 1), CAME);
    expect("one number is enough", paradox_step(table, len, cursor, 1), CAME);
    expect("one number is enough", *cursor, cursor_at(3, 1, 0));
    expect("step of a cut table", paradox_step(table, len - 1, cursor, 1), PARADOX_WRONG_LENGTH);
    expect("step of nothing", paradox_step(NULL, 0, cursor, 1), PARADOX_TOO_SHORT);
    expect("the cursor stays", *cursor, cursor_at(3, 1, 0));
    expect("start of a cut table", paradox_start(table, len - 1, cursor, 1), PARADOX_WRONG_LENGTH);
    expect("the cursor is ended", *cursor, 0);
    expect("start without room", paradox_start(table, len, NULL, 0), PARADOX_SHORT_BUFFER);
    expect("step without room", paradox_step(table, len, NULL, 0), PARADOX_SHORT_BUFFER);
    expect("start of nothing", paradox_start(NULL, 0, NULL, 0), PARADOX_TOO_SHORT);
    expect("step of nothing", paradox_step(NULL, 0, NULL, 0), PARADOX_TOO_SHORT);
    free(cursor);
}

/* Cursors that the library never makes. */
static void forged_cursors(uint8_t *table)
{
    static const uint64_t REFUSED[] = {
        UINT64_C(0x0000000000000100), UINT64_C(0x0000000000050100), UINT64_C(0x00000000ffff0100), /* no such block */
        UINT64_C(0x0000000200030100), UINT64_C(0x0000ffff00030100), UINT64_C(0x0000000000010100), /* no such place */
        UINT64_C(0x0004000000030100), UINT64_C(0xffff000000030100), UINT64_C(0xffffffffffffffff), /* too many moves */
    };
    for (size_t i = 0; i < sizeof REFUSED / sizeof REFUSED[0]; i++) {
        expect_step("forged", table, REFUSED[i], PARADOX_BAD_ARGUMENT, REFUSED[i]);
    }
    expect_step("ended, with a block", table, UINT64_C(0x00010001000300ff), END, 0);
    expect_step("any mark, low bits", table, UINT64_C(0x00000000000380ff), CAME, cursor_at(3, 1, 0));
    expect_step("most moves, in its block", table, cursor_at(3, 0, 3), CAME, cursor_at(3, 1, 3));
    expect_step("most moves, to the end", table, cursor_at(2, 0, 3), END, 0);
    expect_step("a move too many", table, cursor_at(3, 1, 3), PARADOX_CHAIN_RULE, cursor_at(3, 1, 3));
    expect_step("a move too many behind block 1", table, cursor_at(3, 1, 2), PARADOX_CHAIN_RULE, cursor_at(3, 1, 2));
    expect_step("in a free block", table, cursor_at(4, 0, 0), END, 0);
    put_word(block_of(table, 3), 4, 7);
    expect_step("a bad count where it stands", table, cursor_at(3, 0, 0), PARADOX_WRONG_COUNT, cursor_at(3, 0, 0));
    expect_step("moves before the count", table, cursor_at(3, 0, 4), PARADOX_BAD_ARGUMENT, cursor_at(3, 0, 4));
    expect_step("the count before the place", table, cursor_at(3, 99, 0), PARADOX_WRONG_COUNT, cursor_at(3, 99, 0));
    put_word(block_of(table, 3), 4, RECORD);
}

/* Chains that the table check refuses. */
static void broken_chains(uint8_t *table)
{
    put_word(table, 0x0e, 5);
    expect_start("first block outside", table, PARADOX_CHAIN_RULE, 0);
    put_word(table, 0x0e, 0);
    expect_start("no first block", table, END, 0);
    put_word(table, 0x0e, 1);
    put_word(block_of(table, 2), 4, 7);
    expect_start("a bad count behind block 1", table, PARADOX_WRONG_COUNT, 0);
    expect_step("a bad count behind block 1", table, cursor_at(3, 1, 0), PARADOX_WRONG_COUNT, cursor_at(3, 1, 0));
    put_word(block_of(table, 1), 0, 1);
    expect_start("a circle without records", table, PARADOX_CHAIN_RULE, 0);
    put_word(block_of(table, 1), 0, 9);
    expect_step("next outside", table, cursor_at(3, 1, 0), PARADOX_CHAIN_RULE, cursor_at(3, 1, 0));
    put_word(block_of(table, 1), 0, 0);
    expect_start("nothing but block 1", table, END, 0);
    put_word(block_of(table, 3), 0, 3);
    expect_step("a circle of records", table, cursor_at(3, 1, 2), CAME, cursor_at(3, 0, 3));
    expect_step("its end", table, cursor_at(3, 1, 3), PARADOX_CHAIN_RULE, cursor_at(3, 1, 3));
}

int main(void)
{
    uint8_t *table = make_table();
    uint8_t marks[BLOCKS];
    size_t len = file_len(BLOCKS);
    expect("table check", paradox_table_check(table, len, marks, BLOCKS), PARADOX_ACCEPTED);
    headers(table, len);
    fields(table, len);
    cells_and_records(table, len);
    doubles(0x05);
    doubles(0x06);
    cursors(table, len);
    forged_cursors(table);
    broken_chains(table);
    free(table);
    return verdict("reading");
}
