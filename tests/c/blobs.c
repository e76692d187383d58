/*
 * blobs TABLE MB: memos and other blobs as C sees them, every lent number after answers and after refusals. The files
 * named are the sample of them; the others are made here, by source document 001.
 */
#include "numbers.h"

enum {
    LEADER = 5,
    NOTE = 2, /* the field of the memos that are asked for */
    RECORD = 3 + LEADER + 10 + 10,
    TABLE = HEADER + 2 * BLOCK,
    UNIT = 4096,
    ENTRIES = UNIT,      /* a suballocated block of one unit */
    OWN = 2 * UNIT,      /* a block of its own, of two units */
    END = 4 * UNIT,      /* where the last block ends */
    MB = END + 3,        /* the MB file has some bytes more */
    SINGLE = 0xff,       /* the low byte of an offset that names a block of its own */
    BODY = 9,            /* where a blob begins in a block of its own */
    FIRST_BODY = 0x150,  /* where the first one of a suballocated block begins */
    ENTRY_LENGTH = 22,   /* of the blob that begins there */
    OWN_LENGTH = 2 * UNIT - BODY,
    LENT = PARADOX_PART_NUMBERS + 2,
    SAMPLE_TABLE = 4096, /* lengths of the sample's files */
    SAMPLE_MB = 16384,
    IN_TABLE = PARADOX_IN_TABLE << 8,
    IN_MB = PARADOX_IN_MB << 8
};

/* A keyed 3-byte text, a memo and another blob without leader. Block 2 is free and has a bad count. */
static uint8_t *make_table(void)
{
    static const struct field FIELDS[] = {{0x01, 3, "Part"}, {0x0c, LEADER + 10, "Note"}, {0x10, 10, "Plan"}};
    static const uint8_t RECORDS[2 * RECORD] = {'c', 'o', 'g', [RECORD] = 'n', 'u', 't'};
    uint8_t *table = table_of(FIELDS, 3, 1, 2);
    set_chains(table, 1, 1, 2, 2);
    set_block(table, 1, 0, 0, RECORDS, 2);
    put_word(block_of(table, 2), 4, RECORD - 1);
    return table;
}

/* The little-endian number of 32 bits. */
static void put_long(uint8_t *bytes, size_t offset, uint32_t number)
{
    put_word(bytes, offset, number & 0xffff);
    put_word(bytes, offset + 2, number >> 16);
}

static void set_entry(uint8_t *mb, unsigned entry, unsigned begin, unsigned units, unsigned last)
{
    uint8_t *at = mb + ENTRIES + 12 + 5 * entry;
    at[0] = (uint8_t)(begin / 16);
    at[1] = (uint8_t)units;
    put_word(at, 2, 0x5a5a); /* the modification number, which is not judged */
    at[4] = (uint8_t)last;
}

static void set_own(uint8_t *mb, size_t at, unsigned units, uint32_t length)
{
    mb[at] = 0x02;
    put_word(mb, at + 1, units);
    put_long(mb, at + 3, length);
}

/* An MB file whose own header is none. Bytes that are not judged are not 0. */
static uint8_t *make_mb(void)
{
    uint8_t *mb = zeros(MB);
    memset(mb, 0x5a, MB);
    mb[ENTRIES] = 0x03;
    put_word(mb, ENTRIES + 1, 1);
    for (unsigned entry = 0; entry < 64; entry++) {
        set_entry(mb, entry, 0, 0, 0);
    }
    set_entry(mb, 0x3f, FIRST_BODY, 2, 6);
    set_entry(mb, 0x00, 0x250, 3, 7); /* the source document's example */
    set_entry(mb, 0x01, 0xff0, 1, 16);
    set_own(mb, OWN, 2, OWN_LENGTH);
    return mb;
}

/* Where the memo of a record begins. */
static size_t note_at(const uint8_t *table, uint16_t place)
{
    return paradox_record_at(table, 1, place) + 3;
}

/* Stores a memo's cell in the first record. */
static void set_note(uint8_t *table, const char *leader, uint32_t offset, uint32_t length)
{
    uint8_t *cell = table + note_at(table, 0);
    memcpy(cell, leader, LEADER);
    put_long(cell, LEADER, offset);
    put_long(cell, LEADER + 4, length);
    put_word(cell, LEADER + 8, 0);
}

/* The memo of the first record, its part, and the numbers behind the part. */
static void expect_note(const char *what, const uint8_t *table, const uint8_t *mb, size_t mb_len, uint32_t answer,
                        uint64_t start, uint64_t length)
{
    const uint64_t wanted[PARADOX_PART_NUMBERS] = {start, length};
    uint64_t *part = lend(LENT);
    expect(what, paradox_blob(table, TABLE, mb, mb_len, 1, 0, NOTE, part, LENT), answer);
    if (paradox_refusal(answer) == PARADOX_ACCEPTED) {
        expect_numbers(what, part, LENT, wanted, PARADOX_PART_NUMBERS);
    } else {
        expect_all(what, part, LENT, 0);
    }
}

static void note_refused(const char *what, const uint8_t *table, const uint8_t *mb, size_t mb_len)
{
    expect_note(what, table, mb, mb_len, PARADOX_UNFIT_BLOB, 0, 0);
}

/* Blank cells and blobs in the leader: no look at the offset or at the MB file. */
static void in_the_table(uint8_t *table, const uint8_t *mb)
{
    size_t cell = note_at(table, 0);
    set_note(table, "\0\0\0\0\0", 0, 0);
    expect_note("blank", table, mb, MB, 0, 0, 0);
    expect_note("blank, without an MB file", table, NULL, 0, 0, 0, 0);
    put_word(table, cell + LEADER + 8, 1);
    expect_note("a modification number alone", table, mb, MB, IN_TABLE, cell, 0);
    set_note(table, "\0\0\0\0\0", ENTRIES, 0);
    expect_note("an offset alone", table, mb, MB, IN_TABLE, cell, 0);
    set_note(table, "\0\0\0\0!", 0, 0);
    expect_note("a leader alone", table, mb, MB, IN_TABLE, cell, 0);
    set_note(table, "oakum", 0, 1);
    expect_note("one byte of the leader", table, mb, MB, IN_TABLE, cell, 1);
    set_note(table, "oakum", 0xfffffffe, LEADER);
    expect_note("the whole leader", table, mb, MB, IN_TABLE, cell, LEADER);
    expect_note("the whole leader, without an MB file", table, NULL, 0, IN_TABLE, cell, LEADER);
    expect_note("with the table for an MB file", table, table, TABLE, IN_TABLE, cell, LEADER);
    set_note(table, "oakum", 0, LEADER + 1);
    note_refused("a byte too many for the leader", table, mb, MB);
    note_refused("with the table for an MB file", table, table, TABLE);
}

/* A blob of the MB file: found in a file that ends with its block or later, refused in any that is shorter. */
static void expect_found(const char *what, uint8_t *table, const uint8_t *mb, uint32_t offset, uint64_t start,
                         uint32_t length, size_t block_end)
{
    uint8_t *cut = zeros(block_end);
    memcpy(cut, mb, block_end);
    set_note(table, "oakum", offset, length);
    expect_note(what, table, mb, MB, IN_MB, start, length);
    expect_note(what, table, cut, block_end, IN_MB, start, length);
    free(cut);
    for (size_t len = 1; len < block_end; len = len * 2 + 1) { /* 4,095 and 8,191 are among them */
        cut = zeros(len);
        memcpy(cut, mb, len);
        note_refused("a cut MB file", table, cut, len);
        free(cut);
    }
    note_refused("no MB file", table, NULL, 0);
    set_note(table, "oakum", offset, length - 1);
    note_refused("a byte too few", table, mb, MB);
    set_note(table, "oakum", offset, length + 1);
    note_refused("a byte too many", table, mb, MB);
    set_note(table, "oakum", offset, length + 0x10000);
    note_refused("more in the high word", table, mb, MB);
    set_note(table, "oakum", offset, UINT32_MAX);
    note_refused("the greatest length", table, mb, MB);
}

static void in_the_mb_file(uint8_t *table, const uint8_t *mb)
{
    expect_found("the last entry", table, mb, ENTRIES + 0x3f, ENTRIES + FIRST_BODY, ENTRY_LENGTH, OWN);
    expect_found("the first entry", table, mb, ENTRIES, ENTRIES + 0x250, 39, OWN);
    expect_found("up to the block's end", table, mb, ENTRIES + 1, ENTRIES + 0xff0, 16, OWN);
    expect_found("a block of its own", table, mb, OWN + SINGLE, OWN + BODY, OWN_LENGTH, END);
}

/* Offsets that name no block, a block of another kind, or no entry that fits, though good bytes stand there. */
static void unfit_offsets(uint8_t *table, uint8_t *mb)
{
    static const uint32_t OFFSETS[] = {
        0, SINGLE, ENTRIES + 2, ENTRIES + 0x40, ENTRIES + 0xfe, ENTRIES + 0x13f, ENTRIES + 0x83f, ENTRIES + SINGLE,
        OWN, OWN + 0x3f, OWN + 0x100 + SINGLE, OWN + 0x800 + SINGLE, OWN + UNIT + SINGLE, END, END + SINGLE,
        0x80001000, 0xfffff000, 0xfffff0ff, 0xffffffff,
    };
    set_entry(mb, 0x40, FIRST_BODY, 2, 6);
    set_entry(mb, 0xfe, FIRST_BODY, 2, 6);
    set_own(mb, OWN + 0x100, 1, ENTRY_LENGTH);
    set_own(mb, OWN + 0x800, 1, ENTRY_LENGTH);
    for (size_t i = 0; i < sizeof OFFSETS / sizeof OFFSETS[0]; i++) {
        set_note(table, "oakum", OFFSETS[i], ENTRY_LENGTH);
        note_refused("an offset that does not fit", table, mb, MB);
        set_note(table, "oakum", OFFSETS[i], OWN_LENGTH);
        note_refused("an offset that does not fit", table, mb, MB);
    }
    set_own(mb, OWN + UNIT, 1, ENTRY_LENGTH);
    set_note(table, "oakum", OWN + UNIT + SINGLE, ENTRY_LENGTH);
    expect_note("a head inside another block", table, mb, MB, IN_MB, OWN + UNIT + BODY, ENTRY_LENGTH);
}

/* A byte of the MB file is changed; the blob that was there does not fit any more. */
static void expect_damaged(const char *what, const uint8_t *table, uint8_t *mb, size_t at, uint8_t changed)
{
    uint8_t before = mb[at];
    mb[at] = changed;
    note_refused(what, table, mb, MB);
    mb[at] = before;
}

static void damaged(uint8_t *table, uint8_t *mb)
{
    const size_t entry = ENTRIES + 12 + 5 * 0x3f;
    set_note(table, "oakum", ENTRIES + 0x3f, ENTRY_LENGTH);
    expect_note("before the damage", table, mb, MB, IN_MB, ENTRIES + FIRST_BODY, ENTRY_LENGTH);
    expect_damaged("a free block", table, mb, ENTRIES, 0x04);
    expect_damaged("a block of no length", table, mb, ENTRIES + 1, 0);
    expect_damaged("a block beyond the file", table, mb, ENTRIES + 1, 4);
    expect_damaged("a block far beyond the file", table, mb, ENTRIES + 2, 0xff);
    expect_damaged("begins in the entries", table, mb, entry, FIRST_BODY / 16 - 1);
    expect_damaged("begins with the block", table, mb, entry, 0);
    expect_damaged("no unit", table, mb, entry + 1, 0);
    expect_damaged("a unit more", table, mb, entry + 1, 3);
    expect_damaged("deleted", table, mb, entry + 4, 0);
    expect_damaged("another length", table, mb, entry + 4, 7);
    set_note(table, "oakum", OWN + SINGLE, OWN_LENGTH);
    expect_damaged("a block of entries", table, mb, OWN, 0x03);
    expect_damaged("a block that is too short", table, mb, OWN + 1, 1);
    expect_damaged("another length, high byte", table, mb, OWN + 6, 0x80);
    set_own(mb, OWN, 2, OWN_LENGTH + 1);
    set_note(table, "oakum", OWN + SINGLE, OWN_LENGTH + 1);
    note_refused("a byte behind the end of its own block", table, mb, MB);
}

/* Entries that say how long a blob is as no active one does, and one that is longer than its block. */
static void unfit_entries(uint8_t *table, uint8_t *mb)
{
    set_entry(mb, 0x3f, FIRST_BODY, 2, 0);
    set_note(table, "oakum", ENTRIES + 0x3f, 16);
    note_refused("deleted, though the sum is the same", table, mb, MB);
    set_entry(mb, 0x3f, FIRST_BODY, 1, 17);
    set_note(table, "oakum", ENTRIES + 0x3f, 17);
    note_refused("more than a unit in the last one", table, mb, MB);
    set_entry(mb, 0x3f, 0xff0, 2, 1);
    note_refused("a byte behind the block's end", table, mb, MB);
    put_word(mb, ENTRIES + 1, 3);
    expect_note("a block of three units", table, mb, MB, IN_MB, ENTRIES + 0xff0, 17);
    put_word(mb, ENTRIES + 1, 1);
    set_entry(mb, 0x3f, FIRST_BODY, 2, 6);
}

/* What is asked for and is not there, as block, place and field. Each is 14 where there is too little room. */
static void refusals(uint8_t *table, const uint8_t *mb)
{
    static const struct {
        size_t asked[3];
        uint32_t number;
    } ASKED[] = {
        {{0, 0, NOTE}, PARADOX_BAD_ARGUMENT}, {{3, 0, NOTE}, PARADOX_BAD_ARGUMENT},
        {{0x10001, 0, NOTE}, PARADOX_BAD_ARGUMENT}, {{SIZE_MAX, SIZE_MAX, SIZE_MAX}, PARADOX_BAD_ARGUMENT},
        {{1, 0, 0}, PARADOX_BAD_ARGUMENT}, {{1, 0, 4}, PARADOX_BAD_ARGUMENT}, {{1, 0, 1}, PARADOX_BAD_ARGUMENT},
        {{2, 0, 1}, PARADOX_BAD_ARGUMENT}, {{2, 0, 4}, PARADOX_BAD_ARGUMENT}, {{2, 0, NOTE}, PARADOX_WRONG_COUNT},
        {{2, 99, NOTE}, PARADOX_WRONG_COUNT}, {{1, 2, NOTE}, PARADOX_BAD_ARGUMENT},
        {{1, 0x10000, NOTE}, PARADOX_BAD_ARGUMENT}, {{1, 0, NOTE}, PARADOX_UNFIT_BLOB},
    };
    set_note(table, "oakum", 0, LEADER + 1);
    for (size_t i = 0; i < sizeof ASKED / sizeof ASKED[0]; i++) {
        const size_t *asked = ASKED[i].asked;
        for (size_t lent = 1; lent <= LENT; lent++) {
            uint64_t *part = lend(lent);
            expect("refused", paradox_blob(table, TABLE, mb, MB, asked[0], asked[1], asked[2], part, lent),
                   lent < PARADOX_PART_NUMBERS ? PARADOX_SHORT_BUFFER : ASKED[i].number);
            expect_all("refused", part, lent, 0);
        }
    }
    expect("without room", paradox_blob(table, TABLE, mb, MB, 1, 1, NOTE, NULL, 0), PARADOX_SHORT_BUFFER);
    expect("a cut table", paradox_blob(table, TABLE - 1, mb, MB, 0, 0, 0, NULL, 0), PARADOX_WRONG_LENGTH);
    expect("nothing", paradox_blob(NULL, 0, NULL, 0, 0, 0, 0, NULL, 0), PARADOX_TOO_SHORT);
}

/* Calls that are not lent the MB file answer 12, of a blank too. */
static void other_calls(uint8_t *table)
{
    uint64_t cell[PARADOX_CELL_NUMBERS];
    for (size_t place = 0; place < 2; place++) {
        expect("cell", paradox_cell(table, TABLE, 1, place, NOTE, cell, PARADOX_CELL_NUMBERS), PARADOX_BLOB_CELL);
    }
}

/* A file read whole, in a buffer of exactly its length. */
static uint8_t *read_sample(const char *name, size_t len)
{
    uint8_t *bytes = zeros(len);
    FILE *file = fopen(name, "rb");
    if (file == NULL || fread(bytes, 1, len, file) != len || getc(file) != EOF) {
        printf("%s is not there, or is not %lu bytes long\n", name, (unsigned long)len);
        exit(2);
    }
    fclose(file);
    return bytes;
}

/* A blob of the sample, by block, place and field: where it stands, and its first bytes. */
struct blob {
    size_t asked[3];
    uint32_t file;
    uint64_t start;
    uint64_t length;
    const char *begins;
};

static const struct blob SAMPLE[] = {
    {{2, 0, 4}, PARADOX_IN_MB, 0x1150, 100, "Grapnels and chain. Pays the carriage"},
    {{2, 0, 5}, PARADOX_IN_MB, 0x11c0, 32, "\x01\x80\x02\x40\x02\x40\x01\x80\x0f\xf0"},
    {{2, 1, 4}, PARADOX_IN_TABLE, 0xc7a, 24, "Pays carriage. Ask Joan."},
    {{2, 2, 4}, PARADOX_IN_NEITHER, 0, 0, NULL},
    {{2, 2, 5}, PARADOX_IN_NEITHER, 0, 0, NULL},
    {{2, 3, 4}, PARADOX_IN_MB, 0x1250, 39, "Closed in August. Order tarred by July."},
    {{1, 0, 4}, PARADOX_IN_MB, 0x3009, 2270, "Prices from 1 March, carriage paid"},
    {{1, 1, 4}, PARADOX_IN_TABLE, 0x87a, 10, "Tins only."},
};

/* A blob of the sample, taken from the answer by the functions of the header. */
static void expect_blob(const uint8_t *table, const uint8_t *mb, const struct blob *wanted)
{
    uint64_t part[PARADOX_PART_NUMBERS];
    uint32_t answer = paradox_blob(table, SAMPLE_TABLE, mb, SAMPLE_MB, wanted->asked[0], wanted->asked[1],
                                   wanted->asked[2], part, PARADOX_PART_NUMBERS);
    const uint8_t *blob = paradox_blob_bytes(answer, table, mb, part);
    expect("sample's answer", answer, wanted->file << 8);
    expect("sample's file", paradox_blob_file(answer), wanted->file);
    expect("sample's start", part[PARADOX_PART_START], wanted->start);
    expect("sample's length", paradox_blob_length(part), wanted->length);
    if (wanted->begins == NULL) {
        expect("a blank has no bytes", blob == NULL, 1);
        return;
    }
    expect("no copy", blob == (wanted->file == PARADOX_IN_MB ? mb : table) + wanted->start, 1);
    expect("bytes", (uint64_t)memcmp(blob, wanted->begins, strlen(wanted->begins)), 0);
}

static void sample(const uint8_t *table, const uint8_t *mb)
{
    uint64_t part[PARADOX_PART_NUMBERS];
    for (size_t i = 0; i < sizeof SAMPLE / sizeof SAMPLE[0]; i++) {
        expect_blob(table, mb, &SAMPLE[i]);
    }
    uint32_t refused = paradox_blob(table, SAMPLE_TABLE, mb, SAMPLE_MB, 2, 0, 1, part, PARADOX_PART_NUMBERS);
    expect("sample's text", paradox_refusal(refused), PARADOX_BAD_ARGUMENT);
    expect("a refusal is in neither file", paradox_blob_file(refused), PARADOX_IN_NEITHER);
    expect("a refusal has no bytes", paradox_blob_bytes(refused, table, mb, part) == NULL, 1);
    expect("a refusal has no length", paradox_blob_length(part), 0);
}

int main(int argc, char **argv)
{
    if (argc != 3) {
        return 2;
    }
    uint8_t *table = make_table();
    uint8_t *mb = make_mb();
    uint8_t *sample_table = read_sample(argv[1], SAMPLE_TABLE);
    uint8_t *sample_mb = read_sample(argv[2], SAMPLE_MB);
    uint8_t marks[2];
    expect("table check", paradox_table_check(table, TABLE, marks, 2), PARADOX_ACCEPTED);
    in_the_table(table, mb);
    in_the_mb_file(table, mb);
    unfit_offsets(table, mb);
    damaged(table, mb);
    unfit_entries(table, mb);
    refusals(table, mb);
    other_calls(table);
    sample(sample_table, sample_mb);
    free(sample_mb);
    free(sample_table);
    free(mb);
    free(table);
    return verdict("blobs");
}
