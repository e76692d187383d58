/*
 * Values written and read back as C sees it: the stored forms and refusals of document 01, those of doubles by request
 * 02 of document 02, every lent byte afterwards.
 */
#include "common.h"

enum { MOST_WIDTH = 255, LENT = MOST_WIDTH + 3, BEFORE = 0x5a };

#define TOP_BIT UINT64_C(0x8000000000000000)
#define MINUS(n) (~UINT64_C(n) + 1)

/* A value for a field of a code and a width, with so many bytes lent; the refusal, or the bytes that are stored. */
struct value {
    uint64_t code;
    size_t width;
    uint64_t what;
    uint64_t value;
    const char *text;
    size_t text_len;
    size_t lent;
    uint32_t refusal;
    const char *stored;
};

static const struct value STORED[] = {
    {0x02, 4, PARADOX_DATE, 728783, NULL, 0, 4, 0, "\x80\x0b\x1e\xcf"},
    {0x02, 4, PARADOX_DATE, 36160, NULL, 0, LENT, 0, "\x80\x00\x8d\x40"},
    {0x02, 4, PARADOX_DATE, 3652059, NULL, 0, LENT, 0, "\x80\x37\xb9\xdb"},
    {0x03, 2, PARADOX_SHORT, 1, NULL, 0, 2, 0, "\x80\x01"},
    {0x03, 2, PARADOX_SHORT, 512, NULL, 0, LENT, 0, "\x82\x00"},
    {0x03, 2, PARADOX_SHORT, MINUS(1), NULL, 0, LENT, 0, "\x7f\xff"},
    {0x03, 2, PARADOX_SHORT, MINUS(32767), NULL, 0, LENT, 0, "\x00\x01"},
    {0x03, 2, PARADOX_SHORT, 32767, NULL, 0, LENT, 0, "\xff\xff"},
    {0x03, 2, PARADOX_SHORT, 0, NULL, 0, LENT, 0, "\x80\x00"},
    {0x04, 4, PARADOX_LONG, 1, NULL, 0, 4, 0, "\x80\x00\x00\x01"},
    {0x04, 4, PARADOX_LONG, MINUS(1), NULL, 0, LENT, 0, "\x7f\xff\xff\xff"},
    {0x04, 4, PARADOX_LONG, MINUS(2147483647), NULL, 0, LENT, 0, "\x00\x00\x00\x01"},
    {0x04, 4, PARADOX_LONG, 2147483647, NULL, 0, LENT, 0, "\xff\xff\xff\xff"},
    {0x06, 8, PARADOX_NUMBER, UINT64_C(0x3ff0000000000000), NULL, 0, 8, 0, "\xbf\xf0\0\0\0\0\0\0"},
    {0x05, 8, PARADOX_NUMBER, UINT64_C(0x3ff0000000000000), NULL, 0, LENT, 0, "\xbf\xf0\0\0\0\0\0\0"},
    {0x06, 8, PARADOX_NUMBER, UINT64_C(0xbff0000000000000), NULL, 0, 8, 0, "\x40\x0f\xff\xff\xff\xff\xff\xff"},
    {0x05, 8, PARADOX_NUMBER, UINT64_C(0xbff0000000000000), NULL, 0, LENT, 0, "\x40\x0f\xff\xff\xff\xff\xff\xff"},
    {0x06, 8, PARADOX_NUMBER, UINT64_C(0xffefffffffffffff), NULL, 0, LENT, 0, "\0\x10\0\0\0\0\0\0"},
    {0x06, 8, PARADOX_NUMBER, UINT64_C(0x8010000000000000), NULL, 0, LENT, 0, "\x7f\xef\xff\xff\xff\xff\xff\xff"},
    {0x06, 8, PARADOX_NUMBER, UINT64_C(0x800fffffffffffff), NULL, 0, LENT, 0, "\x7f\xf0\0\0\0\0\0\0"},
    {0x06, 8, PARADOX_NUMBER, TOP_BIT | 1, NULL, 0, LENT, 0, "\x7f\xff\xff\xff\xff\xff\xff\xfe"},
    {0x06, 8, PARADOX_NUMBER, TOP_BIT, NULL, 0, LENT, 0, "\x7f\xff\xff\xff\xff\xff\xff\xff"},
    {0x05, 8, PARADOX_NUMBER, TOP_BIT, NULL, 0, 8, 0, "\x7f\xff\xff\xff\xff\xff\xff\xff"},
    {0x06, 8, PARADOX_NUMBER, 0, NULL, 0, LENT, 0, "\x80\0\0\0\0\0\0\0"},
    {0x06, 8, PARADOX_NUMBER, 1, NULL, 0, LENT, 0, "\x80\0\0\0\0\0\0\1"},
    {0x06, 8, PARADOX_NUMBER, UINT64_C(0x000fffffffffffff), NULL, 0, LENT, 0, "\x80\x0f\xff\xff\xff\xff\xff\xff"},
    {0x06, 8, PARADOX_NUMBER, UINT64_C(0x0010000000000000), NULL, 0, LENT, 0, "\x80\x10\0\0\0\0\0\0"},
    {0x06, 8, PARADOX_NUMBER, UINT64_C(0x7fefffffffffffff), NULL, 0, LENT, 0, "\xff\xef\xff\xff\xff\xff\xff\xff"},
    {0x09, 1, PARADOX_LOGICAL, 0, NULL, 0, 1, 0, "\x80"},
    {0x09, 1, PARADOX_LOGICAL, 1, NULL, 0, LENT, 0, "\x81"},
    {0x01, 3, PARADOX_TEXT, 99, "cog", 3, 3, 0, "cog"},
    {0x01, 5, PARADOX_TEXT, 0, "cog", 3, LENT, 0, "cog\0\0"},
    {0x01, 1, PARADOX_TEXT, 0, "\xff", 1, LENT, 0, "\xff"},
    {0x01, 3, PARADOX_BLANK, 99, "cog", 3, LENT, 0, "\0\0\0"},
    {0x02, 4, PARADOX_BLANK, TOP_BIT, NULL, 0, LENT, 0, "\0\0\0\0"},
    {0x03, 2, PARADOX_BLANK, 0, NULL, 0, LENT, 0, "\0\0"},
    {0x04, 4, PARADOX_BLANK, 0, NULL, 0, LENT, 0, "\0\0\0\0"},
    {0x05, 8, PARADOX_BLANK, 0, NULL, 0, LENT, 0, "\0\0\0\0\0\0\0\0"},
    {0x09, 1, PARADOX_BLANK, 0, NULL, 0, LENT, 0, "\0"},
};

static const struct value REFUSED[] = {
    /* no such code or width */
    {0x00, 4, PARADOX_BLANK, 0, NULL, 0, LENT, PARADOX_BAD_ARGUMENT, NULL},
    {0x07, 8, PARADOX_BLANK, 0, NULL, 0, LENT, PARADOX_BAD_ARGUMENT, NULL},
    {0x11, 10, PARADOX_BLANK, 0, NULL, 0, LENT, PARADOX_BAD_ARGUMENT, NULL},
    {0x103, 2, PARADOX_SHORT, 1, NULL, 0, LENT, PARADOX_BAD_ARGUMENT, NULL},
    {TOP_BIT | 3, 2, PARADOX_SHORT, 1, NULL, 0, LENT, PARADOX_BAD_ARGUMENT, NULL},
    {0x01, 0, PARADOX_TEXT, 0, "cog", 3, LENT, PARADOX_BAD_ARGUMENT, NULL},
    {0x01, 256, PARADOX_TEXT, 0, "cog", 3, LENT, PARADOX_BAD_ARGUMENT, NULL},
    {0x03, 4, PARADOX_SHORT, 1, NULL, 0, LENT, PARADOX_BAD_ARGUMENT, NULL},
    {0x03, SIZE_MAX, PARADOX_SHORT, 1, NULL, 0, LENT, PARADOX_BAD_ARGUMENT, NULL},
    {0x0c, 10, PARADOX_BLANK, 0, NULL, 0, LENT, PARADOX_BAD_ARGUMENT, NULL},
    {0x0d, 9, PARADOX_BLANK, 0, NULL, 0, LENT, PARADOX_BAD_ARGUMENT, NULL},
    {0x10, 251, PARADOX_BLANK, 0, NULL, 0, LENT, PARADOX_BAD_ARGUMENT, NULL},
    /* a value of another kind */
    {0x03, 2, PARADOX_LONG, 1, NULL, 0, 0, PARADOX_BAD_ARGUMENT, NULL},
    {0x04, 4, PARADOX_SHORT, 1, NULL, 0, LENT, PARADOX_BAD_ARGUMENT, NULL},
    {0x02, 4, PARADOX_LONG, 728783, NULL, 0, LENT, PARADOX_BAD_ARGUMENT, NULL},
    {0x01, 3, PARADOX_SHORT, 1, "cog", 3, LENT, PARADOX_BAD_ARGUMENT, NULL},
    {0x06, 8, PARADOX_TEXT, 0, "cog", 3, LENT, PARADOX_BAD_ARGUMENT, NULL},
    {0x09, 1, PARADOX_NUMBER, 1, NULL, 0, LENT, PARADOX_BAD_ARGUMENT, NULL},
    /* a value of no kind */
    {0x03, 2, PARADOX_REFUSED, 11, NULL, 0, LENT, PARADOX_BAD_ARGUMENT, NULL},
    {0x03, 2, PARADOX_BLOB, 0, NULL, 0, LENT, PARADOX_BAD_ARGUMENT, NULL},
    {0x03, 2, UINT64_MAX, 0, NULL, 0, LENT, PARADOX_BAD_ARGUMENT, NULL},
    {0x03, 2, 0x102, 1, NULL, 0, LENT, PARADOX_BAD_ARGUMENT, NULL},
    {0x03, 2, PARADOX_SHORT, 32768, NULL, 0, LENT, PARADOX_BAD_ARGUMENT, NULL},
    {0x03, 2, PARADOX_SHORT, MINUS(32769), NULL, 0, LENT, PARADOX_BAD_ARGUMENT, NULL},
    {0x04, 4, PARADOX_LONG, 2147483648, NULL, 0, LENT, PARADOX_BAD_ARGUMENT, NULL},
    {0x04, 4, PARADOX_LONG, MINUS(2147483649), NULL, 0, LENT, PARADOX_BAD_ARGUMENT, NULL},
    {0x02, 4, PARADOX_DATE, UINT64_C(0x1000b1ecf), NULL, 0, 0, PARADOX_BAD_ARGUMENT, NULL},
    {0x09, 1, PARADOX_LOGICAL, 2, NULL, 0, 0, PARADOX_BAD_ARGUMENT, NULL},
    /* a blob, whatever the value and the room */
    {0x0c, 11, PARADOX_BLANK, 0, NULL, 0, LENT, PARADOX_BLOB_CELL, NULL},
    {0x0d, 10, PARADOX_TEXT, 0, "cog", 3, LENT, PARADOX_BLOB_CELL, NULL},
    {0x0e, 250, PARADOX_REFUSED, 0, NULL, 0, 0, PARADOX_BLOB_CELL, NULL},
    {0x0f, 10, PARADOX_LOGICAL, 2, NULL, 0, LENT, PARADOX_BLOB_CELL, NULL},
    {0x10, 250, UINT64_MAX, 0, NULL, 0, LENT, PARADOX_BLOB_CELL, NULL},
    /* too little room, also for a value without stored form */
    {0x03, 2, PARADOX_SHORT, 1, NULL, 0, 1, PARADOX_SHORT_BUFFER, NULL},
    {0x03, 2, PARADOX_SHORT, MINUS(32768), NULL, 0, 1, PARADOX_SHORT_BUFFER, NULL},
    {0x01, 3, PARADOX_TEXT, 0, "cog", 3, 2, PARADOX_SHORT_BUFFER, NULL},
    {0x01, 3, PARADOX_TEXT, 0, "", 0, 0, PARADOX_SHORT_BUFFER, NULL},
    {0x01, 3, PARADOX_BLANK, 0, NULL, 0, 2, PARADOX_SHORT_BUFFER, NULL},
    /* no stored form */
    {0x03, 2, PARADOX_SHORT, MINUS(32768), NULL, 0, LENT, PARADOX_NO_MEANING, NULL},
    {0x04, 4, PARADOX_LONG, MINUS(2147483648), NULL, 0, LENT, PARADOX_NO_MEANING, NULL},
    {0x02, 4, PARADOX_DATE, 36159, NULL, 0, LENT, PARADOX_NO_MEANING, NULL},
    {0x02, 4, PARADOX_DATE, 3652060, NULL, 0, LENT, PARADOX_NO_MEANING, NULL},
    {0x02, 4, PARADOX_DATE, 0, NULL, 0, LENT, PARADOX_NO_MEANING, NULL},
    {0x02, 4, PARADOX_DATE, UINT64_C(0xffffffff), NULL, 0, LENT, PARADOX_NO_MEANING, NULL},
    {0x06, 8, PARADOX_NUMBER, UINT64_C(0x7ff0000000000000), NULL, 0, LENT, PARADOX_NO_MEANING, NULL},
    {0x06, 8, PARADOX_NUMBER, UINT64_C(0xfff0000000000000), NULL, 0, LENT, PARADOX_NO_MEANING, NULL},
    {0x06, 8, PARADOX_NUMBER, UINT64_C(0x7ff0000000000001), NULL, 0, LENT, PARADOX_NO_MEANING, NULL},
    {0x06, 8, PARADOX_NUMBER, UINT64_C(0xfff0000000000001), NULL, 0, LENT, PARADOX_NO_MEANING, NULL},
    {0x05, 8, PARADOX_NUMBER, UINT64_C(0x7ff8000000000000), NULL, 0, LENT, PARADOX_NO_MEANING, NULL},
    {0x05, 8, PARADOX_NUMBER, UINT64_C(0x7fffffffffffffff), NULL, 0, LENT, PARADOX_NO_MEANING, NULL},
    {0x05, 8, PARADOX_NUMBER, UINT64_MAX, NULL, 0, LENT, PARADOX_NO_MEANING, NULL},
    {0x01, 3, PARADOX_TEXT, 0, NULL, 0, LENT, PARADOX_NO_MEANING, NULL},
    {0x01, 3, PARADOX_TEXT, 0, "rope", 4, LENT, PARADOX_NO_MEANING, NULL},
    {0x01, 3, PARADOX_TEXT, 0, "a\0b", 3, LENT, PARADOX_NO_MEANING, NULL},
    {0x01, 3, PARADOX_TEXT, 0, "a\0", 2, LENT, PARADOX_NO_MEANING, NULL},
    {0x01, 3, PARADOX_TEXT, 0, "\0", 1, LENT, PARADOX_NO_MEANING, NULL},
};

/* Writes a value into lent bytes. They and the text are in buffers of exactly their length. */
static uint8_t *written(const struct value *v, uint32_t *answer)
{
    uint8_t *buffer = zeros(v->lent == 0 ? 1 : v->lent);
    uint8_t *text = zeros(v->text_len == 0 ? 1 : v->text_len);
    memset(buffer, BEFORE, v->lent);
    if (v->text_len > 0) {
        memcpy(text, v->text, v->text_len);
    }
    *answer = paradox_write(v->code, v->width, v->what, v->value, v->text_len == 0 ? NULL : text, v->text_len,
                            v->lent == 0 ? NULL : buffer, v->lent);
    free(text);
    return buffer;
}

/* How many bytes in front are these, and how many behind them are as they were before. */
static size_t good_bytes(const uint8_t *bytes, size_t len, const char *front, size_t front_len)
{
    size_t good = 0;
    while (good < len && bytes[good] == (good < front_len ? (uint8_t)front[good] : BEFORE)) {
        good++;
    }
    return good;
}

/* The one cell of a table of one field, read. */
static void expect_read_back(const char *what, const struct value *v)
{
    const struct field field = {(uint8_t)v->code, (uint8_t)v->width, "Value"};
    uint8_t *table = table_of(&field, 1, 0, 1);
    uint64_t cell[PARADOX_CELL_NUMBERS];
    set_chains(table, 1, 1, 0, 1);
    set_block(table, 1, 0, 0, (const uint8_t *)v->stored, 1);
    expect(what, paradox_cell(table, file_len(1), 1, 0, 1, cell, PARADOX_CELL_NUMBERS), PARADOX_ACCEPTED);
    expect(what, cell[PARADOX_CELL_WHAT], v->what);
    if (v->what == PARADOX_TEXT) {
        expect(what, paradox_text_length(cell), v->text_len);
        expect(what, (uint64_t)memcmp(paradox_text(table, cell), v->text, v->text_len), 0);
    } else {
        expect(what, cell[PARADOX_CELL_VALUE], v->what == PARADOX_BLANK ? 0 : v->value);
    }
    free(table);
}

int main(void)
{
    char what[40];
    uint32_t answer;
    for (size_t i = 0; i < sizeof STORED / sizeof STORED[0]; i++) {
        const struct value *v = &STORED[i];
        uint8_t *buffer = written(v, &answer);
        snprintf(what, sizeof what, "stored, row %u", (unsigned)i);
        expect(what, answer, PARADOX_ACCEPTED);
        expect(what, good_bytes(buffer, v->lent, v->stored, v->width), v->lent);
        expect_read_back(what, v);
        free(buffer);
    }
    for (size_t i = 0; i < sizeof REFUSED / sizeof REFUSED[0]; i++) {
        const struct value *v = &REFUSED[i];
        uint8_t *buffer = written(v, &answer);
        snprintf(what, sizeof what, "refused, row %u", (unsigned)i);
        expect(what, answer, v->refusal);
        expect(what, good_bytes(buffer, v->lent, NULL, 0), v->lent);
        free(buffer);
    }
    return verdict("writing");
}
