/*
 * tables DIRECTORY: writes tables and an MB file there that no sample is like, for the export program.
 */
#include "common.h"

static void write_file(const char *directory, const char *name, const uint8_t *bytes, size_t len)
{
    char path[4096];
    snprintf(path, sizeof path, "%s/%s", directory, name);
    FILE *file = fopen(path, "wb");
    if (file == NULL || fwrite(bytes, 1, len, file) != len || fclose(file) != 0) {
        perror(path);
        exit(2);
    }
}

/* A table without key of one block with these records; of none where there are no records. */
static void write_records(const char *directory, const char *name, const struct field *fields, unsigned count,
                          const char *records, unsigned record_count)
{
    unsigned blocks = record_count > 0 ? 1 : 0;
    uint8_t *table = table_of(fields, count, 0, blocks);
    set_chains(table, blocks, blocks, 0, record_count);
    if (blocks > 0) {
        set_block(table, 1, 0, 0, (const uint8_t *)records, record_count);
    }
    write_file(directory, name, table, file_len(blocks));
    free(table);
}

/* An MB file of no header and one block of its own, of two units, full of quotes. */
static void write_quotes(const char *directory, const char *name)
{
    enum { UNIT = 4096, OWN = UNIT, BODY = OWN + 9, END = 3 * UNIT };
    uint8_t *mb = zeros(END);
    mb[OWN] = 0x02;
    put_word(mb, OWN + 1, 2);
    put_word(mb, OWN + 3, END - BODY);
    memset(mb + BODY, '"', END - BODY);
    write_file(directory, name, mb, END);
    free(mb);
}

int main(int argc, char **argv)
{
    static const struct field QUOTED[] = {{0x01, 5, "Size, mm"}, {0x01, 2, "The \"best\""}, {0x04, 4, "Many"}};
    static const struct field MEMO[] = {{0x0c, 11, "Note"}, {0x01, 3, "Part"}, {0x10, 10, "Plan"}, {0x09, 1, "Open"}};
    static const struct field BLOBS[] = {{0x0c, 11, "Note"}, {0x10, 10, "Plan"}};
    static const struct field DAYS[] = {{0x02, 4, "Day"}};
    static const struct field NUMBERS[] = {{0x06, 8, "Number"}};
    if (argc != 2) {
        return 2;
    }
    write_records(argv[1], "quoted.db", QUOTED, 3,
                  "a,b\0\0\"\0\x80\0\0\0" "a\r\nb\0\"\"\0\0\0\1" "a\nb\0\0'\0\xff\xff\xff\xff"
                  " a ;\xe4\t\\\0\0\0\0", 4);
    write_records(argv[1], "memo.db", MEMO, 4,
                  "long ago..\0cog\0\0\0\0\0\0\0\0\0\0\x81" "\0\0\0\0\0\0\0\0\0\0\0nut0123456789\x80", 2);
    write_records(argv[1], "blobs.db", BLOBS, 2, "long ago..\0" "0123456789", 1);
    write_records(argv[1], "quotes.db", BLOBS, 2,
                  "\"\0\0\0\0\1\0\0\0\1\0" "\0\0\0\0\0\0\0\0\0\0"
                  "\"\xff\x10\0\0\xf7\x1f\0\0\2\0" "\xff\x10\0\0\xf7\x1f\0\0\2\0"
                  "x\0\0\0\0\0\0\0\0\0\0" "\0\0\0\0\0\0\0\0\1\0", 3);
    write_quotes(argv[1], "quotes.mb");
    write_records(argv[1], "none.db", QUOTED, 3, NULL, 0);
    write_records(argv[1], "days.db", DAYS, 1, "\x80\x00\x8d\x40" "\0\0\0\0" "\x80\x0b\x1e\xcf" "\x80\x37\xb9\xdb", 4);
    write_records(argv[1], "day.db", DAYS, 1, "\x80\x00\x8d\x40" "\x80\x37\xb9\xdc", 2);
    write_records(argv[1], "numbers.db", NUMBERS, 1,
                  "\xbf\xf0\0\0\0\0\0\0" "\x80\0\0\0\0\0\0\0" "\0\0\0\0\0\0\0\0" "\xff\xef\xff\xff\xff\xff\xff\xff"
                  "\x40\x0f\xff\xff\xff\xff\xff\xff" "\x7f\xff\xff\xff\xff\xff\xff\xff"
                  "\x7f\xff\xff\xff\xff\xff\xff\xfe" "\0\x10\0\0\0\0\0\0", 8);
    return 0;
}
