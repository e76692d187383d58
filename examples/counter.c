/*
 * counter TABLE INDEX KEY: checks that a table and an index belong together and looks a key up both ways.
 */
#include <paradox.h>

#include "common.h"

enum { FOUND = 0, ABSENT = 1, FAILED = 2 };

static const char USAGE[] =
    "usage: counter TABLE INDEX KEY\n"
    "\n"
    "Checks the pair of files and looks KEY up in two ways, by a walk down the index and by a scan of the table.\n"
    "KEY is text for a table whose key is one text field; shorter text is filled up with zero bytes. Any other key\n"
    "is given as its stored bytes in hexadecimal, as hex:800B1ECF.\n"
    "\n"
    "Exit status: 0 found; 1 absent; 2 a file or the key is refused or cannot be read. Where only the index is\n"
    "refused, the scan's answer is printed too, and the status is 2.\n";

static int refused(uint32_t number)
{
    say_refused(number);
    return FAILED;
}

/* The value of a hexadecimal digit, or -1. */
static int digit(char c)
{
    static const char DIGITS[] = "0123456789abcdef0123456789ABCDEF";
    const char *at = c == '\0' ? NULL : strchr(DIGITS, c);
    return at == NULL ? -1 : (int)((at - DIGITS) % 16);
}

/* A key from hexadecimal digits, two a byte. Answers 0 where they are none. */
static int hex_key(const char *digits, struct bytes *key)
{
    key->len = strlen(digits) / 2;
    for (size_t i = 0; i < key->len; i++) {
        int high = digit(digits[2 * i]);
        int low = digit(digits[2 * i + 1]);
        if (high < 0 || low < 0) {
            return 0;
        }
        key->at[i] = (uint8_t)(high * 16 + low);
    }
    return strlen(digits) % 2 == 0;
}

/* The width of the key where it is one text field, else 0. A refused call leaves zeros, which are no such key. */
static size_t text_key_width(const struct bytes *table)
{
    uint64_t header[PARADOX_HEADER_NUMBERS];
    uint64_t field[PARADOX_FIELD_NUMBERS];
    paradox_header(table->at, table->len, header, PARADOX_HEADER_NUMBERS);
    paradox_field(table->at, table->len, 1, field, PARADOX_FIELD_NUMBERS);
    int is_text = header[PARADOX_HEADER_KEY_FIELDS] == 1 && field[PARADOX_FIELD_KIND] == PARADOX_TEXT;
    return is_text ? (size_t)field[PARADOX_FIELD_WIDTH] : 0;
}

/* The key's stored bytes. Answers 0, with a message, where there is no such key. */
static int make_key(const char *text, const struct bytes *table, struct bytes *key)
{
    size_t len = strlen(text);
    size_t width = text_key_width(table);
    key->room = len > width ? len : width;
    key->at = (uint8_t *)calloc(key->room + 1, 1); /* never a request for nothing */
    if (key->at == NULL) {
        fprintf(stderr, "no memory for the key\n");
        return 0;
    }
    if (strncmp(text, "hex:", 4) == 0) {
        int good = hex_key(text + 4, key);
        if (!good) {
            fprintf(stderr, "%s: not pairs of hexadecimal digits\n", text);
        }
        return good;
    }
    if (width == 0) {
        fprintf(stderr, "%s: the key is not one text field; give its bytes, as hex:..\n", text);
        return 0;
    }
    memcpy(key->at, text, len);
    key->len = key->room; /* text that is too long stays as it is: the lookup refuses it */
    return 1;
}

static void print_found(uint64_t answer)
{
    if (paradox_is_found(answer)) {
        printf("block %u, place %u", (unsigned)paradox_block(answer), (unsigned)paradox_place(answer));
    } else {
        printf("absent");
    }
}

/* Looks the key up by a scan alone, as the index was refused. */
static int look_up_by_scan(const struct bytes *table, const struct bytes *key, uint8_t *marks, size_t marks_len)
{
    uint64_t scanned = paradox_scan(table->at, table->len, key->at, key->len, marks, marks_len);
    if (paradox_refusal(scanned) != PARADOX_ACCEPTED) {
        return refused(paradox_refusal(scanned));
    }
    print_found(scanned);
    printf(", by the scan\n");
    return FAILED;
}

/* Looks the key up in both ways in a pair that was accepted. */
static int look_up(const struct bytes *table, const struct bytes *index, const struct bytes *key, uint8_t *marks,
                   size_t marks_len)
{
    uint64_t walked = paradox_walk(table->at, table->len, index->at, index->len, key->at, key->len);
    if (paradox_refusal(walked) != PARADOX_ACCEPTED) {
        return refused(paradox_refusal(walked));
    }
    uint64_t scanned = paradox_scan(table->at, table->len, key->at, key->len, marks, marks_len);
    if (paradox_refusal(scanned) != PARADOX_ACCEPTED) {
        return refused(paradox_refusal(scanned));
    }
    unsigned reads = paradox_index_blocks_read(walked);
    print_found(walked);
    printf(", %u index block%s read; ", reads, reads == 1 ? "" : "s");
    if (paradox_is_found(walked) != paradox_is_found(scanned) || paradox_block(walked) != paradox_block(scanned)
        || paradox_place(walked) != paradox_place(scanned)) {
        printf("the scan does not agree\n");
        return FAILED;
    }
    printf("the scan agrees\n");
    return paradox_is_found(walked) ? FOUND : ABSENT;
}

/* Checks the pair and looks the key up in whatever was accepted. */
static int serve(const struct bytes *table, const struct bytes *index, const char *text, struct bytes *key)
{
    static uint8_t marks[PARADOX_MOST_BLOCKS];
    uint32_t number = paradox_pair_check(table->at, table->len, index->at, index->len, marks, sizeof marks);
    int index_refused = number >= PARADOX_INDEX_TOO_SHORT;
    if (number != PARADOX_ACCEPTED) {
        refused(number);
        if (!index_refused) {
            return FAILED;
        }
    }
    if (!make_key(text, table, key)) {
        return FAILED;
    }
    if (index_refused) {
        return look_up_by_scan(table, key, marks, sizeof marks);
    }
    return look_up(table, index, key, marks, sizeof marks);
}

int main(int argc, char **argv)
{
    struct bytes table = {NULL, 0, 0};
    struct bytes index = {NULL, 0, 0};
    struct bytes key = {NULL, 0, 0};
    int status = FAILED;
    if (argc != 4) {
        fputs(USAGE, stderr);
    } else if (read_file(argv[1], &table) && read_file(argv[2], &index)) {
        status = serve(&table, &index, argv[3], &key);
    }
    free(key.at);
    free(index.at);
    free(table.at);
    return status;
}
