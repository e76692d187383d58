/*
 * export TABLE [MB]: writes a table to standard output as comma-separated values (RFC 4180), its blobs too where the MB
 * file is named.
 */
#include <paradox.h>

#include "common.h"

enum {
    WRITTEN = 0,
    FAILED = 1,
    AROUND_TEXT = 3,                      /* a comma and two quotes */
    MOST_OF_CELL = AROUND_TEXT + 2 * 255, /* 255 quotes, each doubled; a blob may take more */
    LINE_END = 2,
    NUMBER_TEXT = 32                      /* a double of 17 digits with its signs, point and exponent, and a zero */
};

static const char USAGE[] =
    "usage: export TABLE [MB]\n"
    "\n"
    "Checks the table and writes it to standard output as comma-separated values: the names of its fields, then a\n"
    "line for each record. Dates are YYYY-MM-DD, logicals TRUE or FALSE, and a blank is nothing; numbers read back\n"
    "as they were. Memos and other blobs are written as texts where the MB file is named too. Else their fields are\n"
    "left out, with a note.\n"
    "\n"
    "All of it is written or nothing: a table that is refused, a cell without meaning or a blob that does not fit\n"
    "the MB file stops the export. Exit status: 0 written, 1 not.\n";

/* An export: the files, the fields that are written, and the text so far. */
struct job {
    struct bytes table;
    struct bytes mb;
    int has_mb;                        /* whether one is named, so that blobs are written */
    struct bytes text;
    size_t fields;                     /* of a record */
    size_t columns;                    /* how many of them are written */
    size_t field[PARADOX_MOST_FIELDS]; /* the field of each column, from 1 */
};

/* The functions that put something somewhere answer where it ends. */

/* A number in decimal, with zeros in front up to `least` digits. */
static uint8_t *put_digits(uint8_t *to, uint64_t number, size_t least)
{
    uint8_t digits[20];
    size_t count = 0;
    do {
        digits[count++] = (uint8_t)('0' + number % 10);
        number /= 10;
    } while (number != 0);
    while (count < least) {
        digits[count++] = '0';
    }
    while (count > 0) {
        *to++ = digits[--count];
    }
    return to;
}

/* A minus sign before what is below 0. `number` is changed to what follows the sign. */
static uint8_t *put_sign(uint8_t *to, int64_t *number)
{
    if (*number < 0) {
        *to++ = '-';
        *number = -*number;
    }
    return to;
}

static uint8_t *put_integer(uint8_t *to, int64_t number)
{
    to = put_sign(to, &number);
    return put_digits(to, (uint64_t)number, 1);
}

/* Ten-thousandths, without zeros at the end. */
static uint8_t *put_fraction(uint8_t *to, uint64_t ten_thousandths)
{
    if (ten_thousandths == 0) {
        return to;
    }
    *to++ = '.';
    to = put_digits(to, ten_thousandths, 4);
    while (to[-1] == '0') {
        to--;
    }
    return to;
}

/* The fewest digits that read back to the same double: 17 always do. */
static uint8_t *put_fewest_digits(uint8_t *to, double number)
{
    char text[NUMBER_TEXT];
    int len = 0;
    for (int digits = 15; digits <= 17; digits++) {
        len = snprintf(text, sizeof text, "%.*g", digits, number);
        if (strtod(text, NULL) == number) {
            break;
        }
    }
    memcpy(to, text, (size_t)len);
    return to + len;
}

/*
 * A double, so that it reads back to the same one. Most are whole ten-thousandths: n / 10000 is rounded once, as the
 * reader of its decimal digits rounds them, so where it gives the double, those digits do. As n has no more than
 * 15 digits, there are none fewer. Bits are compared: 0 / 10000 is not negative zero, which is printed as -0.
 */
static uint8_t *put_number(uint8_t *to, double number)
{
    double scaled = number * 10000;
    if (scaled > -1e15 && scaled < 1e15) {
        int64_t nearest = (int64_t)(scaled < 0 ? scaled - 0.5 : scaled + 0.5);
        if (paradox_from_double((double)nearest / 10000) == paradox_from_double(number)) {
            to = put_sign(to, &nearest);
            to = put_digits(to, (uint64_t)nearest / 10000, 1);
            return put_fraction(to, (uint64_t)nearest % 10000);
        }
    }
    return put_fewest_digits(to, number);
}

/* A day as YYYY-MM-DD. Years are taken from 1 March to the end of February, so that a leap day is a year's last day. */
static uint8_t *put_date(uint8_t *to, uint32_t day_number)
{
    uint32_t days = day_number + 305; /* since 1 March of the year 0 */
    uint32_t centuries = days / 146097 * 4;
    days %= 146097; /* those of 400 years */
    uint32_t century = days / 36524 - days / 146096;
    days -= century * 36524;
    uint32_t fours = days / 1461;
    days %= 1461; /* those of 4 years */
    uint32_t single = days / 365 - days / 1460;
    days -= single * 365;
    uint32_t month = (days * 5 + 2) / 153; /* from March; 153 days are five months */
    uint32_t day = days - (month * 153 + 2) / 5 + 1;
    uint32_t year = (centuries + century) * 100 + fours * 4 + single + (month >= 10 ? 1 : 0);
    to = put_digits(to, year, 4);
    *to++ = '-';
    to = put_digits(to, month >= 10 ? month - 9 : month + 3, 2);
    *to++ = '-';
    return put_digits(to, day, 2);
}

/* A text in quotes, its own quotes doubled. */
static uint8_t *put_quoted(uint8_t *to, const uint8_t *text, size_t len)
{
    *to++ = '"';
    for (size_t i = 0; i < len; i++) {
        if (text[i] == '"') {
            *to++ = '"';
        }
        *to++ = text[i];
    }
    *to++ = '"';
    return to;
}

/* A text, in quotes where it needs them. */
static uint8_t *put_text(uint8_t *to, const uint8_t *text, size_t len)
{
    for (size_t i = 0; i < len; i++) {
        if (text[i] == ',' || text[i] == '"' || text[i] == '\r' || text[i] == '\n') {
            return put_quoted(to, text, len);
        }
    }
    memcpy(to, text, len);
    return to + len;
}

static uint8_t *put_words(uint8_t *to, const char *words)
{
    return put_text(to, (const uint8_t *)words, strlen(words));
}

/* A cell that is not refused. */
static uint8_t *put_cell(uint8_t *to, const uint8_t *table, const uint64_t *cell)
{
    switch (cell[PARADOX_CELL_WHAT]) {
    case PARADOX_SHORT:
    case PARADOX_LONG:
        return put_integer(to, paradox_integer(cell));
    case PARADOX_DATE:
        return put_date(to, paradox_day(cell));
    case PARADOX_NUMBER:
        return put_number(to, paradox_double(cell));
    case PARADOX_LOGICAL:
        return put_words(to, paradox_truth(cell) ? "TRUE" : "FALSE");
    case PARADOX_TEXT:
        return put_text(to, paradox_text(table, cell), paradox_text_length(cell));
    default: /* PARADOX_BLANK */
        return to;
    }
}

/* Where a column's text goes in a line: behind a comma, but for the first. */
static uint8_t *put_comma(uint8_t *to, size_t column)
{
    if (column > 0) {
        *to++ = ',';
    }
    return to;
}

static uint8_t *put_line_end(uint8_t *to)
{
    *to++ = '\r';
    *to++ = '\n';
    return to;
}

static int refused(uint32_t number)
{
    say_refused(number);
    return 0;
}

static int no_memory(void)
{
    fprintf(stderr, "too large for the memory there is\n");
    return 0;
}

/* The functions below answer 0, with a message, where the export cannot go on. */

static int check_table(const struct bytes *table)
{
    size_t blocks = paradox_blocks(table->at, table->len);
    uint8_t *marks = (uint8_t *)malloc(blocks + 1); /* never a request for nothing */
    if (marks == NULL) {
        return no_memory();
    }
    uint32_t number = paradox_table_check(table->at, table->len, marks, blocks);
    free(marks);
    return number == PARADOX_ACCEPTED || refused(number);
}

/* Adds a text of any length as the next cell of a line. */
static int add_text(struct job *job, size_t column, const uint8_t *text, size_t len)
{
    if (len > (SIZE_MAX - AROUND_TEXT) / 2 || !make_room(&job->text, AROUND_TEXT + 2 * len)) {
        return no_memory();
    }
    uint8_t *to = put_text(put_comma(job->text.at + job->text.len, column), text, len);
    job->text.len = (size_t)(to - job->text.at);
    return 1;
}

static int add_line_end(struct job *job)
{
    if (!make_room(&job->text, LINE_END)) {
        return no_memory();
    }
    job->text.len = (size_t)(put_line_end(job->text.at + job->text.len) - job->text.at);
    return 1;
}

/* Takes a field as the next column, with its name in the first line, unless it is a blob and there is no MB file. */
static int add_column(struct job *job, size_t field)
{
    uint64_t numbers[PARADOX_FIELD_NUMBERS];
    uint32_t number = paradox_field(job->table.at, job->table.len, field, numbers, PARADOX_FIELD_NUMBERS);
    if (number != PARADOX_ACCEPTED) {
        return refused(number);
    }
    const uint8_t *name = paradox_name(job->table.at, numbers);
    if (numbers[PARADOX_FIELD_KIND] == PARADOX_BLOB && !job->has_mb) {
        fprintf(stderr, "field %s is left out: to write memos and other blobs, name the MB file behind the table\n",
                (const char *)name);
        return 1;
    }
    job->field[job->columns] = field;
    return add_text(job, job->columns++, name, paradox_name_length(numbers));
}

/* Adds the first line: the names of the fields that are written. */
static int add_columns(struct job *job)
{
    uint64_t header[PARADOX_HEADER_NUMBERS];
    uint32_t number = paradox_header(job->table.at, job->table.len, header, PARADOX_HEADER_NUMBERS);
    if (number != PARADOX_ACCEPTED) {
        return refused(number);
    }
    job->fields = (size_t)header[PARADOX_HEADER_FIELDS];
    for (size_t field = 1; field <= job->fields; field++) {
        if (!add_column(job, field)) {
            return 0;
        }
    }
    if (job->columns == 0) {
        fprintf(stderr, "no field is left to write\n");
        return 0;
    }
    return add_line_end(job);
}

/* Says which cell is refused, and why. */
static int refused_cell(const struct job *job, uint64_t cursor, size_t field, uint32_t number)
{
    uint64_t numbers[PARADOX_FIELD_NUMBERS];
    paradox_field(job->table.at, job->table.len, field, numbers, PARADOX_FIELD_NUMBERS);
    fprintf(stderr, "block %u, place %u, field %s: ", (unsigned)paradox_block(cursor), (unsigned)paradox_place(cursor),
            (const char *)paradox_name(job->table.at, numbers));
    return refused(number);
}

/* Adds a blob of the record that the cursor stands on, as a text. */
static int add_blob(struct job *job, uint64_t cursor, size_t column)
{
    uint64_t part[PARADOX_PART_NUMBERS];
    uint32_t answer = paradox_blob(job->table.at, job->table.len, job->mb.at, job->mb.len, paradox_block(cursor),
                                   paradox_place(cursor), job->field[column], part, PARADOX_PART_NUMBERS);
    if (paradox_refusal(answer) != PARADOX_ACCEPTED) {
        return refused_cell(job, cursor, job->field[column], paradox_refusal(answer));
    }
    const uint8_t *blob = paradox_blob_bytes(answer, job->table.at, job->mb.at, part);
    return add_text(job, column, blob == NULL ? (const uint8_t *)"" : blob, paradox_blob_length(part));
}

/* Adds a cell of the record that the cursor stands on. */
static int add_cell(struct job *job, uint64_t cursor, size_t column, const uint64_t *cell)
{
    uint32_t number = paradox_cell_refusal(cell);
    if (number == PARADOX_BLOB_CELL) { /* its column is there, so there is an MB file */
        return add_blob(job, cursor, column);
    }
    if (number != PARADOX_ACCEPTED) {
        return refused_cell(job, cursor, job->field[column], number);
    }
    if (!make_room(&job->text, MOST_OF_CELL)) {
        return no_memory();
    }
    uint8_t *to = put_cell(put_comma(job->text.at + job->text.len, column), job->table.at, cell);
    job->text.len = (size_t)(to - job->text.at);
    return 1;
}

/* Adds the line of the record that the cursor stands on. */
static int add_record(struct job *job, uint64_t cursor)
{
    static uint64_t cells[PARADOX_MOST_FIELDS * PARADOX_CELL_NUMBERS];
    uint32_t number = paradox_record(job->table.at, job->table.len, paradox_block(cursor), paradox_place(cursor), cells,
                                     job->fields * PARADOX_CELL_NUMBERS);
    if (number != PARADOX_ACCEPTED) {
        return refused(number);
    }
    for (size_t i = 0; i < job->columns; i++) {
        if (!add_cell(job, cursor, i, paradox_cell_of(cells, job->field[i]))) {
            return 0;
        }
    }
    return add_line_end(job);
}

/* Adds the lines of all records. */
static int add_records(struct job *job)
{
    uint64_t cursor;
    uint32_t answer = paradox_start(job->table.at, job->table.len, &cursor, 1);
    while (paradox_is_found(answer)) {
        if (!add_record(job, cursor)) {
            return 0;
        }
        answer = paradox_step(job->table.at, job->table.len, &cursor, 1);
    }
    return paradox_refusal(answer) == PARADOX_ACCEPTED || refused(paradox_refusal(answer));
}

static int write_text(const struct bytes *text)
{
    errno = 0;
    if (fwrite(text->at, 1, text->len, stdout) == text->len && fflush(stdout) == 0) {
        return 1;
    }
    fprintf(stderr, "standard output: %s\n", strerror(errno));
    return 0;
}

/* Reads the files that are named: the table, and the MB file if there is a second name. */
static int read_files(struct job *job, int count, char **names)
{
    job->has_mb = count > 1;
    return read_file(names[0], &job->table) && (!job->has_mb || read_file(names[1], &job->mb));
}

int main(int argc, char **argv)
{
    static struct job job;
    int written = 0;
    if (argc != 2 && argc != 3) {
        fputs(USAGE, stderr);
    } else {
        written = read_files(&job, argc - 1, argv + 1) && check_table(&job.table) && add_columns(&job)
            && add_records(&job) && write_text(&job.text);
    }
    free(job.text.at);
    free(job.mb.at);
    free(job.table.at);
    return written ? WRITTEN : FAILED;
}
