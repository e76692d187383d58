/*
 * How the export program prints numbers, dates and texts: doubles against strtod and printf, dates against a calendar
 * that is turned day by day, all days that a table can have.
 */
#define main export_main
#include "../../examples/export.c"
#undef main

#include <float.h>

enum { RANDOM_NUMBERS = 3000 };

static unsigned passed;
static unsigned failed;

static void expect(int good, const char *what, const char *printed)
{
    if (good) {
        passed++;
        return;
    }
    failed++;
    printf("%s: printed %s\n", what, printed);
}

/* The bits of a double are those of the double printed, in no more digits than printf needs for that. */
static void expect_number(double number)
{
    char printed[MOST_OF_CELL + 1];
    char wanted[NUMBER_TEXT];
    int digits = 15;
    *put_number((uint8_t *)printed, number) = 0;
    do {
        snprintf(wanted, sizeof wanted, "%.*g", digits++, number);
    } while (digits <= 17 && strtod(wanted, NULL) != number);
    double read = strtod(printed, NULL);
    expect(memcmp(&read, &number, sizeof read) == 0, wanted, printed);
    expect(strcmp(printed, wanted) == 0, wanted, printed);
}

static void expect_printed(double number, const char *wanted)
{
    char printed[MOST_OF_CELL + 1];
    *put_number((uint8_t *)printed, number) = 0;
    expect(strcmp(printed, wanted) == 0, wanted, printed);
}

/* The doubles next to a number too, and all of them with the other sign. */
static void expect_numbers_around(double number)
{
    for (int sign = 0; sign < 2; sign++, number = -number) {
        for (int step = -1; step <= 1; step++) {
            uint64_t bits = paradox_from_double(number) + (uint64_t)(int64_t)step;
            double near;
            memcpy(&near, &bits, sizeof near);
            if (near - near == 0) {
                expect_number(near);
            }
        }
    }
}

/* Numbers that come one after another as if by chance: xorshift. */
static uint64_t next_random(void)
{
    static uint64_t state = 1985;
    state ^= state << 13;
    state ^= state >> 7;
    state ^= state << 17;
    return state;
}

static void numbers(void)
{
    static const double CHOSEN[] = {
        0.0, 1.0, 0.1, 0.15, 4.35, 18.9, 1e-4, 1e-5, 0.00005, 0.30000000000000004, 1.0 / 3, 2.5e-7, 1e10, 1e11, 1e14,
        1e15, 1e16, 99999999999.9999, 99999999999.99995, 999999999999999.0, 9007199254740991.0, 9007199254740992.0,
        1e22, 1e23, 1e300, DBL_MAX, DBL_MIN, 4.9406564584124654e-324,
    };
    for (size_t i = 0; i < sizeof CHOSEN / sizeof CHOSEN[0]; i++) {
        expect_numbers_around(CHOSEN[i]);
    }
    for (int i = 0; i < RANDOM_NUMBERS; i++) {
        uint64_t bits = next_random();
        double any;
        memcpy(&any, &bits, sizeof any);
        if (any - any == 0) {
            expect_number(any);
        }
        expect_numbers_around((double)(next_random() % 100000000) / 100);
        expect_numbers_around((double)(next_random() >> next_random() % 64) / 10000);
        expect_number((double)(next_random() >> 11) / 9007199254740992.0);
    }
}

static int days_of(int year, int month)
{
    static const int DAYS[] = {31, 28, 31, 30, 31, 30, 31, 31, 30, 31, 30, 31};
    int leap = (year % 4 == 0 && year % 100 != 0) || year % 400 == 0;
    return DAYS[month - 1] + (leap && month == 2 ? 1 : 0);
}

static int is_printed(const char *printed, int year, int month, int day)
{
    char wanted[] = "YYYY-MM-DD";
    for (int i = 3; i >= 0; i--, year /= 10) {
        wanted[i] = (char)('0' + year % 10);
    }
    wanted[5] = (char)('0' + month / 10);
    wanted[6] = (char)('0' + month % 10);
    wanted[8] = (char)('0' + day / 10);
    wanted[9] = (char)('0' + day % 10);
    return strcmp(printed, wanted) == 0;
}

/* The first day of the calendar that is printed wrongly is shown, and counts. */
static void dates(void)
{
    char printed[MOST_OF_CELL + 1] = {0};
    int year = 1;
    int month = 1;
    int day = 1;
    int good = 1;
    for (uint32_t number = 1; number <= 3652059 && good; number++) {
        *put_date((uint8_t *)printed, number) = 0;
        good = is_printed(printed, year, month, day);
        day++;
        if (day > days_of(year, month)) {
            day = 1;
            year += month / 12;
            month = month % 12 + 1;
        }
    }
    expect(good, "the calendar", printed);
    expect(year == 10000 && month == 1 && day == 1, "the calendar's end", printed);
}

static void expect_date(uint32_t number, const char *wanted)
{
    char printed[MOST_OF_CELL + 1];
    *put_date((uint8_t *)printed, number) = 0;
    expect(strcmp(printed, wanted) == 0, wanted, printed);
}

static void expect_integer(int32_t number, const char *wanted)
{
    char printed[MOST_OF_CELL + 1];
    *put_integer((uint8_t *)printed, number) = 0;
    expect(strcmp(printed, wanted) == 0, wanted, printed);
}

static void expect_text(const char *text, const char *wanted)
{
    char printed[MOST_OF_CELL + 1];
    *put_text((uint8_t *)printed, (const uint8_t *)text, strlen(text)) = 0;
    expect(strcmp(printed, wanted) == 0, wanted, printed);
}

/* A comma and the widest text there is take the room that is made for a cell, and no more. */
static void expect_widest(void)
{
    uint8_t printed[MOST_OF_CELL];
    uint8_t quotes[255];
    memset(quotes, '"', sizeof quotes);
    uint8_t *end = put_text(put_comma(printed, 1), quotes, sizeof quotes);
    expect(end == printed + sizeof printed, "a text of 255 quotes", "less or more");
}

int main(void)
{
    numbers();
    expect_printed(0.0, "0");
    expect_printed(-0.0, "-0");
    expect_printed(-0.15, "-0.15");
    dates();
    expect_date(36160, "0100-01-01");
    expect_date(728783, "1996-05-04");
    expect_date(693654, "1900-02-28");
    expect_date(693655, "1900-03-01");
    expect_date(730179, "2000-02-29");
    expect_date(3652059, "9999-12-31");
    expect_integer(0, "0");
    expect_integer(-32767, "-32767");
    expect_integer(2147483647, "2147483647");
    expect_integer(-2147483647, "-2147483647");
    expect_text("cog", "cog");
    expect_text(" a;b'\t", " a;b'\t");
    expect_text("a,b", "\"a,b\"");
    expect_text("3\" bolt", "\"3\"\" bolt\"");
    expect_text("a\rb", "\"a\rb\"");
    expect_text("a\nb", "\"a\nb\"");
    expect_widest();
    printf("printing: %u passed, %u failed\n", passed, failed);
    return failed == 0 ? 0 : 1;
}
