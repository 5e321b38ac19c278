/*
 * Three years of one user, the first advance of another, a charge of each and what is withheld for it, calls that are refused, how
 * much more sun is needed, a sheet to its archive and back, raw injected readings, and a sheet to the grid operator's text and
 * back: every field of every answer is printed.
 *
 *     gcc -std=c11 -Wall -Wextra -Werror -Iinclude include/example.c lib/libssp.a -o example
 *
 * example.out has what it prints. Its figures do not come from the library: the Python program that made tests/vectors (its
 * README.md) was given the same calls, and its answers were written out in this form. The arguments of a call, and the sums of
 * an answer, are unequal and wider than 32 bits where their type is, so that the output changes with a header that has two of
 * them exchanged or one too narrow.
 */
#include <inttypes.h>
#include <stdio.h>
#include <string.h>

#include "ssp.h"

enum { RECORD = 80, HYDRO = 270013, HOUSEHOLD = 7, HEADER = 32, NUMBERS_A_MONTH = 24, TICKS_A_EURO = 100000 };

/* What goes beyond a type that is too narrow: added to an argument, it is lost in one of 16 or of 32 bits. */
#define BEYOND_16 (UINT32_C(1) << 16)
#define BEYOND_32 (UINT64_C(1) << 32)

static uint8_t book[16 * RECORD];
static uint8_t sheet[SSP_SHEET_LENGTH];
static uint8_t archive[SSP_SHEET_LENGTH];
static uint8_t restored[SSP_SHEET_LENGTH];
static uint8_t text[SSP_MEASURES_LENGTH];

static void put(uint8_t *at, uint32_t number, int bytes)
{
    for (int k = 0; k < bytes; k++)
        at[k] = (uint8_t)(number >> 8 * k);
}

static uint32_t number(const uint8_t *at)
{
    return at[0] | (uint32_t)at[1] << 8 | (uint32_t)at[2] << 16 | (uint32_t)at[3] << 24;
}

/* The year sheet of the hydroelectric plant, by bands, with twelve equal months; each year it injects more. */
static void write_sheet(uint32_t year)
{
    const uint32_t more = 1001 * (year - 2013);
    const uint32_t month[NUMBERS_A_MONTH] = {
        20003,        12001, 8009,                  /* kWh withdrawn in F1, F2 and F3 */
        40007 + more, 25001, 15013,                 /* kWh injected */
        14203,        12801, 11107, 12900,          /* PUN by bands, and its mean */
        13109,        12403, 10801, 12200, 13400,   /* zone by bands, its mean, its mean of hours 8-20 */
        8001,         8500,  9000,  9500,           /* net rate of the four tiers */
        7003,         7200,  7500,  7900,           /* system rate of the four tiers */
        0,
    };

    memset(sheet, 0, sizeof sheet);
    put(sheet, HYDRO, 4);
    put(sheet + 4, year, 2);
    sheet[6] = 1;
    sheet[7] = 1;
    for (int m = 0; m < 12; m++)
        for (int k = 0; k < NUMBERS_A_MONTH; k++)
            put(sheet + HEADER + 4 * (NUMBERS_A_MONTH * m + k), month[k], 4);
}

static void answer(const char *call, uint32_t refusal, uint32_t record)
{
    printf("%s: refusal %" PRIu32 ", record %" PRIu32 "\n", call, refusal, record);
}

static void euro(const char *what, const char *sign, uint64_t ticks)
{
    printf("  %-16s %s%" PRIu64 ".%05" PRIu64 " EUR\n", what, sign, ticks / TICKS_A_EURO, ticks % TICKS_A_EURO);
}

static void amount(const char *what, uint64_t ticks)
{
    euro(what, "", ticks);
}

/* A signed amount: whether it is negative is asked of the field itself. */
static void balance(const char *what, int negative, uint64_t ticks)
{
    euro(what, negative ? "-" : "", negative ? 0 - ticks : ticks);
}

static void enrol(const char *call, uint32_t number, uint8_t user_class, uint8_t plant, uint8_t option, uint32_t power,
                  uint8_t month, uint8_t island)
{
    struct ssp_booked booked = ssp_enrol(book, sizeof book, number, user_class, plant, option, power, 2013, month, island);
    answer(call, booked.refusal, booked.record);
}

static void elect(const char *call, uint8_t option, uint32_t year, uint32_t month, uint32_t day)
{
    struct ssp_booked booked = ssp_elect(book, sizeof book, HYDRO, option, year, month, day);
    answer(call, booked.refusal, booked.record);
}

static void charge(const char *call, uint32_t number)
{
    struct ssp_booked booked = ssp_charge(book, sizeof book, number);
    answer(call, booked.refusal, booked.record);
}

/* What the newest entry of a user had withheld: whoever pays takes it off. The user is named by the index of its record. */
static void withheld(uint32_t user)
{
    const uint8_t *const entry = book + RECORD * number(book + RECORD * user + 12);
    amount("withheld", number(entry + 68) | (uint64_t)number(entry + 72) << 32);
}

static void advance(const char *call, uint32_t number, uint32_t year, uint8_t run, uint64_t rate, uint64_t estimate1,
                    uint64_t estimate2)
{
    struct ssp_advanced advanced = ssp_advance(book, sizeof book, number, year, run, rate, estimate1, estimate2);
    answer(call, advanced.refusal, advanced.record);
    amount("ticks", advanced.ticks);
}

static void close_with_sheet(const char *call)
{
    struct ssp_closed closed = ssp_close(book, sizeof book, sheet, sizeof sheet);
    answer(call, closed.refusal, closed.record);
    printf("  %-16s %" PRIu32 ", %" PRIu32 "\n", "month, place", closed.month, closed.place);
    amount("value", closed.value);
    amount("cost", closed.cost);
    amount("flat_rate", closed.flat_rate);
    amount("contribution", closed.contribution);
    amount("liquidation", closed.liquidation);
    amount("lapsed", closed.lapsed);
    balance("balance", closed.balance < 0, (uint64_t)closed.balance);
}

static void close_year(const char *call, uint32_t year)
{
    write_sheet(year);
    close_with_sheet(call);
}

static void statement(const char *call, uint32_t number)
{
    struct ssp_sums sums = ssp_statement(book, sizeof book, number);
    answer(call, sums.refusal, sums.record);
    printf("  %-16s %" PRIu64 "\n", "open_year", sums.open_year);
    amount("credit", sums.credit);
    amount("value", sums.value);
    amount("cost", sums.cost);
    amount("flat_rate", sums.flat_rate);
    amount("contribution", sums.contribution);
    amount("liquidation", sums.liquidation);
    amount("lapsed", sums.lapsed);
    balance("balance", sums.balance < 0, (uint64_t)sums.balance);
    amount("advances", sums.advances);
    amount("closed_advances", sums.closed_advances);
}

static void more_sun(const char *call, uint32_t month, uint32_t band)
{
    struct ssp_sun sun = ssp_more_sun(book, sizeof book, sheet, sizeof sheet, month, band);
    answer(call, sun.refusal, sun.record);
    printf("  %-16s %" PRIu32 ", %" PRIu32 "\n", "month, place", sun.month, sun.place);
    printf("  %-16s %" PRIu32 ", %" PRIu32 "\n", "found, added", sun.found, sun.added);
}

/* A year sheet of the plant that costs more than it is worth: more is withdrawn each month, and in May F3 has no price. */
static void write_costly_sheet(void)
{
    write_sheet(2016);
    for (int m = 0; m < 12; m++)
        put(sheet + HEADER + 4 * (NUMBERS_A_MONTH * m + SSP_WITHDRAWN_F1 - 1), 200003, 4);
    put(sheet + HEADER + 4 * (NUMBERS_A_MONTH * 4 + SSP_ZONE_F3 - 1), 0, 4);
}

/* A sheet to its archive and back. The kWh injected in F1, the fourth column of the archive, were 9 less in February. */
static void archive_and_restore(void)
{
    const int column = 3;

    write_sheet(2016);
    put(sheet + HEADER + 4 * (NUMBERS_A_MONTH + column), number(sheet + HEADER + 4 * column) - 9, 4);
    printf("archive: refusal %" PRIu32 "\n", ssp_archive(sheet, sizeof sheet, archive, sizeof archive));
    for (int m = 0; m < 4; m++)
        printf("  injected in F1   %" PRIu32 "\n", number(archive + HEADER + 4 * (12 * column + m)));
    printf("restore: refusal %" PRIu32 "\n", ssp_restore(archive, sizeof archive, restored, sizeof restored));
    printf("  %s\n", memcmp(sheet, restored, sizeof sheet) == 0 ? "the sheet as it was" : "another sheet");
    printf("archive of 1,183 bytes: refusal %" PRIu32 "\n", ssp_archive(sheet, 1183, archive, sizeof archive));
    printf("restore into 1,183 bytes: refusal %" PRIu32 "\n", ssp_restore(archive, sizeof archive, restored, 1183));
}

/* Raises the injected readings of the sheet; those of December show what the months before passed on. */
static void raise_injected(const char *call, uint32_t factor)
{
    const struct ssp_raised raised = ssp_raise(sheet, sizeof sheet, factor);
    const uint8_t *const december = sheet + HEADER + 4 * (NUMBERS_A_MONTH * 11 + SSP_INJECTED_F1 - 1);

    printf("%s: refusal %" PRIu32 ", month %" PRIu32 ", place %" PRIu32 "\n", call, raised.refusal, raised.month, raised.place);
    printf("  rests            %" PRIu32 " %" PRIu32 " %" PRIu32 "\n", raised.rest1, raised.rest2, raised.rest3);
    printf("  in December      %" PRIu32 " %" PRIu32 " %" PRIu32 "\n", number(december), number(december + 4), number(december + 8));
}

static void read_text(const char *call, const void *lines, size_t length)
{
    struct ssp_read read = ssp_read_measures(restored, sizeof restored, lines, length);
    printf("%s: refusal %" PRIu32 ", line %" PRIu32 ", month %" PRIu32 ", place %" PRIu32 "\n", call, read.refusal, read.line, read.month,
           read.place);
}

static struct ssp_written write_text(const char *call, size_t room)
{
    struct ssp_written written = ssp_write_measures(sheet, sizeof sheet, text, room);
    printf("%s: refusal %" PRIu32 ", length %" PRIu32 ", month %" PRIu32 ", place %" PRIu32 "\n", call, written.refusal, written.length,
           written.month, written.place);
    return written;
}

/* The lines of a sheet, and a sheet of their kWh alone. */
static void write_and_read_measures(void)
{
    write_sheet(2016);
    struct ssp_written written = write_text("write measures", sizeof text);
    printf("  %.*s", (int)(strchr((const char *)text, '\n') + 1 - (const char *)text), (const char *)text);
    memset(restored, 0, sizeof restored);
    read_text("read measures", text, written.length);
    for (int k = 0; k < 7; k++)
        printf("  number %d of the last month: %" PRIu32 "\n", k + 1, number(restored + HEADER + 4 * (NUMBERS_A_MONTH * 11 + k)));
    read_text("read measures without the last line feed", text, written.length - 1);
    read_text("read measures of no text", "", 0);
    read_text("read measures above the limit", "1;0;0;0;0;20000001;0\n", 21);
    put(sheet + HEADER + 4 * (NUMBERS_A_MONTH * 7 + SSP_INJECTED_F3 - 1), 20000001, 4);
    write_text("write measures above the limit", sizeof text);
    write_text("write measures into 674 bytes", sizeof text - 1);
}

int main(void)
{
    printf("interface of the header: %s that of the library\n", ssp_interface() == SSP_INTERFACE ? "equal to" : "NOT");
    printf("fresh of 81 bytes: refusal %" PRIu32 "\n", ssp_fresh(book, 81));
    printf("fresh: refusal %" PRIu32 "\n", ssp_fresh(book, sizeof book));

    /* A run-of-river plant of 140 kW behind another low voltage point, and a household on an island, since October. */
    enrol("enrol the plant", HYDRO, 5, 4, SSP_LIQUIDATION, 140000, 2, 0);
    enrol("enrol the household", HOUSEHOLD, 2, 1, SSP_CREDIT, 3000, 10, 1);
    enrol("enrol the plant again", HYDRO, 5, 4, SSP_LIQUIDATION, 140000, 2, 0);

    /* On credit in 2013. Neither year, month nor day is cut to 16 bits. */
    elect("elect credit", SSP_CREDIT, 2013, 12, 31);
    elect("elect in a year beyond 16 bits", SSP_LIQUIDATION, 2013 + BEYOND_16, 12, 31);
    elect("elect in a month beyond 16 bits", SSP_LIQUIDATION, 2013, 12 + BEYOND_16, 31);
    elect("elect on a day beyond 16 bits", SSP_LIQUIDATION, 2013, 12, 31 + BEYOND_16);

    /* The advances of 2013 go by the estimates. Neither year, rate nor estimates are cut. */
    advance("advance in June", HYDRO, 2013, SSP_JUNE, 24007, 510001, 430003);
    advance("advance for a year beyond 16 bits", HYDRO, 2013 + BEYOND_16, SSP_OCTOBER, 24007, 510001, 430003);
    advance("advance with a rate beyond 32 bits", HYDRO, 2013, SSP_OCTOBER, 24007 + BEYOND_32, 510001, 430003);
    advance("advance with a first estimate beyond 32 bits", HYDRO, 2013, SSP_OCTOBER, 24007, 510001 + BEYOND_32, 430003);
    advance("advance with a second estimate beyond 32 bits", HYDRO, 2013, SSP_OCTOBER, 24007, 510001, 430003 + BEYOND_32);
    advance("advance in October", HYDRO, 2013, SSP_OCTOBER, 24007, 510001, 430003);
    charge("charge the household", HOUSEHOLD);
    advance("advance in January", HOUSEHOLD, 2013, SSP_JANUARY, 9000, 5000, 4300);
    withheld(2);

    /* The plant's charge of 2013 finds a negative balance, and is withheld from the advance after it. */
    charge("charge the plant", HYDRO);
    charge("charge the plant again", HYDRO);
    charge("charge nobody", 8);

    /* A year on credit, too much of it advanced; a year of liquidation, in which that credit lapses; a year on credit. */
    write_sheet(2013);
    put(sheet + HEADER + 4 * (NUMBERS_A_MONTH * 10 + SSP_SYSTEM_TIER_2 - 1), 500001, 4);
    close_with_sheet("close 2013 with a rate above its limit");
    sheet[7] = 0;
    close_with_sheet("close 2013 with a single reading and bands");
    close_year("close 2013", 2013);
    withheld(1);
    elect("elect liquidation", SSP_LIQUIDATION, 2014, 12, 31);
    advance("advance in June", HYDRO, 2014, SSP_JUNE, 24007, 1, 2);
    withheld(1);
    charge("charge the plant in 2014", HYDRO);
    close_year("close 2014", 2014);
    withheld(1);
    elect("elect credit", SSP_CREDIT, 2015, 1, 31);
    close_year("close 2015", 2015);
    close_year("close 2015 again", 2015);
    advance("advance in June", HYDRO, 2016, SSP_JUNE, 23011, 1, 2);

    statement("statement of the plant", HYDRO);
    statement("statement of the household", HOUSEHOLD);
    statement("statement of nobody", 8);

    /* What is to be injected more, so that the year is worth what it costs. Neither month nor band is cut to 16 bits. */
    write_costly_sheet();
    more_sun("more sun in March, F2", 3, 2);
    more_sun("more sun in May, F3", 5, 3);
    more_sun("more sun in a month beyond 16 bits", 3 + BEYOND_16, 2);
    more_sun("more sun in a band beyond 16 bits", 3, 2 + BEYOND_16);
    put(sheet + HEADER + 4 * (NUMBERS_A_MONTH * 10 + SSP_SYSTEM_TIER_2 - 1), 500001, 4);
    more_sun("more sun with a rate above its limit", 3, 2);

    /* A byte of record 3, the first advance, that must be zero: the book is damaged, and every call names the record. */
    book[3 * RECORD + 79] = 1;
    enrol("enrol in a damaged book", 8, 2, 1, SSP_CREDIT, 3000, 10, 1);
    elect("elect in a damaged book", SSP_CREDIT, 2016, 1, 31);
    charge("charge in a damaged book", HYDRO);
    advance("advance in a damaged book", HYDRO, 2016, SSP_OCTOBER, 23011, 1, 2);
    close_year("close in a damaged book", 2016);
    statement("statement in a damaged book", HYDRO);
    more_sun("more sun in a damaged book", 3, 2);

    archive_and_restore();

    write_sheet(2016);
    raise_injected("raise by 5.1 %", 51);
    raise_injected("raise by a factor beyond 16 bits", 51 + BEYOND_16);
    put(sheet + HEADER + 4 * (NUMBERS_A_MONTH * 10 + SSP_INJECTED_F3 - 1), 4000000001, 4);
    raise_injected("raise a reading above its limit", 200);
    sheet[SSP_SHEET_LENGTH - 1] = 1;
    raise_injected("raise a sheet with a wrong zero word", 51);

    write_and_read_measures();
    return 0;
}
