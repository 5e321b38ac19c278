/*
 * ssp.h: a net metering account book (scambio sul posto, by the GSE's rules of May 2013) in one buffer that the caller lends.
 *
 * Link with libssp.a, which scripts/library proves and writes to lib/. It is for x86-64, keeps no state, allocates nothing,
 * does no input or output, and takes only memcpy and memset from the C library. Every call returns.
 *
 * UNITS
 *
 *   Energy is in whole kWh. Prices and rates are in 0.00001 EUR per kWh. Amounts are in ticks of 0.00001 EUR: 1 EUR is
 *   100,000 ticks.
 *
 * BOOK
 *
 *   A book is 2 to 800 records of 80 bytes: `len` is a multiple of 80 from 160 to 64,000. The head takes one record, and each
 *   user, each advance and each closing one more. docs/FORMAT.md has the book byte by byte. A buffer becomes a book by
 *   ssp_fresh. It may then be stored, copied or moved between calls; the bytes are the whole of it.
 *
 *   Every call on a book but ssp_fresh checks the whole of it first, so any bytes are safe to pass: damage is answered with
 *   refusal 2.
 *
 * ANSWERS
 *
 *   `refusal` is 0 for an accepted call, or the number of the first objection that holds, in the order that each function
 *   names. A refused call leaves every byte of the book or of the sheet as it was, and every value in its answer is 0, but for
 *   `record`, `line`, `month` and `place`.
 *   `record` is, after refusal 2, the index of the faulty record, of several the smallest; after an accepted ssp_enrol, the
 *   index of the new record; after an accepted ssp_charge, that of the user's; else 0.
 *   `month`, 1 to 12, and `place`, 1 to 24, name after refusal 13 or 19 the earliest number of the sheet that is at fault; else
 *   both are 0.
 *
 *    1  The book's length is not a multiple of 80 from 160 to 64,000.
 *    2  The book is damaged: the record named is faulty.
 *    3  The book is full: the call needs one more record.
 *    4  The user number is 0, or a user has it already.
 *    5  A detail of the enrolment is out of its range.
 *    6  No user has the number.
 *    7  There is no such day, or the option is neither 0 nor 1.
 *    8  The day is outside the election's window, or the user's open year is 2100.
 *    9  The year of the advance is neither the user's open year nor the one after it, or is above 2099, or the run is not one of
 *       the three, is not due in that year, or was made for that year already.
 *   10  The rate is above 500,000, or an estimate is above 360,000,000 kWh.
 *   11  The sheet's length, its header or one of its zero words is wrong; of ssp_read_measures and ssp_write_measures a length.
 *   12  The sheet's year is not the user's open year, or is above 2099.
 *   13  A number of the sheet is above its limit: the one at `month` and `place`.
 *   14  A domestic user (class 1 or 2) withdrew more than 4,000,000 kWh in a month.
 *   16  The user's open year is charged already, or is above 2099.
 *   17  A line of the operator's text, the one at `line`, 1 to 13, is not seven numbers with semicolons, is not of its month, is
 *       missing or stands behind the twelfth.
 *   19  A single reading has kWh in F2 or F3: at `month` and `place`. The earliest number at fault decides between 13 and 19,
 *       and where it has both faults, 13 is answered.
 *   23  The month is not 1 to 12, or the band is none of the injected reading: a reading by bands has 1 to 3, a single one 1
 *       alone.
 *   26  The factor of ssp_raise is above 200 thousandths.
 *   27  A buffer of ssp_archive or ssp_restore is not of SSP_SHEET_LENGTH bytes.
 *
 * CHARGES
 *
 *   What ssp_charge charges is withheld, as far as each reaches, from each later payment: from an advance, and at a closing from
 *   a positive balance and then from the liquidation. Every answer is counted before that. So whoever pays takes off what the
 *   call withheld: bytes 68-75, little-endian, of the entry that it booked. That entry is the first of the user's: its index
 *   stands in bytes 12-15 of the user's record, whose own index ssp_enrol and ssp_charge answer. A record begins at 80 times its
 *   index. What is still to be withheld stands in bytes 56-63 of the user's record.
 *
 * MEMORY
 *
 *   `book` points to `len` bytes, `sheet` to `sheet_len`, `archive` to `archive_len` and `text` to `text_len`, that are valid for
 *   the whole call: readable, and what is not const also writable. They need no alignment. The buffers of one call must not
 *   overlap. During the call nobody else may write to them, nor read one that is not const: no other thread, no signal handler,
 *   no device. Once a call has returned, the library holds nothing. No length has a minimum or a maximum that the caller must
 *   keep. With length 0 no byte is read or written and the pointer may be NULL: such a book is refused with 1, such a sheet with
 *   11, and by ssp_archive and ssp_restore with 27; such a text of ssp_read_measures with 17.
 *
 * THREADS
 *
 *   One caller at a time for a book. Calls on different books may run at the same time, in any number.
 */
#ifndef SSP_H
#define SSP_H

#include <stddef.h>
#include <stdint.h>

/* Header and library belong together, since answers grow: this is to be the number that ssp_interface() answers. */
#define SSP_INTERFACE 7

#ifdef __cplusplus
extern "C" {
#endif

/* The options of a year: what becomes of value beyond the purchase cost. */
#define SSP_CREDIT 0      /* it is carried as credit */
#define SSP_LIQUIDATION 1 /* it is paid out, and the credit before it lapses */

/* The runs of advances. */
#define SSP_JUNE 1
#define SSP_OCTOBER 2
#define SSP_JANUARY 4

/* The length of a year sheet. docs/FORMAT.md has it byte by byte. */
#define SSP_SHEET_LENGTH 1184

/* The room that ssp_write_measures is lent: the lines of every sheet fit, and those of one need it all. */
#define SSP_MEASURES_LENGTH 675

/* The places of a month in a year sheet, counted from 1. */
enum ssp_place {
    SSP_WITHDRAWN_F1 = 1, /* kWh withdrawn; all of them for a single reading */
    SSP_WITHDRAWN_F2 = 2,
    SSP_WITHDRAWN_F3 = 3,
    SSP_INJECTED_F1 = 4, /* kWh injected; all of them for a single reading */
    SSP_INJECTED_F2 = 5,
    SSP_INJECTED_F3 = 6,
    SSP_PUN_F1 = 7, /* the national price */
    SSP_PUN_F2 = 8,
    SSP_PUN_F3 = 9,
    SSP_PUN_MEAN = 10,
    SSP_ZONE_F1 = 11, /* the price of the zone */
    SSP_ZONE_F2 = 12,
    SSP_ZONE_F3 = 13,
    SSP_ZONE_MEAN = 14,
    SSP_ZONE_DAY_MEAN = 15, /* of the hours 8-20 */
    SSP_NET_TIER_1 = 16,    /* the net rate of a tier */
    SSP_NET_TIER_2 = 17,
    SSP_NET_TIER_3 = 18,
    SSP_NET_TIER_4 = 19,
    SSP_SYSTEM_TIER_1 = 20, /* the system rate of a tier */
    SSP_SYSTEM_TIER_2 = 21,
    SSP_SYSTEM_TIER_3 = 22,
    SSP_SYSTEM_TIER_4 = 23,
    SSP_ZERO_WORD = 24 /* refusal 11 looks at it */
};

struct ssp_booked {
    uint32_t refusal;
    uint32_t record;
};

struct ssp_advanced {
    uint32_t refusal;
    uint32_t record;
    uint64_t ticks; /* what the run pays, before charges are withheld; 0 for a run of 1,500,000 ticks or less */
};

/* The sums of the year that was closed, in ticks, before charges are withheld. */
struct ssp_closed {
    uint32_t refusal;
    uint32_t record;
    uint32_t month;        /* after 13 or 19, 1 to 12; else 0 */
    uint32_t place;        /* after 13 or 19, one of enum ssp_place; else 0 */
    uint64_t value;        /* C, of the energy injected */
    uint64_t cost;         /* O, of the energy withdrawn */
    uint64_t flat_rate;    /* F, the flat-rate part for the energy exchanged */
    uint64_t contribution; /* what is due for the year */
    uint64_t liquidation;  /* paid out beside it, in a year of liquidation */
    uint64_t lapsed;       /* the credit that ended, in a year of liquidation */
    int64_t balance;       /* contribution less the year's advances; negative if too much was advanced */
};

/* A user's statement: sums over all closed years and all advances, in ticks but for the year. */
struct ssp_sums {
    uint32_t refusal;
    uint32_t record;
    uint64_t open_year; /* the year that is closed next */
    uint64_t credit;    /* the credit that stands */
    uint64_t value;
    uint64_t cost;
    uint64_t flat_rate;
    uint64_t contribution;
    uint64_t liquidation;
    uint64_t lapsed;
    int64_t balance;
    uint64_t advances;        /* of all years; less those of closed years, it is what was paid for the two open ones */
    uint64_t closed_advances; /* of the closed years */
};

/* What is left of the raised kWh after December, in thousandths of a kWh, 0 to 999 for each band. */
struct ssp_raised {
    uint32_t refusal;
    uint32_t month; /* after 13, 1 to 12; else 0 */
    uint32_t place; /* after 13, SSP_INJECTED_F1, _F2 or _F3; else 0 */
    uint32_t rest1; /* of F1 */
    uint32_t rest2; /* of F2 */
    uint32_t rest3; /* of F3 */
};

/* How much more is to be injected in a month and a band. */
struct ssp_sun {
    uint32_t refusal;
    uint32_t record;
    uint32_t month; /* after 13 or 19, 1 to 12; else 0 */
    uint32_t place; /* after 13 or 19, one of enum ssp_place; else 0 */
    uint32_t found; /* 1 if an addition within the field's limit does it, else 0 */
    uint32_t added; /* the least that does, in kWh; 0 where C reaches O already, and where none does */
};

/* The number of the interface that the library was built for: SSP_INTERFACE of its own header. */
uint32_t ssp_interface(void);

/*
 * Makes a fresh book of the buffer, whatever it held: one head, no user. Returns 0, or 1 for a length that does not fit, and
 * then leaves every byte.
 */
uint32_t ssp_fresh(uint8_t *book, size_t len);

/*
 * Enrols a user. Its open year is the year of activation. Refusals in the order 1 2 4 5 3.
 *
 *   number      any but 0 that no user of the book has
 *   user_class  1 domestic D2, 2 domestic D3, 3 lighting, 4 vehicle charging, 5 other low voltage, 6 to 8 the same three
 *               (lighting, vehicle charging, other) at medium voltage, 9 high voltage, 10 and 11 extra high voltage (below
 *               380 kV, from 380 kV)
 *   plant       1 to 16, the kinds of Table 1 of the GSE's rules in printed order (1 photovoltaic); 17 non-renewable
 *               high-efficiency cogeneration
 *   option      SSP_CREDIT or SSP_LIQUIDATION
 *   power       of the plant, 1 to 200,000 W
 *   year        of activation, 2013 to 2099
 *   month       of activation, 1 to 12
 *   island      1 for a network that is not interconnected, else 0
 */
struct ssp_booked ssp_enrol(uint8_t *book, size_t len, uint32_t number, uint8_t user_class, uint8_t plant, uint8_t option,
                            uint32_t power, uint16_t year, uint8_t month, uint8_t island);

/*
 * Sets the option of a user's open year and of those after it; the last election called holds. Refusals in the order 1 2 6 7 8.
 *
 *   option            SSP_CREDIT or SSP_LIQUIDATION
 *   year, month, day  the day of the election, of the Gregorian calendar: from 1 January of the open year to 31 January of the
 *                     year after it
 */
struct ssp_booked ssp_elect(uint8_t *book, size_t len, uint32_t number, uint8_t option, uint32_t year, uint32_t month,
                            uint32_t day);

/*
 * Charges a user's open year, once: 15 EUR for a plant of up to 3,000 W, 30 EUR up to 20,000 W, 45 EUR above. It pays nothing and
 * adds no record; what it charges is withheld from the payments after it (CHARGES, above). Refusals in the order 1 2 6 16.
 */
struct ssp_booked ssp_charge(uint8_t *book, size_t len, uint32_t number);

/*
 * Books a run of advances for the open year or for the one after it: measures come late, and a run need not wait for the closing.
 * Each of the two years has its own runs and advances, and a closing moves the later year's up. June pays for the first half of
 * the year and October for the second; in the year of activation, October pays for both halves if the plant started in March to
 * August, January for both if it started in September to November, and there is no run if it started in December. The amount is
 * the rate times the kWh exchanged in that half of the last closed year, for either year, or times the estimate if no year is
 * closed. Refusals in the order 1 2 6 9 10 3.
 *
 *   year                  the open year or the one after it, at most 2099
 *   run                   SSP_JUNE, SSP_OCTOBER or SSP_JANUARY
 *   rate                  0 to 500,000, in 0.00001 EUR per kWh
 *   estimate1, estimate2  of the halves, 0 to 360,000,000 kWh; both are checked even where they are not used
 */
struct ssp_advanced ssp_advance(uint8_t *book, size_t len, uint32_t number, uint32_t year, uint8_t run, uint64_t rate,
                                uint64_t estimate1, uint64_t estimate2);

/*
 * Closes the open year of the user that the sheet names, from the sheet's readings and prices, and opens the next one. Refusals
 * in the order 1 2 11 6 12 13 14 3, with 19 at the place of 13.
 *
 *   sheet  the grid operator's year sheet of SSP_SHEET_LENGTH bytes, little-endian. Header: 0-3 user number, 4-5 year, 6
 *          withdrawn reading and 7 injected reading (0 single, 1 by bands), 8-31 zero. Then twelve months of 24 numbers of 32
 *          bits: withdrawn F1 F2 F3, injected F1 F2 F3 (at most 20,000,000 kWh each; a single reading stands at F1), PUN F1 F2
 *          F3, PUN mean, zone F1 F2 F3, zone mean, zone mean of hours 8-20, net rate of tiers 1-4, system rate of tiers 1-4
 *          (at most 500,000 each), zero
 */
struct ssp_closed ssp_close(uint8_t *book, size_t len, const uint8_t *sheet, size_t sheet_len);

/* States a user's account. Never writes. Refusals in the order 1 2 6. */
struct ssp_sums ssp_statement(const uint8_t *book, size_t len, uint32_t number);

/*
 * Finds the least kWh that, added to the injected reading of one month and band of a year sheet, bring C, the value of the energy
 * injected, to O, the cost of the energy withdrawn, or above. It is priced for the user that the sheet names: by its plant, and
 * on an island by the PUN. The field with the addition stays within 20,000,000 kWh; `found` tells whether any such addition
 * does. Never writes. The sheet's year may be any. Refusals in the order 1 2 11 6 13 23, with 19 at the place of 13.
 *
 *   sheet  as for ssp_close
 *   month  1 to 12
 *   band   1 to 3; 1 alone for a single reading
 */
struct ssp_sun ssp_more_sun(const uint8_t *book, size_t len, const uint8_t *sheet, size_t sheet_len, uint32_t month,
                            uint32_t band);

/*
 * Writes the archive of a year sheet: the header, then 24 columns of twelve, one for each quantity over the year, each number
 * after the first of its column replaced by its difference from the one before, modulo 2^32. docs/FORMAT.md has it byte by byte.
 * Nothing of the sheet is checked but its length. Returns 0, or 27 where either length is not SSP_SHEET_LENGTH, and then leaves
 * every byte of the archive.
 */
uint32_t ssp_archive(const uint8_t *sheet, size_t sheet_len, uint8_t *archive, size_t archive_len);

/*
 * Writes the year sheet of an archive: what ssp_archive made of a sheet becomes that sheet again, byte by byte. Any bytes are an
 * archive. Returns 0, or 27 where either length is not SSP_SHEET_LENGTH, and then leaves every byte of the sheet.
 */
uint32_t ssp_restore(const uint8_t *archive, size_t archive_len, uint8_t *sheet, size_t sheet_len);

/*
 * Raises the injected kWh of a year sheet, of an operator who sends them before the loss factor. Each becomes itself times 1,000
 * and the factor, divided by 1,000; the rest of the division passes to the same band of the next month, and what passes on from
 * December is answered. So for each band 1,000 times the raised kWh of the year plus the rest is the raw sum times 1,000 and the
 * factor. The raised sheet is what ssp_close expects: raise a sheet once, before it is closed. No other byte is written, and a
 * factor of 0 leaves the sheet as it is. Refusals in the order 11 26 13.
 *
 *   sheet   a year sheet as ssp_close takes it, whatever its header bytes 8 and 12-15 hold. Only the raised kWh are held to their
 *           limit: a raw reading may be any number of 32 bits, and no other number is judged
 *   factor  in thousandths, 0 to 200: 51 for 5.1 %
 */
struct ssp_raised ssp_raise(uint8_t *sheet, size_t sheet_len, uint32_t factor);

struct ssp_read {
    uint32_t refusal;
    uint32_t line;  /* after 17: the line, 1 to 13 */
    uint32_t month; /* after 13: the month, 1 to 12 */
    uint32_t place; /* after 13: its place in the month, 1 to 6 */
};

/*
 * Fills the 72 kWh of a year sheet from the grid operator's text, and touches no other byte. The text is twelve lines, one for
 * each month in order, of seven decimal numbers with semicolons between: month, three withdrawn, three injected, at most
 * 20,000,000 kWh each. A number has no sign, blank or needless zero in front, and a line feed ends each line, the last too.
 * docs/FORMAT.md has an example. Of the sheet nothing is looked at but its length. Refusals: 11 where sheet_len is not
 * SSP_SHEET_LENGTH; then line by line 17 or 13: the earlier line decides, and in one line 17. A refusal leaves every byte of the
 * sheet.
 */
struct ssp_read ssp_read_measures(uint8_t *sheet, size_t sheet_len, const uint8_t *text, size_t text_len);

struct ssp_written {
    uint32_t refusal;
    uint32_t length; /* of the lines */
    uint32_t month;  /* after 13: the month, 1 to 12 */
    uint32_t place;  /* after 13: its place in the month, 1 to 6 */
};

/*
 * Writes the twelve lines of a sheet at the front of `text`, which leaves the bytes behind them, and answers their length. What
 * was written, ssp_read_measures reads back into any sheet. Refusals: 11 where sheet_len is not SSP_SHEET_LENGTH or text_len not
 * SSP_MEASURES_LENGTH; then 13 for the first kWh above its limit. A refusal leaves every byte of `text`.
 */
struct ssp_written ssp_write_measures(const uint8_t *sheet, size_t sheet_len, uint8_t *text, size_t text_len);

#ifdef __cplusplus
}
#endif

#endif
