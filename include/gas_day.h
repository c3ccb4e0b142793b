/* The Gas Day for C: opening, default thresholds, an hour's settlement, its preview and the judge of an operator's quantities, a zone's closing, and the reader and the
 * writer of an hour's file.
 *
 * Link with libgas_day.a, or with libgas_day.so, which bindings/build makes and puts where it says; `pkg-config gas_day` names the flags.
 *
 * Every call answers a cause: 0, and then the answer and every lent area are what the rules name; or the number of the first cause that applies, and then every
 * lent area is as it was, the record is the one given, and the other values are 0. A call returns for every input. It keeps no pointer and no state, so calls may
 * run in parallel, each on areas of its own.
 *
 * Energy is in kWh, a price in millionths of a euro per kWh, money in millionths of a euro. Zones: 0 is H, 1 is L. An area is a pointer and its number of places;
 * the pointer of an area of 0 places is not used, and may be NULL.
 *
 * What the caller owes, and no call can check: an area's places may be read and, where it is not const, written; and no two areas of one call overlap, unless
 * both are const. Every wrong number and every wrong length is refused by its cause.
 *
 * Compare records member by member and not byte by byte: no struct has padding today, but a later version may add some.
 */
#ifndef GAS_DAY_H
#define GAS_DAY_H

#include <stddef.h>
#include <stdint.h>

#ifdef __cplusplus
extern "C" {
#endif

/* ---- the version of this header. A library of another version has other structs or other calls: compare before the first call. A call that is added, with its
 * causes and limits, changes nothing for older programs and leaves the version as it is. A library of this version may be older and lack it: a program that makes the
 * call is then not linked, or is ended by the loader, which names the call. Nothing is added to version 3 so far. Since version 2 gas_day_open is told the day's length,
 * and the record holds it; since version 3 the record holds each zone's totals, so that a program that was built with the header of version 2 would pass a shorter one */

#define GAS_DAY_VERSION UINT64_C(3)

uint64_t gas_day_version(void);

/* ---- limits */

#define GAS_DAY_TABLE_PLACES 256                   /* 128 for the H zone, then 128 for the L zone */
#define GAS_DAY_ZONE_PLACES 128
#define GAS_DAY_FILE_PLACES 128                    /* of each of the reader's four lists */
#define GAS_DAY_USERS_LEAST 1
#define GAS_DAY_USERS_MOST 128
#define GAS_DAY_LENGTH_LEAST 23                    /* hours of a day: on one of the two days of a clock change */
#define GAS_DAY_LENGTH_USUAL 24                    /* on every day but these two */
#define GAS_DAY_LENGTH_MOST 25                     /* on the other day of a clock change */
#define GAS_DAY_ENTRY_MOST INT64_C(50000000)       /* entry (EEA): 0 to this */
#define GAS_DAY_EXIT_LEAST INT64_C(-50000000)      /* exit (XEA): this to 0 */
#define GAS_DAY_TITLE_MOST INT64_C(50000000)       /* net title transfer (NCTTN): of either sign */
#define GAS_DAY_POOLING_MOST INT64_C(100000000)    /* pooling transfer (IPT): of either sign */
#define GAS_DAY_POSITION_MOST INT64_C(100000000)   /* a position, before or after settlement: of either sign */
#define GAS_DAY_THRESHOLD_MOST INT64_C(1000000000) /* upper: 0 to this; lower: minus this to 0 */
#define GAS_DAY_PRICE_MOST INT64_C(10000000)       /* of either sign */
#define GAS_DAY_TOTAL_MOST INT64_C(332800000000)   /* what was sold, or bought, in a zone so far: 0 to this */
#define GAS_DAY_FILE_MWH_DECIMALS 3                /* of an amount in MWh, in a file that is read: 12.345 means 12345 kWh */
#define GAS_DAY_WRITE_BYTES_MOST 7833              /* lent bytes that are enough for every file: 25, and 61 for each of 128 lines */

/* ---- causes: the first that applies, in the order of their numbers, but for 21, which comes after 1 and before 3. The words are the requirements'; those of 2, 6 and 21
 * are made of them, since the day has a length and totals, and 23 has "a quantity" for their "one" */

enum {
    GAS_DAY_ACCEPTED = 0,
    GAS_DAY_CAUSE_USERS = 1,         /* opening: user count not 1 to 128 */
    GAS_DAY_CAUSE_RECORD = 2,        /* record's user count not 1 to 128, length not 23, 24 or 25, hours not 0 to the length, a zone closed with fewer than the length,
                                      * a zone with no hours done whose totals are not zero, or a total below zero or above 332,800,000,000 */
    GAS_DAY_CAUSE_LENGTH = 3,        /* table not of 256 places, or a list or the scratch not of exactly the user count */
    GAS_DAY_CAUSE_ZONE = 4,          /* zone not 0 or 1 */
    GAS_DAY_CAUSE_CLOSED = 5,        /* zone closed */
    GAS_DAY_CAUSE_HOUR = 6,          /* hour is not hours done plus 1, or above the day's length; at closing, hours done below it */
    GAS_DAY_CAUSE_TABLE = 7,         /* table holds a position outside its range, a non-zero place at or beyond the user count in either zone,
                                      * or a non-zero place in a zone that is closed or has no hours done */
    GAS_DAY_CAUSE_TERMS = 8,         /* threshold or price out of range; month not 1 to 12 */
    GAS_DAY_CAUSE_AMOUNT = 9,        /* an amount out of range */
    GAS_DAY_CAUSE_POOLING = 10,      /* pooling amounts do not add to zero */
    GAS_DAY_CAUSE_POSITION = 11,     /* a position before settlement out of range */
    GAS_DAY_CAUSE_FILE_LENGTH = 12,  /* a reader's list not of 128 places */
    GAS_DAY_CAUSE_FILE_HEADER = 13,  /* header differs */
    GAS_DAY_CAUSE_FILE_FORM = 14,    /* a line's form or field count */
    GAS_DAY_CAUSE_FILE_FIELD = 15,   /* a field's number or zone letter */
    GAS_DAY_CAUSE_FILE_ORDER = 16,   /* h or z differs from the first line, or g is not the next place below 128 */
    GAS_DAY_CAUSE_FILE_EMPTY = 17,   /* no line after the header */
    GAS_DAY_CAUSE_WRITE_COUNT = 18,  /* the count is not 1 to 128, the zone not 0 or 1, or a list is not of the count's length */
    GAS_DAY_CAUSE_WRITE_NUMBER = 19, /* the hour or an amount has more than nine digits or the hour is negative */
    GAS_DAY_CAUSE_WRITE_ROOM = 20,   /* the lent bytes are too few */
    GAS_DAY_CAUSE_DAY_LENGTH = 21,   /* opening: length not 23, 24 or 25 */
    GAS_DAY_CAUSE_JUDGED_SIGN = 22,  /* a user who did not cause has a quantity or a causer's has the wrong sign */
    GAS_DAY_CAUSE_JUDGED_SHARE = 23, /* a quantity is 1 kWh or more off */
    GAS_DAY_CAUSE_JUDGED_SUM = 24,   /* the sum is wrong */
    GAS_DAY_CAUSE_TOTALS = 25        /* a total would pass the bound */
};

/* ---- the day record: given by value, answered by value. A zone's totals, sold and bought, are 0 at opening. An accepted hour of the zone adds its total to sold in an
 * excess and to bought in a shortfall; an accepted closing adds what it sold and bought. An hour, its preview or a closing after which a total of its own zone would be
 * above GAS_DAY_TOTAL_MOST is refused by cause 25, its last; a total that reaches this is no cause. Only an altered record can lead past it */

typedef struct {
    int64_t hours;  /* done, 0 to the day's length */
    int64_t closed; /* 0 or 1; a record with another number is refused by cause 2 */
    int64_t sold;   /* in kWh, as a size, of all accepted hours of the zone and its closing */
    int64_t bought; /* in kWh, as a size, of all accepted hours of the zone and its closing */
} gas_day_zone_day;

typedef struct {
    int64_t users;
    int64_t length; /* the hours that the day has: 23, 24 or 25 */
    gas_day_zone_day h;
    gas_day_zone_day l;
} gas_day_day;

/* ---- opening, for so many users and a day of so many hours: causes 1, 21, 3. Sets all 256 places to zero. A refusal answers a record of 0 users and length 0 */

typedef struct {
    uint64_t cause;
    gas_day_day day;
} gas_day_opened;

gas_day_opened gas_day_open(int64_t users, int64_t length, int64_t *table, size_t table_places);

/* ---- default thresholds by month (1 to 12) and zone: causes 4, 8 */

typedef struct {
    uint64_t cause;
    int64_t upper;
    int64_t lower;
} gas_day_thresholds;

gas_day_thresholds gas_day_default_thresholds(int64_t month, int64_t zone);

/* ---- an hour: causes 2 to 11, then 25. Fills quantity and money, changes the users' places of the zone in the table, sets the scratch to zero */

typedef struct {
    int64_t zone;
    int64_t hour; /* hours done in the zone, plus 1 */
    int64_t upper;
    int64_t lower;
    int64_t excess_price;
    int64_t shortfall_price;
} gas_day_hour_terms;

enum {
    GAS_DAY_WITHIN = 0, /* the market was within its thresholds */
    GAS_DAY_EXCESS = 1,
    GAS_DAY_SHORTFALL = 2
};

typedef struct {
    uint64_t cause;
    gas_day_day day;
    uint64_t side;   /* GAS_DAY_WITHIN, GAS_DAY_EXCESS or GAS_DAY_SHORTFALL */
    int64_t total;   /* of the excess or shortfall, as a size */
    uint64_t first;  /* the causers of places 0 to 63, place 0 at the lowest bit */
    uint64_t second; /* the causers of places 64 to 127 */
    uint64_t number; /* of causers */
} gas_day_hour;

gas_day_hour gas_day_settle_hour(gas_day_day day, int64_t *table, size_t table_places, gas_day_hour_terms terms, const int64_t *entry, size_t entry_places,
                                 const int64_t *exit, size_t exit_places, const int64_t *title, size_t title_places, const int64_t *pooling,
                                 size_t pooling_places, int64_t *quantity, size_t quantity_places, int64_t *money, size_t money_places, uint64_t *scratch,
                                 size_t scratch_places);

/* ---- a preview of an hour, before it is booked: causes 2 to 11, then 25. Fills quantity and money and sets the scratch to zero, as gas_day_settle_hour would. Puts the
 * users' positions after the hour into after, which has a place for each user, and only reads the table. Answers what gas_day_settle_hour would, but for the record, which
 * is the one given */

gas_day_hour gas_day_preview_hour(gas_day_day day, const int64_t *table, size_t table_places, gas_day_hour_terms terms, const int64_t *entry,
                                  size_t entry_places, const int64_t *exit, size_t exit_places, const int64_t *title, size_t title_places,
                                  const int64_t *pooling, size_t pooling_places, int64_t *quantity, size_t quantity_places, int64_t *money,
                                  size_t money_places, int64_t *after, size_t after_places, uint64_t *scratch, size_t scratch_places);

/* ---- the judge of an operator's own quantities for an hour, which may be rounded in another way than those of gas_day_settle_hour and still be right: causes 2 to 11, as
 * of an hour, then 22 to 24; not 25, since nothing is added to the record. quantity is the operator's list: any numbers, and a place for each user. All areas are only
 * read. Accepted are quantities that add to the excess, or to minus the shortfall, or to zero if there is neither; only causers have any, with the right sign, and each is
 * less than 1 kWh from the exact share. A causer may have 0. Those that gas_day_settle_hour gives are accepted; accepted ones keep the market within its thresholds and
 * let no position cross zero. 22 is looked at for every user before 23, and 23 for every user before 24. Answers the record that is given, accepted or refused */

typedef struct {
    uint64_t cause;
    gas_day_day day;
} gas_day_judged;

gas_day_judged gas_day_judge_hour(gas_day_day day, const int64_t *table, size_t table_places, gas_day_hour_terms terms, const int64_t *entry,
                                  size_t entry_places, const int64_t *exit, size_t exit_places, const int64_t *title, size_t title_places,
                                  const int64_t *pooling, size_t pooling_places, const int64_t *quantity, size_t quantity_places);

/* ---- a closing, after all hours of the day: causes 2 to 8, then 25. Fills quantity and money, sets the zone's places in the table to zero */

typedef struct {
    int64_t zone;
    int64_t excess_price;
    int64_t shortfall_price;
} gas_day_closing_terms;

typedef struct {
    uint64_t cause;
    gas_day_day day;
    int64_t sold;   /* by the closing alone, in kWh, as a size */
    int64_t bought; /* by the closing alone, in kWh, as a size */
} gas_day_closing;

gas_day_closing gas_day_close_zone(gas_day_day day, int64_t *table, size_t table_places, gas_day_closing_terms terms, int64_t *quantity,
                                   size_t quantity_places, int64_t *money, size_t money_places);

/* ---- the hour's file: causes 12 to 17. Fills the first as many places of each list as there are lines, and touches no others. A file may have any size: one with
 * more than 128 lines is refused like any other that breaks a rule. The lists are in kWh; an amount in the file is in kWh, or in MWh if it has a point: then one to six
 * digits stand before the point and exactly GAS_DAY_FILE_MWH_DECIMALS after it. A file may have amounts of both kinds */

typedef struct {
    uint64_t cause;
    int64_t hour;
    int64_t zone;
    int64_t lines; /* 1 to 128 */
} gas_day_file;

gas_day_file gas_day_read_hour_file(const uint8_t *file, size_t file_bytes, int64_t *entries, size_t entries_places, int64_t *exits, size_t exits_places,
                                    int64_t *titles, size_t titles_places, int64_t *poolings, size_t poolings_places);

/* ---- the hour's file, written: causes 18 to 20. Every line ends in CR LF, the last one too. Writes the text into the first of the lent bytes, answers how many those
 * are, and touches no others; exactly enough bytes are enough. Amounts are written in kWh. What is written is read to the same hour, zone and amounts. Ranges are the
 * settlement's affair, not the writer's */

typedef struct {
    uint64_t cause;
    int64_t bytes; /* of the text */
} gas_day_written;

gas_day_written gas_day_write_hour_file(int64_t hour, int64_t zone, int64_t users, const int64_t *entry, size_t entry_places, const int64_t *exit,
                                        size_t exit_places, const int64_t *title, size_t title_places, const int64_t *pooling, size_t pooling_places,
                                        uint8_t *file, size_t file_bytes);

#ifdef __cplusplus
}
#endif

#endif
