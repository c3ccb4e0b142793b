/* The header against the library: a worked day through every call, every member of every answer, and every constant by what the library does with it. A struct with two
 * members exchanged, a call with two areas exchanged, a cause by another's number or a limit that is off by one fails here (exchanges.py tries them all). The figures
 * are worked out by hand from documents 01 and 02. */
#include "gas_day.h"

#include <inttypes.h>
#include <stdio.h>
#include <stdlib.h>
#include <string.h>

static int checks, wrong;

#define IS(given, expected) is((int64_t)(given), (int64_t)(expected), #given, __LINE__)

static void is(int64_t given, int64_t expected, const char *text, int line) {
    checks++;
    if (given != expected) {
        wrong++;
        printf("header: line %d: %s is %" PRId64 ", not %" PRId64 "\n", line, text, given, expected);
    }
}

/* ---- what the calls are lent */

enum { USERS = 67, ODD = 77 };

/* Each with a place more than a call takes, so that it can be lent too long. */
typedef struct {
    int64_t table[GAS_DAY_TABLE_PLACES + 1];
    int64_t entry[USERS + 1], exit[USERS + 1], title[USERS + 1], pooling[USERS + 1], quantity[USERS + 1], money[USERS + 1], after[USERS + 1];
    uint64_t scratch[USERS + 1];
} areas;

static areas lent;

/* No amounts; lists and scratch that hold something else. */
static void no_amounts(void) {
    for (int g = 0; g <= USERS; g++) {
        lent.entry[g] = lent.exit[g] = lent.title[g] = lent.pooling[g] = 0;
        lent.quantity[g] = lent.money[g] = lent.after[g] = ODD;
        lent.scratch[g] = ODD;
    }
}

static gas_day_hour settle(gas_day_day day, gas_day_hour_terms terms) {
    size_t users = day.users == 1 ? 1 : USERS;
    return gas_day_settle_hour(day, lent.table, GAS_DAY_TABLE_PLACES, terms, lent.entry, users, lent.exit, users, lent.title, users, lent.pooling, users,
                               lent.quantity, users, lent.money, users, lent.scratch, users);
}

/* The areas of a preview in their order, as the places of their lengths. Those of a judge are the first of them, up to the quantities. */
enum { TABLE, ENTRY, EXIT, TITLE, POOLING, QUANTITY, MONEY, AFTER, SCRATCH, AREAS };

typedef struct {
    size_t of[AREAS];
} lengths;

static lengths right_lengths(void) {
    lengths places;
    for (int area = 0; area < AREAS; area++) places.of[area] = area == TABLE ? GAS_DAY_TABLE_PLACES : USERS;
    return places;
}

static gas_day_hour preview_from(const int64_t *table, lengths places, gas_day_day day, gas_day_hour_terms terms) {
    const size_t *of = places.of;
    return gas_day_preview_hour(day, table, of[TABLE], terms, lent.entry, of[ENTRY], lent.exit, of[EXIT], lent.title, of[TITLE], lent.pooling, of[POOLING],
                                lent.quantity, of[QUANTITY], lent.money, of[MONEY], lent.after, of[AFTER], lent.scratch, of[SCRATCH]);
}

static gas_day_hour preview(gas_day_day day, gas_day_hour_terms terms) { return preview_from(lent.table, right_lengths(), day, terms); }

/* The operator's quantities are those that are lent. */
static gas_day_judged judge_of(lengths places, gas_day_day day, gas_day_hour_terms terms) {
    const size_t *of = places.of;
    return gas_day_judge_hour(day, lent.table, of[TABLE], terms, lent.entry, of[ENTRY], lent.exit, of[EXIT], lent.title, of[TITLE], lent.pooling, of[POOLING],
                              lent.quantity, of[QUANTITY]);
}

static gas_day_closing close_zone(gas_day_day day, gas_day_closing_terms terms) {
    return gas_day_close_zone(day, lent.table, GAS_DAY_TABLE_PLACES, terms, lent.quantity, USERS, lent.money, USERS);
}

static gas_day_zone_day zone_of(int64_t hours, int64_t closed, int64_t sold, int64_t bought) {
    gas_day_zone_day zone;
    zone.hours = hours;
    zone.closed = closed;
    zone.sold = sold;
    zone.bought = bought;
    return zone;
}

static void zone_is(gas_day_zone_day zone, gas_day_zone_day expected) {
    IS(zone.hours, expected.hours);
    IS(zone.closed, expected.closed);
    IS(zone.sold, expected.sold);
    IS(zone.bought, expected.bought);
}

static void day_is(gas_day_day day, int64_t users, int64_t length, gas_day_zone_day h, gas_day_zone_day l) {
    IS(day.users, users);
    IS(day.length, length);
    zone_is(day.h, h);
    zone_is(day.l, l);
}

static void same_day(gas_day_day day, gas_day_day given) { day_is(day, given.users, given.length, given.h, given.l); }

static void hour_is(gas_day_hour hour, uint64_t cause, uint64_t side, int64_t total, uint64_t first, uint64_t second, uint64_t number) {
    IS(hour.cause, cause);
    IS(hour.side, side);
    IS(hour.total, total);
    IS(hour.first, first);
    IS(hour.second, second);
    IS(hour.number, number);
}

/* A judge answers this cause, 0 if it accepts, with the same record and every area as it was. */
static void is_judged(gas_day_judged answer, gas_day_day day, uint64_t cause, const areas *before) {
    IS(answer.cause, cause);
    same_day(answer.day, day);
    IS(memcmp(before, &lent, sizeof lent), 0);
}

static void judged(gas_day_day day, gas_day_hour_terms terms, uint64_t cause) {
    areas before = lent;
    is_judged(judge_of(right_lengths(), day, terms), day, cause, &before);
}

/* The hour, settled after its preview. The preview gives the same answer, but for the record, which is the one given; the same quantities, money and scratch; and in a
 * list of their own the positions that the table has after the hour. It leaves the table, the amounts and what lies behind the lists. The quantities are those that a
 * judge of the same hour accepts. */
static gas_day_hour settle_previewed(gas_day_day day, gas_day_hour_terms terms) {
    areas before = lent;
    gas_day_hour seen = preview(day, terms);
    areas shown = lent, expected = before;
    lent = before;
    gas_day_hour hour = settle(day, terms);
    hour_is(seen, hour.cause, hour.side, hour.total, hour.first, hour.second, hour.number);
    same_day(seen.day, day);
    memcpy(expected.quantity, lent.quantity, USERS * sizeof *lent.quantity);
    memcpy(expected.money, lent.money, USERS * sizeof *lent.money);
    memcpy(expected.scratch, lent.scratch, USERS * sizeof *lent.scratch);
    memcpy(expected.after, &lent.table[terms.zone * GAS_DAY_ZONE_PLACES], USERS * sizeof *lent.after);
    IS(memcmp(&expected, &shown, sizeof shown), 0);
    areas settled = lent;
    lent = before;
    memcpy(lent.quantity, settled.quantity, USERS * sizeof *lent.quantity);
    judged(day, terms, GAS_DAY_ACCEPTED);
    lent = settled;
    return hour;
}

/* A refusal is by this cause, with the same record, the other values 0 and every area as it was. */
static void is_refused(gas_day_hour hour, gas_day_day day, uint64_t cause, const areas *before) {
    hour_is(hour, cause, 0, 0, 0, 0, 0);
    same_day(hour.day, day);
    IS(memcmp(before, &lent, sizeof lent), 0);
}

/* An hour, its preview and its judge are refused so, and a closing is. The list that is judged is mostly one that would be refused too, if it came to that. */
static void hour_refused(gas_day_day day, gas_day_hour_terms terms, uint64_t cause) {
    areas before = lent;
    is_refused(settle(day, terms), day, cause, &before);
    is_refused(preview(day, terms), day, cause, &before);
    judged(day, terms, cause);
}

static void closing_refused(gas_day_day day, gas_day_closing_terms terms, uint64_t cause) {
    areas before = lent;
    gas_day_closing closing = close_zone(day, terms);
    IS(closing.cause, cause);
    same_day(closing.day, day);
    IS(closing.sold, 0);
    IS(closing.bought, 0);
    IS(memcmp(&before, &lent, sizeof lent), 0);
}

static void hour_accepted(gas_day_day day, gas_day_hour_terms terms) {
    areas before = lent;
    IS(settle_previewed(day, terms).cause, GAS_DAY_ACCEPTED);
    lent = before;
}

static gas_day_hour_terms terms_of(int64_t zone, int64_t hour, int64_t upper, int64_t lower, int64_t excess_price, int64_t shortfall_price) {
    gas_day_hour_terms terms;
    terms.zone = zone;
    terms.hour = hour;
    terms.upper = upper;
    terms.lower = lower;
    terms.excess_price = excess_price;
    terms.shortfall_price = shortfall_price;
    return terms;
}

/* Terms that keep every market that can be within its thresholds. */
static gas_day_hour_terms wide(int64_t zone, int64_t hour) {
    return terms_of(zone, hour, GAS_DAY_THRESHOLD_MOST, -GAS_DAY_THRESHOLD_MOST, GAS_DAY_PRICE_MOST, -GAS_DAY_PRICE_MOST);
}

/* ---- opening and thresholds */

static gas_day_day opened_day(int64_t length) {
    for (int p = 0; p < GAS_DAY_TABLE_PLACES; p++) lent.table[p] = ODD;
    gas_day_opened opened = gas_day_open(USERS, length, lent.table, GAS_DAY_TABLE_PLACES);
    IS(opened.cause, GAS_DAY_ACCEPTED);
    day_is(opened.day, USERS, length, zone_of(0, 0, 0, 0), zone_of(0, 0, 0, 0));
    for (int p = 0; p < GAS_DAY_TABLE_PLACES; p++) IS(lent.table[p], 0);
    return opened.day;
}

static void open_refused(int64_t users, int64_t length, size_t places, uint64_t cause) {
    static int64_t table[GAS_DAY_TABLE_PLACES + 1];
    table[0] = table[places == 0 ? 0 : places - 1] = ODD;
    gas_day_opened opened = gas_day_open(users, length, places == 0 ? NULL : table, places);
    IS(opened.cause, cause);
    day_is(opened.day, 0, 0, zone_of(0, 0, 0, 0), zone_of(0, 0, 0, 0));
    IS(table[0], ODD);
    IS(table[places == 0 ? 0 : places - 1], ODD);
}

static void openings(void) {
    static int64_t table[GAS_DAY_TABLE_PLACES];
    IS(gas_day_open(GAS_DAY_USERS_LEAST, GAS_DAY_LENGTH_LEAST, table, GAS_DAY_TABLE_PLACES).cause, GAS_DAY_ACCEPTED);
    IS(gas_day_open(GAS_DAY_USERS_MOST, GAS_DAY_LENGTH_MOST, table, GAS_DAY_TABLE_PLACES).day.users, GAS_DAY_USERS_MOST);
    IS(gas_day_open(GAS_DAY_USERS_MOST, GAS_DAY_LENGTH_USUAL, table, GAS_DAY_TABLE_PLACES).day.length, 24);
    open_refused(GAS_DAY_USERS_LEAST - 1, GAS_DAY_LENGTH_USUAL, GAS_DAY_TABLE_PLACES, GAS_DAY_CAUSE_USERS);
    open_refused(GAS_DAY_USERS_MOST + 1, GAS_DAY_LENGTH_USUAL, GAS_DAY_TABLE_PLACES, GAS_DAY_CAUSE_USERS);
    open_refused(GAS_DAY_USERS_MOST, GAS_DAY_LENGTH_LEAST - 1, GAS_DAY_TABLE_PLACES, GAS_DAY_CAUSE_DAY_LENGTH);
    open_refused(GAS_DAY_USERS_MOST, GAS_DAY_LENGTH_MOST + 1, GAS_DAY_TABLE_PLACES, GAS_DAY_CAUSE_DAY_LENGTH);
    open_refused(GAS_DAY_USERS_MOST, GAS_DAY_LENGTH_USUAL, GAS_DAY_TABLE_PLACES + 1, GAS_DAY_CAUSE_LENGTH);
    open_refused(GAS_DAY_USERS_MOST, GAS_DAY_LENGTH_USUAL, GAS_DAY_TABLE_PLACES - 1, GAS_DAY_CAUSE_LENGTH);
    open_refused(GAS_DAY_USERS_MOST, GAS_DAY_LENGTH_USUAL, 0, GAS_DAY_CAUSE_LENGTH);
    open_refused(GAS_DAY_USERS_MOST + 1, INT64_MAX, 0, GAS_DAY_CAUSE_USERS);
    open_refused(GAS_DAY_USERS_MOST, INT64_MIN, 0, GAS_DAY_CAUSE_DAY_LENGTH);
}

static void thresholds(int64_t month, int64_t zone, uint64_t cause, int64_t upper) {
    gas_day_thresholds answer = gas_day_default_thresholds(month, zone);
    IS(answer.cause, cause);
    IS(answer.upper, upper);
    IS(answer.lower, -upper);
}

static void default_thresholds(void) {
    thresholds(7, 0, GAS_DAY_ACCEPTED, 30000000);
    thresholds(12, 1, GAS_DAY_ACCEPTED, 13000000);
    thresholds(7, 2, GAS_DAY_CAUSE_ZONE, 0);
    thresholds(13, 1, GAS_DAY_CAUSE_TERMS, 0);
}

/* ---- a worked day: an excess in the H zone, a shortfall in the L zone, the H zone to its closing */

/* Places 1, 64, 65 and 66 at 10 kWh, place 2 at -4: a market of 36, 9 above its upper threshold of 27. Of the exact shares of 9 / 4 the spare kWh goes to place 1. */
static gas_day_day excess(gas_day_day day) {
    no_amounts();
    lent.entry[1] = 15;
    lent.exit[1] = -5;
    lent.title[64] = lent.title[65] = 10;
    lent.entry[66] = 9;
    lent.pooling[66] = 1;
    lent.pooling[2] = -1;
    lent.exit[2] = -3;
    gas_day_hour hour = settle_previewed(day, terms_of(0, 1, 27, -1000, 20, 25));
    day_is(hour.day, USERS, day.length, zone_of(1, 0, 9, 0), zone_of(0, 0, 0, 0));
    hour_is(hour, GAS_DAY_ACCEPTED, GAS_DAY_EXCESS, 9, 2, 7, 4);
    for (int g = 0; g < USERS; g++) {
        int64_t quantity = g == 1 ? 3 : g >= 64 ? 2 : 0;
        IS(lent.quantity[g], quantity);
        IS(lent.money[g], 20 * quantity);
        IS(lent.table[g], (g == 1 || g >= 64 ? 10 : g == 2 ? -4 : 0) - quantity);
        IS(lent.table[GAS_DAY_ZONE_PLACES + g], 0);
        IS(lent.scratch[g], 0);
    }
    return hour.day;
}

/* Place 0 at -8 and place 66 at -4: a market of -12, 6 below its lower threshold of -6, of which 4 and 2 are bought. */
static gas_day_day shortfall(gas_day_day day) {
    no_amounts();
    lent.exit[0] = -8;
    lent.title[66] = -4;
    gas_day_hour hour = settle_previewed(day, terms_of(1, 1, 1000, -6, 20, 25));
    day_is(hour.day, USERS, day.length, zone_of(1, 0, 9, 0), zone_of(1, 0, 0, 6));
    hour_is(hour, GAS_DAY_ACCEPTED, GAS_DAY_SHORTFALL, 6, 1, 4, 2);
    IS(lent.quantity[0], -4);
    IS(lent.quantity[66], -2);
    IS(lent.money[0], -100);
    IS(lent.money[66], -50);
    IS(lent.table[GAS_DAY_ZONE_PLACES], -4);
    IS(lent.table[GAS_DAY_ZONE_PLACES + 66], -2);
    IS(lent.table[66], 8);
    return hour.day;
}

/* The H zone's hours from 2 to the day's last, within their thresholds; none after it, and no closing before it. */
static gas_day_day to_the_last_hour(gas_day_day day) {
    gas_day_closing_terms closing = {0, 1, 1};
    for (int64_t h = 2; h <= day.length; h++) {
        no_amounts();
        closing_refused(day, closing, GAS_DAY_CAUSE_HOUR);
        gas_day_hour hour = settle_previewed(day, wide(0, h));
        day_is(hour.day, USERS, day.length, zone_of(h, 0, 9, 0), zone_of(1, 0, 0, 6));
        hour_is(hour, GAS_DAY_ACCEPTED, GAS_DAY_WITHIN, 0, 0, 0, 0);
        day = hour.day;
    }
    hour_refused(day, wide(0, day.length + 1), GAS_DAY_CAUSE_HOUR);
    return day;
}

/* Places 1, 64, 65 and 66 stand at 7, 8, 8 and 8, place 2 at -4: 31 are sold and 4 bought, 31 after the 9 of the first hour. */
static gas_day_day closing(gas_day_day day) {
    no_amounts();
    gas_day_closing_terms terms;
    terms.zone = 0;
    terms.excess_price = 30;
    terms.shortfall_price = 35;
    gas_day_closing answer = close_zone(day, terms);
    IS(answer.cause, GAS_DAY_ACCEPTED);
    day_is(answer.day, USERS, day.length, zone_of(day.length, 1, 40, 4), zone_of(1, 0, 0, 6));
    IS(answer.sold, 31);
    IS(answer.bought, 4);
    for (int g = 0; g < USERS; g++) {
        int64_t quantity = g == 1 ? 7 : g >= 64 ? 8 : g == 2 ? -4 : 0;
        IS(lent.quantity[g], quantity);
        IS(lent.money[g], quantity * (quantity > 0 ? 30 : 35));
        IS(lent.table[g], 0);
    }
    IS(lent.table[GAS_DAY_ZONE_PLACES], -4);
    hour_refused(answer.day, wide(0, day.length), GAS_DAY_CAUSE_CLOSED);
    closing_refused(answer.day, terms, GAS_DAY_CAUSE_CLOSED);
    return answer.day;
}

static gas_day_day worked_day(int64_t length) { return closing(to_the_last_hour(shortfall(excess(opened_day(length))))); }

/* ---- every limit of an hour, and one beyond it, on a day whose L zone has an hour done */

/* In turn the limit, which is accepted, and one beyond it, which is refused by this cause. */
static void limit(gas_day_day day, int64_t *place, int64_t most, int64_t beyond, uint64_t cause) {
    gas_day_hour_terms terms = wide(1, day.l.hours + 1);
    int64_t kept = *place;
    *place = most;
    hour_accepted(day, terms);
    *place = beyond;
    hour_refused(day, terms, cause);
    *place = kept;
}

static void limits_of_amounts(gas_day_day day) {
    no_amounts();
    limit(day, &lent.entry[66], GAS_DAY_ENTRY_MOST, GAS_DAY_ENTRY_MOST + 1, GAS_DAY_CAUSE_AMOUNT);
    limit(day, &lent.exit[66], GAS_DAY_EXIT_LEAST, GAS_DAY_EXIT_LEAST - 1, GAS_DAY_CAUSE_AMOUNT);
    limit(day, &lent.title[66], GAS_DAY_TITLE_MOST, GAS_DAY_TITLE_MOST + 1, GAS_DAY_CAUSE_AMOUNT);
    limit(day, &lent.title[66], -GAS_DAY_TITLE_MOST, -GAS_DAY_TITLE_MOST - 1, GAS_DAY_CAUSE_AMOUNT);
    lent.pooling[3] = -GAS_DAY_POOLING_MOST;
    limit(day, &lent.pooling[4], GAS_DAY_POOLING_MOST, GAS_DAY_POOLING_MOST + 1, GAS_DAY_CAUSE_AMOUNT);
    lent.pooling[3] = GAS_DAY_POOLING_MOST;
    limit(day, &lent.pooling[4], -GAS_DAY_POOLING_MOST, -GAS_DAY_POOLING_MOST - 1, GAS_DAY_CAUSE_AMOUNT);
    lent.pooling[3] = 5;
    limit(day, &lent.pooling[4], -5, -4, GAS_DAY_CAUSE_POOLING);
}

static void limits_of_positions(gas_day_day day) {
    no_amounts();
    int64_t *place = &lent.table[GAS_DAY_ZONE_PLACES + 5];
    limit(day, place, GAS_DAY_POSITION_MOST, GAS_DAY_POSITION_MOST + 1, GAS_DAY_CAUSE_TABLE);
    limit(day, place, -GAS_DAY_POSITION_MOST, -GAS_DAY_POSITION_MOST - 1, GAS_DAY_CAUSE_TABLE);
    limit(day, &lent.table[5], 0, 1, GAS_DAY_CAUSE_TABLE); /* the H zone is closed */
    *place = GAS_DAY_POSITION_MOST - 1;
    limit(day, &lent.title[5], 1, 2, GAS_DAY_CAUSE_POSITION);
    *place = 0;
}

static void limits_of_terms(gas_day_day day) {
    no_amounts();
    for (int i = 0; i < 6; i++) {
        gas_day_hour_terms terms = wide(1, day.l.hours + 1);
        hour_accepted(day, terms);
        if (i == 0) terms.upper++;
        if (i == 1) terms.lower--;
        if (i == 2) terms.excess_price++;
        if (i == 3) terms.shortfall_price--;
        if (i == 4) terms.zone++;
        if (i == 5) terms.hour++;
        hour_refused(day, terms, i < 4 ? GAS_DAY_CAUSE_TERMS : i == 4 ? GAS_DAY_CAUSE_ZONE : GAS_DAY_CAUSE_HOUR);
    }
}

/* The price of a closing, on a day whose L zone has all its hours done. */
static void limits_of_a_closing(gas_day_day day) {
    day.l.hours = day.length;
    gas_day_closing_terms terms = {1, GAS_DAY_PRICE_MOST + 1, 0};
    closing_refused(day, terms, GAS_DAY_CAUSE_TERMS);
    terms.excess_price = 0;
    terms.shortfall_price = -GAS_DAY_PRICE_MOST - 1;
    closing_refused(day, terms, GAS_DAY_CAUSE_TERMS);
    terms.shortfall_price = -GAS_DAY_PRICE_MOST;
    terms.zone = 2;
    closing_refused(day, terms, GAS_DAY_CAUSE_ZONE);
    terms.zone = 1;
    areas before = lent;
    IS(close_zone(day, terms).cause, GAS_DAY_ACCEPTED);
    lent = before;
}

/* Every member of the record by what cause 2 says of it; `closed` above all, which is 0 or 1. */
static void records(gas_day_day day) {
    static const int64_t odd[] = {2, -1, 256, INT64_MAX, INT64_MIN};
    gas_day_hour_terms hour = wide(1, day.l.hours + 1);
    gas_day_closing_terms closing_terms = {1, 0, 0};
    gas_day_day spoilt[17];
    size_t n = 0;
    for (size_t i = 0; i < sizeof odd / sizeof *odd; i++) {
        spoilt[n] = spoilt[n + 1] = day;
        spoilt[n++].h.closed = odd[i];
        spoilt[n++].l.closed = odd[i];
    }
    spoilt[n] = spoilt[n + 1] = spoilt[n + 2] = spoilt[n + 3] = day;
    spoilt[n++].users = GAS_DAY_USERS_LEAST - 1;
    spoilt[n++].users = GAS_DAY_USERS_MOST + 1;
    spoilt[n++].h.hours = day.length + 1;
    spoilt[n++].l.closed = 1; /* with an hour done */
    day.h.hours = day.h.closed = 0; /* so that only the length is wrong */
    spoilt[n] = spoilt[n + 1] = spoilt[n + 2] = day;
    spoilt[n++].length = GAS_DAY_LENGTH_LEAST - 1;
    spoilt[n++].length = GAS_DAY_LENGTH_MOST + 1;
    spoilt[n++].length = INT64_MIN;
    for (size_t i = 0; i < n; i++) {
        hour_refused(spoilt[i], hour, GAS_DAY_CAUSE_RECORD);
        closing_refused(spoilt[i], closing_terms, GAS_DAY_CAUSE_RECORD);
    }
}

/* ---- the totals of a record: by what cause 2 says of them, and at their bound */

enum { TOTALS = 4 };

/* In turn: sold and bought of the H zone, sold and bought of the L zone. */
static int64_t *total_of(gas_day_day *day, int i) {
    gas_day_zone_day *zone = i < 2 ? &day->h : &day->l;
    return i % 2 == 0 ? &zone->sold : &zone->bought;
}

/* With this number for a total the record is no day's. */
static void total_refused(gas_day_day day, int i, int64_t number) {
    gas_day_closing_terms closing_terms = {1, 0, 0};
    *total_of(&day, i) = number;
    hour_refused(day, wide(1, day.l.hours + 1), GAS_DAY_CAUSE_RECORD);
    closing_refused(day, closing_terms, GAS_DAY_CAUSE_RECORD);
}

/* Each total below 0 and above its bound, and other than 0 in a zone with no hours done. At their bound all four are fit, if nothing is added. */
static void totals_of_records(gas_day_day day) {
    gas_day_day most = day;
    no_amounts();
    for (int i = 0; i < TOTALS; i++) {
        gas_day_day early = day;
        *(i < 2 ? &early.h : &early.l) = zone_of(0, 0, 0, 0);
        total_refused(early, i, 1);
        total_refused(early, i, GAS_DAY_TOTAL_MOST);
        total_refused(day, i, -1);
        total_refused(day, i, INT64_MIN);
        total_refused(day, i, GAS_DAY_TOTAL_MOST + 1);
        total_refused(day, i, INT64_MAX);
        *total_of(&most, i) = GAS_DAY_TOTAL_MOST;
    }
    hour_accepted(most, wide(1, most.l.hours + 1));
}

/* An altered record, with an empty table: so many hours done in both zones, and all four totals at their bound. */
static gas_day_day day_at_the_bound(int64_t hours) {
    gas_day_day day;
    day.users = USERS;
    day.length = GAS_DAY_LENGTH_MOST;
    day.h = day.l = zone_of(hours, 0, GAS_DAY_TOTAL_MOST, GAS_DAY_TOTAL_MOST);
    memset(lent.table, 0, sizeof lent.table);
    return day;
}

/* Place 1 comes to 6 and place 66 to 4, or both to that size below zero: with thresholds of 5 and -5 the one sells, or buys, 3 and the other 2. */
static void amounts_of_5(int side) {
    no_amounts();
    *(side == 1 ? &lent.entry[1] : &lent.exit[1]) = 6 * side;
    lent.title[66] = 4 * side;
}

/* An hour and its preview are refused by cause 25, and the quantities that it would have are accepted by a judge. */
static void hour_past_the_bound(gas_day_day day, gas_day_hour_terms terms, int side) {
    areas before = lent;
    is_refused(settle(day, terms), day, GAS_DAY_CAUSE_TOTALS, &before);
    is_refused(preview(day, terms), day, GAS_DAY_CAUSE_TOTALS, &before);
    for (int g = 0; g < USERS; g++) lent.quantity[g] = g == 1 ? 3 * side : g == 66 ? 2 * side : 0;
    judged(day, terms, GAS_DAY_ACCEPTED);
    lent = before;
}

/* An hour's total of 5 in a zone, on a side: its own total may come to the bound and not past it, whatever the other three are. */
static void hour_at_the_bound(int zone, int side) {
    int i = 2 * zone + (side == 1 ? 0 : 1);
    gas_day_day day = day_at_the_bound(1);
    gas_day_hour_terms terms = terms_of(zone, 2, 5, -5, 20, 25);
    amounts_of_5(side);
    areas before = lent;
    for (int64_t room = 0; room <= 6; room++) {
        *total_of(&day, i) = GAS_DAY_TOTAL_MOST - room;
        if (room < 5) {
            hour_past_the_bound(day, terms, side);
            continue;
        }
        gas_day_day expected = day;
        (zone == 0 ? &expected.h : &expected.l)->hours = 2;
        *total_of(&expected, i) = GAS_DAY_TOTAL_MOST - room + 5;
        same_day(settle_previewed(day, terms).day, expected);
        lent = before;
    }
}

/* The same after all hours of the day: in the zone places 1, 66 and 2 stand at 7, 5 and -4, so that a closing sells 12 and buys 4. */
static gas_day_day day_to_be_closed(int zone) {
    gas_day_day day = day_at_the_bound(GAS_DAY_LENGTH_MOST);
    int64_t *places = &lent.table[zone * GAS_DAY_ZONE_PLACES];
    places[1] = 7;
    places[66] = 5;
    places[2] = -4;
    no_amounts();
    return day;
}

/* Both totals of a zone that is closed may come to the bound, and neither past it, whatever those of the other zone are. */
static void closing_at_the_bound(int zone) {
    static const struct {
        int64_t sold, bought; /* how far from the bound */
        uint64_t cause;
    } rooms[] = {
        {12, 4, GAS_DAY_ACCEPTED}, {13, 5, GAS_DAY_ACCEPTED}, {11, 4, GAS_DAY_CAUSE_TOTALS}, {12, 3, GAS_DAY_CAUSE_TOTALS},
        {0, 0, GAS_DAY_CAUSE_TOTALS}, {GAS_DAY_TOTAL_MOST, 3, GAS_DAY_CAUSE_TOTALS}, {11, GAS_DAY_TOTAL_MOST, GAS_DAY_CAUSE_TOTALS},
    };
    gas_day_closing_terms terms = {zone, 20, 25};
    for (size_t i = 0; i < sizeof rooms / sizeof *rooms; i++) {
        gas_day_day day = day_to_be_closed(zone);
        *total_of(&day, 2 * zone) -= rooms[i].sold;
        *total_of(&day, 2 * zone + 1) -= rooms[i].bought;
        if (rooms[i].cause != GAS_DAY_ACCEPTED) {
            closing_refused(day, terms, rooms[i].cause);
            continue;
        }
        gas_day_closing answer = close_zone(day, terms);
        IS(answer.cause, GAS_DAY_ACCEPTED);
        IS(answer.sold, 12);
        IS(answer.bought, 4);
        *total_of(&day, 2 * zone) += 12;
        *total_of(&day, 2 * zone + 1) += 4;
        (zone == 0 ? &day.h : &day.l)->closed = 1;
        same_day(answer.day, day);
    }
}

/* What brings about one of the causes of an hour or of a closing, but for 3. */
static void spoil(int cause, gas_day_zone_day *own, gas_day_day *day, gas_day_hour_terms *terms) {
    switch (cause) {
    case GAS_DAY_CAUSE_RECORD: day->users = GAS_DAY_USERS_MOST + 1; break;
    case GAS_DAY_CAUSE_ZONE: terms->zone = 2; break;
    case GAS_DAY_CAUSE_CLOSED: *own = zone_of(day->length, 1, own->sold, own->bought); break;
    case GAS_DAY_CAUSE_HOUR: own->hours--; break;
    case GAS_DAY_CAUSE_TABLE: lent.table[USERS] = 1; break;
    case GAS_DAY_CAUSE_TERMS: terms->excess_price = GAS_DAY_PRICE_MOST + 1; break;
    case GAS_DAY_CAUSE_AMOUNT: lent.entry[66] = -1; break;
    case GAS_DAY_CAUSE_POOLING: lent.pooling[66] = 1; break;
    case GAS_DAY_CAUSE_POSITION: lent.table[terms->zone * GAS_DAY_ZONE_PLACES + 1] = GAS_DAY_POSITION_MOST; break;
    }
}

/* An hour that is refused by cause 25 has each of the others first. */
static void causes_before_the_totals_of_an_hour(int zone) {
    for (int cause = GAS_DAY_CAUSE_RECORD; cause <= GAS_DAY_CAUSE_POSITION; cause++) {
        if (cause == GAS_DAY_CAUSE_LENGTH) continue;
        gas_day_day day = day_at_the_bound(2);
        gas_day_hour_terms terms = terms_of(zone, 3, 5, -5, 20, 25);
        amounts_of_5(1);
        hour_past_the_bound(day, terms, 1);
        spoil(cause, zone == 0 ? &day.h : &day.l, &day, &terms);
        hour_refused(day, terms, (uint64_t)cause);
    }
}

/* The same of a closing. */
static void causes_before_the_totals_of_a_closing(int zone) {
    for (int cause = GAS_DAY_CAUSE_RECORD; cause <= GAS_DAY_CAUSE_TERMS; cause++) {
        if (cause == GAS_DAY_CAUSE_LENGTH) continue;
        gas_day_day day = day_to_be_closed(zone);
        gas_day_hour_terms terms = terms_of(zone, 0, 0, 0, 20, 25);
        spoil(cause, zone == 0 ? &day.h : &day.l, &day, &terms);
        gas_day_closing_terms closing_terms = {terms.zone, terms.excess_price, terms.shortfall_price};
        closing_refused(day, closing_terms, (uint64_t)cause);
    }
}

static void totals_at_the_bound(void) {
    for (int zone = 0; zone <= 1; zone++) {
        hour_at_the_bound(zone, 1);
        hour_at_the_bound(zone, -1);
        closing_at_the_bound(zone);
        causes_before_the_totals_of_an_hour(zone);
        causes_before_the_totals_of_a_closing(zone);
    }
}

/* Each area of a preview with a place too few and with one too many: refused after a wrong record, and before a wrong zone. */
static void lengths_of_a_preview(gas_day_day day) {
    gas_day_day spoilt = day;
    spoilt.length = 0;
    no_amounts();
    areas before = lent;
    for (int area = 0; area < AREAS; area++) {
        for (int off = -1; off <= 1; off += 2) {
            lengths places = right_lengths();
            places.of[area] += (size_t)off;
            is_refused(preview_from(lent.table, places, spoilt, wide(2, 2)), spoilt, GAS_DAY_CAUSE_RECORD, &before);
            is_refused(preview_from(lent.table, places, day, wide(2, 2)), day, GAS_DAY_CAUSE_LENGTH, &before);
            is_refused(preview_from(lent.table, places, day, wide(1, 2)), day, GAS_DAY_CAUSE_LENGTH, &before);
        }
    }
}

/* The same of a judge, whose quantities are wrong whatever the lengths are. */
static void lengths_of_a_judge(gas_day_day day) {
    gas_day_day spoilt = day;
    spoilt.length = 0;
    no_amounts();
    areas before = lent;
    for (int area = TABLE; area <= QUANTITY; area++) {
        for (int off = -1; off <= 1; off += 2) {
            lengths places = right_lengths();
            places.of[area] += (size_t)off;
            is_judged(judge_of(places, spoilt, wide(2, 2)), spoilt, GAS_DAY_CAUSE_RECORD, &before);
            is_judged(judge_of(places, day, wide(2, 2)), day, GAS_DAY_CAUSE_LENGTH, &before);
            is_judged(judge_of(places, day, wide(1, 2)), day, GAS_DAY_CAUSE_LENGTH, &before);
        }
    }
    is_judged(judge_of(right_lengths(), day, wide(1, 2)), day, GAS_DAY_CAUSE_JUDGED_SIGN, &before);
}

/* ---- an operator's own quantities, judged in the second hour of the L zone: each list in an excess, and with every sign turned in a shortfall */

enum { JUDGED = 3 };
static const int judged_places[JUDGED] = {1, 65, 66};

typedef struct {
    int64_t quantity[JUDGED]; /* of these places; every other has 0 */
    uint64_t cause;
} judged_list;

/* With the other sign; the two ends of 64 bits, of which one has no such number, for each other. */
static int64_t turned(int64_t number) { return number == INT64_MIN ? INT64_MAX : number == INT64_MAX ? INT64_MIN : -number; }

/* The places come to these positions, all but 10 kWh of which stand in the table, and no other place comes to any; the market is held against this threshold. */
static void lists_are_judged(gas_day_day day, const int64_t *positions, int64_t threshold, const judged_list *lists, size_t n) {
    areas kept = lent;
    for (int side = 1; side >= -1; side -= 2) {
        gas_day_hour_terms terms = side == 1 ? terms_of(1, 2, threshold, 0, 20, 25) : terms_of(1, 2, 0, -threshold, 20, 25);
        no_amounts();
        memset(&lent.table[GAS_DAY_ZONE_PLACES], 0, GAS_DAY_ZONE_PLACES * sizeof *lent.table);
        for (int i = 0; i < JUDGED; i++) {
            lent.table[GAS_DAY_ZONE_PLACES + judged_places[i]] = side * positions[i] - 10;
            lent.entry[judged_places[i]] = 15;
            lent.exit[judged_places[i]] = -5;
        }
        for (size_t l = 0; l < n; l++) {
            for (int g = 0; g < USERS; g++) lent.quantity[g] = 0;
            for (int i = 0; i < JUDGED; i++) lent.quantity[judged_places[i]] = side == 1 ? lists[l].quantity[i] : turned(lists[l].quantity[i]);
            judged(day, terms, lists[l].cause);
        }
    }
    lent = kept;
}

/* Case A's positions: 5000000 kWh above the threshold, of which 3333333.33 and 1666666.67 are the exact shares. The third did not cause. */
static void judged_case_a(gas_day_day day) {
    static const int64_t positions[JUDGED] = {20000000, 10000000, -3000000};
    static const judged_list lists[] = {
        {{3333333, 1666667, 0}, GAS_DAY_ACCEPTED}, /* our own */
        {{3333334, 1666666, 0}, GAS_DAY_ACCEPTED}, /* rounded in the other way */
        {{3333333, 1666667, -1}, GAS_DAY_CAUSE_JUDGED_SIGN},
        {{3333333, 1666666, 1}, GAS_DAY_CAUSE_JUDGED_SIGN}, /* the sum is right */
        {{-3333333, -1666667, 0}, GAS_DAY_CAUSE_JUDGED_SIGN},
        {{5000001, -1, 0}, GAS_DAY_CAUSE_JUDGED_SIGN}, /* of the second, before the first is off */
        {{3333332, 1666668, 1}, GAS_DAY_CAUSE_JUDGED_SIGN},
        {{INT64_MIN, 1666667, 0}, GAS_DAY_CAUSE_JUDGED_SIGN},
        {{3333333, INT64_MIN, 0}, GAS_DAY_CAUSE_JUDGED_SIGN},
        {{3333333, 1666667, INT64_MIN}, GAS_DAY_CAUSE_JUDGED_SIGN},
        {{3333333, 1666667, INT64_MAX}, GAS_DAY_CAUSE_JUDGED_SIGN},
        {{INT64_MAX, INT64_MAX, INT64_MAX}, GAS_DAY_CAUSE_JUDGED_SIGN},
        {{3333332, 1666668, 0}, GAS_DAY_CAUSE_JUDGED_SHARE},
        {{3333335, 1666665, 0}, GAS_DAY_CAUSE_JUDGED_SHARE},
        {{3333333, 1666665, 0}, GAS_DAY_CAUSE_JUDGED_SHARE}, /* of the second, and the sum is wrong */
        {{20000001, 1666667, 0}, GAS_DAY_CAUSE_JUDGED_SHARE}, /* more than its whole position */
        {{0, 5000000, 0}, GAS_DAY_CAUSE_JUDGED_SHARE},
        {{0, 0, 0}, GAS_DAY_CAUSE_JUDGED_SHARE},
        {{INT64_MAX, 1666667, 0}, GAS_DAY_CAUSE_JUDGED_SHARE},
        {{3333333, INT64_MAX, 0}, GAS_DAY_CAUSE_JUDGED_SHARE},
        {{INT64_MAX, INT64_MAX, 0}, GAS_DAY_CAUSE_JUDGED_SHARE},
        {{3333333, 1666666, 0}, GAS_DAY_CAUSE_JUDGED_SUM},
        {{3333334, 1666667, 0}, GAS_DAY_CAUSE_JUDGED_SUM},
    };
    lists_are_judged(day, positions, 22000000, lists, sizeof lists / sizeof *lists);
}

/* The exact shares are whole, 2 and 1: so a list is right or at least 1 kWh off. Who stands at zero did not cause. */
static void judged_whole_shares(gas_day_day day) {
    static const int64_t positions[JUDGED] = {4, 2, 0};
    static const judged_list lists[] = {
        {{2, 1, 0}, GAS_DAY_ACCEPTED},
        {{3, 0, 0}, GAS_DAY_CAUSE_JUDGED_SHARE},
        {{1, 2, 0}, GAS_DAY_CAUSE_JUDGED_SHARE},
        {{2, 0, 0}, GAS_DAY_CAUSE_JUDGED_SHARE},
        {{2, 0, 1}, GAS_DAY_CAUSE_JUDGED_SIGN},
    };
    lists_are_judged(day, positions, 3, lists, sizeof lists / sizeof *lists);
}

/* Three times it is 2, if that is cut to 64 bits: 2 is the excess below, and the product that is right. */
#define WRAPS INT64_C(6148914691236517206)

/* Case B's positions, of each of which the exact share is 2/3: any two may have 1 kWh, and the third none, which is no wrong sign. */
static void judged_case_b(gas_day_day day) {
    static const int64_t positions[JUDGED] = {1, 1, 1};
    static const judged_list lists[] = {
        {{1, 1, 0}, GAS_DAY_ACCEPTED},
        {{1, 0, 1}, GAS_DAY_ACCEPTED},
        {{0, 1, 1}, GAS_DAY_ACCEPTED},
        {{1, 1, 1}, GAS_DAY_CAUSE_JUDGED_SUM},
        {{0, 0, 1}, GAS_DAY_CAUSE_JUDGED_SUM},
        {{0, 0, 0}, GAS_DAY_CAUSE_JUDGED_SUM},
        {{2, 0, 0}, GAS_DAY_CAUSE_JUDGED_SHARE},
        {{WRAPS, 1, 0}, GAS_DAY_CAUSE_JUDGED_SHARE},
        {{WRAPS, WRAPS, WRAPS}, GAS_DAY_CAUSE_JUDGED_SHARE},
        {{1, 2, -1}, GAS_DAY_CAUSE_JUDGED_SIGN},
    };
    lists_are_judged(day, positions, 1, lists, sizeof lists / sizeof *lists);
}

/* A market at its threshold, where nobody caused. */
static void judged_within(gas_day_day day) {
    static const int64_t positions[JUDGED] = {5, -4, 2};
    static const judged_list lists[] = {
        {{0, 0, 0}, GAS_DAY_ACCEPTED},
        {{1, 0, 0}, GAS_DAY_CAUSE_JUDGED_SIGN},
        {{1, 0, -1}, GAS_DAY_CAUSE_JUDGED_SIGN}, /* they add to zero */
        {{0, -1, 0}, GAS_DAY_CAUSE_JUDGED_SIGN},
        {{0, 0, INT64_MIN}, GAS_DAY_CAUSE_JUDGED_SIGN},
        {{INT64_MAX, 0, 0}, GAS_DAY_CAUSE_JUDGED_SIGN},
    };
    lists_are_judged(day, positions, 3, lists, sizeof lists / sizeof *lists);
}

/* A preview may be lent a table that cannot be written, and a judge nothing but such areas, and one more than once. Place 66 at 5 kWh: 2 above the upper threshold of 3. */
static void areas_for_reading(void) {
    static const int64_t table[GAS_DAY_TABLE_PLACES] = {0}, none[USERS] = {0}, entry[USERS] = {[66] = 5}, quantity[USERS] = {[66] = 2};
    gas_day_day day = opened_day(GAS_DAY_LENGTH_USUAL);
    gas_day_hour_terms terms = terms_of(1, 1, 3, 0, 20, 25);
    no_amounts();
    areas before = lent;
    is_judged(gas_day_judge_hour(day, table, GAS_DAY_TABLE_PLACES, terms, entry, USERS, none, USERS, none, USERS, none, USERS, quantity, USERS), day,
              GAS_DAY_ACCEPTED, &before);
    is_judged(gas_day_judge_hour(day, table, GAS_DAY_TABLE_PLACES, terms, entry, USERS, none, USERS, none, USERS, none, USERS, entry, USERS), day,
              GAS_DAY_CAUSE_JUDGED_SHARE, &before);
    lent.entry[66] = 5;
    gas_day_hour seen = preview_from(table, right_lengths(), day, terms);
    hour_is(seen, GAS_DAY_ACCEPTED, GAS_DAY_EXCESS, 2, 0, 4, 1);
    same_day(seen.day, day);
    for (int g = 0; g < USERS; g++) {
        IS(lent.quantity[g], g == 66 ? 2 : 0);
        IS(lent.money[g], g == 66 ? 40 : 0);
        IS(lent.after[g], g == 66 ? 3 : 0);
        IS(lent.scratch[g], 0);
    }
}

/* An area of 0 places, by a pointer that is NULL: a wrong length like any other. */
static void empty_areas(gas_day_day day) {
    gas_day_hour hour = gas_day_settle_hour(day, NULL, 0, wide(1, 2), NULL, 0, NULL, 0, NULL, 0, NULL, 0, NULL, 0, NULL, 0, NULL, 0);
    IS(hour.cause, GAS_DAY_CAUSE_LENGTH);
    same_day(hour.day, day);
    gas_day_hour seen = gas_day_preview_hour(day, NULL, 0, wide(1, 2), NULL, 0, NULL, 0, NULL, 0, NULL, 0, NULL, 0, NULL, 0, NULL, 0, NULL, 0);
    IS(seen.cause, GAS_DAY_CAUSE_LENGTH);
    same_day(seen.day, day);
    areas before = lent;
    is_judged(gas_day_judge_hour(day, NULL, 0, wide(1, 2), NULL, 0, NULL, 0, NULL, 0, NULL, 0, NULL, 0), day, GAS_DAY_CAUSE_LENGTH, &before);
    gas_day_closing_terms terms = {1, 0, 0};
    gas_day_closing closing_answer = gas_day_close_zone(day, NULL, 0, terms, NULL, 0, NULL, 0);
    IS(closing_answer.cause, GAS_DAY_CAUSE_LENGTH);
    same_day(closing_answer.day, day);
}

/* ---- the hour's file */

static int64_t lists[4][GAS_DAY_FILE_PLACES + 1];

static gas_day_file read_file(const char *text, size_t places) {
    for (int i = 0; i < 4; i++)
        for (int p = 0; p <= GAS_DAY_FILE_PLACES; p++) lists[i][p] = ODD;
    size_t bytes = strlen(text);
    return gas_day_read_hour_file(bytes == 0 ? NULL : (const uint8_t *)text, bytes, lists[0], places, lists[1], places, lists[2], places, lists[3], places);
}

static void file_refused(const char *text, size_t places, uint64_t cause) {
    gas_day_file file = read_file(text, places);
    IS(file.cause, cause);
    IS(file.hour, 0);
    IS(file.zone, 0);
    IS(file.lines, 0);
    for (int i = 0; i < 4; i++)
        for (int p = 0; p <= GAS_DAY_FILE_PLACES; p++) IS(lists[i][p], ODD);
}

#define HEADING "h,z,g,EEA,XEA,NCTTN,IPT\r\n"

/* Amounts in MWh with as many decimals as the header says are read, beside amounts in kWh; with one decimal fewer or more they are not. */
static void amounts_in_mwh(void) {
    for (int decimals = GAS_DAY_FILE_MWH_DECIMALS - 1; decimals <= GAS_DAY_FILE_MWH_DECIMALS + 1; decimals++) {
        char text[80];
        snprintf(text, sizeof text, HEADING "19,L,0,12.%0*d,-12345,-0.%0*d,6", decimals, 5, decimals, 5);
        if (decimals != GAS_DAY_FILE_MWH_DECIMALS) {
            file_refused(text, GAS_DAY_FILE_PLACES, GAS_DAY_CAUSE_FILE_FIELD);
            continue;
        }
        static const int64_t kwh[4] = {12005, -12345, -5, 6};
        IS(read_file(text, GAS_DAY_FILE_PLACES).cause, GAS_DAY_ACCEPTED);
        for (int i = 0; i < 4; i++) IS(lists[i][0], kwh[i]);
    }
}

static void files(void) {
    gas_day_file file = read_file(HEADING "19,L,0,1,-2,3,-4\r\n19,L,1,5,-6,7,-8\r\n19,L,2,9,-10,11,-12", GAS_DAY_FILE_PLACES);
    IS(file.cause, GAS_DAY_ACCEPTED);
    IS(file.hour, 19);
    IS(file.zone, 1);
    IS(file.lines, 3);
    for (int i = 0; i < 4; i++) {
        for (int g = 0; g < 3; g++) IS(lists[i][g], (i % 2 == 0 ? 1 : -1) * (4 * g + i + 1));
        for (int g = 3; g <= GAS_DAY_FILE_PLACES; g++) IS(lists[i][g], ODD);
    }
    file_refused(HEADING "19,L,0,1,-2,3,-4", GAS_DAY_FILE_PLACES - 1, GAS_DAY_CAUSE_FILE_LENGTH);
    file_refused(HEADING "19,L,0,1,-2,3,-4", GAS_DAY_FILE_PLACES + 1, GAS_DAY_CAUSE_FILE_LENGTH);
    file_refused("", GAS_DAY_FILE_PLACES, GAS_DAY_CAUSE_FILE_HEADER);
    file_refused(HEADING "19,L,0,1,-2,3", GAS_DAY_FILE_PLACES, GAS_DAY_CAUSE_FILE_FORM);
    file_refused(HEADING "19,L,0,1,-2,3,-0", GAS_DAY_FILE_PLACES, GAS_DAY_CAUSE_FILE_FIELD);
    file_refused(HEADING "19,L,1,1,-2,3,-4", GAS_DAY_FILE_PLACES, GAS_DAY_CAUSE_FILE_ORDER);
    file_refused(HEADING, GAS_DAY_FILE_PLACES, GAS_DAY_CAUSE_FILE_EMPTY);
    amounts_in_mwh();
}

/* ---- the hour's file, written from the reader's lists */

static uint8_t written[GAS_DAY_WRITE_BYTES_MOST + 1];

typedef struct {
    int64_t hour, zone, users;
    size_t places[4], bytes;
} writing;

/* The four lists to their count's length, and all the bytes. */
static writing writing_of(int64_t hour, int64_t zone, size_t users) {
    writing w = {hour, zone, (int64_t)users, {users, users, users, users}, sizeof written};
    return w;
}

static writing without_bytes(int64_t hour, int64_t zone, size_t users) {
    writing w = writing_of(hour, zone, users);
    w.bytes = 0;
    return w;
}

static const int64_t *list(writing w, int i) { return w.places[i] == 0 ? NULL : lists[i]; }

/* Into bytes that hold something else. No list is touched. */
static gas_day_written write_file(writing w) {
    static int64_t before[4][GAS_DAY_FILE_PLACES + 1];
    memcpy(before, lists, sizeof lists);
    memset(written, ODD, sizeof written);
    gas_day_written answer = gas_day_write_hour_file(w.hour, w.zone, w.users, list(w, 0), w.places[0], list(w, 1), w.places[1], list(w, 2), w.places[2],
                                                     list(w, 3), w.places[3], w.bytes == 0 ? NULL : written, w.bytes);
    IS(memcmp(before, lists, sizeof lists), 0);
    return answer;
}

static int untouched_from(size_t byte) {
    while (byte < sizeof written && written[byte] == ODD) byte++;
    return byte == sizeof written;
}

/* The text is written, and no byte after it. */
static void write_accepted(writing w, const char *text) {
    gas_day_written answer = write_file(w);
    IS(answer.cause, GAS_DAY_ACCEPTED);
    IS(answer.bytes, strlen(text));
    IS(memcmp(written, text, strlen(text)), 0);
    IS(untouched_from(strlen(text)), 1);
}

static void write_refused(writing w, uint64_t cause) {
    gas_day_written answer = write_file(w);
    IS(answer.cause, cause);
    IS(answer.bytes, 0);
    IS(untouched_from(0), 1);
}

/* Cause 18: numbers that the count, the zone and the lists' lengths may not have, all with an entry of ten digits, if there is one, and no bytes. */
static void wrong_counts(writing fit) {
    fit.bytes = 0;
    lists[0][0] = 1000000000;
    for (int i = 0; i < 4; i++) {
        writing w = fit;
        w.places[i]++;
        write_refused(w, GAS_DAY_CAUSE_WRITE_COUNT);
        w.places[i] -= 2;
        write_refused(w, GAS_DAY_CAUSE_WRITE_COUNT);
    }
    write_refused(without_bytes(fit.hour, 2, 3), GAS_DAY_CAUSE_WRITE_COUNT);
    write_refused(without_bytes(fit.hour, -1, 3), GAS_DAY_CAUSE_WRITE_COUNT);
    write_refused(without_bytes(fit.hour, 0, GAS_DAY_USERS_LEAST - 1), GAS_DAY_CAUSE_WRITE_COUNT);
    write_refused(without_bytes(fit.hour, 0, GAS_DAY_USERS_MOST + 1), GAS_DAY_CAUSE_WRITE_COUNT);
    fit.users = -3;
    write_refused(fit, GAS_DAY_CAUSE_WRITE_COUNT);
    lists[0][0] = 1;
}

/* Cause 19: the hour and each list's amount with a digit too many, and an hour below 0, all with no bytes. */
static void wrong_numbers(writing fit) {
    static const int64_t odd[] = {1000000000, -1000000000, INT64_MAX, INT64_MIN};
    fit.bytes = 0;
    for (size_t n = 0; n < sizeof odd / sizeof *odd; n++) {
        for (int i = 0; i < 4; i++) {
            int64_t kept = lists[i][2];
            lists[i][2] = odd[n];
            write_refused(fit, GAS_DAY_CAUSE_WRITE_NUMBER);
            lists[i][2] = kept;
        }
        write_refused(without_bytes(odd[n], fit.zone, 3), GAS_DAY_CAUSE_WRITE_NUMBER);
    }
    write_refused(without_bytes(-1, fit.zone, 3), GAS_DAY_CAUSE_WRITE_NUMBER);
}

/* Every number of nine digits, and a minus where there may be one: 58 bytes a line and its place, 274 digits for the 128 places. It is read again. */
static void longest_file(void) {
    for (int i = 0; i < 4; i++)
        for (int g = 0; g < GAS_DAY_USERS_MOST; g++) lists[i][g] = -999999999 + 4 * g + i;
    gas_day_written answer = write_file(writing_of(999999999, 1, GAS_DAY_USERS_MOST));
    IS(answer.cause, GAS_DAY_ACCEPTED);
    IS(answer.bytes, 25 + 58 * 128 + 274);
    IS(untouched_from((size_t)answer.bytes), 1);
    IS(GAS_DAY_WRITE_BYTES_MOST, 25 + 61 * 128);
    written[answer.bytes] = 0;
    gas_day_file file = read_file((const char *)written, GAS_DAY_FILE_PLACES);
    IS(file.cause, GAS_DAY_ACCEPTED);
    IS(file.hour, 999999999);
    IS(file.zone, 1);
    IS(file.lines, GAS_DAY_USERS_MOST);
    for (int i = 0; i < 4; i++)
        for (int g = 0; g < GAS_DAY_USERS_MOST; g++) IS(lists[i][g], -999999999 + 4 * g + i);
}

static void written_files(void) {
    static const char text[] = HEADING "19,L,0,1,-2,3,-4\r\n19,L,1,5,-6,7,-8\r\n19,L,2,9,-10,11,-12\r\n";
    for (int i = 0; i < 4; i++)
        for (int g = 0; g <= GAS_DAY_FILE_PLACES; g++) lists[i][g] = (i % 2 == 0 ? 1 : -1) * (4 * g + i + 1);
    writing fit = writing_of(19, 1, 3);
    write_accepted(fit, text);
    wrong_counts(fit);
    wrong_numbers(fit);
    fit.bytes = strlen(text);
    write_accepted(fit, text);
    fit.bytes--;
    write_refused(fit, GAS_DAY_CAUSE_WRITE_ROOM);
    fit.bytes = 0;
    write_refused(fit, GAS_DAY_CAUSE_WRITE_ROOM);
    write_accepted(writing_of(0, 0, 1), HEADING "0,H,0,1,-2,3,-4\r\n");
    longest_file();
}

int main(void) {
    IS(gas_day_version(), GAS_DAY_VERSION);
    openings();
    default_thresholds();
    worked_day(GAS_DAY_LENGTH_LEAST);
    worked_day(GAS_DAY_LENGTH_USUAL);
    gas_day_day day = worked_day(GAS_DAY_LENGTH_MOST);
    limits_of_amounts(day);
    limits_of_positions(day);
    limits_of_terms(day);
    limits_of_a_closing(day);
    records(day);
    totals_of_records(day);
    lengths_of_a_preview(day);
    lengths_of_a_judge(day);
    judged_case_a(day);
    judged_whole_shares(day);
    judged_case_b(day);
    judged_within(day);
    empty_areas(day);
    areas_for_reading();
    totals_at_the_bound();
    files();
    written_files();
    printf("header: %d checks, %d wrong\n", checks, wrong);
    return wrong == 0 ? EXIT_SUCCESS : EXIT_FAILURE;
}
