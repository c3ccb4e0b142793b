/* Reads an hour's file of at most 65,536 bytes from standard input, settles its hour with January's default thresholds, and prints each user's place, position before,
 * quantity, money and position after. A refusal prints its cause and ends with status 1; a longer input is refused by 14. */
#include "gas_day.h"

#include <inttypes.h>
#include <stdio.h>

#define MOST_BYTES 65536

static int refused(uint64_t cause) {
    printf("refused,%" PRIu64 "\r\n", cause);
    return 1;
}

int main(void) {
    static uint8_t bytes[MOST_BYTES + 1]; /* one more, to tell a longer input from one that just fits */
    static int64_t table[GAS_DAY_TABLE_PLACES];
    static int64_t entry[GAS_DAY_FILE_PLACES], exits[GAS_DAY_FILE_PLACES], title[GAS_DAY_FILE_PLACES], pooling[GAS_DAY_FILE_PLACES];
    static int64_t quantity[GAS_DAY_FILE_PLACES], money[GAS_DAY_FILE_PLACES];
    static uint64_t scratch[GAS_DAY_FILE_PLACES];

    if (gas_day_version() != GAS_DAY_VERSION) {
        fprintf(stderr, "settle: the library is of version %" PRIu64 ", and this program was built for %" PRIu64 "\n", gas_day_version(), GAS_DAY_VERSION);
        return 2;
    }
    size_t length = fread(bytes, 1, sizeof bytes, stdin);
    if (length > MOST_BYTES) {
        return refused(GAS_DAY_CAUSE_FILE_FORM);
    }
    gas_day_file file = gas_day_read_hour_file(bytes, length, entry, GAS_DAY_FILE_PLACES, exits, GAS_DAY_FILE_PLACES, title, GAS_DAY_FILE_PLACES, pooling,
                                               GAS_DAY_FILE_PLACES);
    if (file.cause != GAS_DAY_ACCEPTED) {
        return refused(file.cause);
    }
    gas_day_opened opened = gas_day_open(file.lines, GAS_DAY_LENGTH_USUAL, table, GAS_DAY_TABLE_PLACES);
    if (opened.cause != GAS_DAY_ACCEPTED) {
        return refused(opened.cause);
    }
    gas_day_thresholds thresholds = gas_day_default_thresholds(1, file.zone);
    if (thresholds.cause != GAS_DAY_ACCEPTED) {
        return refused(thresholds.cause);
    }
    gas_day_hour_terms terms = {file.zone, file.hour, thresholds.upper, thresholds.lower, 20000, 25000};
    size_t users = (size_t)file.lines;
    gas_day_hour hour = gas_day_settle_hour(opened.day, table, GAS_DAY_TABLE_PLACES, terms, entry, users, exits, users, title, users, pooling, users, quantity,
                                            users, money, users, scratch, users);
    if (hour.cause != GAS_DAY_ACCEPTED) {
        return refused(hour.cause);
    }
    const int64_t *after = table + (file.zone == 0 ? 0 : GAS_DAY_ZONE_PLACES);
    printf("g,before,q,money,after\r\n");
    for (size_t g = 0; g < users; g++) {
        printf("%zu,%" PRId64 ",%" PRId64 ",%" PRId64 ",%" PRId64 "\r\n", g, quantity[g] + after[g], quantity[g], money[g], after[g]);
    }
    return 0;
}
