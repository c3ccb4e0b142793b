/* A library that a client may not call: of the version VERSION, and its answers are none of that version's. */
#include "gas_day.h"

uint64_t gas_day_version(void) { return VERSION; }

gas_day_opened gas_day_open(int64_t users, int64_t length, int64_t *table, size_t table_places) {
    (void)users, (void)length, (void)table, (void)table_places;
    return (gas_day_opened){.cause = 256};
}

gas_day_thresholds gas_day_default_thresholds(int64_t month, int64_t zone) {
    (void)month, (void)zone;
    return (gas_day_thresholds){.cause = 1000};
}

gas_day_hour gas_day_settle_hour(gas_day_day day, int64_t *table, size_t table_places, gas_day_hour_terms terms, const int64_t *entry, size_t entry_places,
                                 const int64_t *exit, size_t exit_places, const int64_t *title, size_t title_places, const int64_t *pooling,
                                 size_t pooling_places, int64_t *quantity, size_t quantity_places, int64_t *money, size_t money_places, uint64_t *scratch,
                                 size_t scratch_places) {
    (void)table, (void)table_places, (void)terms, (void)entry, (void)entry_places, (void)exit, (void)exit_places, (void)title, (void)title_places;
    (void)pooling, (void)pooling_places, (void)quantity, (void)quantity_places, (void)money, (void)money_places, (void)scratch, (void)scratch_places;
    return (gas_day_hour){.day = day, .side = 3};
}

gas_day_hour gas_day_preview_hour(gas_day_day day, const int64_t *table, size_t table_places, gas_day_hour_terms terms, const int64_t *entry,
                                  size_t entry_places, const int64_t *exit, size_t exit_places, const int64_t *title, size_t title_places,
                                  const int64_t *pooling, size_t pooling_places, int64_t *quantity, size_t quantity_places, int64_t *money,
                                  size_t money_places, int64_t *after, size_t after_places, uint64_t *scratch, size_t scratch_places) {
    (void)table, (void)table_places, (void)terms, (void)entry, (void)entry_places, (void)exit, (void)exit_places, (void)title, (void)title_places;
    (void)pooling, (void)pooling_places, (void)quantity, (void)quantity_places, (void)money, (void)money_places, (void)after, (void)after_places;
    (void)scratch, (void)scratch_places;
    return (gas_day_hour){.day = day, .side = UINT64_MAX};
}

gas_day_judged gas_day_judge_hour(gas_day_day day, const int64_t *table, size_t table_places, gas_day_hour_terms terms, const int64_t *entry,
                                  size_t entry_places, const int64_t *exit, size_t exit_places, const int64_t *title, size_t title_places,
                                  const int64_t *pooling, size_t pooling_places, const int64_t *quantity, size_t quantity_places) {
    (void)table, (void)table_places, (void)terms, (void)entry, (void)entry_places, (void)exit, (void)exit_places, (void)title, (void)title_places;
    (void)pooling, (void)pooling_places, (void)quantity, (void)quantity_places;
    return (gas_day_judged){.cause = 256 | GAS_DAY_CAUSE_JUDGED_SIGN, .day = day};
}

gas_day_closing gas_day_close_zone(gas_day_day day, int64_t *table, size_t table_places, gas_day_closing_terms terms, int64_t *quantity,
                                   size_t quantity_places, int64_t *money, size_t money_places) {
    (void)table, (void)table_places, (void)terms, (void)quantity, (void)quantity_places, (void)money, (void)money_places;
    return (gas_day_closing){.cause = UINT64_MAX, .day = day};
}

gas_day_file gas_day_read_hour_file(const uint8_t *file, size_t file_bytes, int64_t *entries, size_t entries_places, int64_t *exits, size_t exits_places,
                                    int64_t *titles, size_t titles_places, int64_t *poolings, size_t poolings_places) {
    (void)file, (void)file_bytes, (void)entries, (void)entries_places, (void)exits, (void)exits_places;
    (void)titles, (void)titles_places, (void)poolings, (void)poolings_places;
    return (gas_day_file){.cause = 99};
}

gas_day_written gas_day_write_hour_file(int64_t hour, int64_t zone, int64_t users, const int64_t *entry, size_t entry_places, const int64_t *exit,
                                        size_t exit_places, const int64_t *title, size_t title_places, const int64_t *pooling, size_t pooling_places,
                                        uint8_t *file, size_t file_bytes) {
    (void)hour, (void)zone, (void)users, (void)entry, (void)entry_places, (void)exit, (void)exit_places, (void)title, (void)title_places;
    (void)pooling, (void)pooling_places, (void)file, (void)file_bytes;
    return (gas_day_written){.cause = UINT64_C(1) << 32 | GAS_DAY_CAUSE_WRITE_COUNT};
}
