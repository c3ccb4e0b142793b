//! The header `gas_day.h` in Rust: its structs and calls, by the names that it gives their members and parameters.

use crate::{ClosingTerms, Day, HourTerms};

#[repr(C)]
pub struct Opened {
    pub cause: u64,
    pub day: Day,
}

#[repr(C)]
pub struct Thresholds {
    pub cause: u64,
    pub upper: i64,
    pub lower: i64,
}

#[repr(C)]
pub struct Hour {
    pub cause: u64,
    pub day: Day,
    pub side: u64,
    pub total: i64,
    pub first: u64,
    pub second: u64,
    pub number: u64,
}

#[repr(C)]
pub struct Judged {
    pub cause: u64,
    pub day: Day,
}

#[repr(C)]
pub struct Closing {
    pub cause: u64,
    pub day: Day,
    pub sold: i64,
    pub bought: i64,
}

#[repr(C)]
pub struct File {
    pub cause: u64,
    pub hour: i64,
    pub zone: i64,
    pub lines: i64,
}

#[repr(C)]
pub struct Written {
    pub cause: u64,
    pub bytes: i64,
}

extern "C" {
    pub fn gas_day_version() -> u64;
    pub fn gas_day_open(users: i64, length: i64, table: *mut i64, table_places: usize) -> Opened;
    pub fn gas_day_default_thresholds(month: i64, zone: i64) -> Thresholds;
    pub fn gas_day_settle_hour(
        day: Day,
        table: *mut i64,
        table_places: usize,
        terms: HourTerms,
        entry: *const i64,
        entry_places: usize,
        exit: *const i64,
        exit_places: usize,
        title: *const i64,
        title_places: usize,
        pooling: *const i64,
        pooling_places: usize,
        quantity: *mut i64,
        quantity_places: usize,
        money: *mut i64,
        money_places: usize,
        scratch: *mut u64,
        scratch_places: usize,
    ) -> Hour;
    pub fn gas_day_preview_hour(
        day: Day,
        table: *const i64,
        table_places: usize,
        terms: HourTerms,
        entry: *const i64,
        entry_places: usize,
        exit: *const i64,
        exit_places: usize,
        title: *const i64,
        title_places: usize,
        pooling: *const i64,
        pooling_places: usize,
        quantity: *mut i64,
        quantity_places: usize,
        money: *mut i64,
        money_places: usize,
        after: *mut i64,
        after_places: usize,
        scratch: *mut u64,
        scratch_places: usize,
    ) -> Hour;
    pub fn gas_day_judge_hour(
        day: Day,
        table: *const i64,
        table_places: usize,
        terms: HourTerms,
        entry: *const i64,
        entry_places: usize,
        exit: *const i64,
        exit_places: usize,
        title: *const i64,
        title_places: usize,
        pooling: *const i64,
        pooling_places: usize,
        quantity: *const i64,
        quantity_places: usize,
    ) -> Judged;
    pub fn gas_day_close_zone(
        day: Day,
        table: *mut i64,
        table_places: usize,
        terms: ClosingTerms,
        quantity: *mut i64,
        quantity_places: usize,
        money: *mut i64,
        money_places: usize,
    ) -> Closing;
    pub fn gas_day_read_hour_file(
        file: *const u8,
        file_bytes: usize,
        entries: *mut i64,
        entries_places: usize,
        exits: *mut i64,
        exits_places: usize,
        titles: *mut i64,
        titles_places: usize,
        poolings: *mut i64,
        poolings_places: usize,
    ) -> File;
    pub fn gas_day_write_hour_file(
        hour: i64,
        zone: i64,
        users: i64,
        entry: *const i64,
        entry_places: usize,
        exit: *const i64,
        exit_places: usize,
        title: *const i64,
        title_places: usize,
        pooling: *const i64,
        pooling_places: usize,
        file: *mut u8,
        file_bytes: usize,
    ) -> Written;
}
