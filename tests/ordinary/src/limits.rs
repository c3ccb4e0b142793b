//! "The limits are named once, with the kind of amount that they bound."

use std::ops::RangeInclusive;

/// "Users in a day: 1 to 128, numbered by place from 0."
pub const USERS: RangeInclusive<i64> = 1..=128;
/// Places of one zone's part of the table, and of each list of the reader.
pub const PLACES: usize = 128;
/// "The lent position table has 256 places: 128 for the H zone, then 128 for the
/// L zone."
pub const TABLE: usize = 2 * PLACES;
/// Document 01: "A Gas Day has 24 hours." Ask 3: "Opening must be told 23, 24 or 25 and
/// the day record keeps it."
pub const LENGTHS: RangeInclusive<i64> = 23..=25;
/// "Entry (EEA): 0 to 50,000,000."
pub const ENTRY: RangeInclusive<i64> = 0..=50_000_000;
/// "Exit (XEA): -50,000,000 to 0."
pub const EXIT: RangeInclusive<i64> = -50_000_000..=0;
/// "Net title transfer (NCTTN): -50,000,000 to 50,000,000."
pub const TITLE: RangeInclusive<i64> = -50_000_000..=50_000_000;
/// "Pooling transfer (IPT): -100,000,000 to 100,000,000."
pub const POOLING: RangeInclusive<i64> = -100_000_000..=100_000_000;
/// "A position, before or after settlement: -100,000,000 to 100,000,000."
pub const POSITION: RangeInclusive<i64> = -100_000_000..=100_000_000;
/// "Upper threshold: 0 to 1,000,000,000."
pub const UPPER: RangeInclusive<i64> = 0..=1_000_000_000;
/// "Lower threshold: -1,000,000,000 to 0."
pub const LOWER: RangeInclusive<i64> = -1_000_000_000..=0;
/// "Price: -10,000,000 to 10,000,000."
pub const PRICE: RangeInclusive<i64> = -10_000_000..=10_000_000;
/// Ask 7, of a zone's totals in the record: not "below zero or above 332,800,000,000".
pub const TOTAL: RangeInclusive<i64> = 0..=332_800_000_000;
