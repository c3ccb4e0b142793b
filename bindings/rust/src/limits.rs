//! The limits of the requirements, by the header's names. Every call checks them itself; they are here for who prepares its inputs.

/// Places of the position table: 128 for the H zone, then 128 for the L zone.
pub const TABLE_PLACES: usize = 256;
/// Places of one zone in the table.
pub const ZONE_PLACES: usize = 128;
/// Places of each of the reader's four lists.
pub const FILE_PLACES: usize = 128;
/// Fewest users in a day.
pub const USERS_LEAST: i64 = 1;
/// Most users in a day.
pub const USERS_MOST: i64 = 128;
/// Fewest hours of a day: on one of the two days of a clock change.
pub const LENGTH_LEAST: i64 = 23;
/// Hours of a day that is no day of a clock change.
pub const LENGTH_USUAL: i64 = 24;
/// Most hours of a day: on the other day of a clock change.
pub const LENGTH_MOST: i64 = 25;
/// Entry (EEA): 0 to this.
pub const ENTRY_MOST: i64 = 50_000_000;
/// Exit (XEA): this to 0.
pub const EXIT_LEAST: i64 = -50_000_000;
/// Net title transfer (NCTTN): of either sign.
pub const TITLE_MOST: i64 = 50_000_000;
/// Pooling transfer (IPT): of either sign.
pub const POOLING_MOST: i64 = 100_000_000;
/// A position, before or after settlement: of either sign.
pub const POSITION_MOST: i64 = 100_000_000;
/// Upper threshold: 0 to this; lower: minus this to 0.
pub const THRESHOLD_MOST: i64 = 1_000_000_000;
/// A price: of either sign.
pub const PRICE_MOST: i64 = 10_000_000;
/// What was sold, or bought, in a zone so far: 0 to this.
pub const TOTAL_MOST: i64 = 332_800_000_000;
/// Decimals of an amount in MWh, in a file that is read: 12.345 means 12345 kWh.
pub const FILE_MWH_DECIMALS: usize = 3;
/// Lent bytes that are enough for every file: 25, and 61 for each of 128 lines.
pub const WRITE_BYTES_MOST: usize = 7_833;
