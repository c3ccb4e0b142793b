//! The default thresholds.

use crate::{cause, check};

/// "in GWh of 1,000,000 kWh".
const GWH: i64 = 1_000_000;

/// "January to December, upper threshold; the lower one is its negation." In GWh,
/// by zone and then month.
const UPPER_GWH: [[i64; 12]; 2] = [
    [22, 22, 22, 25, 29, 29, 30, 30, 29, 25, 22, 22],
    [13, 13, 13, 13, 15, 15, 16, 16, 15, 13, 13, 13],
];

/// "The default is answered by month (1 to 12) and zone." Answers the upper and the
/// lower threshold in kWh. Causes 4 and 8.
pub fn default_thresholds(month: i64, zone: i64) -> Result<(i64, i64), u64> {
    let of_zone = &UPPER_GWH[check::zone(zone)?];
    if !(1..=12).contains(&month) {
        return Err(cause::TERMS);
    }
    let upper = of_zone[month as usize - 1] * GWH;
    Ok((upper, -upper))
}
