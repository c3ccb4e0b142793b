//! The checks that hours, previews, judged hours and closings share, mostly one function per cause.

use std::ops::RangeInclusive;

use crate::{cause, limits, Day};

/// Ok if `fits`, else the cause.
pub(crate) fn require(fits: bool, cause: u64) -> Result<(), u64> {
    if fits {
        Ok(())
    } else {
        Err(cause)
    }
}

/// Whether all of `values` lie in `range`.
pub(crate) fn all_in(values: &[i64], range: &RangeInclusive<i64>) -> bool {
    values.iter().all(|value| range.contains(value))
}

/// Cause 2: "record's user count not 1 to 128, hours not 0 to 24, or a zone closed
/// with fewer than 24"; and whether a zone is closed not 0 or 1. Ask 3: "Causes 2 and 6
/// read that length in the place of 24, for both zones", and "cause 2 also covers a
/// record with another length". Looks at both zones and answers the user count.
pub(crate) fn record(day: &Day) -> Result<usize, u64> {
    let fits = limits::USERS.contains(&day.users)
        && limits::LENGTHS.contains(&day.length)
        && all_in(&day.hours, &(0..=day.length))
        && all_in(&day.closed, &(0..=1))
        && (0..2).all(|zone| !day.is_closed(zone) || day.hours[zone] == day.length)
        && totals_fit(day);
    require(fits, cause::RECORD)?;
    Ok(day.users as usize)
}

/// What Ask 7 adds to it: "Cause 2 also covers a zone with no hours done whose totals are
/// not zero, and a total below zero or above 332,800,000,000."
fn totals_fit(day: &Day) -> bool {
    all_in(&day.sold, &limits::TOTAL)
        && all_in(&day.bought, &limits::TOTAL)
        && (0..2).all(|zone| day.hours[zone] > 0 || (day.sold[zone] == 0 && day.bought[zone] == 0))
}

/// Cause 3: "table not of 256 places, or a list or the scratch not of exactly the
/// user count".
pub(crate) fn lengths(table: &[i64], lists: &[usize], users: usize) -> Result<(), u64> {
    let fits = table.len() == limits::TABLE && lists.iter().all(|&length| length == users);
    require(fits, cause::LENGTH)
}

/// Cause 4: "zone not 0 or 1". Answers the zone as an index.
pub(crate) fn zone(zone: i64) -> Result<usize, u64> {
    match zone {
        0 => Ok(0),
        1 => Ok(1),
        _ => Err(cause::ZONE),
    }
}

/// Cause 7: "table holds a position outside its range, a non-zero place at or beyond
/// the user count in either zone, or a non-zero place in a zone that is closed or has
/// no hours done". Looks at all 256 places, whichever zone is called.
pub(crate) fn table(day: &Day, table: &[i64]) -> Result<(), u64> {
    let users = day.users as usize;
    let fits = table
        .chunks_exact(limits::PLACES)
        .enumerate()
        .all(|(zone, part)| {
            let idle = day.is_closed(zone) || day.hours[zone] == 0;
            let (used, unused) = part.split_at(if idle { 0 } else { users });
            all_in(used, &limits::POSITION) && unused.iter().all(|&place| place == 0)
        });
    require(fits, cause::TABLE)
}

/// The users' places in the zone's part of the table, whose length has been checked.
pub(crate) fn users_places(table: &mut [i64], zone: usize, users: usize) -> &mut [i64] {
    let start = zone * limits::PLACES;
    &mut table[start..start + users]
}

/// "the sums of the positive and of the negative quantities", both as sizes. The sum of all is
/// what was sold less what was bought, and quicker to have than that of the positive ones.
pub(crate) fn sums(quantity: &[i64]) -> (i64, i64) {
    let all: i64 = quantity.iter().sum();
    let bought: i64 = quantity.iter().map(|&quantity| -quantity.min(0)).sum();
    (all + bought, bought)
}

/// Cause 25: "last of all causes of an hour, a preview and a closing, if a total would pass
/// the bound." So it is looked at when the quantities are known and nothing is written yet.
/// Answers the record with the zone's totals after, and is otherwise the same.
///
/// Cause 2 has bounded the totals, so that a sum of 64 bits holds what they become.
pub(crate) fn totals(day: &Day, zone: usize, (sold, bought): (i64, i64)) -> Result<Day, u64> {
    let mut after = *day;
    after.sold[zone] += sold;
    after.bought[zone] += bought;
    let fits = limits::TOTAL.contains(&after.sold[zone]) && limits::TOTAL.contains(&after.bought[zone]);
    require(fits, cause::TOTALS)?;
    Ok(after)
}

/// "Money is quantity times the hour's excess price if the quantity is positive, else
/// times its shortfall price. Positive money is paid to the user."
pub(crate) fn money(quantity: i64, excess_price: i64, shortfall_price: i64) -> i64 {
    quantity
        * if quantity > 0 {
            excess_price
        } else {
            shortfall_price
        }
}
