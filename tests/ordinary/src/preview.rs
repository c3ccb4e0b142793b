//! The preview of an hour.

use crate::{check, limits, settle_hour, Day, Outcome, Terms};

/// Shows an hour before it is booked. Ask 5: "Before an hour is booked, the dispatcher wants
/// quantities, money and positions after it, with the table only lent for reading. The answer
/// and lists are those that settling a copy would give, and the positions after go to a list
/// of exactly the user count." So a copy is settled, and the positions are taken from it.
///
/// "The same causes apply in the same order, and cause 3 covers the new list. Scratch is as
/// for an hour, the record comes back unchanged". Causes 2 to 11, and by Ask 7 then 25 if
/// the hour would pass the bound; the totals come back unchanged too.
#[allow(clippy::too_many_arguments)]
pub fn preview_hour(
    day: Day,
    table: &[i64],
    zone: i64,
    hour: i64,
    entry: &[i64],
    exit: &[i64],
    title: &[i64],
    pooling: &[i64],
    terms: Terms,
    quantity: &mut [i64],
    money: &mut [i64],
    after: &mut [i64],
    scratch: &mut [u64],
) -> Result<(Day, Outcome), u64> {
    let users = check::record(&day)?;
    check::lengths(table, &[after.len()], users)?;
    let mut copy = [0; limits::TABLE];
    copy.copy_from_slice(table);
    let (_, outcome) = settle_hour(
        day, &mut copy, zone, hour, entry, exit, title, pooling, terms, quantity, money, scratch,
    )?;
    let zone = check::zone(zone)?;
    after.copy_from_slice(check::users_places(&mut copy, zone, users));
    Ok((day, outcome))
}
