//! Closing a zone.

use crate::{cause, check, limits, Day};

/// Closes a zone. "After 24 hours a zone may be closed. Each user's quantity is its
/// whole position, at the day's excess price if positive and its shortfall price if
/// negative. The places become zero and the zone is marked closed. [...] The answer
/// gives two sums, sold and bought, in kWh and both as sizes." Causes 2 to 8; of them,
/// by Ask 3, "Causes 2 and 6 read that length in the place of 24, for both zones", so
/// that a zone may be closed after the 23, 24 or 25 hours of the record's day. Ask 7: the
/// record's totals are "closing included", and cause 25 is "last of all causes".
pub fn close_zone(
    day: Day,
    table: &mut [i64],
    zone: i64,
    excess_price: i64,
    shortfall_price: i64,
    quantity: &mut [i64],
    money: &mut [i64],
) -> Result<(Day, i64, i64), u64> {
    let users = check::record(&day)?;
    check::lengths(table, &[quantity.len(), money.len()], users)?;
    let zone = check::zone(zone)?;
    check::require(!day.is_closed(zone), cause::CLOSED)?;
    check::require(day.hours[zone] == day.length, cause::HOUR)?;
    check::table(&day, table)?;
    let prices_fit = check::all_in(&[excess_price, shortfall_price], &limits::PRICE);
    check::require(prices_fit, cause::TERMS)?;

    let places = check::users_places(table, zone, users);
    let (sold, bought) = check::sums(places);
    let mut after = check::totals(&day, zone, (sold, bought))?;
    after.closed[zone] = 1;

    for ((place, quantity), money) in places.iter_mut().zip(quantity).zip(money) {
        let position = std::mem::take(place);
        *quantity = position;
        *money = check::money(position, excess_price, shortfall_price);
    }
    Ok((after, sold, bought))
}
