//! Judging an operator's own quantities.

use crate::hour::{check_amounts, check_hour, check_pooling, check_terms, market_side, positions_before, Amounts, Side};
use crate::{cause, check, limits, Day, Terms};

/// Judges an operator's own quantities for an hour. Ask 6: "Operators round in their own ways
/// and may still be right. Given the inputs of an hour and the operator's quantity list, accept
/// exactly when the quantities add to the excess (or to minus the shortfall, or to zero if there
/// is neither), only causers have any, with the right sign, and each is less than 1 kWh from the
/// exact share."
///
/// "Causes 2 to 11 come first, 3 also for that list; no money list or scratch is lent, the table
/// is only read, and the record comes back unchanged." Then 22, 23 and 24, each over all users
/// before the next. Ask 7 names 25 for "an hour, a preview and a closing", and not for this.
#[allow(clippy::too_many_arguments)]
pub fn judge_hour(
    day: Day,
    table: &[i64],
    zone: i64,
    hour: i64,
    entry: &[i64],
    exit: &[i64],
    title: &[i64],
    pooling: &[i64],
    terms: Terms,
    quantity: &[i64],
) -> Result<Day, u64> {
    let users = check::record(&day)?;
    let lists = [
        entry.len(),
        exit.len(),
        title.len(),
        pooling.len(),
        quantity.len(),
    ];
    check::lengths(table, &lists, users)?;
    let zone = check::zone(zone)?;
    check::require(!day.is_closed(zone), cause::CLOSED)?;
    check_hour(&day, zone, hour)?;
    check::table(&day, table)?;
    check_terms(&terms)?;
    let amounts = Amounts {
        entry,
        exit,
        title,
        pooling,
    };
    check_amounts(&amounts)?;
    check_pooling(pooling)?;
    let start = zone * limits::PLACES;
    let mut all_before = [0; limits::PLACES];
    let before = &mut all_before[..users];
    positions_before(&table[start..start + users], &amounts, before);
    check::require(check::all_in(before, &limits::POSITION), cause::POSITION)?;

    judge(before, &terms, quantity)?;
    Ok(day)
}

/// Causes 22 to 24. "in an hour within its thresholds nobody caused": there any quantity is 22,
/// and what is left is "zero if there is neither".
fn judge(before: &[i64], terms: &Terms, quantity: &[i64]) -> Result<(), u64> {
    let Some((side, total)) = market_side(before, terms) else {
        let none = quantity.iter().all(|&quantity| quantity == 0);
        return check::require(none, cause::JUDGED_SIGN);
    };
    check_signs(side, before, quantity)?;
    check_shares(side, total, before, quantity)?;
    check_sum(side, total, quantity)
}

/// Cause 22: "a user who did not cause has a quantity or a causer's has the wrong sign". A
/// causer's quantity of zero has no sign: its share may be less than 1 kWh.
fn check_signs(side: Side, before: &[i64], quantity: &[i64]) -> Result<(), u64> {
    let fits = before.iter().zip(quantity).all(|(&position, &quantity)| {
        let caused = side.size(position) > 0;
        quantity == 0 || (caused && quantity.signum() == side.sign())
    });
    check::require(fits, cause::JUDGED_SIGN)
}

/// Cause 23: "one is 1 kWh or more off". Document 01: "A causer's exact share is the excess (or
/// shortfall) times the size of its position, divided by the sum of all causers' sizes. Over
/// whole numbers: a settled size is less than 1 kWh from it when that size times the sum differs
/// from the product by less than the sum".
///
/// The signs are right, so that the sizes decide. One may be any up to 2^63: so the products are
/// taken in 128 bits.
fn check_shares(side: Side, total: u64, before: &[i64], quantity: &[i64]) -> Result<(), u64> {
    let sum: u64 = before.iter().map(|&position| side.size(position)).sum();
    let fits = before.iter().zip(quantity).all(|(&position, &quantity)| {
        let exact = u128::from(total) * u128::from(side.size(position));
        let judged = u128::from(quantity.unsigned_abs()) * u128::from(sum);
        judged.abs_diff(exact) < u128::from(sum)
    });
    check::require(fits, cause::JUDGED_SHARE)
}

/// Cause 24: "the sum is wrong"; right is "to the excess (or to minus the shortfall".
fn check_sum(side: Side, total: u64, quantity: &[i64]) -> Result<(), u64> {
    let sum: i128 = quantity.iter().map(|&quantity| i128::from(quantity)).sum();
    let due = i128::from(side.sign()) * i128::from(total);
    check::require(sum == due, cause::JUDGED_SUM)
}
