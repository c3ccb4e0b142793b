//! Settling an hour.

use crate::{cause, check, limits, Day};

/// The hour's two thresholds and two prices. "An hour is always given its own two
/// thresholds, since the operator may change them."
#[derive(Clone, Copy, PartialEq, Eq, Debug)]
pub struct Terms {
    /// Upper threshold in kWh, not negative.
    pub upper: i64,
    /// Lower threshold in kWh, not positive.
    pub lower: i64,
    /// Price in an excess, in millionths of a euro per kWh.
    pub excess_price: i64,
    /// Price in a shortfall, in millionths of a euro per kWh.
    pub shortfall_price: i64,
}

/// The side on which a market left its thresholds.
#[derive(Clone, Copy, PartialEq, Eq, Debug)]
pub enum Side {
    /// Above the upper threshold.
    Excess,
    /// Below the lower threshold.
    Shortfall,
}

/// "The answer says either that the market was within its thresholds, or that it was
/// settled, and then which side, its total, and the causers."
#[derive(Clone, Copy, PartialEq, Eq, Debug)]
pub enum Outcome {
    /// The market was within its thresholds.
    Within,
    /// The market was settled.
    Settled {
        /// Which side.
        side: Side,
        /// The excess, or the shortfall taken positive.
        total: i64,
        /// "The causers are marked in two 64-bit words, place 0 at the lowest bit of
        /// the first".
        marks: [u64; 2],
        /// "the number of marks is answered".
        number: u64,
    },
}

/// The four amounts lists of an hour.
pub(crate) struct Amounts<'a> {
    pub(crate) entry: &'a [i64],
    pub(crate) exit: &'a [i64],
    pub(crate) title: &'a [i64],
    pub(crate) pooling: &'a [i64],
}

/// Settles an hour of a zone by rules 1 to 6. Causes 2 to 11, and then 25.
///
/// "The quantity list and the money list get one number per user, and the users'
/// places in the zone's part of the table get the positions after. The accepted call
/// sets its scratch (one unsigned 64-bit place per user) to zero. The record has one
/// hour more for that zone and is otherwise the same." So it keeps its length. Ask 7: the
/// record also holds "how much was sold and bought so far", "per zone", and 25 is "last of
/// all causes of an hour": so the quantities are worked out in areas of this call's own.
#[allow(clippy::too_many_arguments)]
pub fn settle_hour(
    day: Day,
    table: &mut [i64],
    zone: i64,
    hour: i64,
    entry: &[i64],
    exit: &[i64],
    title: &[i64],
    pooling: &[i64],
    terms: Terms,
    quantity: &mut [i64],
    money: &mut [i64],
    scratch: &mut [u64],
) -> Result<(Day, Outcome), u64> {
    let users = check::record(&day)?;
    let lists = [
        entry.len(),
        exit.len(),
        title.len(),
        pooling.len(),
        quantity.len(),
        money.len(),
        scratch.len(),
    ];
    check::lengths(table, &lists, users)?;
    let zone = check::zone(zone)?;
    check::require(!day.is_closed(zone), cause::CLOSED)?;
    check_hour(&day, zone, hour)?;
    check::table(&day, table)?;
    check_terms(&terms)?;
    let amounts = Amounts {
        entry,
        exit,
        title,
        pooling,
    };
    check_amounts(&amounts)?;
    check_pooling(pooling)?;
    let places = check::users_places(table, zone, users);
    let mut all_before = [0; limits::PLACES];
    let before = &mut all_before[..users];
    positions_before(places, &amounts, before);
    check::require(check::all_in(before, &limits::POSITION), cause::POSITION)?;

    let mut all_settled = [0; limits::PLACES];
    let settled = &mut all_settled[..users];
    let outcome = settle(before, &terms, settled);
    let mut after = check::totals(&day, zone, check::sums(settled))?;
    after.hours[zone] = hour;

    quantity.copy_from_slice(settled);
    book(before, &terms, quantity, money, places);
    scratch.fill(0);
    Ok((after, outcome))
}

/// Cause 6: "hour is not hours done plus 1, or above 24". Ask 3: "Causes 2 and 6 read
/// that length in the place of 24, for both zones."
pub(crate) fn check_hour(day: &Day, zone: usize, hour: i64) -> Result<(), u64> {
    let fits = hour == day.hours[zone] + 1 && hour <= day.length;
    check::require(fits, cause::HOUR)
}

/// Cause 8: "threshold or price out of range".
pub(crate) fn check_terms(terms: &Terms) -> Result<(), u64> {
    let fits = limits::UPPER.contains(&terms.upper)
        && limits::LOWER.contains(&terms.lower)
        && check::all_in(&[terms.excess_price, terms.shortfall_price], &limits::PRICE);
    check::require(fits, cause::TERMS)
}

/// Cause 9: "an amount out of range".
pub(crate) fn check_amounts(amounts: &Amounts) -> Result<(), u64> {
    let fits = check::all_in(amounts.entry, &limits::ENTRY)
        && check::all_in(amounts.exit, &limits::EXIT)
        && check::all_in(amounts.title, &limits::TITLE)
        && check::all_in(amounts.pooling, &limits::POOLING);
    check::require(fits, cause::AMOUNT)
}

/// Cause 10: "The pooling amounts of all users add to zero."
pub(crate) fn check_pooling(pooling: &[i64]) -> Result<(), u64> {
    check::require(pooling.iter().sum::<i64>() == 0, cause::POOLING)
}

/// Rule 1: "A user's position before settlement is the position in the table plus
/// entry, exit, title and pooling amounts. Exits are already negative."
pub(crate) fn positions_before(places: &[i64], amounts: &Amounts, before: &mut [i64]) {
    let entries_exits = amounts.entry.iter().zip(amounts.exit);
    let transfers = amounts.title.iter().zip(amounts.pooling);
    for (((before, place), (entry, exit)), (title, pooling)) in before
        .iter_mut()
        .zip(places)
        .zip(entries_exits)
        .zip(transfers)
    {
        *before = place + entry + exit + title + pooling;
    }
}

/// Rule 2: "The market position is the sum over all users. Above the upper threshold
/// there is an excess: the difference. Below the lower one there is a shortfall: the
/// difference, taken positive. At a threshold there is neither."
pub(crate) fn market_side(before: &[i64], terms: &Terms) -> Option<(Side, u64)> {
    let market: i64 = before.iter().sum();
    if market > terms.upper {
        Some((Side::Excess, market.abs_diff(terms.upper)))
    } else if market < terms.lower {
        Some((Side::Shortfall, market.abs_diff(terms.lower)))
    } else {
        None
    }
}

impl Side {
    /// Rule 3: "In an excess the causing users are those with a position above zero;
    /// in a shortfall, those below zero." The size of a causer's position, else 0.
    pub(crate) fn size(self, position: i64) -> u64 {
        match self {
            Side::Excess => position.max(0).unsigned_abs(),
            Side::Shortfall => position.min(0).unsigned_abs(),
        }
    }

    /// Rule 5: "The quantity is positive when the user sells (excess) and negative
    /// when the user buys (shortfall)."
    pub(crate) fn sign(self) -> i64 {
        match self {
            Side::Excess => 1,
            Side::Shortfall => -1,
        }
    }
}

/// Rules 2 to 5: sets the quantities, which are zero, and answers the outcome.
fn settle(before: &[i64], terms: &Terms, quantity: &mut [i64]) -> Outcome {
    let Some((side, total)) = market_side(before, terms) else {
        return Outcome::Within;
    };
    let marks = share_out(side, total, before, quantity);
    Outcome::Settled {
        side,
        total: total as i64,
        marks,
        number: marks.iter().map(|word| u64::from(word.count_ones())).sum(),
    }
}

/// Rules 3 to 5: "A causer's exact share is the excess (or shortfall) times the size
/// of its position, divided by the sum of all causers' sizes. [...] Each gets the share
/// rounded down. The kWh then left over go one each to the causers with the largest
/// fractions; among equal fractions, the lower place first."
///
/// Fractions compare as the remainders of the division. The total is at most the sum of
/// the sizes, which is at most 128 times 100,000,000, so that a product stays below
/// 2^61 and a remainder below 2^34. Expects quantities of zero and answers the marks.
fn share_out(side: Side, total: u64, before: &[i64], quantity: &mut [i64]) -> [u64; 2] {
    let mut ranks = [0; limits::PLACES];
    let sum: u64 = before.iter().map(|&position| side.size(position)).sum();
    let mut marks = [0; 2];
    let mut spare = total;
    let mut causers = 0;
    for (place, &position) in before.iter().enumerate() {
        let size = side.size(position);
        if size == 0 {
            continue;
        }
        let product = total * size;
        let share = product / sum;
        quantity[place] = side.sign() * share as i64;
        spare -= share;
        ranks[causers] = rank(product - share * sum, place);
        causers += 1;
        marks[place / 64] |= 1 << (place % 64);
    }
    for &mut rank in largest(&mut ranks[..causers], spare as usize) {
        quantity[ranked_place(rank)] += side.sign();
    }
    marks
}

/// A number that is the larger the larger the remainder and, among equal remainders,
/// the lower the place (0 to 127).
fn rank(remainder: u64, place: usize) -> u64 {
    remainder << 7 | (127 - place as u64)
}

/// The place of a rank.
fn ranked_place(rank: u64) -> usize {
    127 - (rank & 127) as usize
}

/// The `count` largest of the ranks, in any order.
fn largest(ranks: &mut [u64], count: usize) -> &mut [u64] {
    if 0 < count && count < ranks.len() {
        ranks.select_nth_unstable_by(count - 1, |a, b| b.cmp(a));
    }
    let count = count.min(ranks.len());
    &mut ranks[..count]
}

/// Rules 5 and 6: "The position after is the position before minus the quantity", and
/// the money of each quantity.
fn book(before: &[i64], terms: &Terms, quantity: &[i64], money: &mut [i64], places: &mut [i64]) {
    for (((place, money), &before), &quantity) in
        places.iter_mut().zip(money).zip(before).zip(quantity)
    {
        *place = before - quantity;
        *money = check::money(quantity, terms.excess_price, terms.shortfall_price);
    }
}
