//! The causes that apply to a call, each looked at by itself, whichever others apply: to
//! tell that a call which was spoilt in two ways is refusable for both.
//!
//! A cause that speaks of the zone is taken to apply where the zone is not 0 or 1 if it
//! applies to both; where lengths differ, a user lacks what is not there; cause 6 reads
//! the record's length as it is, also one that a day cannot have; and causes 22 to 25 take a
//! position or a threshold that is out of its range as the end of the range.

use crate::limits;
use crate::spoilt::Call;
use crate::spoilt_writing::Writing;

/// Those of the hour's causes that apply.
pub fn hour_causes(call: &Call) -> Vec<u64> {
    with_totals(call, causes_with(call, &[call.quantity.len(), call.money.len(), call.scratch.len()]))
}

/// Those of the preview's causes that apply: the hour's, of which 3 speaks of one list more.
pub fn preview_causes(call: &Call) -> Vec<u64> {
    with_totals(call, causes_with(call, &[call.quantity.len(), call.money.len(), call.scratch.len(), call.after.len()]))
}

/// These, and the last of an hour and of a preview.
fn with_totals(call: &Call, mut causes: Vec<u64>) -> Vec<u64> {
    causes.extend(numbered_from(25, &[of_zone(call, |zone| total_passed(call, zone, added_by_hour(call, zone)))]));
    causes
}

/// Those of the judged hour's causes that apply: the hour's, of which 3 speaks of the quantity
/// list alone, and those of the quantities.
pub fn judged_causes(call: &Call) -> Vec<u64> {
    let mut causes = causes_with(call, &[call.quantity.len()]);
    let applies = [sign_wrong, share_off, sum_wrong].map(|wrong| of_zone(call, |zone| wrong(&judged(call, zone))));
    causes.extend(numbered_from(22, &applies));
    causes
}

/// Those of the hour's causes that apply if it is lent, besides the amounts, lists of these
/// lengths.
fn causes_with(call: &Call, lent: &[usize]) -> Vec<u64> {
    let amounts = &call.amounts;
    let lists = [
        amounts.entry.len(),
        amounts.exit.len(),
        amounts.title.len(),
        amounts.pooling.len(),
    ];
    let applies = [
        record(call),
        lengths(call, &lists) || lengths(call, lent),
        !zone_is_one(call),
        of_zone(call, |zone| call.day.is_closed(zone)),
        of_zone(call, |zone| {
            call.hour > call.day.length || call.hour.checked_sub(1) != Some(call.day.hours[zone])
        }),
        table(call),
        prices(call)
            || !limits::UPPER.contains(&amounts.terms.upper)
            || !limits::LOWER.contains(&amounts.terms.lower),
        amounts_out(call),
        amounts.pooling.iter().map(|&amount| i128::from(amount)).sum::<i128>() != 0,
        of_zone(call, |zone| position_out(call, zone)),
    ];
    numbered(&applies)
}

/// Those of the closing's causes that apply.
pub fn closing_causes(call: &Call) -> Vec<u64> {
    let applies = [
        record(call),
        lengths(call, &[call.quantity.len(), call.money.len()]),
        !zone_is_one(call),
        of_zone(call, |zone| call.day.is_closed(zone)),
        of_zone(call, |zone| call.day.hours[zone] < call.day.length),
        table(call),
        prices(call),
    ];
    let mut causes = numbered(&applies);
    causes.extend(numbered_from(25, &[of_zone(call, |zone| total_passed(call, zone, added_by_closing(call, zone)))]));
    causes
}

/// Those of the writer's causes that apply; the bytes are too few if they are so for the
/// shortest text that the count, the hour and the amounts that are there allow.
pub fn writing_causes(writing: &Writing) -> Vec<u64> {
    let ten_digits = |number: &i64| *number > 999_999_999 || *number < -999_999_999;
    let lists = &writing.lists;
    let applies = [
        !limits::USERS.contains(&writing.users)
            || !(0..=1).contains(&writing.zone)
            || lists.iter().any(|list| list.len() as i64 != writing.users),
        writing.hour < 0 || ten_digits(&writing.hour) || lists.iter().flatten().any(ten_digits),
        writing.file.len() < writing.bytes_wanted(),
    ];
    numbered_from(18, &applies)
}

/// The causes from 2 on that apply.
fn numbered(applies: &[bool]) -> Vec<u64> {
    numbered_from(2, applies)
}

fn numbered_from(first: u64, applies: &[bool]) -> Vec<u64> {
    (first..).zip(applies).filter(|(_, &applies)| applies).map(|(cause, _)| cause).collect()
}

fn record(call: &Call) -> bool {
    let last = match call.day.length {
        23 => 23,
        24 => 24,
        25 => 25,
        _ => return true,
    };
    let zone_fits = |zone: usize| {
        let hours = call.day.hours[zone];
        let totals = [call.day.sold[zone], call.day.bought[zone]];
        (0..=last).contains(&hours)
            && (0..=1).contains(&call.day.closed[zone])
            && (hours == last || !call.day.is_closed(zone))
            && totals.iter().all(|total| limits::TOTAL.contains(total))
            && (hours != 0 || totals == [0, 0])
    };
    !limits::USERS.contains(&call.day.users) || !zone_fits(0) || !zone_fits(1)
}

fn lengths(call: &Call, lists: &[usize]) -> bool {
    call.table.len() != limits::TABLE || lists.iter().any(|&length| length as i64 != call.day.users)
}

fn zone_is_one(call: &Call) -> bool {
    call.zone == 0 || call.zone == 1
}

fn of_zone(call: &Call, applies: impl Fn(usize) -> bool) -> bool {
    match call.zone {
        0 => applies(0),
        1 => applies(1),
        _ => applies(0) && applies(1),
    }
}

fn table(call: &Call) -> bool {
    call.table.iter().take(limits::TABLE).enumerate().any(|(place, position)| {
        let (zone, user) = (place / limits::PLACES, (place % limits::PLACES) as i64);
        let idle = call.day.is_closed(zone) || call.day.hours[zone] == 0;
        let unused = idle || user >= call.day.users;
        !limits::POSITION.contains(position) || (unused && *position != 0)
    })
}

fn prices(call: &Call) -> bool {
    let terms = &call.amounts.terms;
    !limits::PRICE.contains(&terms.excess_price) || !limits::PRICE.contains(&terms.shortfall_price)
}

fn amounts_out(call: &Call) -> bool {
    let amounts = &call.amounts;
    let out = |list: &[i64], range: std::ops::RangeInclusive<i64>| list.iter().any(|amount| !range.contains(amount));
    out(&amounts.entry, limits::ENTRY)
        || out(&amounts.exit, limits::EXIT)
        || out(&amounts.title, limits::TITLE)
        || out(&amounts.pooling, limits::POOLING)
}

fn position_out(call: &Call, zone: usize) -> bool {
    let range = i128::from(*limits::POSITION.start())..=i128::from(*limits::POSITION.end());
    (0..limits::PLACES).any(|user| !range.contains(&position(call, zone, user)))
}

/// A user's position before settlement.
fn position(call: &Call, zone: usize, user: usize) -> i128 {
    let amounts = &call.amounts;
    let lists = [&amounts.entry, &amounts.exit, &amounts.title, &amounts.pooling];
    let moved: i128 = lists.iter().map(|list| at(list, user)).sum();
    at(&call.table, zone * limits::PLACES + user) + moved
}

/// The number at a place, or 0 if there is none.
fn at(list: &[i64], place: usize) -> i128 {
    i128::from(list.get(place).copied().unwrap_or(0))
}

/// What a judge looks at: 1 in an excess, -1 in a shortfall, 0 within the thresholds; the excess
/// or minus the shortfall; and for each user the position and the quantity.
struct Judged {
    sign: i128,
    due: i128,
    users: Vec<(i128, i128)>,
}

fn in_range(number: i128, range: std::ops::RangeInclusive<i64>) -> i128 {
    number.clamp(i128::from(*range.start()), i128::from(*range.end()))
}

fn judged(call: &Call, zone: usize) -> Judged {
    let user = |user: usize| (in_range(position(call, zone, user), limits::POSITION), at(&call.quantity, user));
    let users: Vec<(i128, i128)> = (0..limits::PLACES).map(user).collect();
    let market: i128 = users.iter().map(|(position, _)| position).sum();
    let terms = &call.amounts.terms;
    let [above, below] = [(terms.upper, limits::UPPER), (terms.lower, limits::LOWER)].map(|(end, range)| market - in_range(end.into(), range));
    let due = if above > 0 { above } else { below.min(0) };
    Judged {
        sign: due.signum(),
        due,
        users,
    }
}

fn sign_wrong(judged: &Judged) -> bool {
    judged.users.iter().any(|(position, quantity)| *quantity != 0 && (judged.sign * position <= 0 || judged.sign * quantity < 0))
}

/// Of a causer; of others this does not speak. What is due has its sign, as a quantity has.
fn share_off(judged: &Judged) -> bool {
    let size = |position: &i128| (judged.sign * position).max(0);
    let sum: i128 = judged.users.iter().map(|(position, _)| size(position)).sum();
    judged.users.iter().any(|(position, quantity)| size(position) > 0 && (quantity * sum - judged.due * size(position)).abs() >= sum)
}

fn sum_wrong(judged: &Judged) -> bool {
    judged.users.iter().map(|(_, quantity)| quantity).sum::<i128>() != judged.due
}

/// What an hour adds to sold and to bought: the excess, or the shortfall taken positive.
fn added_by_hour(call: &Call, zone: usize) -> [i128; 2] {
    let due = judged(call, zone).due;
    [due.max(0), (-due).max(0)]
}

/// What a closing adds to them: the positions above zero, and those below taken positive.
fn added_by_closing(call: &Call, zone: usize) -> [i128; 2] {
    let position = |user: usize| in_range(at(&call.table, zone * limits::PLACES + user), limits::POSITION);
    let positions = (0..limits::PLACES).map(position);
    positions.fold([0, 0], |[sold, bought], position| [sold + position.max(0), bought + (-position).max(0)])
}

fn total_passed(call: &Call, zone: usize, added: [i128; 2]) -> bool {
    let totals = [call.day.sold[zone], call.day.bought[zone]].map(i128::from);
    totals.iter().zip(added).any(|(total, added)| total + added > i128::from(*limits::TOTAL.end()))
}
