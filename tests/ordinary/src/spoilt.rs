//! Hours, previews, judged hours and closings that are fit, and ways to spoil one, each by one
//! part of one of the paper's causes.
//!
//! A way that finds no room in a call (a place beyond 128 users, say) leaves it as it was.

use crate::made_up::{day, hour, odd_beyond, split, Hour, Kind, REACH};
use crate::random::Random;
use crate::spoilt_quantities::{right_quantities, QUANTITIES};
use crate::spoilt_totals::{added_by_hour, lead, Total, CLOSING_TOTALS, HOUR_TOTALS, RECORD_TOTALS};
use crate::{close_zone, judge_hour, limits, preview_hour, settle_hour, Day, Outcome};

/// What an hour, a preview, a judged hour or a closing is lent and given. A preview alone is
/// lent a list for the positions after. A judged hour's quantity list is the operator's, and it
/// is lent nothing else but the table. A closing takes the zone and the two prices of what is
/// given, and has no scratch.
#[derive(Clone, PartialEq, Debug)]
pub struct Call {
    /// The record.
    pub day: Day,
    /// The lent table.
    pub table: Vec<i64>,
    /// The lent quantity list.
    pub quantity: Vec<i64>,
    /// The lent money list.
    pub money: Vec<i64>,
    /// The lent list for the positions after.
    pub after: Vec<i64>,
    /// The lent scratch.
    pub scratch: Vec<u64>,
    /// The zone.
    pub zone: i64,
    /// The hour.
    pub hour: i64,
    /// The four lists, the thresholds and the prices.
    pub amounts: Hour,
}

impl Call {
    /// A call whose lent lists and scratch have a place for each user, and hold
    /// something else.
    pub fn new(day: Day, table: Vec<i64>, zone: i64, hour: i64, amounts: Hour) -> Call {
        let users = day.users as usize;
        Call {
            day,
            table,
            quantity: vec![9; users],
            money: vec![9; users],
            after: vec![9; users],
            scratch: vec![9; users],
            zone,
            hour,
            amounts,
        }
    }

    /// Settles it as an hour; the record after an accepted one is kept.
    pub fn settle(&mut self) -> Result<Outcome, u64> {
        let (day, outcome) = settle_hour(
            self.day,
            &mut self.table,
            self.zone,
            self.hour,
            &self.amounts.entry,
            &self.amounts.exit,
            &self.amounts.title,
            &self.amounts.pooling,
            self.amounts.terms,
            &mut self.quantity,
            &mut self.money,
            &mut self.scratch,
        )?;
        self.day = day;
        Ok(outcome)
    }

    /// Previews it as an hour; the record that an accepted preview answers is kept.
    pub fn preview(&mut self) -> Result<Outcome, u64> {
        let (record, outcome) = preview_hour(
            self.day,
            &self.table,
            self.zone,
            self.hour,
            &self.amounts.entry,
            &self.amounts.exit,
            &self.amounts.title,
            &self.amounts.pooling,
            self.amounts.terms,
            &mut self.quantity,
            &mut self.money,
            &mut self.after,
            &mut self.scratch,
        )?;
        self.day = record;
        Ok(outcome)
    }

    /// Judges its quantity list; the record that is answered if it is accepted is kept.
    pub fn judge(&mut self) -> Result<(), u64> {
        self.day = judge_hour(
            self.day,
            &self.table,
            self.zone,
            self.hour,
            &self.amounts.entry,
            &self.amounts.exit,
            &self.amounts.title,
            &self.amounts.pooling,
            self.amounts.terms,
            &self.quantity,
        )?;
        Ok(())
    }

    /// The same as a closing: what was sold and bought.
    pub fn close(&mut self) -> Result<(i64, i64), u64> {
        let (day, sold, bought) = close_zone(
            self.day,
            &mut self.table,
            self.zone,
            self.amounts.terms.excess_price,
            self.amounts.terms.shortfall_price,
            &mut self.quantity,
            &mut self.money,
        )?;
        self.day = day;
        Ok((sold, bought))
    }
}

/// A way to spoil a call.
pub struct Way {
    /// The cause that it brings.
    pub cause: u64,
    /// The part of the cause, in words.
    pub part: &'static str,
    /// What it does.
    pub spoil: fn(&mut Random, &mut Call),
}

pub(crate) const fn way(cause: u64, part: &'static str, spoil: fn(&mut Random, &mut Call)) -> Way {
    Way { cause, part, spoil }
}

/// Of the causes that all of them share.
const SHARED: [Way; 25] = [
    way(2, "users below 1", |r, call| call.day.users = r.pick([0, -1, -128, i64::MIN])),
    way(2, "users above 128", |r, call| call.day.users = r.pick([129, 256, 1 << 32, i64::MAX])),
    way(2, "length below 23", |r, call| set_length(r, call, [22, 22, 0, -1, -24, i64::MIN])),
    way(2, "length above 25", |r, call| set_length(r, call, [26, 26, 48, 256 + 24, (1 << 32) + 24, i64::MAX])),
    way(2, "hours of H below 0", |r, call| call.day.hours[0] = r.pick([-1, -24, i64::MIN])),
    way(2, "hours of H above the length", |r, call| call.day.hours[0] = above_length(r, call)),
    way(2, "hours of L below 0", |r, call| call.day.hours[1] = r.pick([-1, -24, i64::MIN])),
    way(2, "hours of L above the length", |r, call| call.day.hours[1] = above_length(r, call)),
    way(2, "H closed too early", |r, call| close_early(r, call, 0)),
    way(2, "L closed too early", |r, call| close_early(r, call, 1)),
    way(2, "mark of H neither 0 nor 1", |r, call| call.day.closed[0] = r.pick([2, 3, 256, -1, i64::MIN])),
    way(2, "mark of L neither 0 nor 1", |r, call| call.day.closed[1] = r.pick([2, 3, 256, -1, i64::MIN])),
    way(3, "table too short", |r, call| call.table.truncate(r.pick([0, 1, 128, 255]))),
    way(3, "table too long", |r, call| call.table.resize(r.pick([257, 384, 512]), 0)),
    way(3, "quantity list", |r, call| resize(r, &mut call.quantity)),
    way(3, "money list", |r, call| resize(r, &mut call.money)),
    way(4, "zone below 0", |r, call| call.zone = r.pick([-1, -2, -256, i64::MIN])),
    way(4, "zone above 1", |r, call| call.zone = r.pick([2, 3, 256, 257, 1 << 32, i64::MAX])),
    way(5, "zone closed", close),
    way(7, "above the range in the zone", |r, call| leave_table(r, call, call.zone, 1)),
    way(7, "below the range in the zone", |r, call| leave_table(r, call, call.zone, -1)),
    way(7, "above the range in the other zone", |r, call| leave_table(r, call, 1 - call.zone, 1)),
    way(7, "below the range in the other zone", |r, call| leave_table(r, call, 1 - call.zone, -1)),
    way(7, "beyond the users in the zone", |r, call| beyond_users(r, call, call.zone)),
    way(7, "beyond the users in the other zone", |r, call| beyond_users(r, call, 1 - call.zone)),
];

/// Of the causes that all of them share, in the zone that is not called.
const OTHER_ZONE: [Way; 2] = [
    way(7, "other zone closed", |r, call| fill_idle(r, call, 1 - call.zone, true)),
    way(7, "other zone with no hours done", |r, call| fill_idle(r, call, 1 - call.zone, false)),
];

/// Prices, for all of them.
const PRICES: [Way; 4] = [
    way(8, "excess price above", |r, call| call.amounts.terms.excess_price = odd_beyond(r, limits::PRICE, 1)),
    way(8, "excess price below", |r, call| call.amounts.terms.excess_price = odd_beyond(r, limits::PRICE, -1)),
    way(8, "shortfall price above", |r, call| call.amounts.terms.shortfall_price = odd_beyond(r, limits::PRICE, 1)),
    way(8, "shortfall price below", |r, call| call.amounts.terms.shortfall_price = odd_beyond(r, limits::PRICE, -1)),
];

/// Of hours, and of previews and judged hours as well.
const HOUR: [Way; 28] = [
    way(3, "entry list", |r, call| resize(r, &mut call.amounts.entry)),
    way(3, "exit list", |r, call| resize(r, &mut call.amounts.exit)),
    way(3, "title list", |r, call| resize(r, &mut call.amounts.title)),
    way(3, "pooling list", |r, call| resize(r, &mut call.amounts.pooling)),
    way(3, "scratch", |r, call| resize(r, &mut call.scratch)),
    way(6, "hour too low", |r, call| call.hour = r.pick([call.hour.saturating_sub(1), 0, -1, i64::MIN])),
    way(6, "hour too high", |r, call| {
        let more = r.pick([1, 256, 1 << 32, i64::MAX]);
        call.hour = call.hour.saturating_add(more);
    }),
    way(6, "hour above the length", |_, call| {
        let length = call.day.length;
        call.hour = length.saturating_add(1);
        called(call).into_iter().for_each(|zone| call.day.hours[zone] = length);
    }),
    way(7, "zone with no hours done", |r, call| fill_idle(r, call, call.zone, false)),
    way(8, "upper threshold above", |r, call| call.amounts.terms.upper = odd_beyond(r, limits::UPPER, 1)),
    way(8, "upper threshold below", |r, call| call.amounts.terms.upper = odd_beyond(r, limits::UPPER, -1)),
    way(8, "lower threshold above", |r, call| call.amounts.terms.lower = odd_beyond(r, limits::LOWER, 1)),
    way(8, "lower threshold below", |r, call| call.amounts.terms.lower = odd_beyond(r, limits::LOWER, -1)),
    way(9, "entry above", |r, call| put(r, &mut call.amounts.entry, limits::ENTRY, 1)),
    way(9, "entry below", |r, call| put(r, &mut call.amounts.entry, limits::ENTRY, -1)),
    way(9, "exit above", |r, call| put(r, &mut call.amounts.exit, limits::EXIT, 1)),
    way(9, "exit below", |r, call| put(r, &mut call.amounts.exit, limits::EXIT, -1)),
    way(9, "title above", |r, call| put(r, &mut call.amounts.title, limits::TITLE, 1)),
    way(9, "title below", |r, call| put(r, &mut call.amounts.title, limits::TITLE, -1)),
    way(9, "pooling above", |r, call| put(r, &mut call.amounts.pooling, limits::POOLING, 1)),
    way(9, "pooling below", |r, call| put(r, &mut call.amounts.pooling, limits::POOLING, -1)),
    way(10, "sum above zero", |r, call| unbalance(r, call, 1)),
    way(10, "sum below zero", |r, call| unbalance(r, call, -1)),
    way(10, "sum of 2^32", |_, call| balance_modulo(call, 1)),
    way(10, "sum of -2^32", |_, call| balance_modulo(call, -1)),
    way(11, "above the range", |r, call| leave_range(r, call, 1)),
    way(11, "below the range", |r, call| leave_range(r, call, -1)),
    way(11, "above the range and another below", |r, call| {
        leave_range(r, call, 1);
        leave_range(r, call, -1);
    }),
];

/// Of previews alone, beside all that an hour has.
const PREVIEW: [Way; 3] = [
    way(3, "positions after one too few", |_, call| call.after.truncate(call.after.len().saturating_sub(1))),
    way(3, "positions after one too many", |_, call| call.after.push(0)),
    way(3, "positions after", |r, call| resize(r, &mut call.after)),
];

/// What a judge is not lent: it does not matter to one how long they are.
const NOT_JUDGED: [&str; 2] = ["money list", "scratch"];

/// Of closings alone.
const CLOSING: [Way; 2] = [
    way(6, "no hours done", |_, call| called(call).into_iter().for_each(|zone| make_idle(call, zone))),
    way(6, "fewer hours done than the length", |r, call| {
        let hours = below_length(r, call, [1, 12]);
        called(call).into_iter().for_each(|zone| call.day.hours[zone] = hours);
    }),
];

/// The ways to spoil an hour, by cause.
pub fn hour_ways() -> Vec<&'static Way> {
    by_cause(&[&SHARED, &RECORD_TOTALS, &OTHER_ZONE, &PRICES, &HOUR, &HOUR_TOTALS])
}

/// The ways to spoil a preview, by cause: those of an hour among them.
pub fn preview_ways() -> Vec<&'static Way> {
    by_cause(&[&SHARED, &RECORD_TOTALS, &OTHER_ZONE, &PRICES, &HOUR, &HOUR_TOTALS, &PREVIEW])
}

/// The ways to spoil a judged hour, by cause: those of an hour, but for what it is not lent and
/// for cause 25, and those of the operator's quantities.
pub fn judged_ways() -> Vec<&'static Way> {
    let mut ways = by_cause(&[&SHARED, &RECORD_TOTALS, &OTHER_ZONE, &PRICES, &HOUR, &QUANTITIES]);
    ways.retain(|way| !NOT_JUDGED.contains(&way.part));
    ways
}

/// The ways to spoil a closing, by cause.
pub fn closing_ways() -> Vec<&'static Way> {
    by_cause(&[&SHARED, &RECORD_TOTALS, &OTHER_ZONE, &PRICES, &CLOSING, &CLOSING_TOTALS])
}

fn by_cause(lists: &[&'static [Way]]) -> Vec<&'static Way> {
    let mut ways: Vec<&Way> = lists.iter().copied().flatten().collect();
    ways.sort_by_key(|way| way.cause);
    ways
}

/// An hour of the zone that is accepted, and its preview too, in a day of any length.
pub fn fit_hour(random: &mut Random, zone: i64) -> Call {
    fit(random, zone, |hours, length| hours < length)
}

/// The same with a quantity list that is accepted when it is judged. Now and then the hour itself
/// would pass the bound of a total, which does not matter to a judge.
pub fn fit_judged(random: &mut Random, zone: i64) -> Call {
    let mut call = fit_hour(random, zone);
    call.quantity = right_quantities(random, &call);
    if random.one_in(4) {
        for total in Total::ALL {
            lead(&mut call, added_by_hour, total, 1);
        }
    }
    call
}

/// A closing of the zone that is accepted, of a day of any length.
pub fn fit_closing(random: &mut Random, zone: i64) -> Call {
    fit(random, zone, |hours, length| hours == length)
}

/// A call in the middle of a day, whose zone is not closed and has such hours done for the
/// day's length.
fn fit(random: &mut Random, zone: i64, hours_fit: fn(i64, i64) -> bool) -> Call {
    let any = 1 + random.below(limits::PLACES);
    let users = random.pick([1, 2, 3, 64, 65, 127, 128, any]);
    let (day, table) = loop {
        let (day, table) = day(random, users);
        if !day.is_closed(zone as usize) && hours_fit(day.hours[zone as usize], day.length) {
            break (day, table);
        }
    };
    let kind = random.pick(Kind::ALL);
    let start = zone as usize * limits::PLACES;
    let amounts = hour(random, users, kind, &table[start..start + limits::PLACES]);
    Call::new(day, table, zone, day.hours[zone as usize] + 1, amounts)
}

/// The zone that is called, if it is one.
pub(crate) fn called(call: &Call) -> Option<usize> {
    usize::try_from(call.zone).ok().filter(|&zone| zone < 2)
}

/// The zone's part of a table of 256 places; of another table or zone, none of it.
fn part(call: &mut Call, zone: i64) -> &mut [i64] {
    let places = match zone {
        0 => 0..limits::PLACES,
        1 => limits::PLACES..limits::TABLE,
        _ => 0..0,
    };
    call.table.get_mut(places).unwrap_or(&mut [])
}

/// A list gets another length: one more or less, none, or many more.
fn resize<T: Clone + Default>(random: &mut Random, list: &mut Vec<T>) {
    let length = list.len();
    let short = length.saturating_sub(1);
    list.resize(random.pick([short, 0, length + 1, length + 128]), T::default());
}

/// The record has one of these lengths. A zone that had all hours done mostly has all of
/// them by this length too, so that the length alone is amiss.
fn set_length(random: &mut Random, call: &mut Call, lengths: [i64; 6]) {
    let length = random.pick(lengths);
    let follows = !random.one_in(4);
    for zone in 0..2 {
        if follows && call.day.hours[zone] == call.day.length {
            call.day.hours[zone] = length;
            if called(call) == Some(zone) {
                call.hour = length.saturating_add(1);
            }
        }
    }
    call.day.length = length;
}

/// More hours than the record's length: often one more.
fn above_length(random: &mut Random, call: &Call) -> i64 {
    let [next, second] = [1, 2].map(|more| call.day.length.saturating_add(more));
    random.pick([next, next, second, 256, i64::MAX])
}

/// Fewer hours than the record's length: these few, or often one fewer.
fn below_length(random: &mut Random, call: &Call, few: [i64; 2]) -> i64 {
    let [last, second] = [1, 2].map(|fewer| call.day.length.saturating_sub(fewer));
    random.pick([few[0], few[1], second, last, last])
}

fn close_early(random: &mut Random, call: &mut Call, zone: usize) {
    call.day.hours[zone] = below_length(random, call, [0, 1]);
    call.day.closed[zone] = 1;
}

/// The zone is closed; its places are as a rule zero, and so are then those of a zone
/// closed by the library.
fn close(random: &mut Random, call: &mut Call) {
    let both = random.one_in(2);
    for zone in 0..2 {
        if both || called(call) == Some(zone) {
            call.day.hours[zone] = call.day.length;
            call.day.closed[zone] = 1;
            if !random.one_in(4) {
                part(call, zone as i64).fill(0);
            }
        }
    }
    call.hour = random.pick([call.hour, call.day.length, call.day.length.saturating_add(1)]);
}

/// The zone has hours done and is open, so that its users may have positions.
pub(crate) fn in_use(call: &mut Call, zone: usize) {
    if call.day.hours[zone] == 0 || call.day.is_closed(zone) {
        call.day.hours[zone] = 1;
        call.day.closed[zone] = 0;
        if called(call) == Some(zone) {
            call.hour = 2;
        }
    }
}

/// The zone is open and has no hours done, and so no positions and totals of zero.
pub(crate) fn make_idle(call: &mut Call, zone: usize) {
    (call.day.hours[zone], call.day.closed[zone]) = (0, 0);
    (call.day.sold[zone], call.day.bought[zone]) = (0, 0);
    part(call, zone as i64).fill(0);
    if called(call) == Some(zone) {
        call.hour = 1;
    }
}

/// A user's position in the table is out of its range.
fn leave_table(random: &mut Random, call: &mut Call, zone: i64, sign: i64) {
    in_use(call, zone as usize);
    let users = call.day.users as usize;
    let position = odd_beyond(random, limits::POSITION, sign);
    let place = some_place(random, users);
    part(call, zone)[place] = position;
}

/// A place beyond the users, if there is one, is not zero.
fn beyond_users(random: &mut Random, call: &mut Call, zone: i64) {
    in_use(call, zone as usize);
    let users = call.day.users as usize;
    let unused = &mut part(call, zone)[users..];
    let place = some_place(random, unused.len());
    if let Some(unused) = unused.get_mut(place) {
        *unused = random.pick([1, -1, 100_000_000, i64::MIN]);
    }
}

/// A zone that is closed, or else one with no hours done, has one place that is not zero.
fn fill_idle(random: &mut Random, call: &mut Call, zone: i64, closed: bool) {
    make_idle(call, zone as usize);
    if closed {
        call.day.hours[zone as usize] = call.day.length;
        call.day.closed[zone as usize] = 1;
    }
    let place = some_place(random, call.day.users as usize);
    part(call, zone)[place] = random.pick([1, -1, 100_000_000, -100_000_000]);
}

/// One of so many places: often the first or the last.
pub(crate) fn some_place(random: &mut Random, count: usize) -> usize {
    let any = random.below(count);
    random.pick([0, count.saturating_sub(1), any, any])
}

/// An amount of the list leaves its range.
fn put(random: &mut Random, list: &mut [i64], range: std::ops::RangeInclusive<i64>, sign: i64) {
    let place = some_place(random, list.len());
    let number = odd_beyond(random, range, sign);
    list.iter_mut().skip(place).take(1).for_each(|amount| *amount = number);
}

/// A pooling amount is changed and stays in its range, so that the sum has this sign.
fn unbalance(random: &mut Random, call: &mut Call, sign: i64) {
    let place = some_place(random, call.amounts.pooling.len());
    let room = 100_000_000 - sign * call.amounts.pooling[place];
    if room > 0 {
        let any = random.between(1, room);
        call.amounts.pooling[place] += sign * random.pick([1, room, any]);
    }
}

/// Pooling amounts in their range that add to 2^32 or its negation: zero in 32 bits.
fn balance_modulo(call: &mut Call, sign: i64) {
    let pooling = &mut call.amounts.pooling;
    if pooling.len() < 43 {
        return;
    }
    pooling.fill(0);
    pooling[..42].fill(sign * 100_000_000);
    pooling[42] = sign * ((1 << 32) - 4_200_000_000);
}

/// A user's position before settlement leaves its range, while every amount is in its own
/// and the pooling amounts still add to zero. Another user gives what is pooled.
fn leave_range(random: &mut Random, call: &mut Call, sign: i64) {
    let Some(zone) = called(call) else { return };
    let users = call.amounts.entry.len();
    let place = some_place(random, users);
    let giver = (place + 1 + random.below(users - 1)) % users;
    let further = random.between(1, 100_000_000);
    let beyond = sign * (100_000_000 + random.pick([1, 1, further]));
    for _ in 0..8 {
        let any = random.between(0, 200_000_000);
        let pooled = if giver == place { 0 } else { sign * random.pick([0, any, 100_000_000]) };
        let [to, from] = [place, giver].map(|g| call.amounts.pooling[g]);
        let [taken, given] = if giver == place { [to, from] } else { [to + pooled, from - pooled] };
        let moved = beyond - call.table[zone * limits::PLACES + place] - taken;
        if moved.abs() > REACH || taken.abs().max(given.abs()) > 100_000_000 {
            continue;
        }
        call.amounts.pooling[giver] = given;
        call.amounts.pooling[place] = taken;
        let kept = call.table[zone * limits::PLACES + giver] + given;
        set_moves(random, &mut call.amounts, giver, (-kept).clamp(-REACH, REACH));
        set_moves(random, &mut call.amounts, place, moved);
        return;
    }
}

/// Entry, exit and title amounts of the user that add to the move.
fn set_moves(random: &mut Random, amounts: &mut Hour, place: usize, moved: i64) {
    [amounts.entry[place], amounts.exit[place], amounts.title[place]] = split(random, moved);
}
