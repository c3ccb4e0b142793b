//! Made-up days, hours and files, for comparing with another program.
//!
//! What is made up depends on the generator alone, so that a seed names a run.

use std::fmt::Display;
use std::ops::RangeInclusive;

use crate::random::Random;
use crate::{limits, Day, Terms, HEADER};

/// The kinds of hour.
#[derive(Clone, Copy, PartialEq, Eq, Debug)]
pub enum Kind {
    /// Random positions that make an excess.
    Excess,
    /// Random positions that make a shortfall.
    Shortfall,
    /// All positions of one size, so that all fractions are equal.
    EqualSizes,
    /// Positions of three sizes, so that many fractions are equal.
    ThreeSizes,
    /// One to three causers; all others are at zero or a little to the other side.
    FewCausers,
    /// A market within its thresholds, often just at one.
    Within,
}

impl Kind {
    /// All kinds.
    pub const ALL: [Kind; 6] = [
        Kind::Excess,
        Kind::Shortfall,
        Kind::EqualSizes,
        Kind::ThreeSizes,
        Kind::FewCausers,
        Kind::Within,
    ];
}

/// An hour's four amounts lists, one number per user, and its terms.
#[derive(Clone, PartialEq, Eq, Debug)]
pub struct Hour {
    /// Entry amounts.
    pub entry: Vec<i64>,
    /// Exit amounts.
    pub exit: Vec<i64>,
    /// Title amounts.
    pub title: Vec<i64>,
    /// Pooling amounts.
    pub pooling: Vec<i64>,
    /// Thresholds and prices.
    pub terms: Terms,
}

/// How far entry, exit and title together can move a position.
pub(crate) const REACH: i64 = 100_000_000;
/// How large the pooling amounts are made up.
const POOLED: i64 = 50_000_000;
/// Sizes of positions to choose from.
const SCALES: [i64; 7] = [1, 3, 10, 1_000, 1_000_000, 50_000_000, 100_000_000];

/// A fit record in the middle of a day of any length, and a table fit for it. Its totals leave
/// room for whatever an hour or a closing adds.
pub fn day(random: &mut Random, users: usize) -> (Day, Vec<i64>) {
    let length = random.between(*limits::LENGTHS.start(), *limits::LENGTHS.end());
    let mut day = Day {
        users: users as i64,
        length,
        hours: [0; 2],
        closed: [0; 2],
        sold: [0; 2],
        bought: [0; 2],
    };
    let mut table = vec![0; limits::TABLE];
    for (zone, part) in table.chunks_exact_mut(limits::PLACES).enumerate() {
        let any = random.between(0, length);
        day.hours[zone] = random.pick([0, length - 1, length, any, any]);
        day.closed[zone] = i64::from(day.hours[zone] == length && random.one_in(3));
        if day.hours[zone] > 0 {
            [day.sold[zone], day.bought[zone]] = [0; 2].map(|_| total(random));
        }
        if day.hours[zone] > 0 && !day.is_closed(zone) {
            let scale = random.pick(SCALES);
            for place in part.iter_mut().take(users) {
                *place = random.between(-scale, scale);
            }
        }
    }
    (day, table)
}

/// A total that leaves room for what a call adds at most: every user's whole position.
fn total(random: &mut Random) -> i64 {
    let added = limits::PLACES as i64 * limits::POSITION.end();
    let room = limits::TOTAL.end() - added;
    let any = random.between(0, room);
    random.pick([0, 1, room, any, any, any])
}

/// An hour of the kind for the zone's places in the table, `start` (places that it
/// lacks count as zero). All amounts and positions are in range. The kind is met if
/// `start` is all zero and otherwise nearly always.
pub fn hour(random: &mut Random, users: usize, kind: Kind, start: &[i64]) -> Hour {
    let pooling = pooling(random, users);
    let wishes = wishes(random, users, kind);
    let (mut entry, mut exit, mut title) = (Vec::new(), Vec::new(), Vec::new());
    let mut market = 0;
    for (place, wish) in wishes.into_iter().enumerate() {
        let start = start.get(place).copied().unwrap_or(0);
        let moved = clamp(start, limits::POSITION) + pooling[place];
        let position = clamp(clamp(wish, moved - REACH..=moved + REACH), limits::POSITION);
        let parts = split(random, position - moved);
        entry.push(parts[0]);
        exit.push(parts[1]);
        title.push(parts[2]);
        market += position;
    }
    let terms = match kind {
        Kind::Within => terms_within(random, market),
        _ => terms_settled(random, market),
    };
    Hour {
        entry,
        exit,
        title,
        pooling,
        terms,
    }
}

/// Puts an odd number into one random place of the hour, fit or unfit.
pub fn spoil(random: &mut Random, hour: &mut Hour) {
    let number = odd_number(random);
    let place = random.below(hour.entry.len());
    let list = match random.below(8) {
        0 => &mut hour.entry,
        1 => &mut hour.exit,
        2 => &mut hour.title,
        3 => &mut hour.pooling,
        4 => return hour.terms.upper = number,
        5 => return hour.terms.lower = number,
        6 => return hour.terms.excess_price = number,
        _ => return hour.terms.shortfall_price = number,
    };
    if let Some(amount) = list.get_mut(place) {
        *amount = number;
    }
}

/// A number near a limit of some kind of amount, or at the end of the 64 bits.
pub fn odd_number(random: &mut Random) -> i64 {
    let limit = random.pick([
        0,
        24,
        128,
        10_000_000,
        50_000_000,
        100_000_000,
        1_000_000_000,
        *limits::TOTAL.end(),
        i64::MAX,
        i64::MIN,
    ]);
    let limit = random.pick([limit, limit.wrapping_neg()]);
    limit.saturating_add(random.between(-2, 2))
}

/// A number beyond the range, above it (1) or below it (-1): often the next one.
pub fn odd_beyond(random: &mut Random, range: RangeInclusive<i64>, sign: i64) -> i64 {
    let (low, high) = range.into_inner();
    let (end, last) = if sign > 0 { (high, i64::MAX) } else { (low, i64::MIN) };
    let any = random.between(end.min(last), end.max(last));
    let next = end + sign;
    let wrapped = end + sign * (1 << 32);
    random.pick([next, next, end + 2 * sign, wrapped, last, if any == end { next } else { any }])
}

/// The hour's file, in the form that the reader takes.
pub fn file(random: &mut Random, hour: i64, zone: i64, amounts: &Hour) -> Vec<u8> {
    let energies = amounts.entry.iter().zip(&amounts.exit);
    let transfers = amounts.title.iter().zip(&amounts.pooling);
    let rows: Vec<[i64; 4]> = energies
        .zip(transfers)
        .map(|((&entry, &exit), (&title, &pooling))| [entry, exit, title, pooling])
        .collect();
    file_of(hour, zone, &rows, random.one_in(2))
}

/// A file of any numbers that have at most nine digits.
pub fn any_file(random: &mut Random, lines: usize) -> Vec<u8> {
    let hour = any_number(random).abs();
    let zone = random.between(0, 1);
    let unit = random.pick(Unit::ALL);
    let rows: Vec<[String; 4]> = (0..lines)
        .map(|_| std::array::from_fn(|_| any_amount(random, unit)))
        .collect();
    file_of(hour, zone, &rows, random.one_in(2))
}

/// The unit of a file's amounts.
#[derive(Clone, Copy, Debug)]
pub enum Unit {
    /// No amount has a point.
    Kwh,
    /// Each has one.
    Mwh,
    /// Some have one.
    Mixed,
}

impl Unit {
    /// All of them.
    pub const ALL: [Unit; 3] = [Unit::Kwh, Unit::Mwh, Unit::Mixed];
}

/// Any amount that has at most nine digits, as a file of this unit has it.
pub(crate) fn any_amount(random: &mut Random, unit: Unit) -> String {
    let kwh = any_number(random);
    let in_mwh = match unit {
        Unit::Kwh => false,
        Unit::Mwh => true,
        Unit::Mixed => random.one_in(2),
    };
    if !in_mwh {
        return kwh.to_string();
    }
    let (sign, size) = (if kwh < 0 { "-" } else { "" }, kwh.abs());
    format!("{sign}{}.{:03}", size / 1000, size % 1000)
}

/// The file of these rows. The last line ends in CR LF if `ended`.
pub fn file_of<Amount: Display>(hour: i64, zone: i64, rows: &[[Amount; 4]], ended: bool) -> Vec<u8> {
    let letter = if zone == 0 { 'H' } else { 'L' };
    let lines: Vec<String> = rows
        .iter()
        .enumerate()
        .map(|(place, [entry, exit, title, pooling])| {
            format!("{hour},{letter},{place},{entry},{exit},{title},{pooling}")
        })
        .collect();
    let mut bytes = HEADER.to_vec();
    bytes.extend_from_slice(lines.join("\r\n").as_bytes());
    if ended && !rows.is_empty() {
        bytes.extend_from_slice(b"\r\n");
    }
    bytes
}

/// Damages a file in one place, mostly after the header. The file may by chance still
/// be a good one.
pub fn damage(random: &mut Random, bytes: &mut Vec<u8>) {
    let at = damaged_place(random, bytes.len());
    let other = damaged_place(random, bytes.len());
    match random.below(8) {
        0 => bytes.truncate(at),
        1 if at < bytes.len() && other < bytes.len() => bytes.swap(at, other),
        2 if at + 1 < bytes.len() => bytes.swap(at, at + 1),
        3 if at < bytes.len() => drop(bytes.remove(at)),
        4 if at < bytes.len() => bytes[at] = random.bits() as u8,
        5 => insert(bytes, at, b"\r\n"),
        _ => {
            let byte = random.pick(*b"\r\n\"-+0123456789, HL.\0");
            insert(bytes, at, &[byte]);
        }
    }
}

/// A place in a file of this length, its end included, mostly after the header and
/// sometimes close to the end.
fn damaged_place(random: &mut Random, length: usize) -> usize {
    let start = match random.below(8) {
        0 => 0,
        1 => length.saturating_sub(4),
        _ => HEADER.len().min(length),
    };
    start + random.below(length - start + 1)
}

fn insert(bytes: &mut Vec<u8>, at: usize, inserted: &[u8]) {
    bytes.splice(at..at, inserted.iter().copied());
}

/// A number of at most nine digits, with any count of digits about equally often.
pub(crate) fn any_number(random: &mut Random) -> i64 {
    let end = 10_i64.pow(random.below(10) as u32) - 1;
    random.between(-end, end)
}

fn clamp(value: i64, range: RangeInclusive<i64>) -> i64 {
    value.clamp(*range.start(), *range.end())
}

/// Pooling amounts that add to zero: none at all, or transfers between random users.
fn pooling(random: &mut Random, users: usize) -> Vec<i64> {
    let mut pooling = vec![0; users];
    if random.one_in(2) {
        return pooling;
    }
    for _ in 0..users {
        let (from, to) = (random.below(users), random.below(users));
        let amount = random.between(0, POOLED);
        if from != to && pooling[from] - amount >= -POOLED && pooling[to] + amount <= POOLED {
            pooling[from] -= amount;
            pooling[to] += amount;
        }
    }
    pooling
}

/// The positions before settlement that the kind of hour wishes for.
fn wishes(random: &mut Random, users: usize, kind: Kind) -> Vec<i64> {
    let scale = random.pick(SCALES);
    let sizes: [i64; 3] = std::array::from_fn(|_| random.between(1, scale));
    let sign = match kind {
        Kind::Excess => 1,
        Kind::Shortfall => -1,
        _ => random.pick([1, -1]),
    };
    let mut wishes: Vec<i64> = (0..users)
        .map(|_| match kind {
            Kind::Excess | Kind::Shortfall => random.between(-scale / 4, scale),
            Kind::EqualSizes => sizes[0],
            Kind::ThreeSizes => random.pick(sizes),
            Kind::FewCausers => random.between(-7, 0),
            Kind::Within => random.between(-scale / 20 - 1, scale / 20 + 1),
        })
        .collect();
    if kind == Kind::FewCausers {
        for _ in 0..random.between(1, 3) {
            let causer = random.below(users);
            if let Some(wish) = wishes.get_mut(causer) {
                *wish = random.between(1_000, 100_000_000);
            }
        }
    } else if kind != Kind::Within && wishes.iter().sum::<i64>() <= 0 {
        wishes.iter_mut().for_each(|wish| *wish = wish.abs().max(1));
    }
    wishes.iter_mut().for_each(|wish| *wish *= sign);
    wishes
}

/// Entry, exit and title amounts in range that add to the move, at most `REACH` in size.
pub(crate) fn split(random: &mut Random, moved: i64) -> [i64; 3] {
    let title = between_ends(
        random,
        (moved - limits::ENTRY.end()).max(*limits::TITLE.start()),
        (moved - limits::EXIT.start()).min(*limits::TITLE.end()),
    );
    let rest = moved - title;
    let exit = between_ends(
        random,
        (rest - limits::ENTRY.end()).max(*limits::EXIT.start()),
        rest.min(0),
    );
    [rest - exit, exit, title]
}

/// A number from `low` to `high`, quite often one of the two.
fn between_ends(random: &mut Random, low: i64, high: i64) -> i64 {
    let inside = random.between(low, high);
    random.pick([low, high, inside, inside])
}

/// Thresholds that the market is outside of, if it is not at zero.
fn terms_settled(random: &mut Random, market: i64) -> Terms {
    let limit = *limits::UPPER.end();
    let outside = between_ends(random, 0, (market.abs() - 1).clamp(0, limit));
    let other = between_ends(random, 0, limit);
    with_prices(random, market, outside, other)
}

/// Thresholds that the market is within, if that can be.
fn terms_within(random: &mut Random, market: i64) -> Terms {
    let limit = *limits::UPPER.end();
    let inside = between_ends(random, market.abs().min(limit), limit);
    let other = between_ends(random, 0, limit);
    with_prices(random, market, inside, other)
}

/// Terms with one threshold's size on the market's side and another's on the other.
fn with_prices(random: &mut Random, market: i64, near: i64, far: i64) -> Terms {
    let (upper, lower) = if market > 0 {
        (near, -far)
    } else {
        (far, -near)
    };
    let (low, high) = limits::PRICE.into_inner();
    Terms {
        upper,
        lower,
        excess_price: between_ends(random, low, high),
        shortfall_price: between_ends(random, low, high),
    }
}
