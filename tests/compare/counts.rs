//! How many calls were made of everything that is to come up, and how many of it there have to be at least.

use crate::both::{
    CLOSINGS_TO_THE_BOUND, HOURS_OF_A_DAY, HOURS_TO_THE_BOUND, JUDGED_OF_A_DAY, JUDGED_PAST_THE_BOUND, PREVIEWS_OF_A_DAY, PREVIEWS_TO_THE_BOUND, ROUNDINGS, SIDES, TOTALS,
    TOTALS_OF_DAYS, UNITS,
};
use ordinary::made_up::Kind;
use ordinary::spoilt::{closing_ways, hour_ways, judged_ways, preview_ways, Way};
use ordinary::spoilt_file;
use ordinary::spoilt_writing::{ROOMS, WRITING_WAYS};

const LEAST_OF_A_KIND: u64 = 1_000;
const LEAST_OF_A_SIDE: u64 = 5_000;
const LEAST_OF_A_CAUSE: u64 = 500;
const LEAST_ACCEPTED: u64 = 1_000;
const LEAST_OF_A_DAY: u64 = 500;
const LEAST_OF_A_PART: u64 = 200;
const LEAST_OF_A_PAIR: u64 = 20;

pub const LENGTHS: [i64; 3] = [23, 24, 25];
const OPENING_PARTS: [&str; 6] = ["1 users below 1", "1 users above 128", "21 length below 23", "21 length above 25", "3 table too short", "3 table too long"];

/// What is counted under one name, each item with its number.
struct Row {
    name: &'static str,
    least: u64,
    items: Vec<(String, u64)>,
}

pub struct Counts {
    rows: Vec<Row>,
    pub calls: u64,
}

/// Pairs of causes that cannot come together: a closed zone with fewer hours done than the day has is refused by cause 2.
pub const NO_CLOSING_PAIR: (u64, u64) = (5, 6);
/// At opening 21 comes after 1 and before 3.
pub const OPENING_PAIRS: [(u64, u64); 3] = [(1, 21), (1, 3), (21, 3)];
/// A file that has no line after the header has none that is wrong.
pub const FILE_PAIRS: [(u64, u64); 9] = [(12, 13), (12, 14), (12, 15), (12, 16), (12, 17), (13, 14), (13, 15), (13, 16), (13, 17)];
/// Within one line the lower number is given, over two lines that of the first line.
pub const LINE_PAIRS: [(u64, u64); 3] = [(14, 15), (14, 16), (15, 16)];
pub const TWO_LINES: [(u64, u64); 6] = [(14, 15), (14, 16), (15, 14), (15, 16), (16, 14), (16, 15)];
/// Of a judged hour the lower number is given, also where it is the later user that brings it.
pub const TWO_USERS: [(u64, u64); 3] = [(22, 23), (22, 24), (23, 24)];
/// Within the thresholds a judged hour's quantities are zero or refused by 22.
const JUDGED_SIDES: [(u64, &str); 7] =
    [(22, "within"), (22, "excess"), (22, "shortfall"), (23, "excess"), (23, "shortfall"), (24, "excess"), (24, "shortfall")];

/// Every pair of these causes, the lower one first.
pub fn pairs(causes: impl IntoIterator<Item = u64>) -> Vec<(u64, u64)> {
    let causes: Vec<u64> = causes.into_iter().collect();
    let above = |at: usize| causes[at + 1..].iter().map(|&higher| (causes[at], higher)).collect::<Vec<_>>();
    (0..causes.len()).flat_map(above).collect()
}

/// The causes of an hour and of a preview.
fn hour_causes() -> impl Iterator<Item = u64> {
    (2..=11).chain([25])
}

fn closing_causes() -> impl Iterator<Item = u64> {
    (2..=8).chain([25])
}

/// The causes of a judged hour.
fn judged_causes() -> impl Iterator<Item = u64> {
    (2..=11).chain(22..=24)
}

pub fn hour_pairs() -> Vec<(u64, u64)> {
    pairs(hour_causes())
}

pub fn judged_pairs() -> Vec<(u64, u64)> {
    pairs(judged_causes())
}

pub fn closing_pairs() -> Vec<(u64, u64)> {
    pairs(closing_causes()).into_iter().filter(|&pair| pair != NO_CLOSING_PAIR).collect()
}

pub fn pair_name((first, second): (u64, u64)) -> String {
    format!("{first} with {second}")
}

pub fn part_name(cause: u64, part: &str) -> String {
    format!("{cause} {part}")
}

fn row<T: ToString>(name: &'static str, least: u64, items: impl IntoIterator<Item = T>) -> Row {
    let items = items.into_iter().map(|item| (item.to_string(), 0)).collect();
    Row { name, least, items }
}

fn parts(name: &'static str, ways: &[&Way]) -> Row {
    row(name, LEAST_OF_A_PART, ways.iter().map(|way| part_name(way.cause, way.part)))
}

fn pairs_row(name: &'static str, pairs: &[(u64, u64)]) -> Row {
    row(name, LEAST_OF_A_PAIR, pairs.iter().map(|&pair| pair_name(pair)))
}

/// Of what is accepted.
fn accepted_rows() -> Vec<Row> {
    vec![
        row("accepted hours by kind", LEAST_OF_A_KIND, Kind::ALL.map(|kind| format!("{kind:?}"))),
        row("accepted hours by side", LEAST_OF_A_SIDE, SIDES),
        row("accepted previews by kind", LEAST_OF_A_KIND, Kind::ALL.map(|kind| format!("{kind:?}"))),
        row("accepted previews by side", LEAST_OF_A_SIDE, SIDES),
        row("previews and then their hours", LEAST_OF_A_SIDE, ["accepted", "refused"]),
        row("accepted judged hours by kind", LEAST_OF_A_KIND, Kind::ALL.map(|kind| format!("{kind:?}"))),
        row("accepted judged hours by side", LEAST_OF_A_SIDE, SIDES),
        row("accepted judged hours by rounding", LEAST_OF_A_SIDE, ROUNDINGS),
        row("hours and then their own quantities judged", LEAST_OF_A_SIDE, ["accepted", "refused"]),
        row("accepted calls", LEAST_ACCEPTED, ["hours", "previews", "judged hours", "closings", "openings", "thresholds", "files", "writings"]),
        row("accepted writings by room", LEAST_ACCEPTED, ROOMS.map(|(name, _)| name)),
        row("files that were read and written again", LEAST_ACCEPTED, UNITS),
        row("accepted openings by length of the day", LEAST_OF_A_KIND, LENGTHS),
    ]
}

/// Of totals near their bound.
fn bound_rows() -> Vec<Row> {
    let rows = [HOURS_TO_THE_BOUND, PREVIEWS_TO_THE_BOUND, CLOSINGS_TO_THE_BOUND, JUDGED_PAST_THE_BOUND];
    rows.map(|name| row(name, LEAST_OF_A_PART, TOTALS.into_iter().flatten())).into()
}

/// Of whole days, and of where in its day a call is.
fn day_rows() -> Vec<Row> {
    vec![
        row("days to both closings by length of the day", LEAST_OF_A_DAY, LENGTHS),
        row(TOTALS_OF_DAYS, LEAST_OF_A_DAY, TOTALS.into_iter().flatten()),
        row(HOURS_OF_A_DAY[0], LEAST_OF_A_KIND, LENGTHS),
        row(HOURS_OF_A_DAY[1], LEAST_OF_A_KIND, LENGTHS),
        row(HOURS_OF_A_DAY[2], LEAST_OF_A_PART, LENGTHS),
        row(PREVIEWS_OF_A_DAY[0], LEAST_OF_A_KIND, LENGTHS),
        row(PREVIEWS_OF_A_DAY[1], LEAST_OF_A_KIND, LENGTHS),
        row(PREVIEWS_OF_A_DAY[2], LEAST_OF_A_PART, LENGTHS),
        row(JUDGED_OF_A_DAY[0], LEAST_OF_A_KIND, LENGTHS),
        row(JUDGED_OF_A_DAY[1], LEAST_OF_A_KIND, LENGTHS),
        row(JUDGED_OF_A_DAY[2], LEAST_OF_A_PART, LENGTHS),
        row("closings an hour early, refused, by length of the day", LEAST_OF_A_PART, LENGTHS),
        row("closings after the last hour by length of the day", LEAST_OF_A_KIND, LENGTHS),
    ]
}

fn cause_rows() -> Vec<Row> {
    vec![
        row("hours by cause", LEAST_OF_A_CAUSE, hour_causes()),
        row("previews by cause", LEAST_OF_A_CAUSE, hour_causes()),
        row("judged hours by cause", LEAST_OF_A_CAUSE, judged_causes()),
        row("judged hours by cause and side", LEAST_OF_A_SIDE, JUDGED_SIDES.map(|(cause, side)| part_name(cause, side))),
        row("closings by cause", LEAST_OF_A_CAUSE, closing_causes()),
        row("openings by cause", LEAST_OF_A_CAUSE, [1, 21, 3]),
        row("thresholds by cause", LEAST_OF_A_CAUSE, [4, 8]),
        row("files by cause", LEAST_OF_A_CAUSE, 12..=17),
        row("writings by cause", LEAST_OF_A_CAUSE, 18..=20),
    ]
}

fn part_rows() -> Vec<Row> {
    vec![
        parts("hours of zone H by part of a cause", &hour_ways()),
        parts("hours of zone L by part of a cause", &hour_ways()),
        parts("previews of zone H by part of a cause", &preview_ways()),
        parts("previews of zone L by part of a cause", &preview_ways()),
        parts("judged hours of zone H by part of a cause", &judged_ways()),
        parts("judged hours of zone L by part of a cause", &judged_ways()),
        parts("closings of zone H by part of a cause", &closing_ways()),
        parts("closings of zone L by part of a cause", &closing_ways()),
        row("openings by part of a cause", LEAST_OF_A_PART, OPENING_PARTS),
        row("thresholds by part of a cause", LEAST_OF_A_PART, ["4 zone below 0", "4 zone above 1", "8 month below 1", "8 month above 12"]),
        row("files by part of a cause", LEAST_OF_A_PART, spoilt_file::WAYS.iter().map(|way| part_name(way.cause, way.part))),
        row("writings of zone H by part of a cause", LEAST_OF_A_PART, WRITING_WAYS.iter().map(|way| part_name(way.cause, way.part))),
        row("writings of zone L by part of a cause", LEAST_OF_A_PART, WRITING_WAYS.iter().map(|way| part_name(way.cause, way.part))),
    ]
}

fn pair_rows() -> Vec<Row> {
    vec![
        pairs_row("hours by pair of causes", &hour_pairs()),
        pairs_row("previews by pair of causes", &hour_pairs()),
        pairs_row("judged hours by pair of causes", &judged_pairs()),
        pairs_row("judged hours by pair of causes of two users, the later user's first", &TWO_USERS),
        pairs_row("closings by pair of causes", &closing_pairs()),
        pairs_row("openings by pair of causes", &OPENING_PAIRS),
        pairs_row("thresholds by pair of causes", &[(4, 8)]),
        pairs_row("files by pair of causes", &FILE_PAIRS),
        pairs_row("files by pair of causes in one line", &LINE_PAIRS),
        pairs_row("files by pair of causes in two lines, the first line's first", &TWO_LINES),
        pairs_row("writings by pair of causes", &pairs(18..=20)),
    ]
}

impl Counts {
    /// The table: everything that is to come up, none of it yet.
    pub fn new() -> Counts {
        let rows = [accepted_rows(), bound_rows(), day_rows(), cause_rows(), part_rows(), pair_rows()];
        Counts { rows: rows.into_iter().flatten().collect(), calls: 0 }
    }

    /// One more of an item.
    pub fn count(&mut self, name: &str, item: &str) {
        let row = self.rows.iter_mut().find(|row| row.name == name);
        let found = row.and_then(|row| row.items.iter_mut().find(|(known, _)| known == item));
        match found {
            Some((_, number)) => *number += 1,
            None => panic!("the table of counts has no {name}: {item}"),
        }
    }

    /// One more call, accepted or of a cause; the name is that of its causes' row.
    pub fn call(&mut self, name: &str, cause: u64) {
        self.calls += 1;
        match cause {
            0 => self.count("accepted calls", name.trim_end_matches(" by cause")),
            _ => self.count(name, &cause.to_string()),
        }
    }

    /// Prints the table, and answers how many of its numbers are below their least.
    pub fn print(&self) -> usize {
        let mut short = 0;
        for Row { name, least, items } in &self.rows {
            let numbers: Vec<String> = items.iter().map(|(item, number)| format!("{item} = {number}")).collect();
            println!("{name}, least {least} each: {}", numbers.join(", "));
            for (item, number) in items.iter().filter(|(_, number)| number < least) {
                println!("too few: {name}: {item} = {number}, and the least is {least}");
                short += 1;
            }
        }
        short
    }
}
