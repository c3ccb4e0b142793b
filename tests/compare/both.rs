//! One call by both: the same is given and lent to each; the answer, the record and everything lent are compared afterwards, and a refused call also with what was
//! lent. A difference ends the run with where it came up and what was given. Every call is counted, by its cause and, if it is an accepted hour or preview, by its side; a
//! judged hour also by its side and rounding, if its quantities were looked at. What leads a total to its bound is counted apart.

use crate::counts::{part_name, Counts};
use gas_day::{Amounts, Cause, ClosingTerms, Day, HourTerms, FileLists, Outputs, ZoneDay};
use ordinary::limits;
use ordinary::made_up::Hour;
use ordinary::spoilt::Call;
use ordinary::spoilt_writing::Writing;
use ordinary::{Outcome, Side, Terms};
use std::cmp::Ordering;

/// Where the comparison is, for the words of a difference, and what it has counted.
pub struct Run {
    pub at: String,
    pub counts: Counts,
}

fn as_library(day: ordinary::Day) -> Day {
    let zone = |z: usize| ZoneDay {
        hours: day.hours[z],
        closed: day.closed[z],
        sold: day.sold[z],
        bought: day.bought[z],
    };
    Day {
        users: day.users,
        length: day.length,
        h: zone(0),
        l: zone(1),
    }
}

fn as_ordinary(day: Day) -> ordinary::Day {
    ordinary::Day {
        users: day.users,
        length: day.length,
        hours: [day.h.hours, day.l.hours],
        closed: [day.h.closed, day.l.closed],
        sold: [day.h.sold, day.l.sold],
        bought: [day.h.bought, day.l.bought],
    }
}

/// Of an hour or a preview: cause, side (0 within, 1 excess, 2 shortfall), total, the two words of marks, and their number.
type HourAnswer = (u64, u64, i64, u64, u64, u64);

fn of_ordinary(answer: Result<Outcome, u64>) -> HourAnswer {
    match answer {
        Err(cause) => (cause, 0, 0, 0, 0, 0),
        Ok(Outcome::Within) => (0, 0, 0, 0, 0, 0),
        Ok(Outcome::Settled {
            side,
            total,
            marks,
            number,
        }) => {
            let side = if side == Side::Excess { 1 } else { 2 };
            (0, side, total, marks[0], marks[1], number)
        }
    }
}

fn of_library(answer: Result<gas_day::Outcome, Cause>) -> HourAnswer {
    match answer {
        Err(cause) => (cause.number(), 0, 0, 0, 0, 0),
        Ok(gas_day::Outcome::Within) => (0, 0, 0, 0, 0, 0),
        Ok(gas_day::Outcome::Settled {
            side,
            total,
            causers,
        }) => {
            let side = if side == gas_day::Side::Excess { 1 } else { 2 };
            (0, side, total, causers.first, causers.second, causers.number)
        }
    }
}

fn terms_of(call: &Call) -> HourTerms {
    let Terms {
        upper,
        lower,
        excess_price,
        shortfall_price,
    } = call.amounts.terms;
    HourTerms {
        zone: call.zone,
        hour: call.hour,
        upper,
        lower,
        excess_price,
        shortfall_price,
    }
}

fn amounts_of(hour: &Hour) -> Amounts<'_> {
    Amounts {
        entry: &hour.entry,
        exit: &hour.exit,
        title: &hour.title,
        pooling: &hour.pooling,
    }
}

fn library_hour(call: &mut Call) -> HourAnswer {
    let (terms, amounts) = (terms_of(call), amounts_of(&call.amounts));
    let outputs = Outputs {
        quantity: &mut call.quantity,
        money: &mut call.money,
    };
    let mut day = as_library(call.day);
    let answer = gas_day::settle_hour(&mut day, &mut call.table, terms, amounts, outputs, &mut call.scratch);
    call.day = as_ordinary(day);
    of_library(answer)
}

fn library_preview(call: &mut Call) -> HourAnswer {
    let (terms, amounts) = (terms_of(call), amounts_of(&call.amounts));
    let outputs = Outputs {
        quantity: &mut call.quantity,
        money: &mut call.money,
    };
    let day = as_library(call.day);
    let answer = gas_day::preview_hour(&day, &call.table, terms, amounts, outputs, &mut call.after, &mut call.scratch);
    call.day = as_ordinary(day);
    of_library(answer)
}

/// Of a judged hour: the cause. The crate keeps the record that comes back to itself.
fn library_judge(call: &Call) -> u64 {
    let (terms, amounts) = (terms_of(call), amounts_of(&call.amounts));
    let answer = gas_day::judge_hour(&as_library(call.day), &call.table, terms, amounts, &call.quantity);
    answer.map_or_else(Cause::number, |()| 0)
}

/// Of a closing: cause, sold and bought.
type ClosingAnswer = (u64, i64, i64);

fn ordinary_closing(call: &mut Call) -> ClosingAnswer {
    call.close().map_or_else(|cause| (cause, 0, 0), |(sold, bought)| (0, sold, bought))
}

fn library_closing(call: &mut Call) -> ClosingAnswer {
    let terms = ClosingTerms {
        zone: call.zone,
        excess_price: call.amounts.terms.excess_price,
        shortfall_price: call.amounts.terms.shortfall_price,
    };
    let outputs = Outputs {
        quantity: &mut call.quantity,
        money: &mut call.money,
    };
    let mut day = as_library(call.day);
    let answer = gas_day::close_zone(&mut day, &mut call.table, terms, outputs);
    call.day = as_ordinary(day);
    answer.map_or_else(|cause| (cause.number(), 0, 0), |closed| (0, closed.sold, closed.bought))
}

/// Of a writing: the bytes that were written, or the cause.
fn library_writing(writing: &mut Writing) -> Result<i64, u64> {
    let [entry, exit, title, pooling] = &writing.lists;
    let amounts = Amounts {
        entry,
        exit,
        title,
        pooling,
    };
    let answer = gas_day::write_hour_file(writing.hour, writing.zone, writing.users, amounts, &mut writing.file);
    answer.map(|bytes| bytes as i64).map_err(Cause::number)
}

/// What the library reads: hour, zone and lines, or the cause; and lists of these lengths, which held -7 at each place.
type Read = (Result<(i64, i64, i64), u64>, [Vec<i64>; 4]);

fn library_read(bytes: &[u8], lengths: [usize; 4]) -> Read {
    let mut lists = lengths.map(|length| vec![-7; length]);
    let [entries, exits, titles, poolings] = &mut lists;
    let lent = FileLists {
        entries,
        exits,
        titles,
        poolings,
    };
    let read = gas_day::read_hour_file(bytes, lent);
    let answer = read.map(|file| (file.hour, file.zone, file.lines as i64)).map_err(Cause::number);
    (answer, lists)
}

/// The units of a file that is read.
const IN_KWH: &str = "in kWh";
const IN_MWH: &str = "in MWh";
const MIXED: &str = "in both";
pub const UNITS: [&str; 3] = [IN_KWH, IN_MWH, MIXED];

/// The unit of a file of so many lines that is read: an amount has one point or none, and no other field has any.
fn unit_of(bytes: &[u8], lines: i64) -> &'static str {
    match bytes.iter().filter(|&&byte| byte == b'.').count() as i64 {
        0 => IN_KWH,
        points if points == 4 * lines => IN_MWH,
        _ => MIXED,
    }
}

/// The sides of an accepted hour, preview or judged hour, in the order of their numbers.
pub const SIDES: [&str; 3] = ["within", "excess", "shortfall"];

/// The rows of what is before the last hour, the last hour, and after it.
pub const HOURS_OF_A_DAY: [&str; 3] =
    ["hours before the last by length of the day", "last hours by length of the day", "hours after the last, refused, by length of the day"];
pub const PREVIEWS_OF_A_DAY: [&str; 3] =
    ["previews before the last hour by length of the day", "previews of the last hour by length of the day", "previews after the last hour, refused, by length of the day"];

pub const JUDGED_OF_A_DAY: [&str; 3] =
    ["judged hours before the last by length of the day", "judged last hours by length of the day", "judged hours after the last, refused, by length of the day"];

/// How an accepted list of quantities is rounded.
pub const ROUNDINGS: [&str; 2] = ["as settled", "otherwise"];

/// The four totals by side and zone; and the rows of those that are not zero at the end of a day, and that an accepted call leads to the bound, or past it if nothing comes of that.
pub const TOTALS: [[&str; 2]; 2] = [["sold of H", "sold of L"], ["bought of H", "bought of L"]];
pub const TOTALS_OF_DAYS: &str = "days to both closings by total that is not zero";
pub const HOURS_TO_THE_BOUND: &str = "accepted hours that lead a total to the bound";
pub const PREVIEWS_TO_THE_BOUND: &str = "accepted previews that lead a total to the bound";
pub const CLOSINGS_TO_THE_BOUND: &str = "accepted closings that lead a total to the bound";
pub const JUDGED_PAST_THE_BOUND: &str = "accepted judged hours that would lead a total past the bound";

/// The sums of the positive and of the negative quantities, both as sizes.
pub fn sums(quantity: &[i64]) -> [i128; 2] {
    [1, -1].map(|sign| quantity.iter().map(|&quantity| (sign * i128::from(quantity)).max(0)).sum())
}

/// Those of the zone's totals to which the quantities add something, and which they lead to the bound (equal), or past it (greater).
fn led(day: &ordinary::Day, zone: usize, quantity: &[i64], to: Ordering) -> Vec<&'static str> {
    let sums = sums(quantity);
    let is_led = |&side: &usize| {
        let before = [day.sold, day.bought][side][zone];
        let after = i128::from(before) + sums[side];
        sums[side] > 0 && after.cmp(&i128::from(*limits::TOTAL.end())) == to
    };
    (0..2).filter(is_led).map(|side| TOTALS[side][zone]).collect()
}

/// What the settlement makes of the hour of a call whose own lists and scratch may be of any length, and whose totals may be near the bound: its side, and the quantities.
fn settled_side(call: &Call) -> (&'static str, Vec<i64>) {
    let day = ordinary::Day {
        sold: [0; 2],
        bought: [0; 2],
        ..call.day
    };
    let mut settled = Call::new(day, call.table.clone(), call.zone, call.hour, call.amounts.clone());
    let (_, side, ..) = of_ordinary(settled.settle());
    (SIDES[side as usize], settled.quantity)
}

/// The accepted preview is booked: the table holds the positions after, and the record has one hour more, and in its totals the quantities.
fn book(shown: &mut Call) {
    let zone = shown.zone as usize;
    let places = zone * 128..zone * 128 + shown.after.len();
    shown.table[places].copy_from_slice(&shown.after);
    shown.day.hours[zone] += 1;
    let [sold, bought] = sums(&shown.quantity);
    shown.day.sold[zone] += sold as i64;
    shown.day.bought[zone] += bought as i64;
}

/// The hours done in the zone that is called, which is one.
fn done(call: &Call) -> i64 {
    call.day.hours[call.zone as usize]
}

impl Run {
    /// An hour, from the same state; the call is left as the library left it. Answers the cause.
    pub fn hour(&mut self, call: &mut Call) -> u64 {
        self.settled(call).0
    }

    /// The same for a preview.
    pub fn preview(&mut self, call: &mut Call) -> u64 {
        self.previewed(call).0
    }

    /// A preview, and then the hour itself with what the preview left of record and table, and with lists of its own: they have the same answer and lists, and the hour's table
    /// holds the positions after. Answers the cause.
    pub fn preview_and_hour(&mut self, call: &mut Call) -> u64 {
        let mut shown = call.clone();
        let expected = self.previewed(&mut shown);
        (call.day, call.table) = (shown.day, shown.table.clone());
        let found = self.settled(call);
        if expected.0 == 0 {
            book(&mut shown);
        }
        shown.after.clone_from(&call.after); // which an hour is not lent
        if (found, &*call) != (expected, &shown) {
            panic!("{}: an hour differs from its preview\nthe hour: {found:?} {call:?}\nas previewed: {expected:?} {shown:?}", self.at);
        }
        self.counts.count("previews and then their hours", if found.0 == 0 { "accepted" } else { "refused" });
        found.0
    }

    /// The quantities that the call has are judged, then the hour is settled, and then its own quantities are judged of the state before it: accepted if the hour is, and else refused by
    /// what it is refused by, but for 25, which a judge has not. Answers the hour's cause.
    pub fn judge_and_hour(&mut self, call: &mut Call) -> u64 {
        let before = call.clone();
        self.judge(call);
        let cause = self.hour(call);
        let quantity = call.quantity.clone();
        let own = self.judge(&mut Call { quantity, ..before });
        // a refused hour leaves the quantities as they were
        let agree = if cause == 25 { [0, 22, 23, 24].contains(&own) } else { own == cause };
        assert!(agree, "{}: an hour's own quantities are judged by {own}, and the hour by {cause}", self.at);
        self.counts.count("hours and then their own quantities judged", if cause == 0 { "accepted" } else { "refused" });
        cause
    }

    /// The quantities of the call judged for its hour. Answers the cause.
    pub fn judge(&mut self, call: &mut Call) -> u64 {
        let before = call.clone();
        let mut other = call.clone();
        let expected = other.judge().err().unwrap_or(0);
        let found = library_judge(call);
        self.same("a judged hour", &before, (found, call), (expected, &other), expected);
        if *call != before {
            panic!("{}: a judged hour that was accepted changed something\ngiven {before:?}", self.at);
        }
        self.counts.call("judged hours by cause", expected);
        if expected == 0 || expected >= 22 {
            self.by_side_and_rounding(&before, expected);
        }
        self.about_the_last_hour(&JUDGED_OF_A_DAY, &before, expected);
        if expected == 0 {
            self.about_the_bound(JUDGED_PAST_THE_BOUND, &before, &before.quantity, Ordering::Greater);
        }
        expected
    }

    /// Counts a judged hour whose quantities were looked at.
    fn by_side_and_rounding(&mut self, given: &Call, cause: u64) {
        let (side, own) = settled_side(given);
        if cause == 0 {
            self.counts.count("accepted judged hours by side", side);
            self.counts.count("accepted judged hours by rounding", ROUNDINGS[usize::from(given.quantity != own)]);
        } else {
            self.counts.count("judged hours by cause and side", &part_name(cause, side));
        }
    }

    fn previewed(&mut self, call: &mut Call) -> HourAnswer {
        let before = call.clone();
        let mut other = call.clone();
        let expected = of_ordinary(other.preview());
        let found = library_preview(call);
        self.same("a preview", &before, (found, call), (expected, &other), expected.0);
        if (call.day, &call.table) != (before.day, &before.table) {
            panic!("{}: a preview that was accepted changed the record or the table\ngiven {before:?}", self.at);
        }
        self.counts.call("previews by cause", expected.0);
        if expected.0 == 0 {
            self.counts.count("accepted previews by side", SIDES[expected.1 as usize]);
            self.about_the_bound(PREVIEWS_TO_THE_BOUND, &before, &other.quantity, Ordering::Equal);
        }
        self.about_the_last_hour(&PREVIEWS_OF_A_DAY, &before, expected.0);
        expected
    }

    fn settled(&mut self, call: &mut Call) -> HourAnswer {
        let before = call.clone();
        let mut other = call.clone();
        let expected = of_ordinary(other.settle());
        let found = library_hour(call);
        self.same("an hour", &before, (found, call), (expected, &other), expected.0);
        self.counts.call("hours by cause", expected.0);
        if expected.0 == 0 {
            self.counts.count("accepted hours by side", SIDES[expected.1 as usize]);
            self.about_the_bound(HOURS_TO_THE_BOUND, &before, &other.quantity, Ordering::Equal);
        }
        self.about_the_last_hour(&HOURS_OF_A_DAY, &before, expected.0);
        expected
    }

    /// A closing, in the same way. Answers the cause.
    pub fn closing(&mut self, call: &mut Call) -> u64 {
        let before = call.clone();
        let mut other = call.clone();
        let expected = ordinary_closing(&mut other);
        let found = library_closing(call);
        self.same("a closing", &before, (found, call), (expected, &other), expected.0);
        self.counts.call("closings by cause", expected.0);
        let length = before.day.length;
        match expected.0 {
            0 => {
                self.of_length("closings after the last hour by length of the day", length);
                self.about_the_bound(CLOSINGS_TO_THE_BOUND, &before, &other.quantity, Ordering::Equal);
            }
            6 if done(&before) == length - 1 => self.of_length("closings an hour early, refused, by length of the day", length),
            _ => (),
        }
        expected.0
    }

    /// Counts an hour, a preview or a judged hour by where it is in its day, if it is accepted or is just after the day's end.
    fn about_the_last_hour(&mut self, [earlier, last, later]: &[&str; 3], given: &Call, cause: u64) {
        let length = given.day.length;
        match cause {
            0 if given.hour == length => self.of_length(last, length),
            0 => self.of_length(earlier, length),
            6 if done(given) == length && given.hour == length + 1 => self.of_length(later, length),
            _ => (),
        }
    }

    /// Counts an accepted call by the totals of its zone that its quantities lead to the bound, or past it.
    fn about_the_bound(&mut self, row: &str, given: &Call, quantity: &[i64], to: Ordering) {
        let led = led(&given.day, given.zone as usize, quantity, to);
        led.into_iter().for_each(|total| self.counts.count(row, total));
    }

    fn of_length(&mut self, row: &str, length: i64) {
        self.counts.count(row, &length.to_string());
    }

    fn same<A: PartialEq + std::fmt::Debug>(&self, what: &str, before: &Call, found: (A, &mut Call), expected: (A, &Call), cause: u64) {
        if (&found.0, &*found.1) != (&expected.0, expected.1) {
            panic!("{}: {what} differs\ngiven {before:?}\nthe library: {found:?}\nthe ordinary one: {expected:?}", self.at);
        }
        if cause != 0 && *found.1 != *before {
            panic!("{}: {what} that was refused changed something\ngiven {before:?}", self.at);
        }
    }

    /// An opening with a table of so many places. Answers the record and the table, or the cause.
    pub fn opening(&mut self, users: i64, length: i64, places: usize) -> Result<(ordinary::Day, Vec<i64>), u64> {
        let before: Vec<i64> = (0..places as i64).map(|place| place - 7).collect();
        let (mut table, mut other) = (before.clone(), before.clone());
        let answer = ordinary::open(users, length, &mut other);
        let found = gas_day::open(users, length, &mut table).map(as_ordinary).map_err(Cause::number);
        assert_eq!((found, &table), (answer, &other), "{}: an opening for {users} users and {length} hours differs", self.at);
        assert!(found.is_ok() || table == before, "{}: a refused opening changed the table", self.at);
        self.counts.call("openings by cause", found.err().unwrap_or(0));
        if found.is_ok() {
            self.of_length("accepted openings by length of the day", length);
        }
        answer.map(|day| (day, table))
    }

    /// Default thresholds. Answers the cause.
    pub fn thresholds(&mut self, month: i64, zone: i64) -> u64 {
        let expected = ordinary::default_thresholds(month, zone);
        let defaults = gas_day::default_thresholds(month, zone);
        let found = defaults.map(|pair| (pair.upper, pair.lower)).map_err(Cause::number);
        assert_eq!(found, expected, "{}: the default thresholds of month {month}, zone {zone} differ", self.at);
        let cause = found.err().unwrap_or(0);
        self.counts.call("thresholds by cause", cause);
        cause
    }

    /// A file, read into lists of these lengths; one that is read and ends in CR LF is also written again. Answers the cause.
    pub fn file(&mut self, bytes: &[u8], lengths: [usize; 4]) -> u64 {
        let before = lengths.map(|length| vec![-7_i64; length]);
        let mut others = before.clone();
        let [a, b, c, d] = &mut others;
        let expected = ordinary::read_file(bytes, a, b, c, d);
        let (found, lists) = library_read(bytes, lengths);
        if (found, &lists) != (expected, &others) || (found.is_err() && lists != before) {
            let shown = String::from_utf8_lossy(&bytes[..bytes.len().min(400)]);
            panic!("{}: a file differs\n{shown:?}\nlengths {lengths:?}\nthe library: {found:?}\nthe ordinary one: {expected:?}", self.at);
        }
        if let (Ok(read), true) = (found, bytes.ends_with(b"\r\n")) {
            self.written_again(bytes, read, lists);
        }
        let cause = found.err().unwrap_or(0);
        self.counts.call("files by cause", cause);
        cause
    }

    /// What was read from these bytes is written again, into as many bytes: to the same text, if that is in kWh.
    fn written_again(&mut self, bytes: &[u8], (hour, zone, lines): (i64, i64, i64), lists: [Vec<i64>; 4]) {
        let mut writing = Writing {
            hour,
            zone,
            users: lines,
            lists: lists.map(|list| list[..lines as usize].to_vec()),
            file: vec![0; bytes.len()],
        };
        let cause = self.writing(&mut writing);
        let unit = unit_of(bytes, lines);
        let same = unit != IN_KWH || writing.file == bytes;
        if cause != 0 || !same {
            panic!("{}: a file that is written again differs\n{:?}\n{writing:?}", self.at, String::from_utf8_lossy(bytes));
        }
        self.counts.count("files that were read and written again", unit);
    }

    /// A writing; what is written is read back. The writing is left as the library left it. Answers the cause.
    pub fn writing(&mut self, writing: &mut Writing) -> u64 {
        let before = writing.clone();
        let mut other = writing.clone();
        let expected = other.write();
        let found = library_writing(writing);
        if (found, &*writing) != (expected, &other) {
            panic!("{}: a writing differs\ngiven {before:?}\nthe library: {found:?} {writing:?}\nthe ordinary one: {expected:?} {other:?}", self.at);
        }
        match found {
            Ok(bytes) => self.read_back(writing, bytes as usize, &before),
            Err(_) => assert!(*writing == before, "{}: a writing that was refused changed something\ngiven {before:?}", self.at),
        }
        let cause = found.err().unwrap_or(0);
        self.counts.call("writings by cause", cause);
        cause
    }

    /// The text is read to the same hour, zone, count and amounts, and to no more; the bytes after it, and all else that was lent, are as they were.
    fn read_back(&self, writing: &Writing, bytes: usize, before: &Writing) {
        let (text, rest) = writing.file.split_at(bytes);
        let (found, lists) = library_read(text, [128; 4]);
        let places = before.lists.each_ref().map(|list| [&list[..], &vec![-7; 128 - list.len()]].concat());
        if (found, lists) != (Ok((before.hour, before.zone, before.users)), places) {
            panic!("{}: a written file differs when it is read back: {found:?}\ngiven {before:?}", self.at);
        }
        if (rest, &writing.lists) != (&before.file[bytes..], &before.lists) {
            panic!("{}: a writing that was accepted changed more than its text: what it was lent differs\ngiven {before:?}", self.at);
        }
    }
}
