//! Every cause as its error, and that a refused call leaves everything lent as it was.

use gas_day::limits::{FILE_PLACES, TABLE_PLACES, TOTAL_MOST, WRITE_BYTES_MOST, ZONE_PLACES};
use gas_day::*;
use std::fmt::Debug;

/// Everything that an hour, its preview, its judge or a closing of two users is given and lent.
#[derive(Clone, PartialEq, Debug)]
struct Call {
    day: Day,
    table: Vec<i64>,
    terms: HourTerms,
    amounts: [Vec<i64>; 4],
    quantity: Vec<i64>,
    money: Vec<i64>,
    after: Vec<i64>,
    scratch: Vec<u64>,
}

/// Hour 2 of the H zone, whose users stand at 5 and -2 and come to 9 and -6; it is accepted, and 3 are sold.
fn fit() -> Call {
    let mut table = vec![0; TABLE_PLACES];
    table[..2].copy_from_slice(&[5, -2]);
    Call {
        day: Day { users: 2, length: 24, h: ZoneDay { hours: 1, ..ZoneDay::default() }, l: ZoneDay::default() },
        table,
        terms: HourTerms { zone: 0, hour: 2, upper: 0, lower: 0, excess_price: 20, shortfall_price: 25 },
        amounts: [vec![1, 0], vec![0, -1], vec![0, 0], vec![3, -3]],
        quantity: vec![77; 2],
        money: vec![77; 2],
        after: vec![77; 2],
        scratch: vec![77; 2],
    }
}

/// The same with the quantities that a judge accepts, and no others: of 3 kWh above the threshold one user has all.
fn fit_judged() -> Call {
    Call { quantity: vec![3, 0], ..fit() }
}

/// The same with a shortfall: both users come to -1, and 1 is bought.
fn fit_shortfall() -> Call {
    let mut call = fit();
    (call.table[0], call.table[1], call.terms.lower) = (-5, 3, -1);
    call
}

/// The same after the last hour, to be closed: 5 are sold and 2 bought.
fn fit_closing() -> Call {
    let mut call = fit();
    call.day.h.hours = 24;
    call
}

impl Call {
    fn settle(&mut self) -> Result<Outcome, Cause> {
        let [entry, exit, title, pooling] = &self.amounts;
        let amounts = Amounts { entry, exit, title, pooling };
        let outputs = Outputs { quantity: &mut self.quantity, money: &mut self.money };
        settle_hour(&mut self.day, &mut self.table, self.terms, amounts, outputs, &mut self.scratch)
    }

    fn preview(&mut self) -> Result<Outcome, Cause> {
        let [entry, exit, title, pooling] = &self.amounts;
        let amounts = Amounts { entry, exit, title, pooling };
        let outputs = Outputs { quantity: &mut self.quantity, money: &mut self.money };
        preview_hour(&self.day, &self.table, self.terms, amounts, outputs, &mut self.after, &mut self.scratch)
    }

    fn judge(&mut self) -> Result<(), Cause> {
        let [entry, exit, title, pooling] = &self.amounts;
        judge_hour(&self.day, &self.table, self.terms, Amounts { entry, exit, title, pooling }, &self.quantity)
    }

    fn close(&mut self) -> Result<Sums, Cause> {
        let HourTerms { zone, excess_price, shortfall_price, .. } = self.terms;
        let outputs = Outputs { quantity: &mut self.quantity, money: &mut self.money };
        close_zone(&mut self.day, &mut self.table, ClosingTerms { zone, excess_price, shortfall_price }, outputs)
    }
}

/// A cause, and what brings it about.
type Spoilt = (Cause, fn(&mut Call));

/// Of hours, of previews, of judges and of closings.
const SHARED: [Spoilt; 24] = [
    (Cause::Record, |call| call.day.users = 0),
    (Cause::Record, |call| call.day.users = i64::MAX),
    (Cause::Record, |call| call.day.length = 22),
    (Cause::Record, |call| call.day.length = 26),
    (Cause::Record, |call| call.day.length = i64::MIN),
    (Cause::Record, |call| call.day.h.hours = 25),
    (Cause::Record, |call| (call.day.length, call.day.l.hours) = (23, 24)),
    (Cause::Record, |call| (call.day.length, call.day.l) = (25, ZoneDay { hours: 24, closed: 1, ..ZoneDay::default() })),
    (Cause::Record, |call| call.day.l.hours = -1),
    (Cause::Record, |call| call.day.l.closed = 1),
    (Cause::Record, |call| call.day.h.closed = 2),
    (Cause::Record, |call| call.day.l.closed = -1),
    (Cause::Length, |call| call.table.truncate(255)),
    (Cause::Length, |call| call.table.push(0)),
    (Cause::Length, |call| call.table.clear()),
    (Cause::Length, |call| call.quantity.push(77)),
    (Cause::Zone, |call| call.terms.zone = 2),
    (Cause::Zone, |call| call.terms.zone = i64::MIN),
    (Cause::Table, |call| call.table[0] = limits::POSITION_MOST + 1),
    (Cause::Table, |call| call.table[2] = 1),
    (Cause::Table, |call| call.table[128] = -1),
    (Cause::Terms, |call| call.terms.excess_price = limits::PRICE_MOST + 1),
    (Cause::Terms, |call| call.terms.shortfall_price = -limits::PRICE_MOST - 1),
    (Cause::Closed, |call| call.day.h = ZoneDay { hours: 24, closed: 1, ..ZoneDay::default() }),
];

/// Of all of these: totals that no record has. The L zone has no hours done.
const TOTALS: [Spoilt; 20] = [
    (Cause::Record, |call| (call.day.h.hours, call.day.h.sold, call.day.h.bought) = (0, 1, 0)),
    (Cause::Record, |call| (call.day.h.hours, call.day.h.sold, call.day.h.bought) = (0, 0, 1)),
    (Cause::Record, |call| call.day.l.sold = 1),
    (Cause::Record, |call| call.day.l.bought = 1),
    (Cause::Record, |call| call.day.l.sold = TOTAL_MOST),
    (Cause::Record, |call| call.day.l.bought = -1),
    (Cause::Record, |call| call.day.h.sold = -1),
    (Cause::Record, |call| call.day.h.sold = i64::MIN),
    (Cause::Record, |call| call.day.h.bought = -1),
    (Cause::Record, |call| call.day.h.bought = i64::MIN),
    (Cause::Record, |call| call.day.h.sold = TOTAL_MOST + 1),
    (Cause::Record, |call| call.day.h.sold = i64::MAX),
    (Cause::Record, |call| call.day.h.bought = TOTAL_MOST + 1),
    (Cause::Record, |call| call.day.h.bought = i64::MAX),
    (Cause::Record, |call| (call.day.l.hours, call.day.l.sold) = (1, -1)),
    (Cause::Record, |call| (call.day.l.hours, call.day.l.bought) = (1, -1)),
    (Cause::Record, |call| (call.day.l.hours, call.day.l.sold) = (1, TOTAL_MOST + 1)),
    (Cause::Record, |call| (call.day.l.hours, call.day.l.bought) = (1, TOTAL_MOST + 1)),
    (Cause::Record, |call| (call.day.h.sold, call.quantity) = (-1, vec![77; 3])), // before a length
    (Cause::Record, |call| (call.day.l.bought, call.terms.zone) = (1, 2)),        // before the zone
];

/// Of all of these but judges, which are lent no money list.
const MONEY: [Spoilt; 2] = [(Cause::Length, |call| call.money.truncate(1)), (Cause::Length, |call| call.money.clear())];

/// Of hours and of previews, which are lent a scratch.
const SCRATCH: [Spoilt; 2] = [(Cause::Length, |call| call.scratch.push(77)), (Cause::Length, |call| call.scratch.truncate(1))];

/// Of hours, of previews and of judges.
const HOURS: [Spoilt; 17] = [
    (Cause::Length, |call| call.amounts[0].push(0)),
    (Cause::Length, |call| call.amounts[1].clear()),
    (Cause::Length, |call| call.amounts[2].truncate(1)),
    (Cause::Length, |call| call.amounts[3].push(0)),
    (Cause::Hour, |call| call.terms.hour = 1),
    (Cause::Hour, |call| call.terms.hour = i64::MAX),
    (Cause::Hour, |call| (call.day.h.hours, call.terms.hour) = (24, 25)),
    (Cause::Hour, |call| (call.day.length, call.day.h.hours, call.terms.hour) = (23, 23, 24)),
    (Cause::Hour, |call| (call.day.length, call.day.h.hours, call.terms.hour) = (25, 25, 26)),
    (Cause::Terms, |call| call.terms.upper = limits::THRESHOLD_MOST + 1),
    (Cause::Terms, |call| call.terms.lower = 1),
    (Cause::Amount, |call| call.amounts[0][1] = limits::ENTRY_MOST + 1),
    (Cause::Amount, |call| call.amounts[1][0] = limits::EXIT_LEAST - 1),
    (Cause::Amount, |call| call.amounts[2][0] = -limits::TITLE_MOST - 1),
    (Cause::Amount, |call| call.amounts[3][1] = limits::POOLING_MOST + 1),
    (Cause::Pooling, |call| call.amounts[3][0] = 4),
    (Cause::Position, |call| call.table[0] = limits::POSITION_MOST),
];

/// Of previews alone: the positions after are looked at before the zone, and after the record.
const PREVIEWS: [Spoilt; 5] = [
    (Cause::Length, |call| call.after.push(77)),
    (Cause::Length, |call| call.after.truncate(1)),
    (Cause::Length, |call| call.after.clear()),
    (Cause::Length, |call| (call.terms.zone, call.after) = (2, vec![77; 128])),
    (Cause::Record, |call| (call.day.length, call.after) = (22, vec![77; 3])),
];

/// Of judges alone: the quantities' length is looked at before the zone, and after the record; then every user's sign, every causer's share, and last the sum.
const JUDGES: [Spoilt; 24] = [
    (Cause::Length, |call| call.quantity.truncate(1)),
    (Cause::Length, |call| call.quantity.clear()),
    (Cause::Length, |call| (call.terms.zone, call.quantity) = (2, vec![3; 128])),
    (Cause::Record, |call| (call.day.length, call.quantity) = (22, vec![3; 3])),
    (Cause::JudgedSign, |call| call.quantity[1] = 1),
    (Cause::JudgedSign, |call| call.quantity[1] = -1),
    (Cause::JudgedSign, |call| call.quantity[0] = -3),
    (Cause::JudgedSign, |call| call.quantity = vec![4, -1]),
    (Cause::JudgedSign, |call| call.quantity = vec![i64::MIN, 0]),
    (Cause::JudgedSign, |call| call.quantity = vec![i64::MAX, i64::MIN]),
    (Cause::JudgedSign, |call| call.terms.upper = 3), // the market is at its threshold: nobody caused
    (Cause::JudgedSign, |call| (call.terms.upper, call.amounts[1][1]) = (100, -10)), // a shortfall, which the other caused
    (Cause::JudgedSign, |call| (call.table[0], call.table[1], call.terms.lower, call.quantity) = (-5, 3, -1, vec![i64::MAX, 0])),
    (Cause::JudgedShare, |call| call.quantity[0] = 2),
    (Cause::JudgedShare, |call| call.quantity[0] = 4),
    (Cause::JudgedShare, |call| call.quantity[0] = 0),
    (Cause::JudgedShare, |call| call.quantity[0] = i64::MAX),
    (Cause::JudgedShare, |call| call.terms.upper = 1),
    (Cause::JudgedShare, |call| (call.table[1], call.quantity) = (5, vec![9, 0])), // of 10 kWh the shares are 9 and 1
    (Cause::JudgedShare, |call| (call.table[0], call.table[1], call.terms.lower, call.quantity) = (-5, 3, -1, vec![i64::MIN, 0])),
    (Cause::JudgedSum, |call| (call.table[1], call.terms.upper, call.quantity) = (5, 9, vec![0, 0])), // of 1 kWh they are 9/10 and 1/10
    (Cause::JudgedSum, |call| (call.table[1], call.terms.upper, call.quantity) = (5, 9, vec![1, 1])),
    (Cause::JudgedSum, |call| (call.table[0], call.table[1], call.terms.lower, call.quantity) = (-5, 3, -1, vec![-1, -1])), // both stand at -1
    (Cause::JudgedSum, |call| (call.table[0], call.table[1], call.terms.lower, call.quantity) = (-5, 3, -1, vec![0, 0])),
];

/// A call that is accepted is refused by its cause in each of these ways, and leaves everything as it was. So it is where its zone's totals are at the bound: cause 25
/// comes last.
fn refused<T: PartialEq + Debug>(fit: fn() -> Call, make: fn(&mut Call) -> Result<T, Cause>, ways: &[&[Spoilt]]) {
    assert!(make(&mut fit()).is_ok());
    for (number, (cause, spoil)) in ways.iter().copied().flatten().enumerate() {
        for total in [0, TOTAL_MOST] {
            let mut call = fit();
            (call.day.h.sold, call.day.h.bought) = (total, total);
            spoil(&mut call);
            let before = call.clone();
            assert_eq!(make(&mut call), Err(*cause), "way {number}");
            assert_eq!(call, before, "way {number}");
        }
    }
}

/// What was sold and what was bought in a zone.
type Totals = (i64, i64);

/// The totals of the call's own zone before it; and after it, if it is accepted, else it is refused by cause 25.
type Ends = (Totals, Option<Totals>);

/// Of an hour that sells 3.
const SELLS: [Ends; 5] = [
    ((0, 0), Some((3, 0))),
    ((TOTAL_MOST - 4, 1), Some((TOTAL_MOST - 1, 1))),
    ((TOTAL_MOST - 3, TOTAL_MOST), Some((TOTAL_MOST, TOTAL_MOST))),
    ((TOTAL_MOST - 2, 0), None),
    ((TOTAL_MOST, TOTAL_MOST), None),
];

/// Of an hour that buys 1.
const BUYS: [Ends; 4] = [
    ((0, 0), Some((0, 1))),
    ((1, TOTAL_MOST - 2), Some((1, TOTAL_MOST - 1))),
    ((TOTAL_MOST, TOTAL_MOST - 1), Some((TOTAL_MOST, TOTAL_MOST))),
    ((0, TOTAL_MOST), None),
];

/// Of a closing that sells 5 and buys 2.
const CLOSES: [Ends; 7] = [
    ((0, 0), Some((5, 2))),
    ((TOTAL_MOST - 5, 0), Some((TOTAL_MOST, 2))),
    ((0, TOTAL_MOST - 2), Some((5, TOTAL_MOST))),
    ((TOTAL_MOST - 5, TOTAL_MOST - 2), Some((TOTAL_MOST, TOTAL_MOST))),
    ((TOTAL_MOST - 4, 0), None),
    ((0, TOTAL_MOST - 1), None),
    ((TOTAL_MOST, TOTAL_MOST), None),
];

/// The call with such totals of its own zone, in the H zone or moved to the L zone; the other has an hour done, and totals at the bound.
fn with_totals(fit: fn() -> Call, zone: i64, (sold, bought): Totals) -> Call {
    let mut call = fit();
    (call.day.h.sold, call.day.h.bought) = (sold, bought);
    call.day.l = ZoneDay { hours: 1, sold: TOTAL_MOST, bought: TOTAL_MOST, ..ZoneDay::default() };
    if zone == 1 {
        (call.day.h, call.day.l, call.terms.zone) = (call.day.l, call.day.h, 1);
        call.table.rotate_right(ZONE_PLACES);
    }
    call
}

/// The call comes to such ends in either zone: it answers what it does without totals, and in the record changes what `book` does of its own zone; or it leaves everything
/// as it was.
fn comes_to<T: PartialEq + Debug>(fit: fn() -> Call, make: fn(&mut Call) -> Result<T, Cause>, ends: &[Ends], book: fn(&mut ZoneDay, Totals)) {
    for (zone, (totals, after)) in [0, 1].into_iter().flat_map(|zone| ends.iter().map(move |&end| (zone, end))) {
        let mut call = with_totals(fit, zone, totals);
        let mut before = call.clone();
        let answer = make(&mut call);
        let Some(after) = after else {
            assert_eq!((answer, call), (Err(Cause::Totals), before));
            continue;
        };
        assert_eq!(answer, make(&mut fit()));
        book(if zone == 0 { &mut before.day.h } else { &mut before.day.l }, after);
        assert_eq!(call.day, before.day);
    }
}

#[test]
fn of_totals() {
    let an_hour = |zone: &mut ZoneDay, (sold, bought)| *zone = ZoneDay { hours: 2, closed: 0, sold, bought };
    comes_to(fit, Call::settle, &SELLS, an_hour);
    comes_to(fit_shortfall, Call::settle, &BUYS, an_hour);
    comes_to(fit, Call::preview, &SELLS, |_, _| ());
    comes_to(fit_shortfall, Call::preview, &BUYS, |_, _| ());
    comes_to(fit_closing, Call::close, &CLOSES, |zone, (sold, bought)| *zone = ZoneDay { hours: 24, closed: 1, sold, bought });
}

/// A judge adds nothing, and is refused by no total that a record may have.
#[test]
fn not_of_a_judge() {
    for (zone, (totals, _)) in [0, 1].into_iter().flat_map(|zone| SELLS.map(|end| (zone, end))) {
        let mut call = with_totals(fit_judged, zone, totals);
        let before = call.clone();
        assert_eq!(call.judge(), Ok(()));
        assert_eq!(call, before);
    }
}

#[test]
fn of_an_hour() {
    refused(fit, Call::settle, &[&SHARED, &TOTALS, &MONEY, &SCRATCH, &HOURS]);
}

#[test]
fn of_a_preview() {
    refused(fit, Call::preview, &[&SHARED, &TOTALS, &MONEY, &SCRATCH, &HOURS, &PREVIEWS]);
}

#[test]
fn of_a_judge() {
    refused(fit_judged, Call::judge, &[&SHARED, &TOTALS, &HOURS, &JUDGES]);
    for (cause, spoil) in SHARED.iter().chain(&TOTALS).chain(&HOURS) {
        let mut call = fit(); // whose quantities would be refused too
        spoil(&mut call);
        assert_eq!(call.judge(), Err(*cause));
    }
    assert_eq!(fit().judge(), Err(Cause::JudgedSign));
}

#[test]
fn of_a_closing() {
    let early: [Spoilt; 2] = [(Cause::Hour, |call| call.day.h.hours = 23), (Cause::Hour, |call| call.day.length = 25)];
    refused(fit_closing, Call::close, &[&SHARED, &TOTALS, &MONEY, &early]);
}

#[test]
fn of_an_opening_and_of_thresholds() {
    let openings = [
        (0, 24, 256, Cause::Users),
        (129, 24, 256, Cause::Users),
        (i64::MIN, 22, 0, Cause::Users),
        (1, 22, 256, Cause::DayLength),
        (128, 26, 256, Cause::DayLength),
        (1, i64::MAX, 0, Cause::DayLength),
        (1, 23, 255, Cause::Length),
        (128, 25, 0, Cause::Length),
    ];
    for (users, length, places, cause) in openings {
        let mut table = vec![77; places];
        assert_eq!(open(users, length, &mut table), Err(cause));
        assert_eq!(table, vec![77; places]);
    }
    assert_eq!(default_thresholds(1, 2), Err(Cause::Zone));
    assert_eq!(default_thresholds(0, -1), Err(Cause::Zone));
    assert_eq!(default_thresholds(0, 1), Err(Cause::Terms));
    assert_eq!(default_thresholds(13, 0), Err(Cause::Terms));
}

#[test]
fn of_a_file() {
    const HEADER: &str = "h,z,g,EEA,XEA,NCTTN,IPT\r\n";
    let files = [
        (String::new(), Cause::FileHeader),
        (format!("{HEADER}1,H,0,0,0,0\r\n"), Cause::FileForm),
        (format!("{HEADER}1,X,0,0,0,0,0\r\n"), Cause::FileField),
        (format!("{HEADER}1,H,0,0,0,0,0\r\n1,L,1,0,0,0,0\r\n"), Cause::FileOrder),
        (HEADER.to_string(), Cause::FileEmpty),
    ];
    for (file, cause) in files {
        reading_is_refused(file.as_bytes(), [FILE_PLACES; 4], cause);
    }
    for list in 0..4 {
        for length in [0, 127, 129] {
            let mut lengths = [FILE_PLACES; 4];
            lengths[list] = length;
            reading_is_refused(format!("{HEADER}1,H,0,0,0,0,0").as_bytes(), lengths, Cause::FileLength);
        }
    }
}

fn reading_is_refused(file: &[u8], lengths: [usize; 4], cause: Cause) {
    let mut lent = lengths.map(|length| vec![77; length]);
    let [entries, exits, titles, poolings] = &mut lent;
    assert_eq!(read_hour_file(file, FileLists { entries, exits, titles, poolings }), Err(cause));
    assert_eq!(lent, lengths.map(|length| vec![77; length]));
}

/// Everything that a writing is given and lent.
#[derive(Clone, PartialEq, Debug)]
struct Writing {
    hour: i64,
    zone: i64,
    users: i64,
    amounts: [Vec<i64>; 4],
    file: Vec<u8>,
}

/// A file of two users, into bytes that are just enough; it is accepted.
fn fit_writing() -> Writing {
    Writing { hour: 7, zone: 1, users: 2, amounts: [vec![1, 5], vec![-2, -6], vec![3, 7], vec![-4, -8]], file: vec![77; 25 + 2 * 17] }
}

impl Writing {
    fn write(&mut self) -> Result<usize, Cause> {
        let [entry, exit, title, pooling] = &self.amounts;
        write_hour_file(self.hour, self.zone, self.users, Amounts { entry, exit, title, pooling }, &mut self.file)
    }
}

/// A cause, and what brings it about in a writing.
type SpoiltWriting = (Cause, fn(&mut Writing));

const WRITINGS: [SpoiltWriting; 24] = [
    (Cause::WriteCount, |writing| writing.users = 0),
    (Cause::WriteCount, |writing| writing.users = -2),
    (Cause::WriteCount, |writing| (writing.users, writing.amounts) = (129, [(); 4].map(|()| vec![0; 129]))),
    (Cause::WriteCount, |writing| (writing.users, writing.amounts) = (0, [(); 4].map(|()| Vec::new()))),
    (Cause::WriteCount, |writing| (writing.users, writing.hour) = (3, -1)),
    (Cause::WriteCount, |writing| (writing.zone, writing.file) = (2, Vec::new())),
    (Cause::WriteCount, |writing| writing.zone = -1),
    (Cause::WriteCount, |writing| writing.amounts[0].push(0)),
    (Cause::WriteCount, |writing| writing.amounts[0].truncate(1)),
    (Cause::WriteCount, |writing| writing.amounts[1].push(0)),
    (Cause::WriteCount, |writing| writing.amounts[1].clear()),
    (Cause::WriteCount, |writing| writing.amounts[2].push(0)),
    (Cause::WriteCount, |writing| writing.amounts[2].truncate(1)),
    (Cause::WriteCount, |writing| writing.amounts[3].push(0)),
    (Cause::WriteCount, |writing| writing.amounts[3].clear()),
    (Cause::WriteNumber, |writing| (writing.hour, writing.file) = (-1, Vec::new())),
    (Cause::WriteNumber, |writing| writing.hour = 1_000_000_000),
    (Cause::WriteNumber, |writing| writing.hour = i64::MIN),
    (Cause::WriteNumber, |writing| writing.amounts[0][1] = 1_000_000_000),
    (Cause::WriteNumber, |writing| writing.amounts[1][0] = -1_000_000_000),
    (Cause::WriteNumber, |writing| writing.amounts[2][1] = i64::MAX),
    (Cause::WriteNumber, |writing| writing.amounts[3][0] = i64::MIN),
    (Cause::WriteRoom, |writing| writing.file.truncate(25 + 2 * 17 - 1)),
    (Cause::WriteRoom, |writing| writing.file.clear()),
];

#[test]
fn of_a_writing() {
    assert_eq!(fit_writing().write(), Ok(25 + 2 * 17));
    for (number, (cause, spoil)) in WRITINGS.iter().enumerate() {
        let mut writing = fit_writing();
        spoil(&mut writing);
        let before = writing.clone();
        assert_eq!(writing.write(), Err(*cause), "way {number}");
        assert_eq!(writing, before, "way {number}");
    }
    let mut longer = fit_writing();
    (longer.amounts[0][0], longer.file) = (999_999_999, vec![77; WRITE_BYTES_MOST]);
    assert_eq!(longer.write(), Ok(25 + 2 * 17 + 8));
    assert_eq!(longer.file[25 + 2 * 17 + 8..], [77; WRITE_BYTES_MOST - 25 - 2 * 17 - 8]);
}

#[test]
fn by_number_and_words() {
    assert_eq!(Cause::ALL.len(), 25);
    for (number, &cause) in (1..).zip(Cause::ALL) {
        assert_eq!((cause.number(), cause as u64), (number, number));
        assert_eq!(Cause::of(number), Some(cause));
        assert_eq!(cause.to_string(), format!("cause {number}: {}", cause.words()));
    }
    for number in [0, 26, 257, 1 << 32 | 1, u64::MAX] {
        assert_eq!(Cause::of(number), None);
    }
    let error: Box<dyn std::error::Error> = Cause::Pooling.into();
    assert_eq!(error.to_string(), "cause 10: pooling amounts do not add to zero");
}
