//! Hours of 128 users, their previews, and their own quantities judged, through the library, as a client calls it from Rust, and through the ordinary settlement, in turn, in
//! one run: nanoseconds an hour, and the ratio, by kind of input. The table is restored before each hour, for both; before a preview and a judged hour too, so that their times
//! are comparable with those of the hour.

use gas_day::{Amounts, Day, HourTerms, Outputs, ZoneDay};
use ordinary::limits;
use ordinary::made_up::{self, Kind};
use ordinary::random::Random;
use std::time::Instant;

const USERS: usize = 128;
const LENGTH: i64 = 24;
const INPUTS: usize = 64;
const PASSES: usize = 40;
const ROUNDS: usize = 25;

/// An hour 2 of the H zone, from a table that fits, and the quantities that it is settled by. So much was sold in H before.
struct Input {
    users: i64,
    sold_h: i64,
    hours_l: i64,
    closed_l: bool,
    table: Vec<i64>,
    zone: i64,
    number: i64,
    hour: made_up::Hour,
    own: Vec<i64>,
}

/// The areas that both write.
struct Lent {
    table: Vec<i64>,
    quantity: Vec<i64>,
    money: Vec<i64>,
    after: Vec<i64>,
    scratch: Vec<u64>,
}

impl Lent {
    fn new() -> Lent {
        Lent {
            table: vec![0; 256],
            quantity: vec![0; USERS],
            money: vec![0; USERS],
            after: vec![0; USERS],
            scratch: vec![0; USERS],
        }
    }
}

fn library_day(input: &Input) -> Day {
    Day {
        users: input.users,
        length: LENGTH,
        h: ZoneDay {
            hours: 1,
            sold: input.sold_h,
            ..ZoneDay::default()
        },
        l: ZoneDay {
            hours: input.hours_l,
            closed: i64::from(input.closed_l),
            ..ZoneDay::default()
        },
    }
}

fn library_terms(input: &Input) -> HourTerms {
    let terms = input.hour.terms;
    HourTerms {
        zone: input.zone,
        hour: input.number,
        upper: terms.upper,
        lower: terms.lower,
        excess_price: terms.excess_price,
        shortfall_price: terms.shortfall_price,
    }
}

fn library_amounts(input: &Input) -> Amounts<'_> {
    Amounts {
        entry: &input.hour.entry,
        exit: &input.hour.exit,
        title: &input.hour.title,
        pooling: &input.hour.pooling,
    }
}

fn library_hour(input: &Input, lent: &mut Lent) -> u64 {
    let mut day = library_day(input);
    let outputs = Outputs {
        quantity: &mut lent.quantity,
        money: &mut lent.money,
    };
    let answer = gas_day::settle_hour(&mut day, &mut lent.table, library_terms(input), library_amounts(input), outputs, &mut lent.scratch);
    answer.map_or_else(|cause| cause.number(), |_| 0)
}

fn library_preview(input: &Input, lent: &mut Lent) -> u64 {
    let day = library_day(input);
    let outputs = Outputs {
        quantity: &mut lent.quantity,
        money: &mut lent.money,
    };
    let (terms, amounts) = (library_terms(input), library_amounts(input));
    let answer = gas_day::preview_hour(&day, &lent.table, terms, amounts, outputs, &mut lent.after, &mut lent.scratch);
    answer.map_or_else(|cause| cause.number(), |_| 0)
}

fn library_judge(input: &Input, lent: &mut Lent) -> u64 {
    let day = library_day(input);
    let answer = gas_day::judge_hour(&day, &lent.table, library_terms(input), library_amounts(input), &input.own);
    answer.map_or_else(|cause| cause.number(), |()| 0)
}

fn ordinary_day(input: &Input) -> ordinary::Day {
    ordinary::Day {
        users: input.users,
        length: LENGTH,
        hours: [1, input.hours_l],
        closed: [0, i64::from(input.closed_l)],
        sold: [input.sold_h, 0],
        bought: [0, 0],
    }
}

fn ordinary_hour(input: &Input, lent: &mut Lent) -> u64 {
    let answer = ordinary::settle_hour(
        ordinary_day(input),
        &mut lent.table,
        input.zone,
        input.number,
        &input.hour.entry,
        &input.hour.exit,
        &input.hour.title,
        &input.hour.pooling,
        input.hour.terms,
        &mut lent.quantity,
        &mut lent.money,
        &mut lent.scratch,
    );
    answer.err().unwrap_or(0)
}

fn ordinary_preview(input: &Input, lent: &mut Lent) -> u64 {
    let answer = ordinary::preview_hour(
        ordinary_day(input),
        &lent.table,
        input.zone,
        input.number,
        &input.hour.entry,
        &input.hour.exit,
        &input.hour.title,
        &input.hour.pooling,
        input.hour.terms,
        &mut lent.quantity,
        &mut lent.money,
        &mut lent.after,
        &mut lent.scratch,
    );
    answer.err().unwrap_or(0)
}

fn ordinary_judge(input: &Input, lent: &mut Lent) -> u64 {
    let answer = ordinary::judge_hour(
        ordinary_day(input),
        &lent.table,
        input.zone,
        input.number,
        &input.hour.entry,
        &input.hour.exit,
        &input.hour.title,
        &input.hour.pooling,
        input.hour.terms,
        &input.own,
    );
    answer.err().unwrap_or(0)
}

/// An hour, a preview or a judged hour; it answers its cause.
type Call = fn(&Input, &mut Lent) -> u64;

/// Nanoseconds an hour of one pass over the inputs, `PASSES` times.
fn timed(inputs: &[Input], lent: &mut Lent, call: Call, cause: u64) -> f64 {
    let start = Instant::now();
    for _ in 0..PASSES {
        for input in inputs {
            lent.table.copy_from_slice(&input.table);
            assert_eq!(call(input, lent), cause);
        }
    }
    start.elapsed().as_nanos() as f64 / (PASSES * inputs.len()) as f64
}

/// The least of many rounds for each, taken in turn.
fn least(inputs: &[Input], library: Call, ordinary: Call, cause: u64) -> (f64, f64) {
    let mut lent = Lent::new();
    let (mut ours, mut theirs) = (f64::MAX, f64::MAX);
    for _ in 0..ROUNDS {
        ours = ours.min(timed(inputs, &mut lent, library, cause));
        theirs = theirs.min(timed(inputs, &mut lent, ordinary, cause));
    }
    (ours, theirs)
}

fn print_row(name: &str, (ours, theirs): (f64, f64)) {
    println!("| {name} | {ours:.0} | {theirs:.0} | {:.2} |", ours / theirs);
}

fn inputs(random: &mut Random, kind: Kind, change: fn(&mut Input)) -> Vec<Input> {
    (0..INPUTS)
        .map(|_| {
            let mut table = vec![0; 256];
            table[..USERS].fill_with(|| random.between(-1_000_000, 1_000_000));
            let hour = made_up::hour(random, USERS, kind, &table[..128]);
            let mut input = Input {
                users: USERS as i64,
                sold_h: 0,
                hours_l: 0,
                closed_l: false,
                table,
                zone: 0,
                number: 2,
                hour,
                own: Vec::new(),
            };
            input.own = own_quantities(&input);
            change(&mut input);
            input
        })
        .collect()
}

fn own_quantities(input: &Input) -> Vec<i64> {
    let mut lent = Lent::new();
    lent.table.copy_from_slice(&input.table);
    assert_eq!(ordinary_hour(input, &mut lent), 0);
    lent.quantity
}

/// A change that spoils an hour, by name, and the cause that it is refused by. Where a list or the table is spoilt, it is at the last place: the dearest.
type Spoilt = (&'static str, fn(&mut Input), u64);

const SPOILT: [Spoilt; 15] = [
    ("2, record", |input| input.users = 129, 2),
    ("3, pooling list too short", |input| input.hour.pooling.truncate(USERS - 1), 3),
    ("4, zone", |input| input.zone = 2, 4),
    ("5, zone closed", close_l, 5),
    ("6, hour", |input| input.number = 3, 6),
    ("7, last place of the H zone", |input| input.table[127] = 100_000_001, 7),
    ("7, last place of the L zone", |input| input.table[255] = 1, 7),
    ("8, lower threshold", |input| input.hour.terms.lower = 1, 8),
    ("9, last entry", |input| input.hour.entry[USERS - 1] = 50_000_001, 9),
    ("9, last exit", |input| input.hour.exit[USERS - 1] = 1, 9),
    ("9, last title amount", |input| input.hour.title[USERS - 1] = 50_000_001, 9),
    ("9, last pooling amount", |input| input.hour.pooling[USERS - 1] = 100_000_001, 9),
    ("10, pooling sum", |input| input.hour.pooling[0] += 1, 10),
    ("11, last position before", leave_range, 11),
    ("25, total of what was sold", |input| input.sold_h = *limits::TOTAL.end(), 25),
];

/// The same of the quantities of a judged excess.
const SPOILT_QUANTITIES: [Spoilt; 2] = [
    ("22, last quantity", |input| input.own[USERS - 1] = -1, 22),
    ("23, last quantity that is not 0", |input| input.own.iter_mut().rfind(|own| **own != 0).into_iter().for_each(|own| *own += 2), 23),
];

/// The hour is one of the L zone, which is closed.
fn close_l(input: &mut Input) {
    input.zone = 1;
    input.hours_l = LENGTH;
    input.closed_l = true;
}

/// The last user's position before settlement is one too many, and every amount is in its range.
fn leave_range(input: &mut Input) {
    let hour = &mut input.hour;
    input.table[USERS - 1] = 100_000_000;
    hour.entry[USERS - 1] = 1;
    hour.exit[USERS - 1] = 0;
    hour.title[USERS - 1] = 0;
    hour.pooling.fill(0);
}

fn main() {
    let mut random = Random::new(1);
    println!("| kind of hour, 128 users | library, ns | ordinary Rust, ns | ratio |");
    println!("|---|---|---|---|");
    let of_kinds = Kind::ALL.map(|kind| (kind, inputs(&mut random, kind, |_| ())));
    for (kind, inputs) in &of_kinds {
        print_row(&format!("{kind:?}"), least(inputs, library_hour, ordinary_hour, 0));
    }
    for (name, change, cause) in SPOILT {
        let inputs = inputs(&mut random, Kind::Excess, change);
        print_row(&format!("refused by {name}"), least(&inputs, library_hour, ordinary_hour, cause));
    }
    for (kind, inputs) in &of_kinds {
        print_row(&format!("preview of {kind:?}"), least(inputs, library_preview, ordinary_preview, 0));
    }
    for (kind, inputs) in &of_kinds {
        print_row(&format!("own quantities judged of {kind:?}"), least(inputs, library_judge, ordinary_judge, 0));
    }
    for (name, change, cause) in SPOILT_QUANTITIES {
        let inputs = inputs(&mut random, Kind::Excess, change);
        print_row(&format!("judged, refused by {name}"), least(&inputs, library_judge, ordinary_judge, cause));
    }
}
