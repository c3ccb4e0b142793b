//! Calls made up at random: whole days with their conservation sums and their totals, single odd calls, previews and judged hours, openings, thresholds, files and writings.

use crate::both::{self, Run};
use crate::counts::LENGTHS;
use ordinary::limits;
use ordinary::made_up::{self, Kind};
use ordinary::random::Random;
use ordinary::spoilt::Call;
use ordinary::spoilt_quantities::right_quantities;
use ordinary::spoilt_writing::{fit_writing, Writing, ROOMS};

/// A call of hour 1 of the H zone; what it is given is made up later.
fn first_hour(day: ordinary::Day, table: Vec<i64>, random: &mut Random) -> Call {
    let amounts = made_up::hour(random, day.users as usize, Kind::Within, &[]);
    Call::new(day, table, 0, 1, amounts)
}

/// For each place of the table: the amounts of the accepted hours, and the quantities of the accepted hours and closings. For each zone: the sums of the positive and of the negative
/// ones of these, and what an altered record had.
struct Sums {
    amounts: Vec<i128>,
    quantities: Vec<i128>,
    totals: [[i128; 2]; 2],
}

impl Sums {
    fn new() -> Sums {
        Sums {
            amounts: vec![0; 256],
            quantities: vec![0; 256],
            totals: [[0; 2]; 2],
        }
    }

    fn add_quantities(&mut self, call: &Call) {
        for (g, &quantity) in call.quantity.iter().enumerate() {
            self.quantities[call.zone as usize * 128 + g] += i128::from(quantity);
        }
        let sums = both::sums(&call.quantity);
        (0..2).for_each(|side| self.totals[call.zone as usize][side] += sums[side]);
    }

    /// The record's totals are altered to be near the bound, in a zone that has hours done.
    fn alter(&mut self, random: &mut Random, zone: usize, day: &mut ordinary::Day) {
        let most = random.pick([10, 1_000_000_000, 100_000_000_000]);
        [day.sold[zone], day.bought[zone]] = [0; 2].map(|_| limits::TOTAL.end() - random.between(0, most));
        self.totals[zone] = [day.sold[zone], day.bought[zone]].map(i128::from);
    }

    /// The names of the totals in which something came up.
    fn not_zero(&self) -> impl Iterator<Item = &'static str> + '_ {
        let totals = [(0, 0), (0, 1), (1, 0), (1, 1)];
        totals.into_iter().filter(|&(side, zone)| self.totals[zone][side] > 0).map(|(side, zone)| both::TOTALS[side][zone])
    }

    fn in_record(&self, at: &str, day: &ordinary::Day) {
        let totals = [0, 1].map(|zone| [day.sold[zone], day.bought[zone]].map(i128::from));
        assert_eq!(totals, self.totals, "{at}: the totals are not the sums of the quantities");
    }

    fn add_amounts(&mut self, call: &Call) {
        let a = &call.amounts;
        for g in 0..call.quantity.len() {
            let four = [a.entry[g], a.exit[g], a.title[g], a.pooling[g]];
            self.amounts[call.zone as usize * 128 + g] += four.map(i128::from).iter().sum::<i128>();
        }
    }

    fn conserved(&self, at: &str, table: &[i64]) {
        for (place, &left) in table.iter().enumerate() {
            let second = self.quantities[place] + i128::from(left);
            assert_eq!(self.amounts[place], second, "{at}: place {place} does not conserve");
        }
    }
}

/// Whole days of each length, until both zones are closed: hours of every kind and closings, accepted and refused, with the conservation sums, and after each call the totals. On
/// every third day each hour is previewed first, and on every third its quantities are judged, which the sums do not count.
pub fn days(run: &mut Run, seed: u64, rounds: usize) {
    let mut random = Random::new(seed);
    for round in 0..rounds {
        run.at = format!("days, seed {seed}, round {round}");
        let users = random.pick([1, 2, 3, 7, 64, 65, 128, 1 + round % 128]);
        let length = random.pick(LENGTHS);
        let (day, table) = run.opening(users as i64, length, 256).expect("opened");
        let mut call = first_hour(day, table, &mut random);
        let mut sums = Sums::new();
        let hour = [Run::preview_and_hour, Run::judge_and_hour, Run::hour][round % 3];
        while call.day.closed != [1, 1] {
            call_of_day(run, &mut random, &mut call, &mut sums, hour);
        }
        (0..4).for_each(|_| call_of_day(run, &mut random, &mut call, &mut sums, hour));
        sums.conserved(&run.at, &call.table);
        sums.not_zero().for_each(|total| run.counts.count(both::TOTALS_OF_DAYS, total));
        run.counts.count("days to both closings by length of the day", &length.to_string());
    }
}

/// Days in which the record is altered once in each zone, so that it is near the bound of its totals: a zone may then never be closed.
pub fn altered_days(run: &mut Run, seed: u64, rounds: usize) {
    let mut random = Random::new(seed);
    for round in 0..rounds {
        run.at = format!("altered days, seed {seed}, round {round}");
        let users = random.pick([1, 2, 3, 128]);
        let (day, table) = run.opening(users, random.pick(LENGTHS), 256).expect("opened");
        let mut call = first_hour(day, table, &mut random);
        let mut sums = Sums::new();
        let hour = [Run::preview_and_hour, Run::judge_and_hour, Run::hour][round % 3];
        let mut altered = [false; 2];
        for _ in 0..80 {
            call_of_day(run, &mut random, &mut call, &mut sums, hour);
            let zone = random.below(2);
            if !altered[zone] && call.day.hours[zone] > 0 && random.one_in(8) {
                sums.alter(&mut random, zone, &mut call.day);
                altered[zone] = true;
            }
        }
        sums.conserved(&run.at, &call.table);
    }
}

/// How an hour of a day is called: with its preview before it, with its quantities judged, or alone.
type HourCall = fn(&mut Run, &mut Call) -> u64;

/// An hour, or now and then a closing, of either zone.
fn call_of_day(run: &mut Run, random: &mut Random, call: &mut Call, sums: &mut Sums, hour: HourCall) {
    call.zone = random.between(0, 1);
    if random.one_in(8) {
        closing_of_day(run, random, call, sums);
    } else {
        hour_of_day(run, random, call, sums, hour);
    }
    sums.in_record(&run.at, &call.day);
}

fn closing_of_day(run: &mut Run, random: &mut Random, call: &mut Call, sums: &mut Sums) {
    call.amounts.terms.excess_price = made_up::odd_number(random) % 10_000_001;
    call.amounts.terms.shortfall_price = 25_000;
    if run.closing(call) == 0 {
        sums.add_quantities(call);
    }
}

fn hour_of_day(run: &mut Run, random: &mut Random, call: &mut Call, sums: &mut Sums, hour: HourCall) {
    let kind = random.pick(Kind::ALL);
    let part = call.zone as usize * 128;
    let users = call.day.users as usize;
    call.amounts = made_up::hour(random, users, kind, &call.table[part..part + 128]);
    if random.one_in(6) {
        made_up::spoil(random, &mut call.amounts);
    }
    call.hour = call.day.hours[call.zone as usize] + random.pick([1, 1, 1, 1, 0, 2]);
    if hour(run, call) == 0 {
        run.counts.count("accepted hours by kind", &format!("{kind:?}"));
        sums.add_amounts(call);
        sums.add_quantities(call);
    }
}

/// Single calls with something odd about them.
pub fn odd_calls(run: &mut Run, seed: u64, rounds: usize) {
    let mut random = Random::new(seed);
    for round in 0..rounds {
        run.at = format!("odd calls, seed {seed}, round {round}");
        let (mut call, kind) = odd_call(&mut random);
        run.closing(&mut call.clone());
        if run.hour(&mut call) == 0 {
            run.counts.count("accepted hours by kind", &format!("{kind:?}"));
        }
    }
}

/// Single previews with something odd about them, as calls have it; now and then it is the list for the positions after.
pub fn odd_previews(run: &mut Run, seed: u64, rounds: usize) {
    let mut random = Random::new(seed);
    for round in 0..rounds {
        run.at = format!("odd previews, seed {seed}, round {round}");
        let (mut call, kind) = odd_call(&mut random);
        if random.one_in(17) {
            let users = call.after.len();
            call.after.resize(random.pick([0, users - 1, users + 1]), 9);
        }
        if run.preview(&mut call) == 0 {
            run.counts.count("accepted previews by kind", &format!("{kind:?}"));
        }
    }
}

/// Single judged hours: mostly with right quantities or with a few that are odd, and now and then with something odd about the call, as calls have it.
pub fn judged_hours(run: &mut Run, seed: u64, rounds: usize) {
    let mut random = Random::new(seed);
    for round in 0..rounds {
        run.at = format!("judged hours, seed {seed}, round {round}");
        let (mut call, kind) = open_call(&mut random);
        call.quantity = right_quantities(&mut random, &call);
        for _ in 0..random.pick([0, 0, 1, 1, 2, 3]) {
            odd_quantity(&mut random, &mut call.quantity);
        }
        if random.one_in(3) {
            let users = call.quantity.len();
            odd(&mut random, users, &mut call);
        }
        if run.judge(&mut call) == 0 {
            run.counts.count("accepted judged hours by kind", &format!("{kind:?}"));
        }
    }
}

/// A fit call of an hour in the middle of a day, and the kind of the hour.
fn open_call(random: &mut Random) -> (Call, Kind) {
    loop {
        let (call, kind) = some_call(random);
        let zone = call.zone as usize;
        if !call.day.is_closed(zone) && call.hour <= call.day.length {
            return (call, kind);
        }
    }
}

/// Makes a quantity odd, or two, or all: often by no more than a kWh.
fn odd_quantity(random: &mut Random, quantity: &mut [i64]) {
    let [a, b] = [0; 2].map(|_| random.below(quantity.len()));
    match random.below(9) {
        0 => quantity[a] = made_up::odd_number(random),
        1 => quantity[a] = random.bits() as i64,
        2 => quantity[a] = quantity[a].saturating_add(random.pick([1, -1])),
        3 => quantity[a] = quantity[a].saturating_neg(),
        4 => quantity.swap(a, b),
        5 => quantity.fill(0),
        6 => quantity.iter_mut().for_each(|quantity| *quantity = quantity.saturating_neg()),
        _ => {
            quantity[a] = quantity[a].saturating_sub(1);
            quantity[b] = quantity[b].saturating_add(1);
        }
    }
}

/// A call in the middle of a day that is fit as an hour, but for up to two things, and the kind of its hour.
fn odd_call(random: &mut Random) -> (Call, Kind) {
    let (mut call, kind) = some_call(random);
    let users = call.quantity.len();
    for _ in 0..random.below(3) {
        odd(random, users, &mut call);
    }
    (call, kind)
}

/// A call in the middle of a day, which may be a zone's end, and the kind of its hour.
fn some_call(random: &mut Random) -> (Call, Kind) {
    let users = random.pick([1, 2, 3, 128]);
    let (day, table) = made_up::day(random, users);
    let mut call = first_hour(day, table, random);
    call.zone = random.between(0, 1);
    call.hour = day.hours[call.zone as usize] + 1;
    let part = call.zone as usize * 128;
    let kind = random.pick(Kind::ALL);
    call.amounts = made_up::hour(random, users, kind, &call.table[part..part + 128]);
    (call, kind)
}

/// Makes one thing of a call odd.
fn odd(random: &mut Random, users: usize, call: &mut Call) {
    let number = made_up::odd_number(random);
    let length = random.pick([0, users - 1, users + 1]);
    match random.below(19) {
        0 => call.day.users = number,
        1 => call.day.hours[random.below(2)] = number,
        2 => call.day.closed[random.below(2)] = random.pick([0, 1, 2, number]),
        3 => {
            let place = random.below(call.table.len());
            call.table.iter_mut().skip(place).take(1).for_each(|position| *position = number);
        }
        4 => call.table.resize(random.pick([0, 255, 257]), 0),
        5 => call.hour = number,
        6 => call.zone = number,
        7 => call.amounts.entry.resize(length, 0),
        8 => call.amounts.exit.resize(length, 0),
        9 => call.amounts.title.resize(length, 0),
        10 => call.amounts.pooling.resize(length, 0),
        11 => call.quantity.resize(length, 9),
        12 => call.money.resize(length, 9),
        13 => call.scratch.resize(length, 9),
        14 => call.day.length = random.pick([22, 23, 24, 25, 26, number]),
        15 => call.day.sold[random.below(2)] = odd_total(random),
        16 => call.day.bought[random.below(2)] = odd_total(random),
        _ => made_up::spoil(random, &mut call.amounts),
    }
}

/// A total near an end of its range, or so near to its bound that a call may pass it, or any odd number.
fn odd_total(random: &mut Random) -> i64 {
    let (least, bound) = limits::TOTAL.into_inner();
    let most = random.pick([1, 1_000_000, 10_000_000_000]);
    let (near, number) = (bound - random.between(0, most), made_up::odd_number(random));
    random.pick([least - 1, least, bound, bound + 1, near, near, number])
}

/// Openings and default thresholds at and past their limits.
pub fn small_calls(run: &mut Run, seed: u64, rounds: usize) {
    let mut random = Random::new(seed);
    run.at = format!("openings and thresholds, seed {seed}");
    for _ in 0..rounds {
        let number = made_up::odd_number(&mut random);
        let any = random.between(1, 128);
        let users = random.pick([0, 1, 128, 129, -1, any, any, number]);
        let places = random.pick([0, 1, 128, 255, 256, 256, 256, 257]);
        let hours = random.pick(LENGTHS);
        let length = random.pick([22, hours, hours, hours, hours, 26, number]);
        let _ = run.opening(users, length, places);
        let month = random.pick([number, number % 24, any % 12 + 1]);
        let number = made_up::odd_number(&mut random);
        let zone = random.pick([0, 1, number]);
        run.thresholds(month, zone);
    }
    for month in -2..=15 {
        for zone in -2..=3 {
            run.thresholds(month, zone);
        }
    }
}

/// Files, whole and damaged, and lists of wrong lengths.
pub fn files(run: &mut Run, seed: u64, rounds: usize) {
    let mut random = Random::new(seed);
    for round in 0..rounds {
        run.at = format!("files, seed {seed}, round {round}");
        let lines = random.pick([0, 1, 1, 2, 3, 9, 127, 128, 129]);
        let mut file = made_up::any_file(&mut random, lines);
        for _ in 0..random.below(4) {
            made_up::damage(&mut random, &mut file);
        }
        let mut lengths = [128; 4];
        if random.one_in(12) {
            lengths[random.below(4)] = random.pick([0, 127, 129]);
        }
        run.file(&file, lengths);
    }
}

/// Writings, with rooms of every kind, and with something odd about them.
pub fn writings(run: &mut Run, seed: u64, rounds: usize) {
    let mut random = Random::new(seed);
    for round in 0..rounds {
        run.at = format!("writings, seed {seed}, round {round}");
        let users = random.pick([1, 1, 2, 3, 9, 10, 11, 99, 100, 101, 127, 128]);
        let (room, more) = random.pick(ROOMS);
        let mut writing = fit_writing(&mut random, users, more);
        if run.writing(&mut writing.clone()) == 0 {
            run.counts.count("accepted writings by room", room);
        }
        for _ in 0..random.below(3) {
            odd_writing(&mut random, &mut writing);
        }
        run.writing(&mut writing);
    }
}

/// Makes one thing of a writing odd.
fn odd_writing(random: &mut Random, writing: &mut Writing) {
    let number = made_up::odd_number(random);
    let list = random.below(4);
    match random.below(8) {
        0 => writing.hour = number,
        1 => writing.zone = random.pick([0, 1, 2, number]),
        2 => writing.users = random.pick([0, 1, 128, 129, number]),
        3 => writing.lists[list].resize(random.pick([0, 1, 127, 128, 129]), number),
        4 => writing.lists.iter_mut().for_each(|list| list.resize(writing.users.clamp(0, 130) as usize, 1)),
        5 => writing.file.truncate(random.below(writing.file.len() + 1)),
        _ => {
            let place = random.below(writing.lists[list].len());
            writing.lists[list].iter_mut().skip(place).take(1).for_each(|amount| *amount = number);
        }
    }
}

/// Large files of one kind of byte: refused, and read in time.
pub fn large_files(run: &mut Run) {
    run.at = "large files".to_string();
    for fill in [&b","[..], b"\r\n", b"\n", b"\r", b"0", b"1,H,0,0,0,0,0\r\n"] {
        for bytes in [1_000, 65_511, 1_000_000] {
            let mut file = ordinary::HEADER.to_vec();
            file.extend(fill.iter().cycle().take(bytes));
            let cause = run.file(&file, [128; 4]);
            assert!(cause == 14 || cause == 16, "a large file was answered {cause}");
        }
    }
}
