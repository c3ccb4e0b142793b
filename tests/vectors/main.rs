//! Calls and what the ordinary settlement answers, one a line as JSON, for the test of a binding that is not written in Rust: openings, thresholds, whole days call by
//! call, each hour after its preview and after quantities are judged for it, hours, previews, judged hours and closings spoilt in every way, or led by an altered record to the
//! bound of a total and past it, files, and writings. A record is its users, its length, and for H and then L the hours done, 0 or 1 for closed, sold and bought. What a binding
//! lends of its own (quantity, money, the positions after, scratch, the reader's lists, the writer's bytes) is always of the right length, or enough.

use ordinary::made_up::{self, Kind};
use ordinary::random::Random;
use ordinary::spoilt::{closing_ways, fit_closing, fit_hour, fit_judged, hour_ways, judged_ways, Call, Way};
use ordinary::spoilt_file::{fit_file, WAYS};
use ordinary::spoilt_quantities::right_quantities;
use ordinary::spoilt_totals::{added_by_closing, added_by_hour, lead, Total};
use ordinary::spoilt_writing::{fit_writing, Writing, WRITING_WAYS};
use ordinary::{Day, Outcome, Side};

/// Whether a call goes on with the day of the line before.
#[derive(Clone, Copy)]
enum Of {
    Day,
    Nothing,
}

fn record(day: &Day) -> String {
    let [h, l] = [0, 1].map(|zone| format!("{}, {}, {}, {}", day.hours[zone], day.closed[zone], day.sold[zone], day.bought[zone]));
    format!("[{}, {}, {h}, {l}]", day.users, day.length)
}

fn given(of: Of, call: &Call) -> String {
    let terms = &call.amounts.terms;
    format!(
        r#""goes_on": {}, "day": {}, "table": {:?}, "zone": {}, "excess_price": {}, "shortfall_price": {}"#,
        matches!(of, Of::Day),
        record(&call.day),
        call.table,
        call.zone,
        terms.excess_price,
        terms.shortfall_price
    )
}

fn lent(call: &Call) -> String {
    format!(
        r#""day_after": {}, "table_after": {:?}, "quantity": {:?}, "money": {:?}"#,
        record(&call.day),
        call.table,
        call.quantity,
        call.money
    )
}

fn opening(users: i64, length: i64) {
    let cause = ordinary::open(users, length, &mut [0; 256]).err().unwrap_or(0);
    println!(r#"{{"call": "open_day", "users": {users}, "length": {length}, "cause": {cause}}}"#);
}

fn openings() {
    for users in [i64::MIN, -1, 0, 1, 2, 127, 128, 129, 257, i64::MAX] {
        [24, 23, 25, 22, 26, 0, -24, i64::MIN, i64::MAX].into_iter().for_each(|length| opening(users, length));
    }
}

fn thresholds(month: i64, zone: i64) {
    let answer = ordinary::default_thresholds(month, zone);
    let (upper, lower) = answer.unwrap_or((0, 0));
    let cause = answer.err().unwrap_or(0);
    println!(r#"{{"call": "default_thresholds", "month": {month}, "zone": {zone}, "cause": {cause}, "upper": {upper}, "lower": {lower}}}"#);
}

/// The hour's side, total and causers by place.
fn shown(outcome: &Outcome) -> (u64, i64, Vec<usize>) {
    match *outcome {
        Outcome::Within => (0, 0, Vec::new()),
        Outcome::Settled { side, total, marks, .. } => {
            let marked = |place: &usize| marks[place / 64] >> (place % 64) & 1 == 1;
            let side = if side == Side::Excess { 1 } else { 2 };
            (side, total, (0..128).filter(marked).collect())
        }
    }
}

/// Lists for what an hour and its preview fill.
fn lend(call: &mut Call) {
    let users = call.amounts.entry.len();
    (call.quantity, call.money, call.after, call.scratch) = (vec![0; users], vec![0; users], vec![0; users], vec![0; users]);
}

/// What an hour and its preview are given, and a judge besides the quantities.
fn given_hour(of: Of, call: &Call) -> String {
    let (given, a) = (given(of, call), &call.amounts);
    let terms = format!(r#""hour": {}, "upper": {}, "lower": {}"#, call.hour, a.terms.upper, a.terms.lower);
    let lists = format!(r#""entry": {:?}, "exit": {:?}, "title": {:?}, "pooling": {:?}"#, a.entry, a.exit, a.title, a.pooling);
    format!("{given}, {terms}, {lists}")
}

fn answered(answer: Result<Outcome, u64>) -> String {
    let cause = answer.as_ref().err().copied().unwrap_or(0);
    let (side, total, causers) = answer.map_or((0, 0, Vec::new()), |outcome| shown(&outcome));
    format!(r#""cause": {cause}, "side": {side}, "total": {total}, "causers": {causers:?}"#)
}

fn hour(of: Of, call: &mut Call) {
    lend(call);
    let given = given_hour(of, call);
    let answered = answered(call.settle());
    println!(r#"{{"call": "settle_hour", {given}, {answered}, {}}}"#, lent(call));
}

fn preview(of: Of, call: &mut Call) {
    lend(call);
    let given = given_hour(of, call);
    let answered = answered(call.preview());
    println!(r#"{{"call": "preview_hour", {given}, {answered}, {}, "after": {:?}}}"#, lent(call), call.after);
}

/// The quantities are given, and nothing is filled.
fn judge(of: Of, call: &mut Call) {
    let given = given_hour(of, call);
    let cause = call.judge().err().unwrap_or(0);
    let after = format!(r#""day_after": {}, "table_after": {:?}"#, record(&call.day), call.table);
    println!(r#"{{"call": "judge_hour", {given}, "quantity": {:?}, "cause": {cause}, {after}}}"#, call.quantity);
}

fn closing(of: Of, call: &mut Call) {
    let users = call.day.users.clamp(0, 128) as usize;
    (call.quantity, call.money) = (vec![0; users], vec![0; users]);
    let given = given(of, call);
    let answer = call.close();
    let cause = answer.err().unwrap_or(0);
    let (sold, bought) = answer.unwrap_or((0, 0));
    println!(r#"{{"call": "close_zone", {given}, "cause": {cause}, {}, "sold": {sold}, "bought": {bought}}}"#, lent(call));
}

fn file(bytes: &[u8]) {
    let [mut entry, mut exit, mut title, mut pooling] = [[0; 128]; 4];
    let answer = ordinary::read_file(bytes, &mut entry, &mut exit, &mut title, &mut pooling);
    let (hour, zone, lines) = answer.unwrap_or((0, 0, 0));
    let (cause, lines) = (answer.err().unwrap_or(0), lines as usize);
    print!(r#"{{"call": "read_hour_file", "file": {bytes:?}, "cause": {cause}, "hour": {hour}, "zone": {zone}, "#);
    println!(r#""entry": {:?}, "exit": {:?}, "title": {:?}, "pooling": {:?}}}"#, &entry[..lines], &exit[..lines], &title[..lines], &pooling[..lines]);
}

fn writing(mut writing: Writing) {
    writing.file = vec![0; 7_833];
    let answer = writing.write();
    let (cause, bytes) = (answer.err().unwrap_or(0), answer.unwrap_or(0) as usize);
    let [entry, exit, title, pooling] = &writing.lists;
    print!(r#"{{"call": "write_hour_file", "hour": {}, "zone": {}, "users": {}, "#, writing.hour, writing.zone, writing.users);
    print!(r#""entry": {entry:?}, "exit": {exit:?}, "title": {title:?}, "pooling": {pooling:?}, "#);
    println!(r#""cause": {cause}, "file": {:?}}}"#, &writing.file[..bytes]);
}

fn previewed_hour(of: Of, call: &mut Call) {
    preview(of, call);
    hour(of, call);
}

/// Quantities that are right, if the hour is fit; now and then one of them is changed by a kWh, or turned.
fn operators(random: &mut Random, call: &Call) -> Vec<i64> {
    let mut quantity = match call.clone().settle() {
        Ok(_) => right_quantities(random, call),
        Err(_) => vec![0; call.quantity.len()],
    };
    let place = random.below(quantity.len());
    match random.below(4) {
        0 => quantity[place] += random.pick([1, -1]),
        1 => quantity[place] = -quantity[place],
        _ => (),
    }
    quantity
}

fn judged_hour(random: &mut Random, of: Of, call: &mut Call) {
    lend(call);
    call.quantity = operators(random, call);
    judge(of, call);
    previewed_hour(of, call);
}

/// A whole day: all hours of both zones, mixed and of every kind, spoilt ones among them, each after its preview and after quantities are judged for it; closings that come too
/// early, in time and twice.
fn day(random: &mut Random, users: usize, length: i64) {
    opening(users as i64, length);
    let mut table = vec![0; 256];
    let record = ordinary::open(users as i64, length, &mut table).expect("opened");
    let amounts = made_up::hour(random, users, Kind::Within, &[]);
    let mut call = Call::new(record, table, 0, 1, amounts);
    while call.day.closed != [1, 1] {
        call.zone = random.between(0, 1);
        let zone = call.zone as usize;
        let kind = random.pick(Kind::ALL);
        call.amounts = made_up::hour(random, users, kind, &call.table[zone * 128..zone * 128 + 128]);
        if random.one_in(6) {
            made_up::spoil(random, &mut call.amounts);
        }
        call.hour = call.day.hours[zone] + random.pick([1, 1, 1, 1, 1, 0, 2]);
        if random.one_in(8) {
            closing(Of::Day, &mut call);
        } else {
            judged_hour(random, Of::Day, &mut call);
        }
    }
    closing(Of::Day, &mut call);
}

/// A fit call that the way has spoilt: it finds room in it.
fn spoilt(random: &mut Random, fit: fn(&mut Random, i64) -> Call, zone: i64, way: &Way) -> Call {
    loop {
        let call = fit(random, zone);
        let mut spoilt = call.clone();
        (way.spoil)(random, &mut spoilt);
        if spoilt != call {
            return spoilt;
        }
    }
}

/// An hour, its preview and the judge of its quantities, and a closing, that lead a total so far beyond the bound: accepted if it comes to it, and else the judge alone.
fn led(random: &mut Random, zone: i64, total: Total, beyond: i64) {
    loop {
        let mut call = fit_hour(random, zone);
        call.quantity = right_quantities(random, &call);
        if lead(&mut call, added_by_hour, total, beyond) {
            judge(Of::Nothing, &mut call);
            previewed_hour(Of::Nothing, &mut call);
            break;
        }
    }
    loop {
        let mut call = fit_closing(random, zone);
        if lead(&mut call, added_by_closing, total, beyond) {
            closing(Of::Nothing, &mut call);
            break;
        }
    }
}

fn main() {
    let mut random = Random::new(1);
    openings();
    for month in -1..=14 {
        (-1..=2).for_each(|zone| thresholds(month, zone));
    }
    for (users, length) in [(1, 24), (2, 23), (3, 25), (64, 24), (65, 23), (128, 25)] {
        day(&mut random, users, length);
    }
    for zone in [0, 1, 0, 1] {
        for way in hour_ways() {
            previewed_hour(Of::Nothing, &mut spoilt(&mut random, fit_hour, zone, way));
        }
        for way in judged_ways() {
            judge(Of::Nothing, &mut spoilt(&mut random, fit_judged, zone, way));
        }
        for way in closing_ways() {
            closing(Of::Nothing, &mut spoilt(&mut random, fit_closing, zone, way));
        }
        for total in Total::ALL {
            (0..2).for_each(|beyond| led(&mut random, zone, total, beyond));
        }
    }
    for lines in [1, 2, 3, 128, 1, 2, 3, 128] {
        file(&fit_file(&mut random, lines).bytes());
        for way in &WAYS {
            let mut spoilt = fit_file(&mut random, lines);
            let at = random.below(lines);
            (way.spoil)(&mut random, &mut spoilt, at);
            file(&spoilt.bytes());
        }
    }
    for users in [1, 2, 3, 10, 11, 127, 128] {
        (0..4).for_each(|_| writing(fit_writing(&mut random, users, 0)));
        for way in WRITING_WAYS.iter().filter(|way| way.cause != 20) {
            let mut spoilt = fit_writing(&mut random, users, 0);
            (way.spoil)(&mut random, &mut spoilt);
            writing(spoilt);
        }
    }
}
