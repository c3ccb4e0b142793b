//! Calls spoilt on purpose: by every part of every cause, in both zones, and by every two causes that can come together, so that the first is answered.

use crate::both::Run;
use crate::counts::{closing_pairs, hour_pairs, judged_pairs, pair_name, pairs, part_name, FILE_PAIRS, LENGTHS, LINE_PAIRS, TWO_LINES, TWO_USERS};
use ordinary::present::{closing_causes, hour_causes, judged_causes, preview_causes, writing_causes};
use ordinary::random::Random;
use ordinary::spoilt::{closing_ways, fit_closing, fit_hour, fit_judged, hour_ways, judged_ways, preview_ways, Call, Way};
use ordinary::spoilt_file::{fit_file, File, FileWay, WAYS};
use ordinary::spoilt_quantities::spoil_two_users;
use ordinary::spoilt_totals::{added_by_closing, added_by_hour, lead, lead_others, Added, Total};
use ordinary::spoilt_writing::{fit_writing, Writing, WritingWay, ROOMS, WRITING_WAYS};

/// What differs between hours, previews, judged hours and closings.
struct Calls {
    name: &'static str,
    rows: [&'static str; 2],
    pairs_row: &'static str,
    ways: fn() -> Vec<&'static Way>,
    pairs: fn() -> Vec<(u64, u64)>,
    fit: fn(&mut Random, i64) -> Call,
    both: fn(&mut Run, &mut Call) -> u64,
    present: fn(&Call) -> Vec<u64>,
}

const HOURS: Calls = Calls {
    name: "hours on purpose",
    rows: ["hours of zone H by part of a cause", "hours of zone L by part of a cause"],
    pairs_row: "hours by pair of causes",
    ways: hour_ways,
    pairs: hour_pairs,
    fit: fit_hour,
    both: Run::hour,
    present: hour_causes,
};

const PREVIEWS: Calls = Calls {
    name: "previews on purpose",
    rows: ["previews of zone H by part of a cause", "previews of zone L by part of a cause"],
    pairs_row: "previews by pair of causes",
    ways: preview_ways,
    pairs: hour_pairs,
    fit: fit_hour,
    both: Run::preview,
    present: preview_causes,
};

const JUDGED: Calls = Calls {
    name: "judged hours on purpose",
    rows: ["judged hours of zone H by part of a cause", "judged hours of zone L by part of a cause"],
    pairs_row: "judged hours by pair of causes",
    ways: judged_ways,
    pairs: judged_pairs,
    fit: fit_judged,
    both: Run::judge,
    present: judged_causes,
};

const CLOSINGS: Calls = Calls {
    name: "closings on purpose",
    rows: ["closings of zone H by part of a cause", "closings of zone L by part of a cause"],
    pairs_row: "closings by pair of causes",
    ways: closing_ways,
    pairs: closing_pairs,
    fit: fit_closing,
    both: Run::closing,
    present: closing_causes,
};

/// Hours, closings, previews and judged hours, each spoilt by one way and then by two.
pub fn calls_of_a_day(run: &mut Run, seed: u64, rounds: usize) {
    let mut random = Random::new(seed);
    for calls in [HOURS, CLOSINGS, PREVIEWS, JUDGED] {
        run.at = format!("{}, seed {seed}", calls.name);
        for zone in [0, 1] {
            for way in (calls.ways)() {
                // of the ways of an operator's quantities, and of those past the bound, more find no room in an hour
                let times = if way.cause < 22 { rounds } else { 4 * rounds };
                (0..times).for_each(|_| spoilt_once(run, &mut random, &calls, zone, way));
            }
        }
        for pair in (calls.pairs)() {
            (0..rounds).for_each(|_| spoilt_twice(run, &mut random, &calls, pair));
        }
    }
}

/// The call is accepted as it is, and refused by the way's cause once it is spoilt.
fn spoilt_once(run: &mut Run, random: &mut Random, calls: &Calls, zone: usize, way: &Way) {
    let mut call = (calls.fit)(random, zone as i64);
    assert_eq!((calls.both)(run, &mut call.clone()), 0, "{}: a fit call was refused", run.at);
    (way.spoil)(random, &mut call);
    let first = (calls.present)(&call).first().copied().unwrap_or(0);
    let cause = (calls.both)(run, &mut call);
    assert_eq!(cause, first, "{}: not the first cause that applies", run.at);
    if cause == way.cause {
        run.counts.count(calls.rows[zone], &part_name(way.cause, way.part));
    }
}

/// The call is spoilt by the higher cause and then by the lower one. It counts if both apply then and none below them does.
fn spoilt_twice(run: &mut Run, random: &mut Random, calls: &Calls, (lower, higher): (u64, u64)) {
    let zone = random.between(0, 1);
    let mut call = (calls.fit)(random, zone);
    for cause in [higher, lower] {
        let ways: Vec<&Way> = (calls.ways)().into_iter().filter(|way| way.cause == cause).collect();
        (ways[random.below(ways.len())].spoil)(random, &mut call);
    }
    let causes = (calls.present)(&call);
    let cause = (calls.both)(run, &mut call);
    assert_eq!(cause, causes.first().copied().unwrap_or(0), "{}: not the first cause that applies", run.at);
    if cause == lower && causes.contains(&higher) {
        run.counts.count(calls.pairs_row, &pair_name((lower, higher)));
    }
}

/// Hours, previews and closings of an altered record whose totals they lead to the bound, and just past it; and judged hours, to which that does not matter.
pub fn to_the_bound(run: &mut Run, seed: u64, rounds: usize) {
    let mut random = Random::new(seed);
    run.at = format!("calls to the bound on purpose, seed {seed}");
    for _ in 0..rounds {
        for (zone, total) in [(0, Total::Sold), (0, Total::Bought), (1, Total::Sold), (1, Total::Bought)] {
            led(run, &mut random, &HOURS, (zone, total), added_by_hour);
            led(run, &mut random, &PREVIEWS, (zone, total), added_by_hour);
            led(run, &mut random, &CLOSINGS, (zone, total), added_by_closing);
            judged_past(run, &mut random, (zone, total));
        }
    }
}

/// The call leads the total to the bound, if it adds to it, and is accepted; from one more it is refused.
fn led(run: &mut Run, random: &mut Random, calls: &Calls, (zone, total): (i64, Total), added: fn(&Call) -> Added) {
    let mut call = (calls.fit)(random, zone);
    if !lead(&mut call, added, total, 0) {
        return;
    }
    lead_others(random, &mut call, added, total);
    assert_eq!((calls.both)(run, &mut call.clone()), 0, "{}: a call that leads a total to the bound was refused", run.at);
    total.of(&mut call.day)[zone as usize] += 1;
    assert_eq!((calls.both)(run, &mut call), 25, "{}: a call that leads a total past the bound was not refused by 25", run.at);
}

/// A judged hour that would lead the total past the bound, or just to it, is accepted.
fn judged_past(run: &mut Run, random: &mut Random, (zone, total): (i64, Total)) {
    let mut call = fit_judged(random, zone);
    if lead(&mut call, added_by_hour, total, random.between(0, 1)) {
        lead_others(random, &mut call, added_by_hour, total);
        assert_eq!(run.judge(&mut call), 0, "{}: a judged hour was refused near the bound", run.at);
    }
}

/// Judged hours in which an earlier user's quantity brings one cause and a later one's another, which is given.
pub fn two_users(run: &mut Run, seed: u64, rounds: usize) {
    let mut random = Random::new(seed);
    run.at = format!("judged hours of two users on purpose, seed {seed}");
    for pair in TWO_USERS {
        (0..rounds).for_each(|round| two_users_once(run, &mut random, pair, round as i64 % 2));
    }
}

fn two_users_once(run: &mut Run, random: &mut Random, (first, second): (u64, u64), zone: i64) {
    let mut call = fit_judged(random, zone);
    let both = spoil_two_users(random, &mut call, (first, second));
    let causes = judged_causes(&call);
    let cause = run.judge(&mut call);
    assert_eq!(cause, causes.first().copied().unwrap_or(0), "{}: not the first cause that applies", run.at);
    if both && cause == first && causes.contains(&second) {
        run.counts.count("judged hours by pair of causes of two users, the later user's first", &pair_name((first, second)));
    }
}

/// A number that is below the range, or above it.
fn below(random: &mut Random, least: i64) -> i64 {
    let any = random.between(i64::MIN, least - 1);
    random.pick([least - 1, least - 2, i64::MIN, any])
}

fn above(random: &mut Random, most: i64) -> i64 {
    let any = random.between(most + 1, i64::MAX);
    random.pick([most + 1, most + 2, most + 256, most + (1 << 32), i64::MAX, any])
}

/// Openings and thresholds, spoilt in one way and in two.
pub fn small_calls(run: &mut Run, seed: u64, rounds: usize) {
    let mut random = Random::new(seed);
    run.at = format!("openings and thresholds on purpose, seed {seed}");
    for _ in 0..rounds {
        openings(run, &mut random);
        thresholds(run, &mut random);
    }
}

fn openings(run: &mut Run, random: &mut Random) {
    let (fit, hours) = (random.between(1, 128), random.pick(LENGTHS));
    let (few, many) = (below(random, 1), above(random, 128));
    let (under, over) = (below(random, 23), above(random, 25));
    let (short, long) = (random.pick([0, 128, 255]), random.pick([257, 384, 512]));
    let calls = [
        ("1 users below 1", few, hours, 256),
        ("1 users above 128", many, hours, 256),
        ("21 length below 23", fit, under, 256),
        ("21 length above 25", fit, over, 256),
        ("3 table too short", fit, hours, short),
        ("3 table too long", fit, hours, long),
    ];
    for (part, users, length, places) in calls {
        let cause = run.opening(users, length, places).err().unwrap_or(0);
        if part.starts_with(&format!("{cause} ")) {
            run.counts.count("openings by part of a cause", part);
        }
    }
    let (users, length, places) = (random.pick([few, many]), random.pick([under, over]), random.pick([short, long]));
    let calls = [((1, 21), users, length, 256), ((1, 3), users, hours, places), ((21, 3), fit, length, places)];
    for (pair, users, length, places) in calls {
        if run.opening(users, length, places) == Err(pair.0) {
            run.counts.count("openings by pair of causes", &pair_name(pair));
        }
    }
    assert_eq!(run.opening(users, length, places), Err(1), "{}: not the first cause that applies", run.at);
}

fn thresholds(run: &mut Run, random: &mut Random) {
    let (month, zone) = (random.between(1, 12), random.between(0, 1));
    let (early, late) = (below(random, 1), above(random, 12));
    let (low, high) = (below(random, 0), above(random, 1));
    let calls = [("4 zone below 0", month, low), ("4 zone above 1", month, high), ("8 month below 1", early, zone), ("8 month above 12", late, zone)];
    for (part, month, zone) in calls {
        let cause = run.thresholds(month, zone);
        if part.starts_with(&format!("{cause} ")) {
            run.counts.count("thresholds by part of a cause", part);
        }
    }
    if run.thresholds(random.pick([early, late]), random.pick([low, high])) == 4 {
        run.counts.count("thresholds by pair of causes", &pair_name((4, 8)));
    }
}

/// Files, each spoilt in one way and then in two.
pub fn files(run: &mut Run, seed: u64, rounds: usize) {
    let mut random = Random::new(seed);
    run.at = format!("files on purpose, seed {seed}");
    for _ in 0..rounds {
        WAYS.iter().for_each(|way| file_once(run, &mut random, way));
        FILE_PAIRS.iter().for_each(|&pair| file_twice(run, &mut random, pair));
        LINE_PAIRS.iter().for_each(|&pair| line_twice(run, &mut random, pair));
        TWO_LINES.iter().for_each(|&pair| two_lines(run, &mut random, pair));
    }
}

fn some_file(random: &mut Random) -> File {
    let lines = random.pick([1, 2, 3, 9, 127, 128]);
    fit_file(random, lines)
}

fn read(run: &mut Run, file: &File) -> u64 {
    run.file(&file.bytes(), file.lengths)
}

/// One of the ways of this cause. Those of a line spoil the one at the place, but for the 129th.
fn way_of(random: &mut Random, cause: u64) -> &'static FileWay {
    let ways: Vec<&FileWay> = WAYS.iter().filter(|way| way.cause == cause && way.part != "line 129").collect();
    ways[random.below(ways.len())]
}

/// The file is read as it is, and refused by the way's cause once it is spoilt.
fn file_once(run: &mut Run, random: &mut Random, way: &FileWay) {
    let mut file = some_file(random);
    assert_eq!(read(run, &file), 0, "{}: a fit file was refused", run.at);
    let at = random.below(file.lines.len());
    (way.spoil)(random, &mut file, at);
    if read(run, &file) == way.cause {
        run.counts.count("files by part of a cause", &part_name(way.cause, way.part));
    }
}

/// The file is spoilt by the higher cause, and refused by it; then also by the lower one, which leaves the lines.
fn file_twice(run: &mut Run, random: &mut Random, (lower, higher): (u64, u64)) {
    let mut file = some_file(random);
    let at = random.below(file.lines.len());
    (way_of(random, higher).spoil)(random, &mut file, at);
    let alone = read(run, &file);
    (way_of(random, lower).spoil)(random, &mut file, 0);
    let cause = read(run, &file);
    let lines_left = lower == 12 || higher == 17 || !file.lines.is_empty();
    if alone == higher && cause == lower && lines_left {
        run.counts.count("files by pair of causes", &pair_name((lower, higher)));
    }
}

/// A line is spoilt by the higher cause; then the same line also by the lower one, in another part of it.
fn line_twice(run: &mut Run, random: &mut Random, (lower, higher): (u64, u64)) {
    let mut file = some_file(random);
    let at = random.below(file.lines.len());
    (way_of(random, higher).spoil)(random, &mut file, at);
    let alone = read(run, &file);
    match lower {
        14 => file.spoil_form(random, at),
        _ => file.spoil_amount(random, at),
    }
    if alone == higher && read(run, &file) == lower {
        run.counts.count("files by pair of causes in one line", &pair_name((lower, higher)));
    }
}

/// A line is spoilt by the second cause, and then one before it by the first, which is given.
fn two_lines(run: &mut Run, random: &mut Random, (first, second): (u64, u64)) {
    let mut file = some_file(random);
    let later = random.below(file.lines.len());
    let earlier = random.below(later);
    (way_of(random, second).spoil)(random, &mut file, later);
    let alone = read(run, &file);
    (way_of(random, first).spoil)(random, &mut file, earlier);
    if earlier < later && alone == second && read(run, &file) == first {
        run.counts.count("files by pair of causes in two lines, the first line's first", &pair_name((first, second)));
    }
}

/// Writings, each spoilt in one way and then in two.
pub fn writings(run: &mut Run, seed: u64, rounds: usize) {
    let mut random = Random::new(seed);
    run.at = format!("writings on purpose, seed {seed}");
    for _ in 0..rounds {
        for zone in [0, 1] {
            WRITING_WAYS.iter().for_each(|way| writing_once(run, &mut random, zone, way));
        }
        pairs(18..=20).into_iter().for_each(|pair| writing_twice(run, &mut random, pair));
    }
}

fn some_writing(random: &mut Random) -> Writing {
    let any = 1 + random.below(128);
    let users = random.pick([1, 2, 3, 10, 11, 127, 128, any]);
    let (_, more) = random.pick(ROOMS);
    fit_writing(random, users, more)
}

/// It is refused by the first cause that applies, which is answered with all that do.
fn spoilt_writing(run: &mut Run, writing: &mut Writing) -> (u64, Vec<u64>) {
    let causes = writing_causes(writing);
    let cause = run.writing(writing);
    assert_eq!(cause, causes.first().copied().unwrap_or(0), "{}: not the first cause that applies", run.at);
    (cause, causes)
}

/// The writing is accepted as it is, and refused by the way's cause once it is spoilt.
fn writing_once(run: &mut Run, random: &mut Random, zone: usize, way: &WritingWay) {
    let mut writing = Writing {
        zone: zone as i64,
        ..some_writing(random)
    };
    assert_eq!(run.writing(&mut writing.clone()), 0, "{}: a fit writing was refused", run.at);
    (way.spoil)(random, &mut writing);
    let rows = ["writings of zone H by part of a cause", "writings of zone L by part of a cause"];
    if spoilt_writing(run, &mut writing).0 == way.cause {
        run.counts.count(rows[zone], &part_name(way.cause, way.part));
    }
}

/// The writing is spoilt by the higher cause and then by the lower one. It counts if both apply then and none below them does.
fn writing_twice(run: &mut Run, random: &mut Random, (lower, higher): (u64, u64)) {
    let mut writing = some_writing(random);
    for cause in [higher, lower] {
        let ways: Vec<&WritingWay> = WRITING_WAYS.iter().filter(|way| way.cause == cause).collect();
        (ways[random.below(ways.len())].spoil)(random, &mut writing);
    }
    let (cause, causes) = spoilt_writing(run, &mut writing);
    if cause == lower && causes.contains(&higher) {
        run.counts.count("writings by pair of causes", &pair_name((lower, higher)));
    }
}
