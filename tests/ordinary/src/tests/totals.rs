//! Ask 7: "Running totals in the day record."

use super::*;

/// "a total below zero or above 332,800,000,000".
const BOUND: i64 = 332_800_000_000;
/// What an hour of 128 users can add at most: every user's whole position.
const MOST: i64 = 12_800_000_000;

/// Sold in both zones, and bought in both.
fn totals(bench: &Bench) -> ([i64; 2], [i64; 2]) {
    (bench.day.sold, bench.day.bought)
}

/// An hour of `busy` with a shortfall, of 33 in H and of 43 in L.
fn low() -> Hour {
    titles(&[-20, -20], Terms { lower: -7, ..NONE })
}

/// The hours of `busy` that a total can be led to the bound by: zone, hour, amounts, whether it
/// is sold, and how much.
fn leading() -> [(usize, i64, Hour, bool, i64); 4] {
    [(0, 2, large(), true, 33), (1, 24, large(), true, 23), (0, 2, low(), false, 33), (1, 24, low(), false, 43)]
}

/// One of the two totals of each zone.
fn total(bench: &mut Bench, sold: bool) -> &mut [i64; 2] {
    if sold {
        &mut bench.day.sold
    } else {
        &mut bench.day.bought
    }
}

/// A fault of another cause.
type Fault = fn(&mut Bench, &mut Hour);

/// The hour, after its preview, which gives the same.
fn hour_cause(mut bench: Bench, zone: i64, number: i64, hour: &Hour) -> u64 {
    bench.previewed_hour(zone, number, hour).err().unwrap_or(0)
}

fn closing_cause(mut bench: Bench, zone: i64, prices: (i64, i64)) -> u64 {
    bench.close(zone, prices).err().unwrap_or(0)
}

fn judge_cause(bench: &Bench, zone: i64, number: i64, hour: &Hour, quantity: &[i64]) -> u64 {
    bench.judge(zone, number, hour, quantity).err().unwrap_or(0)
}

#[test]
fn totals_of_a_worked_day() {
    let mut bench = Bench::of_length(2, 23);
    assert_eq!(totals(&bench), ([0, 0], [0, 0]));
    let upper = |upper: i64| Terms { upper, ..NONE };
    let lower = |lower: i64| Terms { lower, ..NONE };
    // an excess of 3; a shortfall of 2
    bench.previewed_hour(0, 1, &titles(&[5, -2], NONE)).unwrap();
    assert_eq!(totals(&bench), ([3, 0], [0, 0]));
    bench.previewed_hour(1, 1, &titles(&[-4, 1], lower(-1))).unwrap();
    assert_eq!(totals(&bench), ([3, 0], [0, 2]));
    // from 2 and -2 a shortfall of 9; from -2 and 1 a market within
    bench.previewed_hour(0, 2, &titles(&[-9, 0], NONE)).unwrap();
    assert_eq!(totals(&bench), ([3, 0], [9, 2]));
    bench.previewed_hour(1, 2, &titles(&[0, 0], lower(-1))).unwrap();
    assert_eq!(totals(&bench), ([3, 0], [9, 2]));
    // excesses of 2: of one by both users 1 each, which leaves 3 and 2; of the other all
    bench.previewed_hour(0, 3, &titles(&[4, 3], upper(5))).unwrap();
    assert_eq!(totals(&bench), ([5, 0], [9, 2]));
    bench.previewed_hour(1, 3, &titles(&[3, 0], NONE)).unwrap();
    assert_eq!(totals(&bench), ([5, 2], [9, 2]));
    // the rest of the day is within
    for number in 4..=23 {
        let moved = if number == 4 { [6, -8] } else { [0, 0] };
        bench.previewed_hour(0, number, &zeros(2, upper(5))).unwrap();
        bench.previewed_hour(1, number, &titles(&moved, lower(-2))).unwrap();
        assert_eq!(bench.hour(0, 24, &zeros(2, NONE)), Err(6));
        assert_eq!(totals(&bench), ([5, 2], [9, 2]));
    }
    assert_eq!(bench.close(1, (1, 1)), Ok((6, 8)));
    assert_eq!(totals(&bench), ([5, 8], [9, 10]));
    assert_eq!(bench.close(1, (1, 1)), Err(5));
    assert_eq!(bench.close(0, (1, 1)), Ok((5, 0)));
    assert_eq!(totals(&bench), ([10, 8], [9, 10]));
    assert_eq!(bench.hour(1, 24, &zeros(2, NONE)), Err(5));
    assert_eq!(totals(&bench), ([10, 8], [9, 10]));
}

/// "Only an altered record can lead past that bound": a day of 25 hours in which everything that
/// can come is sold, or bought, at once or by the closing in the end.
#[test]
fn the_largest_day_on_both_sides() {
    for (sign, left) in [(1, 0), (-1, 0), (1, 1_000_000_000), (-1, 1_000_000_000)] {
        let mut bench = Bench::of_length(128, 25);
        let mut hour = titles(&[sign * 50_000_000; 128], NONE);
        let list = if sign > 0 { &mut hour.entry } else { &mut hour.exit };
        list.fill(sign * 50_000_000);
        for number in 1..=25 {
            if number == 25 {
                (hour.terms.upper, hour.terms.lower) = (left, -left);
            }
            bench.previewed_hour(1, number, &hour).unwrap();
        }
        let [sold, bought] = if sign > 0 { [25 * MOST - left, 0] } else { [0, 25 * MOST - left] };
        assert_eq!(totals(&bench), ([0, sold], [0, bought]));
        let closed = if sign > 0 { (left, 0) } else { (0, left) };
        assert_eq!(bench.close(1, (0, 0)), Ok(closed));
        let all = if sign > 0 { ([0, 25 * MOST], [0, 0]) } else { ([0, 0], [0, 25 * MOST]) };
        assert_eq!(totals(&bench), all);
        assert_eq!(25 * MOST + MOST, BOUND);
    }
}

/// The causes of an hour and its preview, a judged hour, and a closing of L.
fn causes_of(bench: &Bench) -> [u64; 3] {
    let within = zeros(2, NONE);
    let next = bench.day.hours[0] + 1;
    [hour_cause(bench.clone(), 0, next, &within), judge_cause(bench, 0, next, &within, &[0, 0]), closing_cause(bench.clone(), 1, (1, 1))]
}

/// "a total below zero or above 332,800,000,000", in either zone.
#[test]
fn cause_2_a_total_out_of_its_range() {
    for (zone, sold) in [(0, true), (0, false), (1, true), (1, false)] {
        for beyond in [-1, -2, -BOUND, i64::MIN, BOUND + 1, BOUND + 2, 2 * BOUND, BOUND + (1 << 32), i64::MAX] {
            let mut bench = closable();
            total(&mut bench, sold)[zone] = beyond;
            assert_eq!(causes_of(&bench), [2; 3], "{zone} {sold} {beyond}");
            // also beside another one that would make up for it
            total(&mut bench, !sold)[zone] = BOUND;
            assert_eq!(causes_of(&bench), [2; 3], "{zone} {sold} {beyond}");
        }
        for inside in [0, 1, 1 << 32, BOUND - 30] {
            let mut bench = closable();
            total(&mut bench, sold)[zone] = inside;
            assert_eq!(causes_of(&bench), [0; 3], "{zone} {sold} {inside}");
        }
        let mut bench = closable();
        total(&mut bench, sold)[zone] = BOUND;
        assert_eq!(causes_of(&bench), [0, 0, if zone == 1 { 25 } else { 0 }]);
    }
}

/// The same of a zone that is closed.
#[test]
fn cause_2_a_total_of_a_closed_zone() {
    for sold in [true, false] {
        for (number, cause) in [(-1, 2), (0, 0), (BOUND, 0), (BOUND + 1, 2)] {
            let mut bench = closable();
            bench.close(1, (1, 1)).unwrap();
            total(&mut bench, sold)[1] = number;
            assert_eq!(causes_of(&bench), [cause, cause, if cause == 0 { 5 } else { 2 }]);
        }
    }
}

/// "a zone with no hours done whose totals are not zero", whichever zone is called.
#[test]
fn cause_2_totals_before_the_first_hour() {
    for sold in [true, false] {
        for number in [1, 2, BOUND, -1, BOUND + 1, i64::MIN, i64::MAX] {
            let mut h_idle = closable();
            h_idle.day.hours[0] = 0;
            h_idle.table[..2].fill(0);
            assert_eq!(causes_of(&h_idle), [0; 3]);
            total(&mut h_idle, sold)[0] = number;
            assert_eq!(causes_of(&h_idle), [2; 3]);
            // turned, so that they add to zero, or equal
            for other in [number.wrapping_neg(), number] {
                total(&mut h_idle, !sold)[0] = other;
                assert_eq!(causes_of(&h_idle), [2; 3]);
            }

            let mut l_idle = busy();
            l_idle.day.hours[1] = 0;
            l_idle.table[128..].fill(0);
            assert_eq!(causes_of(&l_idle), [0, 0, 6]);
            assert_eq!(hour_cause(l_idle.clone(), 1, 1, &large()), 0);
            total(&mut l_idle, sold)[1] = number;
            assert_eq!(causes_of(&l_idle), [2; 3]);
            assert_eq!(hour_cause(l_idle.clone(), 1, 1, &large()), 2);
            assert_eq!(judge_cause(&l_idle, 1, 1, &zeros(2, NONE), &[0, 0]), 2);
        }
    }
}

/// The new clauses of 2 stand before 3 and before all others.
#[test]
fn cause_2_comes_first() {
    let changes: [fn(&mut Day); 4] = [|day| day.sold[0] = -1, |day| day.bought[1] = BOUND + 1, |day| (day.hours[0], day.sold[0]) = (0, 1), |day| (day.hours[1], day.bought[1]) = (0, 1)];
    for change in changes {
        let mut bench = busy();
        change(&mut bench.day);
        bench.table.push(i64::MIN);
        bench.quantity.clear();
        let unfit = zeros(1, Terms { upper: -1, ..NONE });
        for zone in [0, 1, 2, i64::MIN] {
            assert_eq!(bench.preview(zone, 99, &unfit), Err(2));
            assert_eq!(bench.hour(zone, 99, &unfit), Err(2));
            assert_eq!(bench.judge(zone, 99, &unfit, &[]), Err(2));
            assert_eq!(bench.close(zone, (i64::MAX, i64::MIN)), Err(2));
        }
    }
}

/// "if a total would pass the bound": reaching it does not.
#[test]
fn cause_25_of_an_hour_and_its_preview() {
    for (zone, number, hour, sold, added) in leading() {
        for (left, cause) in [(added + 1, 0), (added, 0), (added - 1, 25), (added - 2, 25), (1, 25), (0, 25)] {
            let mut bench = busy();
            total(&mut bench, sold)[zone] = BOUND - left;
            assert_eq!(hour_cause(bench.clone(), zone as i64, number, &hour), cause, "{zone} {sold} {left}");
            if cause == 0 {
                bench.hour(zone as i64, number, &hour).unwrap();
                assert_eq!(total(&mut bench, sold)[zone], BOUND - left + added);
            }
        }
    }
}

/// The total of the other side, and those of the other zone, may be at the bound.
#[test]
fn cause_25_of_the_other_side_and_of_the_other_zone() {
    for (zone, number, hour, sold, added) in leading() {
        let mut bench = busy();
        (bench.day.sold, bench.day.bought) = ([BOUND; 2], [BOUND; 2]);
        assert_eq!(hour_cause(bench.clone(), zone as i64, number, &hour), 25);
        total(&mut bench, sold)[zone] = BOUND - added;
        assert_eq!(hour_cause(bench.clone(), zone as i64, number, &hour), 0);
        total(&mut bench, sold)[zone] += 1;
        assert_eq!(hour_cause(bench.clone(), zone as i64, number, &hour), 25);
        total(&mut bench, !sold)[zone] = 0;
        total(&mut bench, sold)[1 - zone] = 0;
        assert_eq!(hour_cause(bench, zone as i64, number, &hour), 25);
    }
}

/// A market within its thresholds adds nothing.
#[test]
fn an_hour_within_its_thresholds_at_the_bound() {
    for (zone, number) in [(0, 2), (1, 24)] {
        let mut bench = busy();
        (bench.day.sold, bench.day.bought) = ([BOUND; 2], [BOUND; 2]);
        let within = zeros(2, Terms { lower: -10, ..NONE });
        assert_eq!(bench.previewed_hour(zone, number, &within), Ok(Outcome::Within));
        assert_eq!(totals(&bench), ([BOUND; 2], [BOUND; 2]));
    }
}

/// Both totals of a closing; those of the other zone at the bound do not matter.
#[test]
fn cause_25_of_a_closing() {
    let cases = [(20, 30, 0), (21, 30, 0), (20, 31, 0), (19, 30, 25), (20, 29, 25), (19, 29, 25), (0, 30, 25), (20, 0, 25), (0, 0, 25), (BOUND, 30, 0), (BOUND, 29, 25)];
    for (sold, bought, cause) in cases {
        let mut bench = closable();
        bench.day.sold = [BOUND, BOUND - sold];
        bench.day.bought = [BOUND, BOUND - bought];
        assert_eq!(closing_cause(bench.clone(), 1, (7, 9)), cause, "{sold} {bought}");
        if cause == 0 {
            assert_eq!(bench.close(1, (7, 9)), Ok((20, 30)));
            assert_eq!(totals(&bench), ([BOUND, BOUND - sold + 20], [BOUND, BOUND - bought + 30]));
        }
    }
    // the same in H
    for (left, cause) in [(10, 0), (9, 25)] {
        for sold in [true, false] {
            let mut bench = busy();
            bench.day.hours[0] = 24;
            total(&mut bench, sold)[0] = BOUND - left;
            total(&mut bench, sold)[1] = BOUND;
            assert_eq!(closing_cause(bench, 0, (7, 9)), cause);
        }
    }
    // and of positions of zero, which add nothing
    let mut bench = closable();
    bench.table[128..130].fill(0);
    (bench.day.sold, bench.day.bought) = ([BOUND; 2], [BOUND; 2]);
    assert_eq!(bench.close(1, (7, 9)), Ok((0, 0)));
}

/// An hour of 128 users that adds the most, and a closing.
#[test]
fn cause_25_of_the_largest_hour_and_closing() {
    for sign in [1, -1] {
        for (left, cause) in [(MOST, 0), (MOST - 1, 25)] {
            let mut bench = Bench::opened(128);
            bench.day.hours = [23, 24];
            bench.table.fill(sign * 100_000_000);
            *total(&mut bench, sign > 0) = [BOUND - left; 2];
            assert_eq!(hour_cause(bench.clone(), 0, 24, &zeros(128, NONE)), cause);
            assert_eq!(closing_cause(bench, 1, (1, 1)), cause);
        }
    }
}

/// "last of all causes of an hour, a preview": after each of 2 to 11.
#[test]
fn cause_25_is_the_last_of_an_hour() {
    let faults: [(u64, Fault); 10] = [
        (2, |bench, _| bench.day.closed[0] = 2),
        (2, |bench, _| bench.day.bought[1] = -1),
        (3, |_, hour| hour.entry.push(0)),
        (5, |bench, _| (bench.day.hours[0], bench.day.closed[0]) = (24, 1)),
        (6, |bench, _| bench.day.hours[0] = 2),
        (7, |bench, _| bench.table[200] = 1),
        (8, |_, hour| hour.terms.lower = 1),
        (9, |_, hour| hour.exit[1] = 1),
        (10, |_, hour| hour.pooling[0] = 1),
        (11, |_, hour| (hour.entry[0], hour.title[0]) = (50_000_000, 50_000_000)),
    ];
    for (cause, fault) in faults {
        for near in [false, true] {
            let (mut bench, mut hour) = (busy(), large());
            bench.day.sold[0] = if near { BOUND } else { 0 };
            fault(&mut bench, &mut hour);
            assert_eq!(hour_cause(bench.clone(), 0, 2, &hour), cause);
        }
    }
    let mut bench = busy();
    (bench.day.sold, bench.day.bought) = ([BOUND; 2], [BOUND; 2]);
    assert_eq!(hour_cause(bench.clone(), 2, 2, &large()), 4);
    assert_eq!(hour_cause(bench.clone(), 0, 2, &large()), 25);
    bench.after.pop();
    assert_eq!(bench.preview(0, 2, &large()), Err(3));
    assert_eq!(bench.hour(0, 2, &large()), Err(25));
    bench.after.push(0);
    bench.scratch.pop();
    assert_eq!(hour_cause(bench, 0, 2, &large()), 3);
}

/// "last of all causes of [..] a closing": after each of 2 to 8.
#[test]
fn cause_25_is_the_last_of_a_closing() {
    let faults: [(u64, fn(&mut Bench)); 6] = [
        (2, |bench| bench.day.length = 26),
        (2, |bench| bench.day.sold[0] = BOUND + 1),
        (3, |bench| bench.money.push(0)),
        (5, |bench| bench.day.closed[1] = 1),
        (6, |bench| bench.day.hours[1] = 23),
        (7, |bench| bench.table[127] = 1),
    ];
    for (sold, bought) in [(0, 0), (BOUND, 0), (0, BOUND)] {
        let mut bench = closable();
        (bench.day.sold[1], bench.day.bought[1]) = (sold, bought);
        let last = if sold + bought > 0 { 25 } else { 0 };
        assert_eq!(closing_cause(bench.clone(), 1, (1, 1)), last);
        assert_eq!(closing_cause(bench.clone(), 2, (1, 1)), 4);
        assert_eq!(closing_cause(bench.clone(), 1, (10_000_001, 1)), 8);
        assert_eq!(closing_cause(bench.clone(), 1, (1, -10_000_001)), 8);
        for (cause, fault) in faults {
            let mut bench = bench.clone();
            fault(&mut bench);
            assert_eq!(closing_cause(bench, 1, (1, 1)), cause);
        }
    }
}

/// 25 is none of a judged hour's causes: it gives what it would give of a record with no totals.
#[test]
fn the_judge_does_not_use_25() {
    let cases: [(i64, i64, Hour, &[i64], u64); 8] = [
        (0, 2, large(), &[25, 8], 0),
        (0, 2, large(), &[24, 9], 0),
        (0, 2, large(), &[25, -8], 22),
        (0, 2, large(), &[30, 3], 23),
        (0, 2, large(), &[24, 8], 24),
        (1, 24, large(), &[23, 0], 0),
        (0, 2, low(), &[-8, -25], 0),
        (1, 24, low(), &[0, -43], 0),
    ];
    for (zone, number, hour, quantity, cause) in cases {
        let mut bench = busy();
        assert_eq!(judge_cause(&bench, zone, number, &hour, quantity), cause);
        (bench.day.sold, bench.day.bought) = ([BOUND; 2], [BOUND; 2]);
        assert_eq!(hour_cause(bench.clone(), zone, number, &hour), 25);
        assert_eq!(judge_cause(&bench, zone, number, &hour, quantity), cause);
    }
}

/// A day goes on from the bound as it can: what adds nothing to that total is accepted.
#[test]
fn a_day_at_the_bound_goes_on() {
    let mut bench = busy();
    bench.day.sold[0] = BOUND - 33;
    bench.previewed_hour(0, 2, &large()).unwrap();
    assert_eq!(totals(&bench), ([BOUND, 0], [0, 0]));
    // 5 and 2 are left, and 7 is the threshold
    let wide = Terms { upper: 7, lower: 0, ..NONE };
    assert_eq!(bench.previewed_hour(0, 3, &titles(&[1, 0], wide)), Err(25));
    assert_eq!(bench.previewed_hour(0, 3, &titles(&[0, 0], wide)), Ok(Outcome::Within));
    assert_eq!(bench.previewed_hour(0, 4, &titles(&[-8, 0], wide)), Ok(shortfall(1, [0b01, 0], 1)));
    assert_eq!(totals(&bench), ([BOUND, 0], [1, 0]));
    for number in 5..=24 {
        bench.previewed_hour(0, number, &zeros(2, wide)).unwrap();
    }
    // -2 and 2 are left
    assert_eq!(bench.close(0, (1, 1)), Err(25));
    bench.previewed_hour(1, 24, &large()).unwrap();
    assert_eq!(totals(&bench), ([BOUND, 23], [1, 0]));
    assert_eq!(bench.close(1, (1, 1)), Ok((17, 10)));
    assert_eq!(totals(&bench), ([BOUND, 40], [1, 10]));
}
