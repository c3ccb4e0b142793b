//! Ask 6: "Judge the operator's own quantities."

use super::*;
use crate::made_up::{odd_number, Kind};
use crate::random::Random;
use crate::spoilt::{fit_judged, Call};
use crate::spoilt_quantities::right_quantities;

/// The cause by which these quantities are refused in hour 1 of zone H, or 0.
fn judged(positions: &[i64], terms: Terms, quantity: &[i64]) -> u64 {
    let bench = Bench::opened(positions.len());
    let answer = bench.judge(0, 1, &titles(positions, terms), quantity);
    answer.err().unwrap_or(0)
}

fn turned(numbers: &[i64]) -> Vec<i64> {
    numbers.iter().map(|number| -number).collect()
}

/// The answers to lists of quantities, above this threshold; and on the other side, where
/// everything is turned, the same.
fn on_both_sides(positions: &[i64], upper: i64, lists: &[(&[i64], u64)]) {
    for &(quantity, cause) in lists {
        let above = Terms { upper, ..NONE };
        assert_eq!(judged(positions, above, quantity), cause, "{quantity:?}");
        let below = Terms { lower: -upper, ..NONE };
        assert_eq!(judged(&turned(positions), below, &turned(quantity)), cause, "minus {quantity:?}");
    }
}

/// Shares of 3,333,333 1/3 and 1,666,666 2/3, of a bystander none.
#[test]
fn case_a_in_other_roundings() {
    let mut hour = zeros(3, NONE);
    hour.entry = vec![30_000_000, 15_000_000, 2_000_000];
    hour.exit = vec![-10_000_000, -5_000_000, -5_000_000];
    hour.terms.upper = 22_000_000;
    let lists = [
        ([3_333_333, 1_666_667, 0], 0),
        ([3_333_334, 1_666_666, 0], 0),
        ([3_333_333, 1_666_666, 0], 24),
        ([3_333_334, 1_666_667, 0], 24),
        ([3_333_332, 1_666_668, 0], 23),
        ([3_333_335, 1_666_665, 0], 23),
        ([5_000_000, 0, 0], 23),
        ([2_500_000, 2_500_000, 0], 23),
        ([0, 0, 0], 23),
        ([3_333_333, 1_666_666, 1], 22),
        ([3_333_334, 1_666_667, -1], 22),
        ([-3_333_333, -1_666_667, 0], 22),
        // "Sharing an excess over all users, so that a short user is paid."
        ([3_703_704, 1_851_852, -555_556], 22),
    ];
    for (quantity, cause) in lists {
        let answer = Bench::opened(3).judge(0, 1, &hour, &quantity);
        assert_eq!(answer.err().unwrap_or(0), cause, "{quantity:?}");
    }
}

/// Cases B and C: any two of the three may have the kWh. "Rounding every share to the nearest:
/// case B would settle 3."
#[test]
fn cases_b_and_c() {
    let lists: [(&[i64], u64); 9] = [
        (&[1, 1, 0], 0),
        (&[1, 0, 1], 0),
        (&[0, 1, 1], 0),
        (&[1, 1, 1], 24),
        (&[1, 0, 0], 24),
        (&[0, 0, 0], 24),
        (&[2, 0, 0], 23),
        (&[0, 0, 2], 23),
        (&[1, 2, -1], 22),
    ];
    on_both_sides(&[1, 1, 1], 1, &lists);
}

/// Case E: the whole excess is one user's.
#[test]
fn case_e() {
    let lists: [(&[i64], u64); 5] = [(&[1], 0), (&[0], 23), (&[2], 23), (&[-1], 22), (&[22_000_001], 23)];
    on_both_sides(&[22_000_001], 22_000_000, &lists);
}

#[test]
fn case_g() {
    let lists: [(&[i64], u64); 6] = [(&[3, 0], 0), (&[2, 0], 23), (&[4, 0], 23), (&[5, -2], 22), (&[4, -1], 22), (&[3, 1], 22)];
    on_both_sides(&[5, -2], 0, &lists);
}

/// Case J: shares of 2, 1 1/2 and 1 1/2. Just 1 kWh off is 1 kWh off, also where the sum is right.
#[test]
fn case_j_and_just_1_kwh_off() {
    let lists: [(&[i64], u64); 9] = [
        (&[2, 2, 1], 0),
        (&[2, 1, 2], 0),
        (&[1, 2, 2], 23),
        (&[3, 1, 1], 23),
        (&[1, 1, 1], 23),
        (&[3, 2, 2], 23),
        (&[2, 3, 0], 23),
        (&[2, 1, 1], 24),
        (&[2, 2, 2], 24),
    ];
    on_both_sides(&[4, 3, 3], 5, &lists);
}

/// Case K: after B the third user alone has caused.
#[test]
fn case_k() {
    let mut bench = Bench::opened(3);
    bench.hour(0, 1, &titles(&[1; 3], Terms { upper: 1, ..NONE })).unwrap();
    let none = zeros(3, NONE);
    assert_eq!(bench.judge(0, 2, &none, &[0, 0, 1]), Ok(()));
    assert_eq!(bench.judge(0, 2, &none, &[1, 0, 0]), Err(22));
    assert_eq!(bench.judge(0, 2, &none, &[0, 0, 0]), Err(23));
    assert_eq!(bench.judge(0, 1, &none, &[0, 0, 1]), Err(6));
}

/// Cases D and F, and a market at zero: "zero if there is neither", and nobody caused.
#[test]
fn within_the_thresholds_any_quantity_is_22() {
    let hours: [(&[i64], i64); 4] = [(&[22_000_000, 0], 22_000_000), (&[5, -5], 0), (&[0, 0], 0), (&[7, -3], 4)];
    for (positions, upper) in hours {
        on_both_sides(positions, upper, &[(&[0, 0], 0), (&[1, 0], 22), (&[0, -1], 22), (&[1, -1], 22), (&[5, 5], 22)]);
        let terms = Terms { upper, lower: -upper, ..NONE };
        for end in [i64::MIN, i64::MAX] {
            assert_eq!(judged(positions, terms, &[end, 0]), 22);
            assert_eq!(judged(positions, terms, &[0, end]), 22);
            assert_eq!(judged(positions, terms, &[end, end]), 22);
        }
    }
}

/// A causer's quantity of zero has no wrong sign: of 128 shares of less than 1 kWh, any may have
/// the one kWh that there is, or be the one without.
#[test]
fn a_kwh_among_128_users() {
    for place in 0..128 {
        for (upper, most) in [(127, 0), (1, 1)] {
            let with = |quantity: i64| {
                let mut list = [most; 128];
                list[place] = quantity;
                list
            };
            let other = 1 - most;
            on_both_sides(&[1; 128], upper, &[(&with(other), 0), (&with(most), 24), (&with(2), 23), (&with(-1), 22)]);
            let mut two = with(other);
            two[127 - place] = other;
            on_both_sides(&[1; 128], upper, &[(&two, 24)]);
        }
    }
}

/// Every user at the end of the positions' range, with the whole market to be settled, or all of
/// it but 1 kWh: one user, whichever it is, keeps that.
#[test]
fn the_largest_hour_on_both_sides() {
    for sign in [1, -1] {
        let mut bench = Bench::opened(128);
        bench.day.hours = [1, 0];
        bench.table[..128].fill(sign * 100_000_000);
        let but_one = |sizes: [i64; 2]| {
            let mut quantity = [sign * 100_000_000; 128];
            quantity[126..].copy_from_slice(&sizes.map(|size| sign * size));
            quantity
        };
        let whole = zeros(128, NONE);
        assert_eq!(bench.judge(0, 2, &whole, &but_one([100_000_000; 2])), Ok(()));
        assert_eq!(bench.judge(0, 2, &whole, &but_one([100_000_000, 99_999_999])), Err(23));
        assert_eq!(bench.judge(0, 2, &whole, &but_one([100_000_001, 99_999_999])), Err(23));
        let near = zeros(128, Terms { upper: 1, lower: -1, ..NONE });
        assert_eq!(bench.judge(0, 2, &near, &but_one([99_999_999, 100_000_000])), Ok(()));
        assert_eq!(bench.judge(0, 2, &near, &but_one([100_000_000, 99_999_999])), Ok(()));
        assert_eq!(bench.judge(0, 2, &near, &but_one([100_000_000; 2])), Err(24));
        assert_eq!(bench.judge(0, 2, &near, &but_one([99_999_999; 2])), Err(24));
        assert_eq!(bench.judge(0, 2, &near, &but_one([100_000_001, 99_999_999])), Err(23));
        assert_eq!(bench.judge(0, 2, &near, &but_one([99_999_998, 100_000_000])), Err(23));
    }
}

/// Quantities at the ends of the 64 bits, of causers and of others: shares of 2, 2, none and none.
#[test]
fn ends_of_the_64_bits() {
    let (min, max) = (i64::MIN, i64::MAX);
    let above = |quantity: [i64; 4]| judged(&[5, 5, -2, 0], Terms { upper: 4, ..NONE }, &quantity);
    assert_eq!(above([2, 2, 0, 0]), 0);
    for quantity in [[max, 2, 0, 0], [2, max, 0, 0], [max, max, 0, 0], [max - 1, 2, 0, 0]] {
        assert_eq!(above(quantity), 23);
    }
    for quantity in [[min, 2, 0, 0], [2, min, 0, 0], [max, min, 0, 0], [2, 2, max, 0], [2, 2, min, 0], [2, 2, 0, max], [2, 2, 0, min], [min; 4], [max; 4]] {
        assert_eq!(above(quantity), 22);
    }
    let below = |quantity: [i64; 4]| judged(&[-5, -5, 2, 0], Terms { lower: -4, ..NONE }, &quantity);
    assert_eq!(below([-2, -2, 0, 0]), 0);
    for quantity in [[min, -2, 0, 0], [-2, min, 0, 0], [min, min, 0, 0], [min + 1, -2, 0, 0]] {
        assert_eq!(below(quantity), 23);
    }
    for quantity in [[max, -2, 0, 0], [-2, max, 0, 0], [min, max, 0, 0], [-2, -2, max, 0], [-2, -2, min, 0], [-2, -2, 0, max], [-2, -2, 0, min], [min; 4], [max; 4]] {
        assert_eq!(below(quantity), 22);
    }
}

/// Sizes whose product with the causers' sum, 8, is the share's but for 2^64, or for 2^32.
#[test]
fn products_beyond_64_and_32_bits() {
    for beyond in [1 << 61, 1 << 62, 3 << 61, 1 << 29] {
        let lists: [(&[i64], u64); 3] = [(&[2 + beyond, 2], 23), (&[2, 2 + beyond], 23), (&[2 + beyond, 2 + beyond], 23)];
        on_both_sides(&[4, 4], 4, &lists);
    }
    on_both_sides(&[4, 4], 4, &[(&[2, 2], 0)]);
}

/// 22 over all users, then 23 over all users, then 24. Shares of 2, 1 1/2, 1 1/2 and none.
#[test]
fn each_cause_over_all_users_before_the_next() {
    let lists: [(&[i64], u64); 12] = [
        (&[2, 2, 1, 0], 0),
        // 1 kWh off, and a later quantity of one who did not cause, or of the wrong sign
        (&[3, 2, 1, 1], 22),
        (&[3, 2, 0, -1], 22),
        (&[3, 3, -1, 0], 22),
        (&[0, 0, -1, 0], 22),
        // a wrong sum, and one of these
        (&[2, 2, 2, 1], 22),
        (&[2, 1, -1, 0], 22),
        // 1 kWh off or more after the sum is reached, or passed, or not
        (&[2, 2, 3, 0], 23),
        (&[2, 1, 0, 0], 23),
        (&[3, 2, 2, 0], 23),
        (&[1, 1, 1, 0], 23),
        (&[2, 2, 2, 0], 24),
    ];
    on_both_sides(&[4, 3, 3, -1], 4, &lists);
}

/// The shares of `large` are 24 3/4 and 8 1/4 in H, and in L 23 and none.
#[test]
fn each_zone_from_its_own_part() {
    for (quantity, [h, l]) in [
        ([25, 8], [Ok(()), Err(22)]),
        ([24, 9], [Ok(()), Err(22)]),
        ([23, 0], [Err(23), Ok(())]),
        ([24, 8], [Err(24), Err(22)]),
    ] {
        assert_eq!(busy().judge(0, 2, &large(), &quantity), h);
        assert_eq!(busy().judge(1, 24, &large(), &quantity), l);
    }
}

/// "3 also for that list".
#[test]
fn cause_3_the_quantity_list() {
    for places in [0, 1, 3, 127, 128, 256] {
        for (zone, hour) in [(0, 2), (1, 24)] {
            assert_eq!(busy().judge(zone, hour, &large(), &vec![0; places]), Err(3));
        }
    }
    for (users, places) in [(1, 0), (1, 2), (128, 127), (128, 129)] {
        assert_eq!(Bench::opened(users).judge(1, 1, &zeros(users, NONE), &vec![0; places]), Err(3));
    }
}

/// "Causes 2 to 11 come first": whatever the quantities are.
#[test]
fn causes_2_to_11_come_first() {
    type Fault = fn(&mut Bench, &mut Hour);
    let faults: [(u64, Fault); 12] = [
        (2, |bench, _| bench.day.users = 129),
        (2, |bench, _| bench.day.length = 26),
        (2, |bench, _| bench.day.closed[0] = 2),
        (3, |bench, _| bench.table.push(0)),
        (3, |_, hour| hour.exit.push(0)),
        (5, |bench, _| (bench.day.hours[0], bench.day.closed[0]) = (24, 1)),
        (6, |bench, _| bench.day.hours[0] = 2),
        (7, |bench, _| bench.table[200] = 1),
        (8, |_, hour| hour.terms.excess_price = 10_000_001),
        (9, |_, hour| hour.exit[1] = 1),
        (10, |_, hour| hour.pooling[0] = 1),
        (11, |_, hour| (hour.entry[0], hour.title[0]) = (50_000_000, 50_000_000)),
    ];
    for (quantity, alone) in [([25, 8], 0), ([25, -8], 22), ([30, 3], 23), ([24, 8], 24)] {
        assert_eq!(busy().judge(0, 2, &large(), &quantity).err().unwrap_or(0), alone);
        assert_eq!(busy().judge(2, 2, &large(), &quantity), Err(4));
        for (cause, fault) in faults {
            let (mut bench, mut hour) = (busy(), large());
            fault(&mut bench, &mut hour);
            assert_eq!(bench.judge(0, 2, &hour, &quantity), Err(cause));
        }
    }
}

/// Each of 2 to 11 before each that is higher: 3 by the quantity list.
#[test]
fn the_lowest_cause_is_given() {
    type Fault = fn(&mut Bench, &mut Hour, &mut Vec<i64>);
    let faults: [(u64, Fault); 7] = [
        (2, |bench, _, _| bench.day.hours[1] = 25),
        (3, |_, _, quantity| quantity.truncate(1)),
        (7, |bench, _, _| bench.table[200] = 1),
        (8, |_, hour, _| hour.terms.lower = 1),
        (9, |_, hour, _| hour.title[1] = 50_000_001),
        (10, |_, hour, _| hour.pooling[0] = 1),
        (11, |_, hour, _| (hour.entry[0], hour.exit[0], hour.title[0]) = (50_000_000, 0, 50_000_000)),
    ];
    for first in 0..faults.len() {
        let (mut bench, mut hour, mut quantity) = (busy(), large(), vec![25, -8]);
        for (_, fault) in &faults[first..] {
            fault(&mut bench, &mut hour, &mut quantity);
        }
        assert_eq!(bench.judge(0, 2, &hour, &quantity), Err(faults[first].0));
        if faults[first].0 > 3 {
            quantity.push(0);
        }
        // 4 to 6 come before what is left of them, and after 2 and 3
        for (zone, number, cause) in [(2, 99, 4), (0, 99, 6)] {
            let given = if faults[first].0 < 4 { faults[first].0 } else { cause };
            let fit = if given < 4 { &quantity[..] } else { &[25, -8] };
            assert_eq!(bench.judge(zone, number, &hour, fit), Err(given));
        }
    }
}

/// Our own quantities are accepted in each hour of a day of each length; in none after the last.
#[test]
fn a_whole_day() {
    let hour = titles(&[3, -1], Terms { upper: 10, ..NONE });
    for length in [23, 24, 25] {
        let mut bench = Bench::of_length(2, length);
        let mut sold = 0;
        for number in 1..=length {
            let before = bench.clone();
            assert!(bench.hour(1, number, &hour).is_ok());
            let own = bench.quantity.clone();
            sold += own[0];
            assert_eq!(before.judge(1, number, &hour, &own), Ok(()));
            assert_eq!(before.judge(1, number + 1, &hour, &own), Err(6));
            assert_eq!(before.judge(1, number, &hour, &[own[0] + 1, 0]), Err(if own[0] > 0 { 23 } else { 22 }));
        }
        assert_eq!(sold, 3 * length - (10 + length));
        assert_eq!(bench.judge(1, length + 1, &hour, &[0, 0]), Err(6));
        bench.close(1, (2, 3)).unwrap();
        assert_eq!(bench.judge(1, length + 1, &hour, &[0, 0]), Err(5));
        assert_eq!(bench.judge(0, 1, &hour, &[0, 0]), Ok(()));
    }
}

/// The positions before settlement of a fit call.
fn positions(call: &Call) -> Vec<i64> {
    let (start, a) = (call.zone as usize * 128, &call.amounts);
    (0..a.entry.len())
        .map(|g| call.table[start + g] + a.entry[g] + a.exit[g] + a.title[g] + a.pooling[g])
        .collect()
}

/// The excess, or minus the shortfall, or zero.
fn due(before: &[i64], terms: Terms) -> i128 {
    let market: i128 = before.iter().map(|&position| i128::from(position)).sum();
    let (upper, lower) = (i128::from(terms.upper), i128::from(terms.lower));
    market - market.clamp(lower, upper)
}

/// The cause of a list the slow way, by exact fractions, or 0: a causer's share is a fraction
/// over the sum of the causers' sizes, and lies between the quantity less 1 and more 1.
fn slow(before: &[i64], terms: Terms, quantity: &[i64]) -> u64 {
    let due = due(before, terms);
    let users: Vec<(i128, i128)> = before.iter().zip(quantity).map(|(&b, &q)| (i128::from(b), i128::from(q))).collect();
    let caused = |position: i128| (due > 0 && position > 0) || (due < 0 && position < 0);
    let sum: i128 = users.iter().map(|user| user.0).filter(|&position| caused(position)).sum::<i128>().abs();
    let sign_wrong = |&(position, quantity): &(i128, i128)| {
        let allowed = if !caused(position) { 0..=0 } else if due > 0 { 0..=i128::MAX } else { i128::MIN..=0 };
        !allowed.contains(&quantity)
    };
    let share_off = |&(position, quantity): &(i128, i128)| {
        let share = due * position.abs();
        caused(position) && !((quantity - 1) * sum < share && share < (quantity + 1) * sum)
    };
    if users.iter().any(sign_wrong) {
        22
    } else if users.iter().any(share_off) {
        23
    } else if users.iter().map(|user| user.1).sum::<i128>() != due {
        24
    } else {
        0
    }
}

/// Changes a list a little, or much.
fn change(random: &mut Random, quantity: &mut [i64]) {
    let [a, b] = [0; 2].map(|_| random.below(quantity.len()));
    match random.below(7) {
        0 => quantity[a] = odd_number(random),
        1 => quantity[a] = random.bits() as i64,
        2 => quantity[a] = quantity[a].saturating_add(random.pick([1, -1, 2, -2])),
        3 => quantity[a] = quantity[a].saturating_neg(),
        4 => quantity.swap(a, b),
        5 => quantity.fill(0),
        _ => {
            quantity[a] = quantity[a].saturating_sub(1);
            quantity[b] = quantity[b].saturating_add(1);
        }
    }
}

#[test]
fn made_up_lists_against_exact_fractions() {
    let mut random = Random::new(61);
    let mut causes = [0; 25];
    for round in 0..40_000 {
        let mut call = fit_judged(&mut random, round % 2);
        for _ in 0..random.below(4) {
            change(&mut random, &mut call.quantity);
        }
        let expected = slow(&positions(&call), call.amounts.terms, &call.quantity);
        assert_eq!(call.judge().err().unwrap_or(0), expected, "{call:?}");
        causes[expected as usize] += 1;
    }
    assert!(causes[0] > 10_000 && causes[22] > 10_000 && causes[23] > 2_000 && causes[24] > 1_000, "{causes:?}");
}

/// Every list of small quantities, for all small positions of three users and some thresholds:
/// each accepted one, and each cause.
#[test]
fn all_small_hours_and_lists() {
    let three = |low: i64, count: i64| {
        let number = move |code: i64, power: u32| low + code / count.pow(power) % count;
        (0..count.pow(3)).map(move |code| [number(code, 0), number(code, 1), number(code, 2)])
    };
    let mut causes = [0; 25];
    for positions in three(-2, 6) {
        for (upper, lower) in [(0, 0), (1, 0), (2, -1), (4, -3)] {
            let terms = Terms { upper, lower, ..NONE };
            let hour = titles(&positions, terms);
            let bench = Bench::opened(3);
            for quantity in three(-3, 8) {
                let expected = slow(&positions, terms, &quantity);
                assert_eq!(bench.judge(0, 1, &hour, &quantity).err().unwrap_or(0), expected, "{hour:?} {quantity:?}");
                causes[expected as usize] += 1;
            }
        }
    }
    assert!([0, 22, 23, 24].iter().all(|&cause| causes[cause] > 800), "{causes:?}");
}

/// "Our own quantities are accepted; an accepted list keeps the market within its thresholds and
/// lets no position cross zero." Lists of any rounding are accepted too.
#[test]
fn what_an_accepted_list_leaves() {
    let mut random = Random::new(62);
    let mut others = 0;
    for round in 0..8_000 {
        let mut call = fit_judged(&mut random, round % 2);
        let (before, terms) = (positions(&call), call.amounts.terms);
        let mut settled = call.clone();
        (settled.day.sold, settled.day.bought) = ([0; 2], [0; 2]);
        settled.settle().unwrap();
        others += usize::from(settled.quantity != call.quantity);
        for quantity in [settled.quantity, call.quantity.clone()] {
            call.quantity = quantity;
            assert_eq!(call.judge(), Ok(()), "{call:?}");
            let after: Vec<i64> = before.iter().zip(&call.quantity).map(|(before, quantity)| before - quantity).collect();
            assert_eq!(due(&after, terms), 0);
            let crossed = |(before, after): (&i64, &i64)| *after != 0 && before.signum() != after.signum();
            assert!(!before.iter().zip(&after).any(crossed), "{call:?}");
        }
    }
    assert!(others > 1_500, "{others}");
}

/// The right lists are made up in every rounding: of shares of 2/3 each that which leaves out any
/// of the three users, and of whole shares one.
#[test]
fn right_lists_are_rounded_in_every_way() {
    let mut random = Random::new(63);
    let bench = Bench::opened(3);
    let mut seen = [0; 3];
    for _ in 0..300 {
        let hour = titles(&[1; 3], Terms { upper: 1, ..NONE });
        let call = Call::new(bench.day, bench.table.clone(), 0, 1, hour);
        let quantity = right_quantities(&mut random, &call);
        let left = quantity.iter().position(|&quantity| quantity == 0).unwrap();
        assert_eq!(quantity.iter().sum::<i64>(), 2);
        seen[left] += 1;
    }
    assert!(seen.iter().all(|&count| count > 40), "{seen:?}");
    let hour = titles(&[-4, -2, 6], NONE);
    let call = Call::new(bench.day, bench.table.clone(), 0, 1, hour);
    assert_eq!(right_quantities(&mut random, &call), [0, 0, 0]);
    let hour = titles(&[-4, -2, 0], Terms { lower: -3, ..NONE });
    let call = Call::new(bench.day, bench.table.clone(), 0, 1, hour);
    assert!((0..20).all(|_| right_quantities(&mut random, &call) == [-2, -1, 0]));
}

/// Hours of each kind come up, and so do both sides.
#[test]
fn fit_judged_hours_are_of_both_sides() {
    let mut random = Random::new(64);
    let mut signs = [0; 3];
    for round in 0..3_000 {
        let call = fit_judged(&mut random, round % 2);
        signs[(due(&positions(&call), call.amounts.terms).signum() + 1) as usize] += 1;
    }
    assert!(signs.iter().all(|&count| count > 3_000 / Kind::ALL.len() / 2), "{signs:?}");
}
