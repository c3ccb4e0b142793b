//! Made-up days and files: the rules hold of whatever is answered.

use super::*;
use crate::made_up::{any_file, damage, day, file, hour, odd_number, spoil, Kind};
use crate::random::Random;
use crate::read_file;

/// The positions before settlement.
fn before(start: &[i64], hour: &Hour) -> Vec<i64> {
    (0..hour.entry.len())
        .map(|g| start[g] + hour.entry[g] + hour.exit[g] + hour.title[g] + hour.pooling[g])
        .collect()
}

/// Rules 2 to 5 the slow way: a causer gets a spare kWh if fewer causers than there are
/// spare kWh go before it.
fn slow_quantities(before: &[i64], terms: Terms) -> Vec<i64> {
    let market: i128 = before.iter().map(|&position| i128::from(position)).sum();
    let (sign, total) = if market > i128::from(terms.upper) {
        (1, market - i128::from(terms.upper))
    } else if market < i128::from(terms.lower) {
        (-1, i128::from(terms.lower) - market)
    } else {
        return vec![0; before.len()];
    };
    let size = |g: usize| (sign * i128::from(before[g])).max(0);
    let places = 0..before.len();
    let sum: i128 = places.clone().map(size).sum();
    let share = |g: usize| total * size(g) / sum;
    let remainder = |g: usize| total * size(g) % sum;
    let spare = total - places.clone().map(share).sum::<i128>();
    let goes_before = |a: usize, b: usize| {
        size(a) > 0 && (remainder(a) > remainder(b) || (remainder(a) == remainder(b) && a < b))
    };
    let quantity = |g: usize| {
        let ahead = places
            .clone()
            .filter(|&other| goes_before(other, g))
            .count() as i128;
        let extra = i128::from(size(g) > 0 && ahead < spare);
        (sign * (share(g) + extra)) as i64
    };
    places.clone().map(quantity).collect()
}

/// Checks an accepted hour against the rules.
fn check_hour(start: &[i64], hour: &Hour, bench: &Bench, part: &[i64], outcome: Outcome) {
    let before = before(start, hour);
    let expected = slow_quantities(&before, hour.terms);
    assert_eq!(bench.quantity, expected);
    let mut causers = [0, 0];
    let market: i64 = before.iter().sum();
    for (g, &quantity) in expected.iter().enumerate() {
        let price = if quantity > 0 {
            hour.terms.excess_price
        } else {
            hour.terms.shortfall_price
        };
        assert_eq!(bench.money[g], quantity * price);
        assert_eq!(part[g], before[g] - quantity);
        assert!(part[g].signum() == before[g].signum() || part[g] == 0);
        if before[g].signum() == market.signum() && before[g] != 0 {
            causers[g / 64] |= 1_u64 << (g % 64);
        }
    }
    let after: i64 = part[..before.len()].iter().sum();
    match outcome {
        Outcome::Within => assert_eq!(after, market),
        Outcome::Settled {
            side,
            total,
            marks,
            number,
        } => {
            let threshold = if side == Side::Excess {
                hour.terms.upper
            } else {
                hour.terms.lower
            };
            assert_eq!(after, threshold);
            assert_eq!(total, (market - threshold).abs());
            assert_eq!(marks, causers);
            assert_eq!(
                number,
                u64::from(marks[0].count_ones() + marks[1].count_ones())
            );
        }
    }
}

#[test]
fn every_kind_of_hour_is_what_it_says() {
    let mut random = Random::new(1);
    for round in 0..1_500 {
        let kind = Kind::ALL[round % 6];
        let users = random.pick([1, 2, 3, 64, 65, 128, 1 + round % 128]);
        let mut bench = Bench::opened(users);
        let start = bench.table.clone();
        let hour = hour(&mut random, users, kind, &start);
        let mut shown = bench.clone();
        let previewed = shown.preview(0, 1, &hour).unwrap();
        check_hour(&start, &hour, &shown, &shown.after, previewed);
        assert_eq!(bench.judge(0, 1, &hour, &shown.quantity), Ok(()));
        let outcome = bench.hour(0, 1, &hour).unwrap();
        check_hour(&start, &hour, &bench, &bench.table[..128], outcome);
        match (kind, outcome) {
            (Kind::Within, Outcome::Within) => (),
            (
                Kind::Excess,
                Outcome::Settled {
                    side: Side::Excess, ..
                },
            ) => (),
            (
                Kind::Shortfall,
                Outcome::Settled {
                    side: Side::Shortfall,
                    ..
                },
            ) => (),
            (Kind::FewCausers, Outcome::Settled { number: 1..=3, .. }) => (),
            (Kind::EqualSizes | Kind::ThreeSizes, Outcome::Settled { .. }) => (),
            other => panic!("{other:?}"),
        }
    }
}

/// Adds the positive and the negative quantities, as sizes, to what was sold and bought.
fn add([sold, bought]: &mut [i64; 2], quantity: &[i64]) {
    *sold += quantity.iter().filter(|quantity| **quantity > 0).sum::<i64>();
    *bought -= quantity.iter().filter(|quantity| **quantity < 0).sum::<i64>();
}

/// "At the end the first equals the second plus the user's place in the zone's part of
/// the table", over a list of accepted and refused calls. Ask 3: "The conservation rule is
/// shown once for all lengths." Ask 5: "no sum over history counts a preview", of which there
/// is one before each hour. Ask 7: the totals "equal the sums of the positive and of the negative
/// quantities answered since opening".
#[test]
fn conservation_over_lists_of_calls() {
    let mut random = Random::new(2);
    let mut accepted = [0; 2];
    let mut closed_days = [0; 3];
    for round in 0..60 {
        let users = random.pick([1, 2, 7, 128]);
        let length = random.pick([23, 24, 25]);
        let mut bench = Bench::of_length(users, length);
        let (mut given, mut settled) = (vec![0_i128; 256], vec![0_i128; 256]);
        let mut totals = [[0; 2]; 2];
        for _ in 0..120 {
            let zone = random.below(2);
            let part = zone * 128;
            if random.one_in(8) {
                if bench.close(zone as i64, (3, 4)).is_ok() {
                    accepted[1] += 1;
                    closed_days[length as usize - 23] += 1;
                    (0..users).for_each(|g| settled[part + g] += i128::from(bench.quantity[g]));
                    add(&mut totals[zone], &bench.quantity);
                }
                continue;
            }
            let start = bench.table[part..part + 128].to_vec();
            let mut hour = hour(&mut random, users, Kind::ALL[round % 6], &start);
            if random.one_in(6) {
                spoil(&mut random, &mut hour);
            }
            let number = bench.day.hours[zone] + random.pick([1, 1, 1, 0]);
            if let Ok(outcome) = bench.previewed_hour(zone as i64, number, &hour) {
                accepted[0] += 1;
                check_hour(&start, &hour, &bench, &bench.table[part..], outcome);
                for g in 0..users {
                    let amounts = [hour.entry[g], hour.exit[g], hour.title[g], hour.pooling[g]];
                    given[part + g] += amounts.map(i128::from).iter().sum::<i128>();
                    settled[part + g] += i128::from(bench.quantity[g]);
                }
                add(&mut totals[zone], &bench.quantity);
            }
            assert_eq!([0, 1].map(|zone| [bench.day.sold[zone], bench.day.bought[zone]]), totals);
        }
        for place in 0..256 {
            assert_eq!(
                given[place],
                settled[place] + i128::from(bench.table[place])
            );
        }
    }
    assert!(accepted[0] > 2_000 && accepted[1] > 50, "{accepted:?}");
    assert!(closed_days.iter().all(|&count| count > 9), "{closed_days:?}");
}

/// Calls with odd numbers anywhere never panic, and a refusal changes nothing (which
/// the bench checks). A judged hour is refused by what the hour is refused by, but for 25.
#[test]
fn odd_calls() {
    let mut random = Random::new(3);
    let mut causes = [0; 26];
    for _ in 0..8_000 {
        let users = random.pick([1, 2, 128]);
        let (record, table) = day(&mut random, users);
        let mut bench = Bench::opened(users);
        (bench.day, bench.table) = (record, table);
        let zone = random.between(0, 1);
        let part = zone as usize * 128;
        let kind = random.pick(Kind::ALL);
        let mut hour = hour(&mut random, users, kind, &bench.table[part..]);
        let mut number = bench.day.hours[zone as usize] + 1;
        let mut called = zone;
        match random.below(12) {
            0 => bench.day.users = odd_number(&mut random),
            1 => bench.day.hours[random.below(2)] = odd_number(&mut random),
            2 => bench.day.closed[random.below(2)] ^= 1,
            3 => bench.table[random.below(256)] = odd_number(&mut random),
            4 => number = odd_number(&mut random),
            5 => called = odd_number(&mut random),
            6 => hour.pooling.truncate(users - 1),
            7 => spoil(&mut random, &mut hour),
            8 => bench.day.length = odd_number(&mut random),
            9 => bench.day.sold[random.below(2)] = odd_number(&mut random),
            10 => bench.day.bought[random.below(2)] = odd_number(&mut random),
            _ => (),
        }
        let prices = (hour.terms.excess_price, hour.terms.shortfall_price);
        let mut other = bench.clone();
        let quantity: Vec<i64> = (0..users).map(|_| odd_number(&mut random)).collect();
        let judged = bench.judge(called, number, &hour, &quantity);
        let answer = bench.hour(called, number, &hour);
        assert_eq!(judged.err().filter(|&cause| cause < 22), answer.err().filter(|&cause| cause < 22));
        if let Err(cause) = answer {
            causes[cause as usize] += 1;
        }
        if let Err(cause) = other.close(called, prices) {
            causes[cause as usize] += 1;
        }
    }
    assert!(causes[2..=11].iter().all(|&count| count > 0) && causes[25] > 0, "{causes:?}");
}

#[test]
fn files_are_read_back() {
    let mut random = Random::new(4);
    for users in 1..=128 {
        let amounts = hour(&mut random, users, Kind::Excess, &[]);
        let bytes = file(&mut random, 7, 1, &amounts);
        let mut lists = [[0; 128]; 4];
        let [entry, exit, title, pooling] = &mut lists;
        let answer = read_file(&bytes, entry, exit, title, pooling);
        assert_eq!(answer, Ok((7, 1, users as i64)));
        assert_eq!(entry[..users], amounts.entry);
        assert_eq!(exit[..users], amounts.exit);
        assert_eq!(title[..users], amounts.title);
        assert_eq!(pooling[..users], amounts.pooling);
    }
}

/// A damaged file is refused by 13 to 17 and changes nothing, or is read; every cause
/// comes up.
#[test]
fn damaged_files() {
    let mut random = Random::new(5);
    let mut causes = [0; 18];
    for _ in 0..20_000 {
        let lines = random.pick([0, 1, 1, 2, 3, 9, 128, 129]);
        let mut bytes = any_file(&mut random, lines);
        for _ in 0..random.below(3) {
            damage(&mut random, &mut bytes);
        }
        let mut lists = [[-7; 128]; 4];
        let [entry, exit, title, pooling] = &mut lists;
        match read_file(&bytes, entry, exit, title, pooling) {
            Ok((_, _, lines)) => {
                causes[0] += 1;
                assert!(lists
                    .iter()
                    .all(|list| list[lines as usize..].iter().all(|&a| a == -7)));
            }
            Err(cause) => {
                causes[cause as usize] += 1;
                assert_eq!(lists, [[-7; 128]; 4]);
            }
        }
    }
    assert!(causes[0] > 1_000, "{causes:?}");
    assert!(
        causes[13..=17].iter().all(|&count| count > 100),
        "{causes:?}"
    );
}

#[test]
fn the_generator_is_splitmix64() {
    let mut random = Random::new(1_234_567);
    let known = [
        6_457_827_717_110_365_317,
        3_203_168_211_198_807_973,
        9_817_491_932_198_370_423,
    ];
    assert_eq!([random.bits(), random.bits(), random.bits()], known);
    for (low, high) in [(i64::MIN, i64::MAX), (-3, 3), (5, 5), (i64::MAX, i64::MAX)] {
        assert!((low..=high).contains(&random.between(low, high)));
    }
    assert_eq!(random.between(4, -4), 4);
}
