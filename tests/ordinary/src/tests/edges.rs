//! The edges that the paper names, and the ends of the ranges.

use super::*;
use crate::{default_thresholds, Day};

#[test]
fn thresholds_of_all_months() {
    let h = [22, 22, 22, 25, 29, 29, 30, 30, 29, 25, 22, 22];
    let l = [13, 13, 13, 13, 15, 15, 16, 16, 15, 13, 13, 13];
    for (zone, gwh) in [h, l].iter().enumerate() {
        for (month, gwh) in gwh.iter().enumerate() {
            let kwh = gwh * 1_000_000;
            let answer = default_thresholds(month as i64 + 1, zone as i64);
            assert_eq!(answer, Ok((kwh, -kwh)));
        }
    }
}

#[test]
fn users_1_and_128() {
    for users in [1, 128] {
        let mut table = [i64::MIN; 256];
        let day = Day {
            users,
            length: 24,
            hours: [0; 2],
            closed: [0; 2],
            sold: [0; 2],
            bought: [0; 2],
        };
        assert_eq!(open(users, 24, &mut table), Ok(day));
        assert_eq!(table, [0; 256]);
    }
}

#[test]
fn a_whole_day_of_24_hours_and_no_25th() {
    let mut bench = Bench::opened(2);
    let hour = titles(&[3, -1], Terms { upper: 10, ..NONE });
    for number in 1..=24 {
        assert_eq!(bench.close(1, (1, 1)), Err(6));
        bench.hour(1, number, &hour).unwrap();
    }
    assert_eq!(bench.table[128..130], [34, -24]);
    assert_eq!(bench.hour(1, 25, &hour), Err(6));
    assert_eq!(bench.hour(1, 24, &hour), Err(6));
    assert_eq!(bench.close(1, (2, 3)), Ok((34, 24)));
    assert_eq!(bench.money, [68, -72]);
    assert_eq!(bench.hour(1, 25, &hour), Err(5));
    assert_eq!(bench.close(1, (2, 3)), Err(5));
    assert_eq!(bench.hour(0, 1, &hour), Ok(Outcome::Within));
}

#[test]
fn the_zones_are_kept_apart() {
    let mut bench = Bench::opened(1);
    bench
        .hour(1, 1, &titles(&[9], Terms { upper: 9, ..NONE }))
        .unwrap();
    bench
        .hour(0, 1, &titles(&[-4], Terms { lower: -4, ..NONE }))
        .unwrap();
    assert_eq!((bench.table[0], bench.table[128]), (-4, 9));
    bench.hour(1, 2, &zeros(1, NONE)).unwrap();
    assert_eq!((bench.table[0], bench.table[128]), (-4, 0));
}

#[test]
fn amounts_at_the_ends_of_their_ranges() {
    let wide = Terms {
        upper: 1_000_000_000,
        lower: -1_000_000_000,
        ..NONE
    };
    let mut bench = Bench::opened(2);
    let hour = Hour {
        entry: vec![50_000_000, 0],
        exit: vec![0, -50_000_000],
        title: vec![50_000_000, -50_000_000],
        pooling: vec![0, 0],
        terms: wide,
    };
    assert_eq!(bench.hour(0, 1, &hour), Ok(Outcome::Within));
    assert_eq!(bench.table[..2], [100_000_000, -100_000_000]);
    let back = Hour {
        entry: vec![0, 0],
        exit: vec![0, 0],
        title: vec![0, 0],
        pooling: vec![-100_000_000, 100_000_000],
        terms: wide,
    };
    assert_eq!(bench.hour(0, 2, &back), Ok(Outcome::Within));
    assert_eq!(bench.table[..2], [0, 0]);
}

#[test]
fn the_largest_settlement_on_both_sides() {
    for sign in [1, -1] {
        let mut bench = Bench::opened(128);
        let mut hour = titles(&[sign * 50_000_000; 128], NONE);
        let list = if sign > 0 {
            &mut hour.entry
        } else {
            &mut hour.exit
        };
        list.fill(sign * 50_000_000);
        hour.terms.excess_price = 10_000_000;
        hour.terms.shortfall_price = 10_000_000;
        let outcome = bench.hour(0, 1, &hour).unwrap();
        let marks = [u64::MAX; 2];
        let total = 12_800_000_000;
        let expected = if sign > 0 {
            excess(total, marks, 128)
        } else {
            shortfall(total, marks, 128)
        };
        assert_eq!(outcome, expected);
        assert_eq!(bench.quantity, [sign * 100_000_000; 128]);
        assert_eq!(bench.money, [sign * 1_000_000_000_000_000; 128]);
        assert_eq!(bench.table, [0; 256]);
    }
}

#[test]
fn equal_fractions_go_to_the_lower_places() {
    let (bench, outcome) = settled(&[1; 128], Terms { upper: 63, ..NONE });
    assert_eq!(outcome, excess(65, [u64::MAX; 2], 128));
    assert!(bench.quantity[..65].iter().all(|&quantity| quantity == 1));
    assert!(bench.quantity[65..].iter().all(|&quantity| quantity == 0));
}

#[test]
fn larger_fractions_go_before_lower_places() {
    let (bench, _) = settled(&[1, 1, 2, 0, -1], Terms { upper: 2, ..NONE });
    assert_eq!(bench.quantity, [0, 0, 1, 0, 0]);
    let (bench, _) = settled(&[-1, -1, -2, 0, 1], Terms { lower: -2, ..NONE });
    assert_eq!(bench.quantity, [0, 0, -1, 0, 0]);
}

#[test]
fn marks_of_the_second_word() {
    let mut positions = [0; 66];
    positions[0] = -1;
    positions[63] = 2;
    positions[65] = 2;
    let (bench, outcome) = settled(&positions, NONE);
    assert_eq!(outcome, excess(3, [1 << 63, 1 << 1], 2));
    assert_eq!((bench.quantity[63], bench.quantity[65]), (2, 1));
}

#[test]
fn a_market_at_a_threshold_is_within_it() {
    for (position, terms) in [
        (7, Terms { upper: 7, ..NONE }),
        (-7, Terms { lower: -7, ..NONE }),
        (0, NONE),
    ] {
        assert_eq!(settled(&[position], terms).1, Outcome::Within);
    }
}

#[test]
fn money_of_a_shortfall_uses_its_own_price() {
    let prices = Terms {
        excess_price: 5,
        shortfall_price: 7,
        ..NONE
    };
    assert_eq!(settled(&[-3], prices).0.money, [-21]);
    assert_eq!(settled(&[3], prices).0.money, [15]);
}
