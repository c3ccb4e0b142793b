//! "Figures to be proved: cases A to K".

use super::*;
use crate::{default_thresholds, read_file};

#[test]
fn case_a() {
    let input = b"h,z,g,EEA,XEA,NCTTN,IPT\r\n\
        1,H,0,30000000,-10000000,0,0\r\n\
        1,H,1,15000000,-5000000,0,0\r\n\
        1,H,2,2000000,-5000000,0,0\r\n";
    let mut lists = [[7; 128]; 4];
    let [entry, exit, title, pooling] = &mut lists;
    assert_eq!(read_file(input, entry, exit, title, pooling), Ok((1, 0, 3)));
    let (upper, lower) = default_thresholds(1, 0).unwrap();
    let terms = Terms {
        upper,
        lower,
        excess_price: 20_000,
        shortfall_price: 25_000,
    };
    let hour = Hour {
        entry: entry[..3].to_vec(),
        exit: exit[..3].to_vec(),
        title: title[..3].to_vec(),
        pooling: pooling[..3].to_vec(),
        terms,
    };
    let mut bench = Bench::opened(3);
    assert_eq!(
        bench.hour(0, 1, &hour),
        Ok(excess(5_000_000, [0b011, 0], 2))
    );
    assert_eq!(bench.quantity, [3_333_333, 1_666_667, 0]);
    assert_eq!(bench.money, [66_666_660_000, 33_333_340_000, 0]);
    assert_eq!(bench.table[..3], [16_666_667, 8_333_333, -3_000_000]);
}

#[test]
fn case_b_and_then_k() {
    let (mut bench, outcome) = settled(&[1, 1, 1], Terms { upper: 1, ..NONE });
    assert_eq!(outcome, excess(2, [0b111, 0], 3));
    assert_eq!(bench.quantity, [1, 1, 0]);
    let outcome = bench.hour(0, 2, &zeros(3, NONE)).unwrap();
    assert_eq!(outcome, excess(1, [0b100, 0], 1));
    assert_eq!(bench.quantity, [0, 0, 1]);
    assert_eq!(bench.table[..3], [0, 0, 0]);
}

#[test]
fn case_c() {
    let (bench, outcome) = settled(&[-1, -1, -1], Terms { lower: -1, ..NONE });
    assert_eq!(outcome, shortfall(2, [0b111, 0], 3));
    assert_eq!(bench.quantity, [-1, -1, 0]);
    assert_eq!(bench.table[..3], [0, 0, -1]);
}

#[test]
fn case_d() {
    let terms = Terms {
        upper: 22_000_000,
        ..NONE
    };
    let (bench, outcome) = settled(&[22_000_000], terms);
    assert_eq!(outcome, Outcome::Within);
    assert_eq!((bench.quantity[0], bench.money[0]), (0, 0));
    assert_eq!(bench.table[0], 22_000_000);
}

#[test]
fn case_e() {
    let terms = Terms {
        upper: 22_000_000,
        ..NONE
    };
    let (bench, outcome) = settled(&[22_000_001], terms);
    assert_eq!(outcome, excess(1, [1, 0], 1));
    assert_eq!(bench.quantity, [1]);
    assert_eq!(bench.table[0], 22_000_000);
}

#[test]
fn case_f() {
    let (bench, outcome) = settled(&[5, -5], NONE);
    assert_eq!(outcome, Outcome::Within);
    assert_eq!(bench.quantity, [0, 0]);
    assert_eq!(bench.table[..2], [5, -5]);
}

#[test]
fn case_g() {
    let (bench, outcome) = settled(&[5, -2], NONE);
    assert_eq!(outcome, excess(3, [1, 0], 1));
    assert_eq!(bench.quantity, [3, 0]);
    assert_eq!(bench.table[..2], [2, -2]);
}

#[test]
fn case_h() {
    let mut bench = Bench::opened(2);
    bench.day.hours[0] = 24;
    bench.table[..2].copy_from_slice(&[2, -2]);
    assert_eq!(bench.close(0, (20_000, 25_000)), Ok((2, 2)));
    assert_eq!(bench.quantity, [2, -2]);
    assert_eq!(bench.money, [40_000, -50_000]);
    assert_eq!(bench.table[..2], [0, 0]);
}

#[test]
fn case_i() {
    let (bench, _) = settled(
        &[2],
        Terms {
            excess_price: -100,
            ..NONE
        },
    );
    assert_eq!(bench.quantity, [2]);
    assert_eq!(bench.money, [-200]);
}

#[test]
fn case_j() {
    let (bench, outcome) = settled(&[4, 3, 3], Terms { upper: 5, ..NONE });
    assert_eq!(outcome, excess(5, [0b111, 0], 3));
    assert_eq!(bench.quantity, [2, 2, 1]);
    assert_eq!(bench.table[..3], [2, 1, 2]);
}
