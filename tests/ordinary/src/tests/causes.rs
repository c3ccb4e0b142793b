//! Each cause of opening, thresholds, hours and closings, and their order.

use super::*;
use crate::default_thresholds;

const ENDS: [i64; 2] = [i64::MIN, i64::MAX];

/// The answer of hour 2 of H with no amounts, after the change.
fn hour_after(change: impl Fn(&mut Bench, &mut Hour)) -> Result<Outcome, u64> {
    let (mut bench, mut hour) = (closable(), zeros(2, NONE));
    change(&mut bench, &mut hour);
    bench.hour(0, 2, &hour)
}

/// The answer of closing L, after the change.
fn close_after(change: impl Fn(&mut Bench)) -> Result<(i64, i64), u64> {
    let mut bench = closable();
    change(&mut bench);
    bench.close(1, (1, 1))
}

#[test]
fn unchanged_all_is_accepted() {
    assert_eq!(hour_after(|_, _| ()), Ok(Outcome::Within));
    assert_eq!(close_after(|_| ()), Ok((20, 30)));
}

#[test]
fn cause_1_opening() {
    for users in [0, -1, 129, i64::MIN, i64::MAX] {
        let mut table = [5; 256];
        assert_eq!(open(users, 24, &mut table), Err(1));
        assert_eq!(open(users, 24, &mut table[..9]), Err(1));
        assert_eq!(table, [5; 256]);
    }
}

#[test]
fn cause_2_record() {
    let changes: [fn(&mut Day); 12] = [
        |day| day.users = 0,
        |day| day.users = 129,
        |day| day.users = i64::MIN,
        |day| day.users = i64::MAX,
        |day| day.hours[0] = 25,
        |day| day.hours[1] = -1,
        |day| day.hours[0] = i64::MAX,
        |day| day.hours[1] = i64::MIN,
        |day| day.closed[0] = 1,
        |day| day.closed[0] = 2,
        |day| day.closed[1] = -1,
        |day| {
            *day = Day {
                hours: [1, 23],
                closed: [0, 1],
                ..*day
            }
        },
    ];
    for change in changes {
        assert_eq!(hour_after(|bench, _| change(&mut bench.day)), Err(2));
        assert_eq!(close_after(|bench| change(&mut bench.day)), Err(2));
    }
}

#[test]
fn cause_3_lengths() {
    let mut table = [5; 257];
    assert_eq!(open(128, 24, &mut table), Err(3));
    assert_eq!(open(128, 24, &mut table[..255]), Err(3));
    assert_eq!(table, [5; 257]);
    let changes: [fn(&mut Bench, &mut Hour); 10] = [
        |bench, _| bench.table.push(0),
        |bench, _| bench.table.truncate(255),
        |bench, _| bench.table.clear(),
        |bench, _| bench.quantity.push(0),
        |bench, _| bench.money.truncate(1),
        |bench, _| bench.scratch.push(0),
        |_, hour| hour.entry.push(0),
        |_, hour| hour.exit.truncate(1),
        |_, hour| hour.title.clear(),
        |_, hour| hour.pooling.push(0),
    ];
    for (number, change) in changes.into_iter().enumerate() {
        assert_eq!(hour_after(change), Err(3));
        if number < 5 {
            assert_eq!(
                close_after(|bench| change(bench, &mut zeros(2, NONE))),
                Err(3)
            );
        }
    }
}

#[test]
fn cause_4_zone() {
    for zone in [-1, 2, 256, i64::MIN, i64::MAX] {
        assert_eq!(closable().hour(zone, 2, &zeros(2, NONE)), Err(4));
        assert_eq!(closable().close(zone, (1, 1)), Err(4));
        assert_eq!(default_thresholds(1, zone), Err(4));
        assert_eq!(default_thresholds(0, zone), Err(4));
    }
}

#[test]
fn cause_5_closed() {
    let mut bench = closable();
    bench.close(1, (1, 1)).unwrap();
    assert_eq!(bench.close(1, (1, 1)), Err(5));
    assert_eq!(bench.hour(1, 24, &zeros(2, NONE)), Err(5));
}

#[test]
fn cause_6_hour() {
    for hour in [0, 1, 3, 24, 25, -1, i64::MIN, i64::MAX] {
        assert_eq!(closable().hour(0, hour, &zeros(2, NONE)), Err(6));
    }
    for hour in [1, 24, 25, i64::MIN, i64::MAX] {
        assert_eq!(closable().hour(1, hour, &zeros(2, NONE)), Err(6));
    }
    assert_eq!(closable().close(0, (1, 1)), Err(6));
    assert_eq!(close_after(|bench| bench.day.hours[1] = 23), Err(6));
}

#[test]
fn cause_7_table() {
    let changes: [fn(&mut Bench); 9] = [
        |bench| bench.table[0] = 100_000_001,
        |bench| bench.table[1] = -100_000_001,
        |bench| bench.table[128] = i64::MIN,
        |bench| bench.table[129] = i64::MAX,
        |bench| bench.table[2] = 1,
        |bench| bench.table[127] = -1,
        |bench| bench.table[130] = 1,
        |bench| bench.table[255] = -1,
        |bench| bench.table[0..256].fill(i64::MIN),
    ];
    for change in changes {
        assert_eq!(hour_after(|bench, _| change(bench)), Err(7));
        assert_eq!(close_after(change), Err(7));
    }
    // A closed zone, and a zone with no hours done, hold nothing.
    assert_eq!(hour_after(|bench, _| bench.day.closed[1] = 1), Err(7));
    assert_eq!(hour_after(|bench, _| bench.day.hours[1] = 0), Err(7));
    assert_eq!(close_after(|bench| bench.day.hours[0] = 0), Err(7));
    let mut bench = Bench::opened(2);
    bench.table[0] = 1;
    assert_eq!(bench.hour(0, 1, &zeros(2, NONE)), Err(7));
}

#[test]
fn cause_8_terms() {
    for month in [0, 13, -1, i64::MIN, i64::MAX] {
        assert_eq!(default_thresholds(month, 1), Err(8));
    }
    for price in [10_000_001, -10_000_001, ENDS[0], ENDS[1]] {
        assert_eq!(
            hour_after(|_, hour| hour.terms.excess_price = price),
            Err(8)
        );
        assert_eq!(
            hour_after(|_, hour| hour.terms.shortfall_price = price),
            Err(8)
        );
        assert_eq!(closable().close(1, (price, 0)), Err(8));
        assert_eq!(closable().close(1, (0, price)), Err(8));
    }
    for upper in [-1, 1_000_000_001, ENDS[0], ENDS[1]] {
        assert_eq!(hour_after(|_, hour| hour.terms.upper = upper), Err(8));
        let lower = upper.saturating_neg();
        assert_eq!(hour_after(|_, hour| hour.terms.lower = lower), Err(8));
    }
}

#[test]
fn cause_9_amount() {
    for place in [0, 1] {
        for entry in [-1, 50_000_001, ENDS[0], ENDS[1]] {
            assert_eq!(hour_after(|_, hour| hour.entry[place] = entry), Err(9));
            let exit = entry.saturating_neg();
            assert_eq!(hour_after(|_, hour| hour.exit[place] = exit), Err(9));
        }
        for title in [-50_000_001, 50_000_001, ENDS[0], ENDS[1]] {
            assert_eq!(hour_after(|_, hour| hour.title[place] = title), Err(9));
        }
        for pooling in [-100_000_001, 100_000_001, ENDS[0], ENDS[1]] {
            assert_eq!(hour_after(|_, hour| hour.pooling[place] = pooling), Err(9));
        }
    }
    assert_eq!(hour_after(|_, hour| hour.pooling.fill(i64::MIN)), Err(9));
}

#[test]
fn cause_10_pooling() {
    assert_eq!(hour_after(|_, hour| hour.pooling[0] = 1), Err(10));
    assert_eq!(
        hour_after(|_, hour| hour.pooling.fill(100_000_000)),
        Err(10)
    );
}

#[test]
fn cause_11_position() {
    // The table's 10 counts as well.
    let near = |hour: &mut Hour, by: i64| {
        hour.entry[0] = 50_000_000;
        hour.title[0] = 50_000_000 - 10 + by;
        hour.terms.upper = 1_000_000_000;
    };
    assert_eq!(hour_after(|_, hour| near(hour, 0)), Ok(Outcome::Within));
    assert_eq!(hour_after(|_, hour| near(hour, 1)), Err(11));
    let below = |hour: &mut Hour, by: i64| {
        hour.exit[1] = -50_000_000;
        hour.title[1] = -50_000_000 + 10 - by;
        hour.terms.lower = -1_000_000_000;
    };
    assert_eq!(hour_after(|_, hour| below(hour, 0)), Ok(Outcome::Within));
    assert_eq!(hour_after(|_, hour| below(hour, 1)), Err(11));
}

/// Faults of ascending causes, put in together and taken away one by one.
#[test]
fn the_lowest_cause_is_given() {
    type Fault = fn(&mut Bench, &mut Hour);
    let faults: [(u64, Fault); 7] = [
        (2, |bench, _| bench.day.hours[1] = 25),
        (3, |_, hour| hour.title.push(i64::MAX)),
        (7, |bench, _| bench.table[200] = 1),
        (8, |_, hour| hour.terms.lower = 1),
        (9, |_, hour| hour.exit[1] = 1),
        (10, |_, hour| hour.pooling[0] = 100_000_000),
        (11, |_, hour| {
            hour.entry[0] = 50_000_000;
            hour.title[0] = 50_000_000;
        }),
    ];
    for first in 0..faults.len() {
        let answer = hour_after(|bench, hour| {
            faults[first..]
                .iter()
                .for_each(|(_, fault)| fault(bench, hour));
        });
        assert_eq!(answer, Err(faults[first].0));
    }
}

/// Causes 4 to 6 among each other and with those around them.
#[test]
fn zone_then_closed_then_hour() {
    let mut bench = closable();
    bench.close(1, (1, 1)).unwrap();
    bench.table[255] = 1;
    let unfit = zeros(2, Terms { upper: -1, ..NONE });
    assert_eq!(bench.hour(2, 99, &unfit), Err(4));
    assert_eq!(bench.hour(1, 99, &unfit), Err(5));
    assert_eq!(bench.hour(0, 99, &unfit), Err(6));
    assert_eq!(bench.hour(0, 2, &unfit), Err(7));
    assert_eq!(bench.close(2, (i64::MIN, 0)), Err(4));
    assert_eq!(bench.close(1, (i64::MIN, 0)), Err(5));
    assert_eq!(bench.close(0, (i64::MIN, 0)), Err(6));
    bench.day.hours[0] = 24;
    assert_eq!(bench.close(0, (i64::MIN, 0)), Err(7));
    bench.table[255] = 0;
    assert_eq!(bench.close(0, (i64::MIN, 0)), Err(8));
    bench.quantity.push(0);
    assert_eq!(bench.close(2, (0, 0)), Err(3));
    assert_eq!(bench.hour(2, 2, &unfit), Err(3));
}
