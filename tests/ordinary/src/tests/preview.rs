//! Ask 5: "Show the dispatcher the hour beforehand."

use super::*;

/// Previews these positions in hour 1 of zone H.
fn previewed(positions: &[i64], terms: Terms) -> (Bench, Outcome) {
    let mut bench = Bench::opened(positions.len());
    let outcome = bench.preview(0, 1, &titles(positions, terms)).unwrap();
    (bench, outcome)
}

/// `large` at a price.
fn priced() -> Hour {
    let mut hour = large();
    hour.terms.excess_price = 3;
    hour
}

#[test]
fn case_a_beforehand() {
    let mut bench = Bench::opened(3);
    let mut hour = zeros(3, NONE);
    hour.entry = vec![30_000_000, 15_000_000, 2_000_000];
    hour.exit = vec![-10_000_000, -5_000_000, -5_000_000];
    hour.terms = Terms {
        upper: 22_000_000,
        lower: -22_000_000,
        excess_price: 20_000,
        shortfall_price: 25_000,
    };
    let outcome = excess(5_000_000, [0b011, 0], 2);
    assert_eq!(bench.preview(0, 1, &hour), Ok(outcome));
    assert_eq!(bench.quantity, [3_333_333, 1_666_667, 0]);
    assert_eq!(bench.money, [66_666_660_000, 33_333_340_000, 0]);
    assert_eq!(bench.after, [16_666_667, 8_333_333, -3_000_000]);
    assert_eq!(bench.scratch, [0; 3]);
    assert_eq!(bench.table, [0; 256]);
    assert_eq!(bench.day.hours, [0, 0]);
    assert_eq!(bench.hour(0, 1, &hour), Ok(outcome));
}

#[test]
fn a_shortfall_and_a_market_within() {
    let prices = Terms {
        excess_price: 5,
        shortfall_price: 7,
        lower: -1,
        ..NONE
    };
    let (bench, outcome) = previewed(&[-1, 1, -3], prices);
    assert_eq!(outcome, shortfall(2, [0b101, 0], 2));
    assert_eq!(
        (bench.quantity, bench.money),
        (vec![-1, 0, -1], vec![-7, 0, -7])
    );
    assert_eq!(bench.after, [0, 1, -2]);
    let (bench, outcome) = previewed(&[5, -5], prices);
    assert_eq!(outcome, Outcome::Within);
    assert_eq!((bench.quantity, bench.money), (vec![0, 0], vec![0, 0]));
    assert_eq!(bench.after, [5, -5]);
}

/// The positions after start from those that stand in the table of the zone that is called.
#[test]
fn each_zone_from_its_own_part() {
    let mut bench = busy();
    assert_eq!(bench.preview(0, 2, &priced()), Ok(excess(33, [0b11, 0], 2)));
    assert_eq!(bench.quantity, [25, 8]);
    assert_eq!(bench.after, [5, 2]);
    assert_eq!(bench.preview(1, 24, &priced()), Ok(excess(23, [0b01, 0], 1)));
    assert_eq!(bench.money, [69, 0]);
    assert_eq!(bench.after, [17, -10]);
    assert_eq!(bench.day, busy().day);
    assert_eq!(bench.table, busy().table);
}

/// "no sum over history counts a preview": of two previews and the hour only the hour is
/// booked, and a preview gives the same twice.
#[test]
fn a_preview_books_nothing() {
    let mut bench = busy();
    let other = zeros(2, NONE);
    bench.preview(0, 2, &priced()).unwrap();
    let first = bench.clone();
    bench.preview(0, 2, &other).unwrap();
    bench.preview(0, 2, &priced()).unwrap();
    assert_eq!(bench, first);
    assert_eq!(bench.preview(0, 3, &other), Err(6));
    let mut without = busy();
    without.hour(0, 2, &other).unwrap();
    bench.hour(0, 2, &other).unwrap();
    assert_eq!((bench.day, &bench.table), (without.day, &without.table));
    assert_eq!(bench.preview(0, 2, &other), Err(6));
}

#[test]
fn the_largest_settlement_on_both_sides() {
    for sign in [1, -1] {
        let mut bench = Bench::opened(128);
        bench.day.hours = [1, 0];
        bench.table[..128].fill(sign * 100_000_000);
        let mut hour = zeros(128, NONE);
        hour.terms.excess_price = 10_000_000;
        hour.terms.shortfall_price = 10_000_000;
        bench.preview(0, 2, &hour).unwrap();
        assert_eq!(bench.quantity, [sign * 100_000_000; 128]);
        assert_eq!(bench.money, [sign * 1_000_000_000_000_000; 128]);
        assert_eq!(bench.after, [0; 128]);
    }
}

#[test]
fn positions_after_at_the_ends_of_their_range() {
    let mut bench = Bench::opened(2);
    bench.day.hours = [0, 1];
    bench.table[128..130].copy_from_slice(&[99_999_999, -99_999_999]);
    let to_the_ends = titles(&[1, -1], NONE);
    assert_eq!(bench.preview(1, 2, &to_the_ends), Ok(Outcome::Within));
    assert_eq!(bench.after, [100_000_000, -100_000_000]);
    for beyond in [[2, -1], [1, -2]] {
        assert_eq!(bench.preview(1, 2, &titles(&beyond, NONE)), Err(11));
    }
}

/// "the positions after go to a list of exactly the user count", "and cause 3 covers the new
/// list".
#[test]
fn cause_3_the_positions_after() {
    for (zone, hour) in [(0, 2), (1, 24)] {
        for places in [0, 1, 3, 127, 128, 256] {
            let mut bench = busy();
            bench.after.resize(places, 74);
            assert_eq!(bench.preview(zone, hour, &priced()), Err(3));
            // An hour is not lent this list.
            assert!(bench.hour(zone, hour, &priced()).is_ok());
        }
    }
    for (users, places) in [(1, 0), (1, 2), (128, 127), (128, 129)] {
        let mut bench = Bench::opened(users);
        bench.after.resize(places, 74);
        assert_eq!(bench.preview(1, 1, &zeros(users, NONE)), Err(3));
    }
}

/// "The same causes apply in the same order": with the new list of another length 3 is given
/// before 4 to 11, and 2 before it.
#[test]
fn cause_3_in_its_turn() {
    type Fault = fn(&mut Bench, &mut Hour);
    let faults: [(u64, Fault); 6] = [
        (2, |bench, _| bench.day.closed[0] = 1),
        (7, |bench, _| bench.table[200] = 1),
        (8, |_, hour| hour.terms.lower = 1),
        (9, |_, hour| hour.exit[1] = 1),
        (10, |_, hour| hour.pooling[0] = 1),
        (11, |_, hour| hour.entry[0] = 50_000_000),
    ];
    for (cause, fault) in faults {
        for places in [1, 2, 3] {
            let (mut bench, mut hour) = (busy(), priced());
            hour.title[0] = 50_000_000;
            fault(&mut bench, &mut hour);
            bench.after.resize(places, 74);
            let given = if places == 2 { cause } else { cause.min(3) };
            assert_eq!(bench.preview(0, 2, &hour), Err(given));
        }
    }
    let mut bench = busy();
    bench.after.pop();
    assert_eq!(bench.preview(2, 99, &priced()), Err(3));
    bench.after.push(74);
    assert_eq!(bench.preview(2, 99, &priced()), Err(4));
    assert_eq!(bench.preview(0, 99, &priced()), Err(6));
    bench.after.clear();
    assert_eq!(bench.preview(0, 99, &priced()), Err(3));
}

/// A preview of each hour of a day of each length, and of none after the last; the zone closed,
/// it is 5.
#[test]
fn a_whole_day_beforehand() {
    let hour = titles(&[3, -1], Terms { upper: 10, ..NONE });
    for length in [23, 24, 25] {
        let mut bench = Bench::of_length(2, length);
        for number in 1..=length {
            assert_eq!(bench.preview(1, number + 1, &hour), Err(6));
            bench.previewed_hour(1, number, &hour).unwrap();
            assert_eq!(bench.table[128..130], bench.after);
        }
        assert_eq!(bench.after, [10 + length, -length]);
        assert_eq!(bench.preview(1, length + 1, &hour), Err(6));
        assert_eq!(bench.close(1, (2, 3)), Ok((10 + length, length)));
        assert_eq!(bench.preview(1, length + 1, &hour), Err(5));
        assert_eq!(bench.preview(0, 1, &hour), Ok(Outcome::Within));
    }
}
