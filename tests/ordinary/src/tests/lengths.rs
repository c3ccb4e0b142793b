//! Ask 3: "Days of 23 and 25 hours."

use super::*;

/// The lengths of a day: "23, 24 or 25".
const LENGTHS: [i64; 3] = [23, 24, 25];

/// Lengths that no day has; among them some that are 24 in fewer bits, or but for the sign.
const OTHERS: [i64; 14] = [
    22,
    26,
    0,
    -1,
    1,
    12,
    48,
    -23,
    -24,
    -25,
    256 + 24,
    (1 << 32) + 24,
    i64::MIN,
    i64::MAX,
];

/// A day of two users of this length, with these hours done in the zones.
fn done(length: i64, hours: [i64; 2]) -> Bench {
    let mut bench = Bench::of_length(2, 24);
    bench.day.length = length;
    bench.day.hours = hours;
    bench
}

/// The answer of the zone's next hour, with no amounts.
fn next_hour(mut bench: Bench, zone: usize) -> Result<Outcome, u64> {
    let next = bench.day.hours[zone].saturating_add(1);
    bench.hour(zone as i64, next, &zeros(2, NONE))
}

/// The hours done in the zone, and others in the other.
fn in_zone(zone: usize, hours: i64, other: i64) -> [i64; 2] {
    let mut both = [other; 2];
    both[zone] = hours;
    both
}

#[test]
fn opening_keeps_each_length() {
    for length in LENGTHS {
        let mut table = [i64::MAX; 256];
        let day = Day {
            users: 7,
            length,
            hours: [0; 2],
            closed: [0; 2],
            sold: [0; 2],
            bought: [0; 2],
        };
        assert_eq!(open(7, length, &mut table), Ok(day));
        assert_eq!(table, [0; 256]);
    }
}

#[test]
fn cause_21_other_lengths() {
    for length in OTHERS {
        let mut table = [5; 256];
        for users in [1, 24, 128] {
            assert_eq!(open(users, length, &mut table), Err(21));
        }
        assert_eq!(table, [5; 256]);
    }
}

/// "21 at opening, after 1 and before 3".
#[test]
fn opening_1_then_21_then_3() {
    let mut table = [5; 257];
    for places in [0, 24, 255, 256, 257] {
        let table = &mut table[..places];
        for users in [0, 129, i64::MIN, i64::MAX] {
            for length in LENGTHS.into_iter().chain(OTHERS) {
                assert_eq!(open(users, length, table), Err(1));
            }
        }
        for length in OTHERS {
            assert_eq!(open(1, length, table), Err(21));
        }
        if places != 256 {
            for length in LENGTHS {
                assert_eq!(open(1, length, table), Err(3));
            }
        }
    }
    assert_eq!(table, [5; 257]);
}

/// Users and length do not change places: 23 to 25 users in days of each length.
#[test]
fn opening_users_and_length_apart() {
    let mut table = [0; 256];
    for length in LENGTHS {
        for users in LENGTHS {
            let day = open(users, length, &mut table).unwrap();
            assert_eq!((day.users, day.length), (users, length));
        }
        assert_eq!(open(length, 1, &mut table), Err(21));
        assert_eq!(open(1, length, &mut table).map(|day| day.users), Ok(1));
    }
}

#[test]
fn a_whole_day_of_each_length() {
    let hour = titles(&[3, -1], Terms { upper: 10, ..NONE });
    for length in LENGTHS {
        let mut bench = Bench::of_length(2, length);
        for zone in [1, 0] {
            for number in 1..=length {
                assert_eq!(bench.close(zone, (1, 1)), Err(6));
                assert_eq!(bench.hour(zone, length + 1, &hour), Err(6));
                assert_eq!(bench.hour(zone, number + 1, &hour), Err(6));
                bench.hour(zone, number, &hour).unwrap();
                assert_eq!(bench.day.length, length);
            }
            let bought = length;
            let sold = 10 + bought;
            let places = zone as usize * 128..zone as usize * 128 + 2;
            assert_eq!(bench.table[places], [sold, -bought]);
            assert_eq!(bench.hour(zone, length, &hour), Err(6));
            assert_eq!(bench.hour(zone, length + 1, &hour), Err(6));
            assert_eq!(bench.hour(zone, length + 2, &hour), Err(6));
            assert_eq!(bench.close(zone, (2, 3)), Ok((sold, bought)));
            assert_eq!(bench.money, [2 * sold, -3 * bought]);
            assert_eq!(bench.hour(zone, length + 1, &hour), Err(5));
            assert_eq!(bench.close(zone, (2, 3)), Err(5));
            assert_eq!(bench.day.length, length);
        }
        let both = Day {
            users: 2,
            length,
            hours: [length; 2],
            closed: [1; 2],
            sold: [3 * length; 2],
            bought: [length; 2],
        };
        assert_eq!(bench.day, both);
        assert_eq!(bench.table, [0; 256]);
    }
}

/// The zones in turn, an hour each: both have the day's length.
#[test]
fn both_zones_side_by_side() {
    for length in LENGTHS {
        let mut bench = Bench::of_length(1, length);
        for number in 1..=length {
            for zone in [0, 1] {
                assert_eq!(bench.close(zone, (0, 0)), Err(6));
                bench.hour(zone, number, &zeros(1, NONE)).unwrap();
            }
        }
        for zone in [0, 1] {
            let hour = bench.hour(zone, length + 1, &zeros(1, NONE));
            assert_eq!(hour, Err(6));
            assert_eq!(bench.close(zone, (0, 0)), Ok((0, 0)));
        }
    }
}

/// "Causes 2 and 6 read that length in the place of 24, for both zones": all hours done
/// about each length, in the zone that is called and in the other.
#[test]
fn hours_done_about_each_length() {
    for length in LENGTHS {
        for zone in [0, 1] {
            for hours in -1..=27 {
                let fits = (0..=length).contains(&hours);
                let hour = match hours {
                    _ if !fits => Err(2),
                    _ if hours == length => Err(6),
                    _ => Ok(Outcome::Within),
                };
                let closing = match hours {
                    _ if !fits => Err(2),
                    _ if hours < length => Err(6),
                    _ => Ok((0, 0)),
                };
                let called = done(length, in_zone(zone, hours, 3));
                assert_eq!(next_hour(called.clone(), zone), hour);
                assert_eq!(called.clone().close(zone as i64, (1, 1)), closing);
                // In the other zone they only have to fit.
                let idle = if fits { Ok(()) } else { Err(2) };
                let other = done(length, in_zone(zone, 3, hours));
                assert_eq!(next_hour(other, zone).map(|_| ()), idle);
                let mut other = done(length, in_zone(zone, length, hours));
                assert_eq!(other.close(zone as i64, (1, 1)).map(|_| ()), idle);
            }
        }
    }
}

#[test]
fn a_zone_closed_with_other_hours_than_the_length() {
    for length in LENGTHS {
        for zone in [0, 1] {
            for hours in 0..=26 {
                let fits = hours == length;
                let mut closed = done(length, in_zone(zone, hours, 3));
                closed.day.closed[zone] = 1;
                let called = Err(if fits { 5 } else { 2 });
                assert_eq!(next_hour(closed.clone(), zone), called);
                assert_eq!(closed.clone().close(zone as i64, (1, 1)).map(|_| ()), called.map(|_| ()));
                // The other zone is called.
                let idle = if fits { Ok(()) } else { Err(2) };
                assert_eq!(next_hour(closed.clone(), 1 - zone).map(|_| ()), idle);
                closed.day.hours[1 - zone] = length;
                assert_eq!(closed.close(1 - zone as i64, (1, 1)).map(|_| ()), idle);
            }
        }
    }
}

/// "cause 2 also covers a record with another length", also one whose hours fit it.
#[test]
fn cause_2_a_record_with_another_length() {
    for length in OTHERS {
        for hours in [[0, 0], [1, 22], [23, 23], [24, 24], [25, 25], [length, length]] {
            for closed in [[0, 0], [1, 0], [0, 1], [1, 1]] {
                let mut bench = done(length, hours);
                bench.day.closed = closed;
                for zone in [0, 1] {
                    assert_eq!(next_hour(bench.clone(), zone), Err(2));
                    assert_eq!(bench.close(zone as i64, (1, 1)), Err(2));
                }
                // Before 3, and before all others.
                bench.table.push(i64::MIN);
                bench.quantity.clear();
                let unfit = zeros(1, Terms { upper: -1, ..NONE });
                for zone in [0, 1, 2, i64::MIN] {
                    assert_eq!(bench.hour(zone, 99, &unfit), Err(2));
                    assert_eq!(bench.close(zone, (i64::MAX, i64::MIN)), Err(2));
                }
            }
        }
    }
}

/// With one of the lengths the next cause is given: 3.
#[test]
fn cause_3_in_days_of_each_length() {
    for length in LENGTHS {
        let mut bench = done(length, [length; 2]);
        bench.money.push(0);
        for zone in [0, 1, 2] {
            assert_eq!(bench.hour(zone, 99, &zeros(2, NONE)), Err(3));
            assert_eq!(bench.close(zone, (i64::MAX, 0)), Err(3));
        }
    }
}

/// The length is the day's and nothing else of an hour: the last hour of each day settles
/// as the first.
#[test]
fn the_last_hour_settles_like_any_other() {
    for length in LENGTHS {
        for zone in [0, 1] {
            for hour in [1, 23, 24, 25].into_iter().filter(|&hour| hour <= length) {
                let mut bench = done(length, in_zone(zone, hour - 1, 0));
                let outcome = bench.hour(zone as i64, hour, &titles(&[5, -2], NONE));
                assert_eq!(outcome, Ok(excess(3, [1, 0], 1)));
                assert_eq!(bench.quantity, [3, 0]);
                let places = zone * 128..zone * 128 + 2;
                assert_eq!(bench.table[places], [2, -2]);
            }
        }
    }
}
