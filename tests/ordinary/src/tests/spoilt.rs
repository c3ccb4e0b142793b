//! Fit calls and the ways to spoil them: each brings its cause in days of each length.

use crate::limits;
use crate::present::{closing_causes, hour_causes, judged_causes, preview_causes};
use crate::random::Random;
use crate::spoilt::{closing_ways, fit_closing, fit_hour, fit_judged, hour_ways, judged_ways, preview_ways, Call, Way};
use crate::spoilt_quantities::spoil_two_users;
use crate::spoilt_totals::Total;

/// Hours, previews, judged hours, or closings.
struct Calls {
    fit: fn(&mut Random, i64) -> Call,
    ways: Vec<&'static Way>,
    /// Calls it: the cause that is given, if any.
    call: fn(&mut Call) -> Option<u64>,
    causes: fn(&Call) -> Vec<u64>,
}

fn all() -> [Calls; 4] {
    let hours = Calls {
        fit: fit_hour,
        ways: hour_ways(),
        call: |call| call.settle().err(),
        causes: hour_causes,
    };
    let previews = Calls {
        fit: fit_hour,
        ways: preview_ways(),
        call: |call| call.preview().err(),
        causes: preview_causes,
    };
    let judged = Calls {
        fit: fit_judged,
        ways: judged_ways(),
        call: |call| call.judge().err(),
        causes: judged_causes,
    };
    let closings = Calls {
        fit: fit_closing,
        ways: closing_ways(),
        call: |call| call.close().err(),
        causes: closing_causes,
    };
    [hours, previews, judged, closings]
}

/// Calls it; a refusal leaves all as it was, and the cause is the first that applies.
fn answer(calls: &Calls, call: &Call) -> Option<u64> {
    let mut after = call.clone();
    let cause = (calls.call)(&mut after);
    assert_eq!(cause, (calls.causes)(call).first().copied(), "{call:?}");
    assert_eq!(after.day.length, call.day.length);
    if cause.is_some() {
        assert_eq!(after, *call);
    }
    cause
}

#[test]
fn fit_calls_are_accepted_in_days_of_each_length() {
    let mut random = Random::new(31);
    for calls in all() {
        let mut lengths = [0; 3];
        let mut last_hours = [0; 3];
        for round in 0..6_000 {
            let call = (calls.fit)(&mut random, round % 2);
            assert_eq!(answer(&calls, &call), None);
            let length = call.day.length;
            lengths[length as usize - 23] += 1;
            last_hours[length as usize - 23] += usize::from(call.hour >= length);
        }
        assert!(lengths.iter().all(|count| (1_800..2_200).contains(count)), "{lengths:?}");
        assert!(last_hours.iter().all(|&count| count > 200), "{last_hours:?}");
    }
}

/// Each way brings its cause in days of each length, in either zone. A way may find no room,
/// but for one of the record.
#[test]
fn each_way_brings_its_cause() {
    let mut random = Random::new(32);
    for calls in all() {
        for way in &calls.ways {
            let mut brought = [[0; 3]; 2];
            for round in 0..240 {
                let zone = round % 2;
                let mut call = (calls.fit)(&mut random, zone as i64);
                let length = call.day.length;
                (way.spoil)(&mut random, &mut call);
                match answer(&calls, &call) {
                    Some(cause) => {
                        assert_eq!(cause, way.cause, "{}", way.part);
                        brought[zone][length as usize - 23] += 1;
                    }
                    None => assert_ne!(way.cause, 2, "{}", way.part),
                }
            }
            assert!(brought.iter().flatten().all(|&count| count > 0), "{} {brought:?}", way.part);
        }
    }
}

/// A way of the record beside another one: 2 is given, and the other cause applies as well.
/// The other way mostly goes first; those of causes 5 and 6 also after it, where a length
/// may be at an end of the 64 bits.
#[test]
fn a_way_of_the_record_beside_another() {
    let mut random = Random::new(33);
    for calls in all() {
        for record in calls.ways.iter().filter(|way| way.cause == 2) {
            for other in calls.ways.iter().filter(|way| way.cause > 2) {
                let mut applying = 0;
                for round in 0..40 {
                    let mut call = (calls.fit)(&mut random, round % 2);
                    if [5, 6].contains(&other.cause) && random.one_in(4) {
                        (record.spoil)(&mut random, &mut call);
                        (other.spoil)(&mut random, &mut call);
                        answer(&calls, &call);
                        continue;
                    }
                    (other.spoil)(&mut random, &mut call);
                    (record.spoil)(&mut random, &mut call);
                    assert_eq!(answer(&calls, &call), Some(2), "{} and {}", record.part, other.part);
                    applying += usize::from((calls.causes)(&call).contains(&other.cause));
                }
                assert!(applying > 0, "{} and {}", record.part, other.part);
            }
        }
    }
}

/// Whether the part speaks of the length and the call is just beside it.
fn just_beside(part: &str, call: &Call, length: i64) -> bool {
    let hours = call.day.hours;
    let of_zone = |number: i64| hours[call.zone as usize] == number;
    match part {
        "length below 23" => call.day.length == 22,
        "length above 25" => call.day.length == 26,
        "hours of H above the length" => hours[0] == length + 1,
        "hours of L above the length" => hours[1] == length + 1,
        "H closed too early" => hours[0] == length - 1,
        "L closed too early" => hours[1] == length - 1,
        "hour above the length" => of_zone(length) && call.hour == length + 1,
        "fewer hours done than the length" => of_zone(length - 1),
        _ => false,
    }
}

#[test]
fn ways_that_speak_of_the_length_go_just_beside_it() {
    let mut random = Random::new(34);
    for calls in all() {
        let mut parts = 0;
        for way in &calls.ways {
            let mut beside = [0; 3];
            for round in 0..300 {
                let mut call = (calls.fit)(&mut random, round % 2);
                let length = call.day.length;
                (way.spoil)(&mut random, &mut call);
                beside[length as usize - 23] += usize::from(just_beside(way.part, &call, length));
            }
            if beside != [0; 3] {
                assert!(beside.iter().all(|&count| count > 15), "{} {beside:?}", way.part);
                parts += 1;
            }
        }
        assert_eq!(parts, 7);
    }
}

/// Of a record with another length, all but the length often fits: the hours of both zones
/// fit it, and a closed zone has them all.
#[test]
fn another_length_alone_is_amiss() {
    let mut random = Random::new(35);
    for calls in all() {
        for way in calls.ways.iter().filter(|way| way.part.starts_with("length")) {
            let mut alone = [0; 2];
            for round in 0..1_500 {
                let mut call = (calls.fit)(&mut random, round % 2);
                (way.spoil)(&mut random, &mut call);
                let day = call.day;
                let fits = (0..2).all(|zone| {
                    let all = day.hours[zone] == day.length;
                    (0..=day.length).contains(&day.hours[zone]) && (all || !day.is_closed(zone))
                });
                alone[usize::from(day.closed != [0, 0])] += usize::from(fits);
            }
            assert!(alone.iter().all(|&count| count > 9), "{} {alone:?}", way.part);
        }
    }
}

/// Of a call that a total spoils all else is fit: with totals of zero it is accepted. Only where
/// the way takes the hours of the zone that is called, it may be that something else is amiss.
#[test]
fn a_total_alone_is_amiss() {
    let mut random = Random::new(38);
    for calls in all() {
        for way in calls.ways.iter().filter(|way| way.part.starts_with("sold") || way.part.starts_with("bought") || way.part.starts_with("both")) {
            let mut brought = [0; 2];
            for round in 0..120 {
                let mut call = (calls.fit)(&mut random, round % 2);
                (way.spoil)(&mut random, &mut call);
                let zone = call.zone as usize;
                if answer(&calls, &call) == Some(way.cause) && call.day.hours[zone] > 0 {
                    (call.day.sold, call.day.bought) = ([0; 2], [0; 2]);
                    assert_eq!(answer(&calls, &call), None, "{}", way.part);
                    brought[zone] += 1;
                }
            }
            assert!(brought[0] + brought[1] > 30, "{} {brought:?}", way.part);
        }
    }
}

/// What is one past the bound comes to the bound if the total is one less: then the call is
/// accepted, and the record that it answers, but for a preview, has the bound.
#[test]
fn ways_of_25_go_just_past_the_bound() {
    let mut random = Random::new(39);
    let mut reached = 0;
    for (number, calls) in all().iter().enumerate() {
        let of_previews = number == 1;
        for way in calls.ways.iter().filter(|way| way.cause == 25 && way.part.ends_with("one past the bound")) {
            for round in 0..200 {
                let mut call = (calls.fit)(&mut random, round % 2);
                (way.spoil)(&mut random, &mut call);
                if answer(calls, &call).is_none() {
                    continue;
                }
                let (zone, total) = (call.zone as usize, if way.part.starts_with("sold") { Total::Sold } else { Total::Bought });
                total.of(&mut call.day)[zone] -= 1;
                assert_eq!((calls.call)(&mut call), None);
                let after = total.of(&mut call.day)[zone];
                assert_eq!(after == *limits::TOTAL.end(), !of_previews, "{}", way.part);
                reached += 1;
            }
        }
    }
    assert!(reached > 400, "{reached}");
}

/// A judged hour that is fit may be one that itself would be refused by 25, and by nothing else.
#[test]
fn fit_judged_hours_may_pass_the_bound() {
    let mut random = Random::new(40);
    let mut passing = [0; 2];
    for round in 0..2_000 {
        let mut call = fit_judged(&mut random, round % 2);
        assert_eq!(call.judge(), Ok(()));
        match call.settle() {
            Ok(_) => (),
            Err(cause) => {
                assert_eq!(cause, 25);
                passing[call.zone as usize] += 1;
            }
        }
    }
    assert!(passing.iter().all(|&count| count > 100), "{passing:?}");
}

/// The place of the only quantity that differs.
fn changed(before: &Call, after: &Call) -> Option<usize> {
    let differs = |&g: &usize| before.quantity[g] != after.quantity[g];
    let places: Vec<usize> = (0..before.quantity.len()).filter(differs).collect();
    assert!(places.len() < 2);
    places.first().copied()
}

/// A causer's size times the sum of all causers' sizes, and what is due times its own size.
fn products(call: &Call, place: usize) -> (u128, u128, u128) {
    let (start, a) = (call.zone as usize * 128, &call.amounts);
    let position = |g: usize| call.table[start + g] + a.entry[g] + a.exit[g] + a.title[g] + a.pooling[g];
    let market: i64 = (0..a.entry.len()).map(position).sum();
    let due = market - market.clamp(a.terms.lower, a.terms.upper);
    let size = |g: usize| (due.signum() * position(g)).max(0) as u128;
    let sum = (0..a.entry.len()).map(size).sum::<u128>();
    let quantity = u128::from(call.quantity[place].unsigned_abs());
    (quantity * sum, due.unsigned_abs() as u128 * size(place), sum)
}

/// Two ways of 23 go where they say: just 1 kWh off; and less than 1 kWh off if products were
/// taken in 64 bits, and far off as they are.
#[test]
fn ways_of_23_go_where_they_say() {
    let mut random = Random::new(36);
    let mut brought = [0; 2];
    for way in judged_ways() {
        let Some(which) = ["1 kWh off a whole share", "a product beyond 64 bits"].iter().position(|&part| part == way.part) else {
            continue;
        };
        for round in 0..2_000 {
            let call = fit_judged(&mut random, round % 2);
            let mut spoilt = call.clone();
            (way.spoil)(&mut random, &mut spoilt);
            let Some(place) = changed(&call, &spoilt) else { continue };
            let (judged, exact, sum) = products(&spoilt, place);
            if which == 0 {
                assert_eq!(judged.abs_diff(exact), sum);
            } else {
                assert!(judged > u128::from(u64::MAX));
                assert!((judged as u64).abs_diff(exact as u64) < sum as u64);
            }
            brought[which] += 1;
        }
    }
    assert!(brought.iter().all(|&count| count > 300), "{brought:?}");
}

/// Of two users with a fault each, each fault alone brings its cause, the later user's is that of
/// the lower cause, and both together bring that. The other mostly still applies: only a sum may
/// come out right again.
#[test]
fn two_users_with_a_fault_each() {
    let mut random = Random::new(37);
    for (first, second) in [(22, 23), (22, 24), (23, 24)] {
        let mut brought = 0;
        for round in 0..400 {
            let call = fit_judged(&mut random, round % 2);
            let mut both = call.clone();
            if !spoil_two_users(&mut random, &mut both, (first, second)) {
                continue;
            }
            let later = (0..call.quantity.len()).rfind(|&g| call.quantity[g] != both.quantity[g]).unwrap();
            let (mut early, mut late) = (both.clone(), call.clone());
            early.quantity[later] = call.quantity[later];
            late.quantity[later] = both.quantity[later];
            assert!(changed(&call, &early) < Some(later));
            assert_eq!([early.judge(), late.judge(), both.judge()], [Err(second), Err(first), Err(first)]);
            brought += usize::from(judged_causes(&both).contains(&second));
        }
        assert!(brought > 60, "{first} and {second}: {brought}");
    }
}
