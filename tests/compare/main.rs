//! The library, as a client calls it from Rust, against the ordinary settlement: both are given the same calls, and every answer, record and lent area is compared
//! after every call. A difference ends the run with the seed, the round and what was given. At the end the calls are counted by what they were for, and too few of
//! anything is a failure too.

mod at_random;
mod both;
mod counts;
mod on_purpose;

use both::Run;
use counts::Counts;

fn main() {
    let mut run = Run {
        at: String::new(),
        counts: Counts::new(),
    };
    // some calls of each kind first, and most of them last: so what is wrong is told soon
    on_purpose::small_calls(&mut run, 17, 20);
    on_purpose::calls_of_a_day(&mut run, 18, 4);
    on_purpose::to_the_bound(&mut run, 23, 40);
    on_purpose::two_users(&mut run, 21, 40);
    on_purpose::files(&mut run, 16, 20);
    at_random::writings(&mut run, 12, 2_000);
    on_purpose::writings(&mut run, 14, 20);
    for seed in [1, 2, 3] {
        at_random::days(&mut run, seed, 1_000);
    }
    at_random::altered_days(&mut run, 24, 600);
    for seed in [4, 5] {
        at_random::odd_calls(&mut run, seed, 200_000);
    }
    at_random::odd_previews(&mut run, 19, 30_000);
    at_random::judged_hours(&mut run, 20, 60_000);
    at_random::small_calls(&mut run, 6, 10_000);
    for seed in [7, 8] {
        at_random::files(&mut run, seed, 60_000);
    }
    at_random::large_files(&mut run);
    on_purpose::calls_of_a_day(&mut run, 9, 400);
    on_purpose::to_the_bound(&mut run, 25, 1_000);
    on_purpose::two_users(&mut run, 22, 400);
    on_purpose::small_calls(&mut run, 10, 400);
    on_purpose::files(&mut run, 11, 400);
    at_random::writings(&mut run, 13, 20_000);
    on_purpose::writings(&mut run, 15, 400);

    println!(
        "seeds: 1 to 3 days, 24 altered days, 4 and 5 odd calls, 19 odd previews, 20 judged hours, 6 openings and thresholds, 7 and 8 files, 12 and 13 writings, 9 to 11, 14 to 18, 21 and 22 calls spoilt on purpose, 23 and 25 calls to the bound"
    );
    let short = run.counts.print();
    if short > 0 {
        println!("compared: {} calls, {short} numbers below their least", run.counts.calls);
        std::process::exit(1);
    }
    println!("compared: {} calls, no difference", run.counts.calls);
}
