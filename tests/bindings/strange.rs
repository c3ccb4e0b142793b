//! Every call of the crate, twice, against a library that a client may not call (strange.c): prints how each panics.

use gas_day::{Amounts, ClosingTerms, Day, FileLists, HourTerms, Outputs, ZoneDay};
use std::panic::{catch_unwind, set_hook};

const ZONE: ZoneDay = ZoneDay { hours: 0, closed: 0, sold: 0, bought: 0 };
const TERMS: HourTerms = HourTerms { zone: 0, hour: 1, upper: 0, lower: 0, excess_price: 0, shortfall_price: 0 };

fn open() {
    let _ = gas_day::open(1, 24, &mut [0; 256]);
}

fn thresholds() {
    let _ = gas_day::default_thresholds(1, 0);
}

fn settle() {
    let outputs = Outputs { quantity: &mut [0], money: &mut [0] };
    let amounts = Amounts { entry: &[0], exit: &[0], title: &[0], pooling: &[0] };
    let _ = gas_day::settle_hour(&mut Day { users: 1, length: 24, h: ZONE, l: ZONE }, &mut [0; 256], TERMS, amounts, outputs, &mut [0]);
}

fn preview() {
    let outputs = Outputs { quantity: &mut [0], money: &mut [0] };
    let amounts = Amounts { entry: &[0], exit: &[0], title: &[0], pooling: &[0] };
    let _ = gas_day::preview_hour(&Day { users: 1, length: 24, h: ZONE, l: ZONE }, &[0; 256], TERMS, amounts, outputs, &mut [0], &mut [0]);
}

fn judge() {
    let amounts = Amounts { entry: &[0], exit: &[0], title: &[0], pooling: &[0] };
    let _ = gas_day::judge_hour(&Day { users: 1, length: 24, h: ZONE, l: ZONE }, &[0; 256], TERMS, amounts, &[0]);
}

fn close() {
    let outputs = Outputs { quantity: &mut [0], money: &mut [0] };
    let terms = ClosingTerms { zone: 0, excess_price: 0, shortfall_price: 0 };
    let _ = gas_day::close_zone(&mut Day { users: 1, length: 24, h: ZONE, l: ZONE }, &mut [0; 256], terms, outputs);
}

fn read() {
    let [mut entries, mut exits, mut titles, mut poolings] = [[0; 128]; 4];
    let lists = FileLists { entries: &mut entries, exits: &mut exits, titles: &mut titles, poolings: &mut poolings };
    let _ = gas_day::read_hour_file(b"", lists);
}

fn write() {
    let amounts = Amounts { entry: &[0], exit: &[0], title: &[0], pooling: &[0] };
    let _ = gas_day::write_hour_file(0, 0, 1, amounts, &mut []);
}

fn main() {
    set_hook(Box::new(|_| ()));
    let calls: [(&str, fn()); 8] = [
        ("open", open),
        ("default_thresholds", thresholds),
        ("settle_hour", settle),
        ("preview_hour", preview),
        ("judge_hour", judge),
        ("close_zone", close),
        ("read_hour_file", read),
        ("write_hour_file", write),
    ];
    for (name, call) in calls.into_iter().chain(calls) {
        let words = catch_unwind(call).map_err(|words| words.downcast_ref::<String>().cloned());
        println!("{name}: {}", words.err().flatten().unwrap_or_else(|| "no panic".to_string()));
    }
}
