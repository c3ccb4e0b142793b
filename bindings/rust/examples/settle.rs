//! Reads an hour's file from standard input, settles its hour with January's default thresholds, and prints each user's place, position before, quantity, money and
//! position after. A refusal prints its cause and ends with status 1.

use gas_day::limits::{FILE_PLACES, LENGTH_USUAL, TABLE_PLACES, ZONE_PLACES};
use gas_day::{Amounts, Cause, FileLists, HourTerms, Outputs, Thresholds};
use std::io::Read;
use std::process::exit;

/// The lines of place, position before, quantity, money and position after.
fn settle(bytes: &[u8]) -> Result<Vec<String>, Cause> {
    let [mut entries, mut exits, mut titles, mut poolings] = [[0; FILE_PLACES]; 4];
    let lists = FileLists { entries: &mut entries, exits: &mut exits, titles: &mut titles, poolings: &mut poolings };
    let file = gas_day::read_hour_file(bytes, lists)?;
    let users = file.lines;

    let mut table = [0; TABLE_PLACES];
    let mut day = gas_day::open(users as i64, LENGTH_USUAL, &mut table)?;
    let Thresholds { upper, lower } = gas_day::default_thresholds(1, file.zone)?;
    let terms = HourTerms { zone: file.zone, hour: file.hour, upper, lower, excess_price: 20_000, shortfall_price: 25_000 };
    let amounts = Amounts { entry: &entries[..users], exit: &exits[..users], title: &titles[..users], pooling: &poolings[..users] };
    let (mut quantity, mut money) = (vec![0; users], vec![0; users]);
    let outputs = Outputs { quantity: &mut quantity, money: &mut money };
    gas_day::settle_hour(&mut day, &mut table, terms, amounts, outputs, &mut vec![0; users])?;

    let after = &table[file.zone as usize * ZONE_PLACES..];
    let line = |g: usize| format!("{g},{},{},{},{}", quantity[g] + after[g], quantity[g], money[g], after[g]);
    Ok((0..users).map(line).collect())
}

fn main() {
    let mut bytes = Vec::new();
    std::io::stdin().read_to_end(&mut bytes).expect("standard input can be read");
    match settle(&bytes) {
        Ok(lines) => print!("g,before,q,money,after\r\n{}\r\n", lines.join("\r\n")),
        Err(cause) => {
            print!("refused,{}\r\n", cause.number());
            exit(1);
        }
    }
}
