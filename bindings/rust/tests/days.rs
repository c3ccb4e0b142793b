//! Case A and a whole day, worked out by hand from the requirements.

use gas_day::limits::{FILE_PLACES, TABLE_PLACES, WRITE_BYTES_MOST, ZONE_PLACES};
use gas_day::*;

const WIDE: Thresholds = Thresholds { upper: limits::THRESHOLD_MOST, lower: -limits::THRESHOLD_MOST };

fn terms(zone: i64, hour: i64, thresholds: Thresholds) -> HourTerms {
    HourTerms { zone, hour, upper: thresholds.upper, lower: thresholds.lower, excess_price: 20, shortfall_price: 25 }
}

fn zone_day(hours: i64, closed: i64, sold: i64, bought: i64) -> ZoneDay {
    ZoneDay { hours, closed, sold, bought }
}

/// Reads a file into lists that hold something else.
fn read(file: &[u8]) -> (HourFile, [[i64; FILE_PLACES]; 4]) {
    let mut lists = [[77; FILE_PLACES]; 4];
    let [entries, exits, titles, poolings] = &mut lists;
    let file = read_hour_file(file, FileLists { entries, exits, titles, poolings }).unwrap();
    (file, lists)
}

const CASE_A: &[u8; 112] = b"h,z,g,EEA,XEA,NCTTN,IPT\r\n1,H,0,30000000,-10000000,0,0\r\n1,H,1,15000000,-5000000,0,0\r\n1,H,2,2000000,-5000000,0,0\r\n";

const AMOUNTS_A: Amounts =
    Amounts { entry: &[30_000_000, 15_000_000, 2_000_000], exit: &[-10_000_000, -5_000_000, -5_000_000], title: &[0; 3], pooling: &[0; 3] };

#[test]
fn case_a_by_its_file() {
    let (file, [entries, exits, titles, poolings]) = read(CASE_A);
    assert_eq!(file, HourFile { hour: 1, zone: 0, lines: 3 });
    assert_eq!(entries[..4], [30_000_000, 15_000_000, 2_000_000, 77]);
    assert_eq!(exits[..4], [-10_000_000, -5_000_000, -5_000_000, 77]);
    assert_eq!((&titles[..4], &poolings[..4]), (&[0, 0, 0, 77][..], &[0, 0, 0, 77][..]));

    let mut table = [77; TABLE_PLACES];
    let mut day = open(3, 24, &mut table).unwrap();
    let terms = HourTerms { excess_price: 20_000, shortfall_price: 25_000, ..terms(file.zone, file.hour, default_thresholds(1, file.zone).unwrap()) };
    let amounts = Amounts { entry: &entries[..3], exit: &exits[..3], title: &titles[..3], pooling: &poolings[..3] };
    let (mut quantity, mut money, mut scratch) = ([77; 3], [77; 3], [77; 3]);
    let outputs = Outputs { quantity: &mut quantity, money: &mut money };
    let outcome = settle_hour(&mut day, &mut table, terms, amounts, outputs, &mut scratch).unwrap();
    let causers = Causers { first: 3, second: 0, number: 2 };
    assert_eq!(outcome, Outcome::Settled { side: Side::Excess, total: 5_000_000, causers });
    assert_eq!(quantity, [3_333_333, 1_666_667, 0]);
    assert_eq!(money, [66_666_660_000, 33_333_340_000, 0]);
    assert_eq!(scratch, [0; 3]);
    assert_eq!(table[..3], [16_666_667, 8_333_333, -3_000_000]);
    assert_eq!(table[3..], [0; 253]);
    assert_eq!(day, Day { users: 3, length: 24, h: zone_day(1, 0, 5_000_000, 0), l: zone_day(0, 0, 0, 0) });
}

#[test]
fn case_a_previewed() {
    let mut table = [77; TABLE_PLACES];
    let day = open(3, 24, &mut table).unwrap();
    let terms = HourTerms { excess_price: 20_000, shortfall_price: 25_000, ..terms(0, 1, default_thresholds(1, 0).unwrap()) };
    let (mut quantity, mut money, mut after, mut scratch) = ([77; 3], [77; 3], [77; 3], [77; 3]);
    let outputs = Outputs { quantity: &mut quantity, money: &mut money };
    let outcome = preview_hour(&day, &table, terms, AMOUNTS_A, outputs, &mut after, &mut scratch).unwrap();
    let causers = Causers { first: 3, second: 0, number: 2 };
    assert_eq!(outcome, Outcome::Settled { side: Side::Excess, total: 5_000_000, causers });
    assert_eq!(quantity, [3_333_333, 1_666_667, 0]);
    assert_eq!(money, [66_666_660_000, 33_333_340_000, 0]);
    assert_eq!(after, [16_666_667, 8_333_333, -3_000_000]);
    assert_eq!(scratch, [0; 3]);
    assert_eq!(table, [0; TABLE_PLACES]);
    assert_eq!(day, Day { users: 3, length: 24, h: ZoneDay::default(), l: ZoneDay::default() });
}

/// Of 5000000 kWh the exact shares are 3333333.33 and 1666666.67, and the third did not cause.
#[test]
fn case_a_judged() {
    let mut table = [77; TABLE_PLACES];
    let day = open(3, 24, &mut table).unwrap();
    let terms = terms(0, 1, default_thresholds(1, 0).unwrap());
    let lists = [
        ([3_333_333, 1_666_667, 0], Ok(())), // our own
        ([3_333_334, 1_666_666, 0], Ok(())), // rounded in the other way
        ([3_333_333, 1_666_667, -1], Err(Cause::JudgedSign)),
        ([3_333_333, 1_666_666, 1], Err(Cause::JudgedSign)),
        ([5_000_001, -1, 0], Err(Cause::JudgedSign)), // of the second, before the first is off
        ([3_333_333, i64::MIN, 0], Err(Cause::JudgedSign)),
        ([i64::MAX; 3], Err(Cause::JudgedSign)),
        ([3_333_332, 1_666_668, 0], Err(Cause::JudgedShare)),
        ([3_333_333, 1_666_665, 0], Err(Cause::JudgedShare)), // of the second, before the sum is wrong
        ([0; 3], Err(Cause::JudgedShare)),
        ([i64::MAX, 1_666_667, 0], Err(Cause::JudgedShare)),
        ([3_333_333, 1_666_666, 0], Err(Cause::JudgedSum)),
        ([3_333_334, 1_666_667, 0], Err(Cause::JudgedSum)),
    ];
    for (quantity, judged) in lists {
        assert_eq!(judge_hour(&day, &table, terms, AMOUNTS_A, &quantity), judged, "{quantity:?}");
    }
    assert_eq!(table, [0; TABLE_PLACES]);
    assert_eq!(day, Day { users: 3, length: 24, h: ZoneDay::default(), l: ZoneDay::default() });
}

#[test]
fn case_a_by_its_file_in_mwh() {
    let in_mwh = b"h,z,g,EEA,XEA,NCTTN,IPT\r\n1,H,0,30000.000,-10000.000,0.000,0.000\r\n1,H,1,15000.000,-5000.000,0.000,0.000\r\n1,H,2,2000.000,-5000.000,0.000,0.000\r\n";
    assert_eq!(read(in_mwh), read(CASE_A));
}

/// As many decimals as the limit says, in the least and the largest amount and beside amounts in kWh; and one fewer and one more.
#[test]
fn both_units_in_one_file() {
    let of = |decimals: usize| {
        let (ones, nines) = (format!("{:0decimals$}", 1), "9".repeat(decimals));
        format!("h,z,g,EEA,XEA,NCTTN,IPT\r\n1,L,0,-0.{ones},999999.{nines},12345,-999999.{nines}").into_bytes()
    };
    let (file, [entries, exits, titles, poolings]) = read(&of(limits::FILE_MWH_DECIMALS));
    assert_eq!(file, HourFile { hour: 1, zone: 1, lines: 1 });
    assert_eq!([entries[0], exits[0], titles[0], poolings[0]], [-1, 999_999_999, 12_345, -999_999_999]);
    for decimals in [limits::FILE_MWH_DECIMALS - 1, limits::FILE_MWH_DECIMALS + 1] {
        let [entries, exits, titles, poolings] = &mut [[77; FILE_PLACES]; 4];
        assert_eq!(read_hour_file(&of(decimals), FileLists { entries, exits, titles, poolings }), Err(Cause::FileField));
    }
}

#[test]
fn case_a_written() {
    let mut file = [77; CASE_A.len() + 2];
    assert_eq!(write_hour_file(1, 0, 3, AMOUNTS_A, &mut file), Ok(CASE_A.len()));
    assert_eq!((&file[..CASE_A.len()], &file[CASE_A.len()..]), (&CASE_A[..], &[77; 2][..]));
}

/// 58 bytes a line beside its place, and 274 digits for the 128 places.
#[test]
fn the_longest_file_is_read_again() {
    let lists: [[i64; 128]; 4] = [0, 1, 2, 3].map(|list| std::array::from_fn(|g| 4 * g as i64 + list - 999_999_999));
    let [entry, exit, title, pooling] = &lists;
    let mut bytes = [77; WRITE_BYTES_MOST];
    let written = write_hour_file(999_999_999, 1, 128, Amounts { entry, exit, title, pooling }, &mut bytes).unwrap();
    assert_eq!(written, 25 + 58 * 128 + 274);
    assert!(bytes[written..].iter().all(|&byte| byte == 77));
    let (file, read_again) = read(&bytes[..written]);
    assert_eq!(file, HourFile { hour: 999_999_999, zone: 1, lines: 128 });
    assert_eq!(read_again, lists);
}

const USERS: usize = 67; // so that causers stand in both words of marks

/// A day and what its calls fill.
struct Worked {
    day: Day,
    table: [i64; TABLE_PLACES],
    quantity: [i64; USERS],
    money: [i64; USERS],
}

/// Zero at every place but these.
fn only<const N: usize>(places: [(usize, i64); N]) -> [i64; USERS] {
    let mut list = [0; USERS];
    places.into_iter().for_each(|(place, number)| list[place] = number);
    list
}

impl Worked {
    /// The hour, settled after its preview, which gives the same, and after a judge, which accepts the preview's quantities; both leave record and table.
    fn hour(&mut self, terms: HourTerms, [entry, exit, title, pooling]: [[i64; USERS]; 4]) -> Result<Outcome, Cause> {
        let amounts = Amounts { entry: &entry, exit: &exit, title: &title, pooling: &pooling };
        let (mut quantity, mut money, mut after, mut scratch) = (self.quantity, self.money, [77; USERS], [77; USERS]);
        let before = (self.day, self.table);
        let outputs = Outputs { quantity: &mut quantity, money: &mut money };
        let seen = preview_hour(&self.day, &self.table, terms, amounts, outputs, &mut after, &mut scratch);
        assert_eq!(judge_hour(&self.day, &self.table, terms, amounts, &quantity), seen.map(|_| ()));
        assert_eq!((self.day, self.table), before);
        let outputs = Outputs { quantity: &mut self.quantity, money: &mut self.money };
        assert_eq!(settle_hour(&mut self.day, &mut self.table, terms, amounts, outputs, &mut [77; USERS]), seen);
        assert_eq!((quantity, money), (self.quantity, self.money));
        if seen.is_ok() {
            assert_eq!(after, self.table[terms.zone as usize * ZONE_PLACES..][..USERS]);
            assert_eq!(scratch, [0; USERS]);
        }
        seen
    }

    fn close(&mut self, zone: i64, excess_price: i64, shortfall_price: i64) -> Result<Sums, Cause> {
        let outputs = Outputs { quantity: &mut self.quantity, money: &mut self.money };
        close_zone(&mut self.day, &mut self.table, ClosingTerms { zone, excess_price, shortfall_price }, outputs)
    }

    /// Places 1, 64, 65 and 66 at 10 kWh, place 2 at -4: a market of 36, 9 above 27. Of the exact shares of 9 / 4 the spare kWh goes to place 1.
    fn excess(&mut self) {
        let amounts = [only([(1, 15), (66, 9)]), only([(1, -5), (2, -3)]), only([(64, 10), (65, 10)]), only([(66, 1), (2, -1)])];
        let outcome = self.hour(terms(0, 1, Thresholds { upper: 27, lower: -1000 }), amounts).unwrap();
        let causers = Causers { first: 2, second: 7, number: 4 };
        assert_eq!(outcome, Outcome::Settled { side: Side::Excess, total: 9, causers });
        assert_eq!(causers.places().collect::<Vec<_>>(), [1, 64, 65, 66]);
        assert_eq!(self.quantity, only([(1, 3), (64, 2), (65, 2), (66, 2)]));
        assert_eq!(self.money, only([(1, 60), (64, 40), (65, 40), (66, 40)]));
        assert_eq!(self.table[..USERS], only([(1, 7), (2, -4), (64, 8), (65, 8), (66, 8)]));
        assert_eq!((self.day.h, self.day.l), (zone_day(1, 0, 9, 0), zone_day(0, 0, 0, 0)));
    }

    /// Place 0 at -8, place 66 at -4: a market of -12, 6 below -6.
    fn shortfall(&mut self) {
        let amounts = [only([]), only([(0, -8)]), only([(66, -4)]), only([])];
        let outcome = self.hour(terms(1, 1, Thresholds { upper: 1000, lower: -6 }), amounts).unwrap();
        let causers = Causers { first: 1, second: 4, number: 2 };
        assert_eq!(outcome, Outcome::Settled { side: Side::Shortfall, total: 6, causers });
        assert_eq!(self.quantity, only([(0, -4), (66, -2)]));
        assert_eq!(self.money, only([(0, -100), (66, -50)]));
        assert_eq!(self.table[ZONE_PLACES..ZONE_PLACES + USERS], only([(0, -4), (66, -2)]));
        assert_eq!((self.day.h, self.day.l), (zone_day(1, 0, 9, 0), zone_day(1, 0, 0, 6)));
    }
}

#[test]
fn both_zones_to_their_closing() {
    [23, 24, 25].into_iter().for_each(worked_day);
}

fn worked_day(length: i64) {
    let mut table = [77; TABLE_PLACES];
    let day = open(USERS as i64, length, &mut table).unwrap();
    let mut worked = Worked { day, table, quantity: [77; USERS], money: [77; USERS] };
    worked.excess();
    worked.shortfall();
    for hour in 2..=length {
        for zone in [0, 1] {
            assert_eq!(worked.close(zone, 0, 0), Err(Cause::Hour));
            assert_eq!(worked.hour(terms(zone, hour, WIDE), [only([]); 4]), Ok(Outcome::Within));
            assert_eq!(worked.quantity, only([]));
            assert_eq!((worked.day.h, worked.day.l), (zone_day(hour, 0, 9, 0), zone_day(hour - 1 + zone, 0, 0, 6)));
        }
    }
    assert_eq!(worked.hour(terms(0, length + 1, WIDE), [only([]); 4]), Err(Cause::Hour));
    assert_eq!(worked.close(0, 30, 35), Ok(Sums { sold: 31, bought: 4 }));
    assert_eq!(worked.quantity, only([(1, 7), (2, -4), (64, 8), (65, 8), (66, 8)]));
    assert_eq!(worked.money, only([(1, 210), (2, -140), (64, 240), (65, 240), (66, 240)]));
    assert_eq!(worked.table[..ZONE_PLACES], [0; ZONE_PLACES]);
    assert_eq!(worked.table[ZONE_PLACES], -4);
    assert_eq!((worked.day.h, worked.day.l), (zone_day(length, 1, 40, 4), zone_day(length, 0, 0, 6)));
    assert_eq!(worked.close(1, 30, -35), Ok(Sums { sold: 0, bought: 6 }));
    assert_eq!(worked.money, only([(0, 140), (66, 70)]));
    assert_eq!(worked.table, [0; TABLE_PLACES]);
    assert_eq!(worked.day, Day { users: USERS as i64, length, h: zone_day(length, 1, 40, 4), l: zone_day(length, 1, 0, 12) });
}

/// Every user comes to the largest position in every hour of the longest day, in the L zone with the other sign, and all is settled but what the wide thresholds of the last
/// hour leave to the closing: 25 times 12,800,000,000 are sold in the one zone and bought in the other. No hour and no closing is refused by cause 25.
#[test]
fn the_largest_totals() {
    let mut table = [0; TABLE_PLACES];
    let mut day = open(128, limits::LENGTH_MOST, &mut table).unwrap();
    let (up, down) = ([limits::ENTRY_MOST; 128], [limits::EXIT_LEAST; 128]);
    let amounts =
        [Amounts { entry: &up, exit: &[0; 128], title: &up, pooling: &[0; 128] }, Amounts { entry: &[0; 128], exit: &down, title: &down, pooling: &[0; 128] }];
    let (mut quantity, mut money) = ([0; 128], [0; 128]);
    for hour in 1..=limits::LENGTH_MOST {
        let thresholds = if hour < limits::LENGTH_MOST { Thresholds { upper: 0, lower: 0 } } else { WIDE };
        for zone in [0, 1] {
            let outputs = Outputs { quantity: &mut quantity, money: &mut money };
            settle_hour(&mut day, &mut table, terms(zone, hour, thresholds), amounts[zone as usize], outputs, &mut [0; 128]).unwrap();
        }
    }
    assert_eq!((day.h, day.l), (zone_day(25, 0, 319_000_000_000, 0), zone_day(25, 0, 0, 319_000_000_000)));
    for zone in [0, 1] {
        let outputs = Outputs { quantity: &mut quantity, money: &mut money };
        close_zone(&mut day, &mut table, ClosingTerms { zone, excess_price: 0, shortfall_price: 0 }, outputs).unwrap();
    }
    assert_eq!((day.h, day.l), (zone_day(25, 1, 320_000_000_000, 0), zone_day(25, 1, 0, 320_000_000_000)));
}

#[test]
fn the_last_hour_of_the_most_users() {
    let lines = (0..128).map(|g| format!("24,L,{g},50000000,0,{g},{}\r\n", 127 - 2 * g)).collect::<String>();
    let (file, [entries, exits, titles, poolings]) = read(format!("h,z,g,EEA,XEA,NCTTN,IPT\r\n{lines}").as_bytes());
    assert_eq!(file, HourFile { hour: 24, zone: 1, lines: 128 });
    assert_eq!((entries, exits), ([50_000_000; 128], [0; 128]));
    assert_eq!((titles[127], poolings[127]), (127, -127));

    let mut day = Day { users: 128, length: limits::LENGTH_USUAL, h: ZoneDay::default(), l: ZoneDay { hours: 23, ..ZoneDay::default() } };
    let (mut table, mut quantity, mut money) = ([0; TABLE_PLACES], [77; 128], [77; 128]);
    let amounts = Amounts { entry: &entries, exit: &exits, title: &[0; 128], pooling: &[0; 128] };
    let outputs = Outputs { quantity: &mut quantity, money: &mut money };
    let terms = terms(file.zone, file.hour, Thresholds { upper: 0, lower: 0 });
    let mut judged = [50_000_000; 128];
    assert_eq!(judge_hour(&day, &table, terms, amounts, &judged), Ok(()));
    for (last, cause) in [(49_999_999, Cause::JudgedShare), (i64::MAX, Cause::JudgedShare), (-1, Cause::JudgedSign)] {
        judged[127] = last;
        assert_eq!(judge_hour(&day, &table, terms, amounts, &judged), Err(cause));
    }
    let outcome = settle_hour(&mut day, &mut table, terms, amounts, outputs, &mut [77; 128]).unwrap();
    let causers = Causers { first: u64::MAX, second: u64::MAX, number: 128 };
    assert_eq!(outcome, Outcome::Settled { side: Side::Excess, total: 6_400_000_000, causers });
    assert_eq!((quantity, money), ([50_000_000; 128], [1_000_000_000; 128]));
    assert_eq!((day.h, day.l), (zone_day(0, 0, 0, 0), zone_day(24, 0, 6_400_000_000, 0)));
    assert!(causers.places().eq(0..128));
    assert!(!causers.has(128) && !causers.has(usize::MAX));
}
