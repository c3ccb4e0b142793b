//! The hourly balancing settlement of a gas market, recomputed: opening a Gas Day, default thresholds, settling an hour, previewing one and judging an operator's quantities
//! for one, closing a zone, and reading and writing an hour's file. The calls are those of a library that is proved to give exactly the answer that the requirements define,
//! for every input.
//!
//! A call may be given anything. It is refused with the first [`Cause`] that applies, and then everything lent is as it was; or it is accepted, and then the answer and
//! everything lent are what the rules name. No call keeps anything, so calls may run in parallel, each on areas of its own. A call panics only if the library that was
//! linked is not of the version that this crate is written for.
//!
//! Energy is in kWh, a price in millionths of a euro per kWh, money in millionths of a euro. Zones: 0 is H, 1 is L. A user is a place in every list, from 0.
//!
//! ```
//! use gas_day::*;
//!
//! # fn main() -> Result<(), Cause> {
//! let mut table = [0; limits::TABLE_PLACES];
//! let mut day = open(3, 24, &mut table)?;
//! let Thresholds { upper, lower } = default_thresholds(1, 0)?;
//! let terms = HourTerms { zone: 0, hour: 1, upper, lower, excess_price: 20_000, shortfall_price: 25_000 };
//! let amounts = Amounts {
//!     entry: &[30_000_000, 15_000_000, 2_000_000],
//!     exit: &[-10_000_000, -5_000_000, -5_000_000],
//!     title: &[0; 3],
//!     pooling: &[0; 3],
//! };
//! let (mut quantity, mut money) = ([0; 3], [0; 3]);
//! let outputs = Outputs { quantity: &mut quantity, money: &mut money };
//! let outcome = settle_hour(&mut day, &mut table, terms, amounts, outputs, &mut [0; 3])?;
//!
//! let causers = Causers { first: 0b011, second: 0, number: 2 };
//! assert_eq!(outcome, Outcome::Settled { side: Side::Excess, total: 5_000_000, causers });
//! assert_eq!(quantity, [3_333_333, 1_666_667, 0]);
//! assert_eq!(money, [66_666_660_000, 33_333_340_000, 0]);
//! assert_eq!(table[..3], [16_666_667, 8_333_333, -3_000_000]);
//! assert_eq!((day.h.hours, day.h.sold, day.h.bought), (1, 5_000_000, 0));
//! # Ok(())
//! # }
//! ```

#![deny(missing_docs)]

mod boundary;
mod cause;
pub mod limits;

pub use cause::Cause;

use std::sync::atomic::{AtomicBool, Ordering};

/// The version of the interface that this crate is written for. A library of another version has other structs or other calls, and is not called. A call that is added
/// leaves the version as it is; with an older library, which lacks it, this crate is not built.
pub const VERSION: u64 = 3;

/// The day record of one zone. Its totals, sold and bought, are 0 at opening. An accepted hour of the zone adds its total to `sold` in an excess and to `bought` in a
/// shortfall; an accepted closing adds what it sold and bought. An hour, its preview or a closing after which a total of its own zone would be above [`limits::TOTAL_MOST`]
/// is refused by [`Cause::Totals`], its last cause; a total that reaches this is no cause. Only an altered record can lead past it.
#[repr(C)]
#[derive(Clone, Copy, PartialEq, Eq, Hash, Debug, Default)]
pub struct ZoneDay {
    /// The hours done, 0 to the day's length.
    pub hours: i64,
    /// Whether the zone is closed: 0 or 1. A record with another number is refused by [`Cause::Record`].
    pub closed: i64,
    /// What was sold so far, in kWh, as a size: of all accepted hours of the zone and its closing.
    pub sold: i64,
    /// What was bought so far, in kWh, as a size: of all accepted hours of the zone and its closing.
    pub bought: i64,
}

/// The day record. [`open`] answers one, and every accepted hour and closing brings it forward; table and record belong together.
#[repr(C)]
#[derive(Clone, Copy, PartialEq, Eq, Hash, Debug)]
pub struct Day {
    /// The users of the day, 1 to 128.
    pub users: i64,
    /// The hours that the day has: 23, 24 or 25.
    pub length: i64,
    /// The H zone, which is zone 0.
    pub h: ZoneDay,
    /// The L zone, which is zone 1.
    pub l: ZoneDay,
}

/// The two thresholds of an hour.
#[derive(Clone, Copy, PartialEq, Eq, Hash, Debug)]
pub struct Thresholds {
    /// A market above it is an excess.
    pub upper: i64,
    /// A market below it is a shortfall.
    pub lower: i64,
}

/// What an hour is told besides its lists.
#[repr(C)]
#[derive(Clone, Copy, PartialEq, Eq, Hash, Debug)]
pub struct HourTerms {
    /// 0 for H, 1 for L.
    pub zone: i64,
    /// The hours done in the zone, plus 1.
    pub hour: i64,
    /// The upper threshold.
    pub upper: i64,
    /// The lower threshold.
    pub lower: i64,
    /// The price of a quantity that a user sells.
    pub excess_price: i64,
    /// The price of a quantity that a user buys.
    pub shortfall_price: i64,
}

/// The amounts of an hour, one of each kind for every user.
#[derive(Clone, Copy, PartialEq, Eq, Hash, Debug)]
pub struct Amounts<'a> {
    /// Entry (EEA).
    pub entry: &'a [i64],
    /// Exit (XEA), which is 0 or less.
    pub exit: &'a [i64],
    /// Net title transfer (NCTTN).
    pub title: &'a [i64],
    /// Pooling transfer (IPT).
    pub pooling: &'a [i64],
}

/// The lists that an hour, a preview or a closing fills, one number for every user.
#[derive(PartialEq, Eq, Hash, Debug)]
pub struct Outputs<'a> {
    /// In kWh: positive where the user sells, negative where it buys.
    pub quantity: &'a mut [i64],
    /// In millionths of a euro: positive money is paid to the user.
    pub money: &'a mut [i64],
}

/// The side of its thresholds on which the market was.
#[derive(Clone, Copy, PartialEq, Eq, Hash, Debug)]
pub enum Side {
    /// Above the upper threshold.
    Excess,
    /// Below the lower threshold.
    Shortfall,
}

/// Who caused an excess or a shortfall.
#[derive(Clone, Copy, PartialEq, Eq, Hash, Debug)]
pub struct Causers {
    /// The marks of places 0 to 63, place 0 at the lowest bit.
    pub first: u64,
    /// The marks of places 64 to 127, place 64 at the lowest bit.
    pub second: u64,
    /// The number of marks.
    pub number: u64,
}

impl Causers {
    /// Whether the user of this place is a causer.
    pub fn has(self, place: usize) -> bool {
        match place {
            0..=63 => self.first >> place & 1 == 1,
            64..=127 => self.second >> (place - 64) & 1 == 1,
            _ => false,
        }
    }

    /// The causers' places, upwards.
    ///
    /// ```
    /// let causers = gas_day::Causers { first: 0b1001, second: 0b1, number: 3 };
    /// assert_eq!(causers.places().collect::<Vec<_>>(), [0, 3, 64]);
    /// assert!(causers.has(3) && !causers.has(4));
    /// ```
    pub fn places(self) -> impl Iterator<Item = usize> {
        (0..limits::ZONE_PLACES).filter(move |&place| self.has(place))
    }
}

/// What became of an accepted hour.
#[derive(Clone, Copy, PartialEq, Eq, Hash, Debug)]
pub enum Outcome {
    /// The market was within its thresholds: every quantity is 0.
    Within,
    /// The market was outside of them and was settled.
    Settled {
        /// The side of the thresholds.
        side: Side,
        /// How far outside, in kWh, as a size.
        total: i64,
        /// Who caused it.
        causers: Causers,
    },
}

/// What a closing is told besides its lists.
#[repr(C)]
#[derive(Clone, Copy, PartialEq, Eq, Hash, Debug)]
pub struct ClosingTerms {
    /// 0 for H, 1 for L.
    pub zone: i64,
    /// The day's price of a position above zero.
    pub excess_price: i64,
    /// The day's price of a position below zero.
    pub shortfall_price: i64,
}

/// The two sums of an accepted closing, by the closing alone.
#[derive(Clone, Copy, PartialEq, Eq, Hash, Debug)]
pub struct Sums {
    /// What the users sold, in kWh, as a size.
    pub sold: i64,
    /// What the users bought, in kWh, as a size.
    pub bought: i64,
}

/// The four lists of the reader, of 128 places each.
#[derive(PartialEq, Eq, Hash, Debug)]
pub struct FileLists<'a> {
    /// Gets the entries (EEA).
    pub entries: &'a mut [i64],
    /// Gets the exits (XEA).
    pub exits: &'a mut [i64],
    /// Gets the net title transfers (NCTTN).
    pub titles: &'a mut [i64],
    /// Gets the pooling transfers (IPT).
    pub poolings: &'a mut [i64],
}

/// What an hour's file says besides its amounts.
#[derive(Clone, Copy, PartialEq, Eq, Hash, Debug)]
pub struct HourFile {
    /// The hour.
    pub hour: i64,
    /// The zone: 0 for H, 1 for L.
    pub zone: i64,
    /// The number of lines after the header, 1 to 128: so many places of each list were filled.
    pub lines: usize,
}

// Safety of the calls below. What the header asks of a caller is what slices are: each a pointer to as many places as its length, which may be read and, if it is `&mut`,
// written; and two of which one is `&mut` do not overlap. The structs are the header's if the library is of the header's version, which every call looks at first.

fn look_at_version() {
    static SEEN: AtomicBool = AtomicBool::new(false);
    if !SEEN.load(Ordering::Relaxed) {
        let found = version();
        assert!(found == VERSION, "the gas_day library is of version {found}, and this crate is written for version {VERSION}");
        SEEN.store(true, Ordering::Relaxed);
    }
}

fn accepted(cause: u64) -> Result<(), Cause> {
    match cause {
        0 => Ok(()),
        number => Err(Cause::of(number).unwrap_or_else(|| panic!("a library of this version answers no cause {number}"))),
    }
}

/// The version of the interface that the linked library has.
///
/// ```
/// assert_eq!(gas_day::version(), gas_day::VERSION);
/// ```
pub fn version() -> u64 {
    // SAFETY: every version has this call.
    unsafe { boundary::gas_day_version() }
}

/// Opens a Gas Day for so many users, of 23, 24 or 25 hours: sets all 256 places of the table to zero and answers the record, which keeps the length. Causes 1, 21 and 3.
///
/// ```
/// use gas_day::*;
/// let mut table = [7; limits::TABLE_PLACES];
/// assert_eq!(open(129, 24, &mut table), Err(Cause::Users));
/// assert_eq!(open(128, 26, &mut table), Err(Cause::DayLength));
/// assert_eq!(table, [7; limits::TABLE_PLACES]);
/// let day = open(128, 25, &mut table).unwrap();
/// assert_eq!((day.users, day.length), (128, 25));
/// assert_eq!(table, [0; limits::TABLE_PLACES]);
/// ```
pub fn open(users: i64, length: i64, table: &mut [i64]) -> Result<Day, Cause> {
    look_at_version();
    // SAFETY: above.
    let opened = unsafe { boundary::gas_day_open(users, length, table.as_mut_ptr(), table.len()) };
    accepted(opened.cause)?;
    Ok(opened.day)
}

/// The default thresholds of a month (1 to 12) and a zone. Causes 4 and 8.
///
/// ```
/// let july = gas_day::default_thresholds(7, 0).unwrap();
/// assert_eq!((july.upper, july.lower), (30_000_000, -30_000_000));
/// ```
pub fn default_thresholds(month: i64, zone: i64) -> Result<Thresholds, Cause> {
    look_at_version();
    // SAFETY: above.
    let defaults = unsafe { boundary::gas_day_default_thresholds(month, zone) };
    accepted(defaults.cause)?;
    Ok(Thresholds { upper: defaults.upper, lower: defaults.lower })
}

/// Settles an hour: fills quantity and money, puts the positions after into the users' places of the zone, sets the scratch to zero and brings the record an hour
/// forward, with what was sold or bought added to the zone's totals. The table has 256 places; every list and the scratch has as many as the record has users. Causes 2 to
/// 11, then 25; refused, everything lent is as it was, the record too.
///
/// ```
/// use gas_day::*;
/// let mut table = [0; limits::TABLE_PLACES];
/// let mut day = open(1, 24, &mut table).unwrap();
/// let terms = HourTerms { zone: 1, hour: 2, upper: 0, lower: 0, excess_price: 20_000, shortfall_price: 25_000 };
/// let amounts = Amounts { entry: &[0], exit: &[-5], title: &[0], pooling: &[0] };
/// let (mut quantity, mut money, mut scratch) = ([0], [0], [0]);
///
/// let outputs = Outputs { quantity: &mut quantity, money: &mut money };
/// let refused = settle_hour(&mut day, &mut table, terms, amounts, outputs, &mut scratch);
/// assert_eq!(refused, Err(Cause::Hour)); // hour 1 was not done
///
/// let first = HourTerms { hour: 1, ..terms };
/// let outputs = Outputs { quantity: &mut quantity, money: &mut money };
/// settle_hour(&mut day, &mut table, first, amounts, outputs, &mut scratch).unwrap();
/// assert_eq!((quantity, money), ([-5], [-125_000]));
/// assert_eq!((day.l.sold, day.l.bought), (0, 5));
/// ```
pub fn settle_hour(
    day: &mut Day,
    table: &mut [i64],
    terms: HourTerms,
    amounts: Amounts<'_>,
    outputs: Outputs<'_>,
    scratch: &mut [u64],
) -> Result<Outcome, Cause> {
    look_at_version();
    let Amounts { entry, exit, title, pooling } = amounts;
    let Outputs { quantity, money } = outputs;
    // SAFETY: above.
    let hour = unsafe {
        boundary::gas_day_settle_hour(
            *day,
            table.as_mut_ptr(),
            table.len(),
            terms,
            entry.as_ptr(),
            entry.len(),
            exit.as_ptr(),
            exit.len(),
            title.as_ptr(),
            title.len(),
            pooling.as_ptr(),
            pooling.len(),
            quantity.as_mut_ptr(),
            quantity.len(),
            money.as_mut_ptr(),
            money.len(),
            scratch.as_mut_ptr(),
            scratch.len(),
        )
    };
    accepted(hour.cause)?;
    *day = hour.day;
    Ok(outcome(&hour))
}

fn outcome(hour: &boundary::Hour) -> Outcome {
    let side = match hour.side {
        0 => return Outcome::Within,
        1 => Side::Excess,
        2 => Side::Shortfall,
        other => panic!("a library of this version answers no side {other}"),
    };
    Outcome::Settled { side, total: hour.total, causers: Causers { first: hour.first, second: hour.second, number: hour.number } }
}

/// Shows an hour before it is booked: fills quantity and money and answers what [`settle_hour`] would, puts the users' positions after the hour into `after`, and sets the
/// scratch to zero. Table and record are only read, so the hour can be previewed with other amounts before it is settled. The table has 256 places; every list and
/// the scratch has as many as the record has users. Causes 2 to 11, then 25, as of an hour; refused, everything lent is as it was.
///
/// ```
/// use gas_day::*;
/// let mut table = [0; limits::TABLE_PLACES];
/// let mut day = open(2, 24, &mut table).unwrap();
/// let terms = HourTerms { zone: 0, hour: 1, upper: 4, lower: 0, excess_price: 20_000, shortfall_price: 25_000 };
/// let amounts = Amounts { entry: &[9, 0], exit: &[0, -2], title: &[0; 2], pooling: &[0; 2] };
/// let (mut quantity, mut money, mut after) = ([0; 2], [0; 2], [0; 2]);
///
/// let before = (day, table);
/// let outputs = Outputs { quantity: &mut quantity, money: &mut money };
/// let seen = preview_hour(&day, &table, terms, amounts, outputs, &mut after, &mut [0; 2]).unwrap();
/// assert_eq!((quantity, money, after), ([3, 0], [60_000, 0], [6, -2]));
/// assert_eq!((day, table), before);
///
/// let outputs = Outputs { quantity: &mut quantity, money: &mut money };
/// assert_eq!(settle_hour(&mut day, &mut table, terms, amounts, outputs, &mut [0; 2]), Ok(seen));
/// assert_eq!((quantity, money), ([3, 0], [60_000, 0]));
/// assert_eq!((day.h.hours, &table[..2]), (1, &after[..]));
/// ```
pub fn preview_hour(
    day: &Day,
    table: &[i64],
    terms: HourTerms,
    amounts: Amounts<'_>,
    outputs: Outputs<'_>,
    after: &mut [i64],
    scratch: &mut [u64],
) -> Result<Outcome, Cause> {
    look_at_version();
    let Amounts { entry, exit, title, pooling } = amounts;
    let Outputs { quantity, money } = outputs;
    // SAFETY: above.
    let seen = unsafe {
        boundary::gas_day_preview_hour(
            *day,
            table.as_ptr(),
            table.len(),
            terms,
            entry.as_ptr(),
            entry.len(),
            exit.as_ptr(),
            exit.len(),
            title.as_ptr(),
            title.len(),
            pooling.as_ptr(),
            pooling.len(),
            quantity.as_mut_ptr(),
            quantity.len(),
            money.as_mut_ptr(),
            money.len(),
            after.as_mut_ptr(),
            after.len(),
            scratch.as_mut_ptr(),
            scratch.len(),
        )
    };
    accepted(seen.cause)?;
    Ok(outcome(&seen))
}

/// Judges an operator's own quantities for an hour, which may be rounded in another way than those of [`settle_hour`] and still be right; those are accepted too. They have
/// to add to the excess, or to minus the shortfall, or to zero if there is neither; only causers have any, with the right sign, and each is less than 1 kWh from the exact
/// share. Everything is only read. The table has 256 places; every list has as many as the record has users. Causes 2 to 11, as of an hour; then 22, 23 and 24, each
/// looked at for every user before the next; not 25, since nothing is added to the record.
///
/// ```
/// use gas_day::*;
/// let mut table = [0; limits::TABLE_PLACES];
/// let day = open(3, 24, &mut table).unwrap();
/// let terms = HourTerms { zone: 0, hour: 1, upper: 1, lower: 0, excess_price: 20_000, shortfall_price: 25_000 };
/// let amounts = Amounts { entry: &[1; 3], exit: &[0; 3], title: &[0; 3], pooling: &[0; 3] };
/// let judge = |quantity: &[i64]| judge_hour(&day, &table, terms, amounts, quantity);
///
/// assert_eq!(judge(&[1, 1, 0]), Ok(())); // as the hour is settled: an excess of 2, of which each share is 2/3
/// assert_eq!(judge(&[0, 1, 1]), Ok(()));
/// assert_eq!(judge(&[2, 1, -1]), Err(Cause::JudgedSign));
/// assert_eq!(judge(&[2, 0, 0]), Err(Cause::JudgedShare));
/// assert_eq!(judge(&[1, 1, 1]), Err(Cause::JudgedSum));
/// ```
pub fn judge_hour(day: &Day, table: &[i64], terms: HourTerms, amounts: Amounts<'_>, quantity: &[i64]) -> Result<(), Cause> {
    look_at_version();
    let Amounts { entry, exit, title, pooling } = amounts;
    // SAFETY: above.
    let judged = unsafe {
        boundary::gas_day_judge_hour(
            *day,
            table.as_ptr(),
            table.len(),
            terms,
            entry.as_ptr(),
            entry.len(),
            exit.as_ptr(),
            exit.len(),
            title.as_ptr(),
            title.len(),
            pooling.as_ptr(),
            pooling.len(),
            quantity.as_ptr(),
            quantity.len(),
        )
    };
    accepted(judged.cause)
}

/// Closes a zone after all hours of its day: fills quantity and money with each user's whole position and its price, sets the zone's places to zero and marks the zone closed in
/// the record, with what was sold and bought added to the zone's totals. Causes 2 to 8, then 25; refused, everything lent is as it was, the record too.
///
/// ```
/// use gas_day::*;
/// let mut table = [0; limits::TABLE_PLACES];
/// table[..2].copy_from_slice(&[2, -2]);
/// let mut day = Day { users: 2, length: 24, h: ZoneDay { hours: 24, sold: 5, ..ZoneDay::default() }, l: ZoneDay::default() };
/// let (mut quantity, mut money) = ([0; 2], [0; 2]);
/// let outputs = Outputs { quantity: &mut quantity, money: &mut money };
/// let terms = ClosingTerms { zone: 0, excess_price: 20_000, shortfall_price: 25_000 };
/// let closed = close_zone(&mut day, &mut table, terms, outputs).unwrap();
/// assert_eq!((closed.sold, closed.bought), (2, 2));
/// assert_eq!(money, [40_000, -50_000]);
/// assert_eq!(day.h, ZoneDay { hours: 24, closed: 1, sold: 7, bought: 2 });
/// ```
pub fn close_zone(day: &mut Day, table: &mut [i64], terms: ClosingTerms, outputs: Outputs<'_>) -> Result<Sums, Cause> {
    look_at_version();
    let Outputs { quantity, money } = outputs;
    // SAFETY: above.
    let closing = unsafe {
        boundary::gas_day_close_zone(*day, table.as_mut_ptr(), table.len(), terms, quantity.as_mut_ptr(), quantity.len(), money.as_mut_ptr(), money.len())
    };
    accepted(closing.cause)?;
    *day = closing.day;
    Ok(Sums { sold: closing.sold, bought: closing.bought })
}

/// Reads an hour's file: fills as many places of each list as there are lines after the header, and touches no others. Causes 12 to 17.
///
/// ```
/// use gas_day::*;
/// let [mut entries, mut exits, mut titles, mut poolings] = [[0; limits::FILE_PLACES]; 4];
/// let lists = FileLists { entries: &mut entries, exits: &mut exits, titles: &mut titles, poolings: &mut poolings };
/// let file = read_hour_file(b"h,z,g,EEA,XEA,NCTTN,IPT\r\n1,L,0,14000000,0,0,0\r\n", lists).unwrap();
/// assert_eq!(file, HourFile { hour: 1, zone: 1, lines: 1 });
/// assert_eq!(entries[..file.lines], [14_000_000]);
/// ```
///
/// The lists are in kWh. An amount of the file that has a point is in MWh, and has [`limits::FILE_MWH_DECIMALS`] decimals; another number of them is cause 15:
///
/// ```
/// use gas_day::*;
/// let [mut entries, mut exits, mut titles, mut poolings] = [[0; limits::FILE_PLACES]; 4];
/// let mut read = |line: &str| {
///     let lists = FileLists { entries: &mut entries, exits: &mut exits, titles: &mut titles, poolings: &mut poolings };
///     let file = format!("h,z,g,EEA,XEA,NCTTN,IPT\r\n{line}\r\n");
///     read_hour_file(file.as_bytes(), lists).map(|_| [entries[0], exits[0], titles[0], poolings[0]])
/// };
/// assert_eq!(read("1,L,0,14000.000,-0.005,0,12"), Ok([14_000_000, -5, 0, 12]));
/// assert_eq!(read("1,L,0,14000.00,0,0,0"), Err(Cause::FileField));
/// ```
pub fn read_hour_file(file: &[u8], lists: FileLists<'_>) -> Result<HourFile, Cause> {
    look_at_version();
    let FileLists { entries, exits, titles, poolings } = lists;
    // SAFETY: above.
    let read = unsafe {
        boundary::gas_day_read_hour_file(
            file.as_ptr(),
            file.len(),
            entries.as_mut_ptr(),
            entries.len(),
            exits.as_mut_ptr(),
            exits.len(),
            titles.as_mut_ptr(),
            titles.len(),
            poolings.as_mut_ptr(),
            poolings.len(),
        )
    };
    accepted(read.cause)?;
    Ok(HourFile { hour: read.hour, zone: read.zone, lines: read.lines as usize })
}

/// Writes an hour's file into the first of the lent bytes and answers how many those are; the others are as they were. Every line ends in CR LF. Causes 18 to 20;
/// [`limits::WRITE_BYTES_MOST`] bytes are enough for every file, and so are exactly as many as the text has.
///
/// ```
/// use gas_day::*;
/// let amounts = Amounts { entry: &[14_000_000], exit: &[0], title: &[0], pooling: &[-5] };
/// let mut file = [0; limits::WRITE_BYTES_MOST];
/// let bytes = write_hour_file(1, 1, 1, amounts, &mut file).unwrap();
/// assert_eq!(file[..bytes], *b"h,z,g,EEA,XEA,NCTTN,IPT\r\n1,L,0,14000000,0,0,-5\r\n");
///
/// assert_eq!(write_hour_file(1, 1, 2, amounts, &mut file), Err(Cause::WriteCount)); // not two users
/// assert_eq!(write_hour_file(1, 1, 1, amounts, &mut file[..bytes - 1]), Err(Cause::WriteRoom));
/// ```
pub fn write_hour_file(hour: i64, zone: i64, users: i64, amounts: Amounts<'_>, file: &mut [u8]) -> Result<usize, Cause> {
    look_at_version();
    let Amounts { entry, exit, title, pooling } = amounts;
    // SAFETY: above.
    let written = unsafe {
        boundary::gas_day_write_hour_file(
            hour,
            zone,
            users,
            entry.as_ptr(),
            entry.len(),
            exit.as_ptr(),
            exit.len(),
            title.as_ptr(),
            title.len(),
            pooling.as_ptr(),
            pooling.len(),
            file.as_mut_ptr(),
            file.len(),
        )
    };
    accepted(written.cause)?;
    Ok(written.bytes as usize)
}
