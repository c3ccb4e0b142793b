use std::error::Error;
use std::fmt;

/// Why a call was turned away: the first cause that applies, in the order of their numbers, but for 21, which comes after 1 and before 3.
///
/// Its number is `cause as u64` or [`Cause::number`], its words are those of the requirements (of 2, 6 and 21 made of them, since the day has a length and totals; 23 has
/// "a quantity" for their "one"), and it prints as both.
///
/// ```
/// use gas_day::Cause;
/// let cause = gas_day::default_thresholds(13, 0).unwrap_err();
/// assert_eq!(cause, Cause::Terms);
/// assert_eq!(cause.number(), 8);
/// assert_eq!(cause.to_string(), "cause 8: threshold or price out of range; month not 1 to 12");
/// ```
#[derive(Clone, Copy, PartialEq, Eq, PartialOrd, Ord, Hash, Debug)]
#[repr(u64)]
#[non_exhaustive]
pub enum Cause {
    /// Opening: user count not 1 to 128.
    Users = 1,
    /// Record's user count not 1 to 128, length not 23, 24 or 25, hours not 0 to the length, a zone closed with fewer than the length, a zone with no hours done whose
    /// totals are not zero, or a total below zero or above 332,800,000,000; or `closed` not 0 or 1.
    Record = 2,
    /// Table not of 256 places, or a list or the scratch not of exactly the user count.
    Length = 3,
    /// Zone not 0 or 1.
    Zone = 4,
    /// Zone closed.
    Closed = 5,
    /// Hour is not hours done plus 1, or above the day's length; at closing, hours done below it.
    Hour = 6,
    /// Table holds a position outside its range, a non-zero place at or beyond the user count in either zone, or a non-zero place in a zone that is closed or has
    /// no hours done.
    Table = 7,
    /// Threshold or price out of range; month not 1 to 12.
    Terms = 8,
    /// An amount out of range.
    Amount = 9,
    /// Pooling amounts do not add to zero.
    Pooling = 10,
    /// A position before settlement out of range.
    Position = 11,
    /// A reader's list not of 128 places.
    FileLength = 12,
    /// Header differs.
    FileHeader = 13,
    /// A line's form or field count.
    FileForm = 14,
    /// A field's number or zone letter.
    FileField = 15,
    /// h or z differs from the first line, or g is not the next place below 128.
    FileOrder = 16,
    /// No line after the header.
    FileEmpty = 17,
    /// The count is not 1 to 128, the zone not 0 or 1, or a list is not of the count's length.
    WriteCount = 18,
    /// The hour or an amount has more than nine digits or the hour is negative.
    WriteNumber = 19,
    /// The lent bytes are too few.
    WriteRoom = 20,
    /// Opening: length not 23, 24 or 25.
    DayLength = 21,
    /// A user who did not cause has a quantity or a causer's has the wrong sign.
    JudgedSign = 22,
    /// A quantity is 1 kWh or more off.
    JudgedShare = 23,
    /// The sum is wrong.
    JudgedSum = 24,
    /// A total would pass the bound.
    Totals = 25,
}

impl Cause {
    /// Every cause, in the order of their numbers.
    pub const ALL: &'static [Cause] = &[
        Cause::Users,
        Cause::Record,
        Cause::Length,
        Cause::Zone,
        Cause::Closed,
        Cause::Hour,
        Cause::Table,
        Cause::Terms,
        Cause::Amount,
        Cause::Pooling,
        Cause::Position,
        Cause::FileLength,
        Cause::FileHeader,
        Cause::FileForm,
        Cause::FileField,
        Cause::FileOrder,
        Cause::FileEmpty,
        Cause::WriteCount,
        Cause::WriteNumber,
        Cause::WriteRoom,
        Cause::DayLength,
        Cause::JudgedSign,
        Cause::JudgedShare,
        Cause::JudgedSum,
        Cause::Totals,
    ];

    /// The cause's number in the requirements.
    pub const fn number(self) -> u64 {
        self as u64
    }

    /// The cause of a number; `None` if no cause has it.
    ///
    /// ```
    /// use gas_day::Cause;
    /// assert_eq!(Cause::of(5), Some(Cause::Closed));
    /// assert_eq!(Cause::of(0), None);
    /// ```
    pub fn of(number: u64) -> Option<Cause> {
        Cause::ALL.iter().copied().find(|cause| cause.number() == number)
    }

    /// The cause in the words of the requirements.
    pub const fn words(self) -> &'static str {
        match self {
            Cause::Users => "opening: user count not 1 to 128",
            Cause::Record => concat!(
                "record's user count not 1 to 128, length not 23, 24 or 25, hours not 0 to the length, a zone closed with fewer than the length, ",
                "a zone with no hours done whose totals are not zero, or a total below zero or above 332,800,000,000"
            ),
            Cause::Length => "table not of 256 places, or a list or the scratch not of exactly the user count",
            Cause::Zone => "zone not 0 or 1",
            Cause::Closed => "zone closed",
            Cause::Hour => "hour is not hours done plus 1, or above the day's length; at closing, hours done below it",
            Cause::Table => concat!(
                "table holds a position outside its range, a non-zero place at or beyond the user count in either zone, ",
                "or a non-zero place in a zone that is closed or has no hours done"
            ),
            Cause::Terms => "threshold or price out of range; month not 1 to 12",
            Cause::Amount => "an amount out of range",
            Cause::Pooling => "pooling amounts do not add to zero",
            Cause::Position => "a position before settlement out of range",
            Cause::FileLength => "a reader's list not of 128 places",
            Cause::FileHeader => "header differs",
            Cause::FileForm => "a line's form or field count",
            Cause::FileField => "a field's number or zone letter",
            Cause::FileOrder => "h or z differs from the first line, or g is not the next place below 128",
            Cause::FileEmpty => "no line after the header",
            Cause::WriteCount => "the count is not 1 to 128, the zone not 0 or 1, or a list is not of the count's length",
            Cause::WriteNumber => "the hour or an amount has more than nine digits or the hour is negative",
            Cause::WriteRoom => "the lent bytes are too few",
            Cause::DayLength => "opening: length not 23, 24 or 25",
            Cause::JudgedSign => "a user who did not cause has a quantity or a causer's has the wrong sign",
            Cause::JudgedShare => "a quantity is 1 kWh or more off",
            Cause::JudgedSum => "the sum is wrong",
            Cause::Totals => "a total would pass the bound",
        }
    }
}

impl fmt::Display for Cause {
    fn fmt(&self, to: &mut fmt::Formatter<'_>) -> fmt::Result {
        write!(to, "cause {}: {}", self.number(), self.words())
    }
}

impl Error for Cause {}
