//! The causes for turning a call away, by the paper's numbers.

/// Opening: user count not 1 to 128.
pub const OPENING_USERS: u64 = 1;
/// Record's user count not 1 to 128, hours not 0 to 24, or a zone closed with
/// fewer than 24. Ask 3: "Causes 2 and 6 read that length in the place of 24, for both
/// zones", and "cause 2 also covers a record with another length". Ask 7: "Cause 2 also
/// covers a zone with no hours done whose totals are not zero, and a total below zero or
/// above 332,800,000,000."
pub const RECORD: u64 = 2;
/// Table not of 256 places, or a list or the scratch not of exactly the user count. Ask 5,
/// of a preview's positions after: "cause 3 covers the new list". Ask 6, of the operator's
/// quantity list: "3 also for that list".
pub const LENGTH: u64 = 3;
/// Zone not 0 or 1.
pub const ZONE: u64 = 4;
/// Zone closed.
pub const CLOSED: u64 = 5;
/// Hour is not hours done plus 1, or above 24; at closing, hours done below 24. Ask 3:
/// "Causes 2 and 6 read that length in the place of 24, for both zones."
pub const HOUR: u64 = 6;
/// Table holds a position outside its range, a non-zero place at or beyond the
/// user count in either zone, or a non-zero place in a zone that is closed or has
/// no hours done.
pub const TABLE: u64 = 7;
/// Threshold or price out of range; month not 1 to 12.
pub const TERMS: u64 = 8;
/// An amount out of range.
pub const AMOUNT: u64 = 9;
/// Pooling amounts do not add to zero.
pub const POOLING: u64 = 10;
/// A position before settlement out of range.
pub const POSITION: u64 = 11;
/// A reader's list not of 128 places.
pub const READER_LIST: u64 = 12;
/// Header differs.
pub const HEADER: u64 = 13;
/// A line's form or field count.
pub const LINE: u64 = 14;
/// A field's number or zone letter.
pub const FIELD: u64 = 15;
/// h or z differs from the first line, or g is not the next place below 128.
pub const SEQUENCE: u64 = 16;
/// No line after the header.
pub const NO_LINE: u64 = 17;
/// The count is not 1 to 128, the zone not 0 or 1, or a list is not of the count's
/// length.
pub const WRITER_COUNT: u64 = 18;
/// The hour or an amount has more than nine digits or the hour is negative.
pub const WRITER_NUMBER: u64 = 19;
/// The lent bytes are too few.
pub const WRITER_ROOM: u64 = 20;
/// At opening, after 1 and before 3: the length is none of these, "23, 24 or 25".
pub const OPENING_LENGTH: u64 = 21;
/// "a user who did not cause has a quantity or a causer's has the wrong sign".
pub const JUDGED_SIGN: u64 = 22;
/// "one is 1 kWh or more off", which is looked at after 22.
pub const JUDGED_SHARE: u64 = 23;
/// "the sum is wrong", which is looked at last.
pub const JUDGED_SUM: u64 = 24;
/// "last of all causes of an hour, a preview and a closing, if a total would pass the
/// bound."
pub const TOTALS: u64 = 25;
