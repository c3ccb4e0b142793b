//! The day record, and opening a day.

use crate::{cause, limits};

/// "The day record is passed by value and holds the user count and, for each zone,
/// the hours done (0 to 24) and whether it is closed." Ask 3: "Opening must be told 23,
/// 24 or 25 and the day record keeps it"; the hours done are then 0 to this length.
/// Ask 7: "Desks ask each hour how much was sold and bought so far. The record shall hold
/// both, per zone, as sizes in kWh, closing included."
#[derive(Clone, Copy, PartialEq, Eq, Debug)]
pub struct Day {
    /// Users in the day, 1 to 128.
    pub users: i64,
    /// Hours of the day, in both zones: 23, 24 or 25.
    pub length: i64,
    /// Hours done in zone 0 (H) and zone 1 (L).
    pub hours: [i64; 2],
    /// Whether zone 0 (H) and zone 1 (L) are closed: 1 or 0, as a number that can be
    /// checked.
    pub closed: [i64; 2],
    /// Sold so far in zone 0 (H) and zone 1 (L), as a size in kWh, closing included.
    pub sold: [i64; 2],
    /// Bought so far in zone 0 (H) and zone 1 (L), as a size in kWh, closing included.
    pub bought: [i64; 2],
}

impl Day {
    /// Whether the zone is closed.
    pub fn is_closed(&self, zone: usize) -> bool {
        self.closed[zone] != 0
    }
}

/// "Opening sets all 256 places to zero and answers a record with no hours done and
/// no zone closed." Ask 3: "Opening must be told 23, 24 or 25 and the day record keeps
/// it." Ask 7: the totals "equal the sums of the positive and of the negative quantities
/// answered since opening", so that they begin at zero. Causes 1, 21 and 3: "21 at opening,
/// after 1 and before 3, if the length is none of these".
pub fn open(users: i64, length: i64, table: &mut [i64]) -> Result<Day, u64> {
    if !limits::USERS.contains(&users) {
        return Err(cause::OPENING_USERS);
    }
    if !limits::LENGTHS.contains(&length) {
        return Err(cause::OPENING_LENGTH);
    }
    if table.len() != limits::TABLE {
        return Err(cause::LENGTH);
    }
    table.fill(0);
    Ok(Day {
        users,
        length,
        hours: [0; 2],
        closed: [0; 2],
        sold: [0; 2],
        bought: [0; 2],
    })
}
