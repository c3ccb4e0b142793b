//! Ways to spoil a call by the totals of its record: by one part of cause 2, or of cause 25. No
//! day leads so far: the records are altered.

use crate::random::Random;
use crate::spoilt::{called, in_use, make_idle, way, Call, Way};
use crate::spoilt_quantities::positions;
use crate::{limits, made_up, Day};

/// One of a zone's two totals.
#[derive(Clone, Copy, PartialEq, Eq, Debug)]
pub enum Total {
    /// What was sold.
    Sold,
    /// What was bought.
    Bought,
}

use Total::{Bought, Sold};

impl Total {
    /// Both.
    pub const ALL: [Total; 2] = [Sold, Bought];

    /// The total of each zone in the record.
    pub fn of(self, day: &mut Day) -> &mut [i64; 2] {
        match self {
            Sold => &mut day.sold,
            Bought => &mut day.bought,
        }
    }

    fn other(self) -> Total {
        match self {
            Sold => Bought,
            Bought => Sold,
        }
    }
}

/// What a call adds to the totals of its zone: sold, and then bought.
pub type Added = [i64; 2];

/// What an hour adds, which is fit but for the totals. Ask 6: "the quantities add to the excess (or to
/// minus the shortfall, or to zero if there is neither)".
pub fn added_by_hour(call: &Call) -> Added {
    let market: i64 = positions(call).iter().sum();
    let terms = &call.amounts.terms;
    [(market - terms.upper).max(0), (terms.lower - market).max(0)]
}

/// The same of a closing: "Each user's quantity is its whole position".
pub fn added_by_closing(call: &Call) -> Added {
    let start = call.zone as usize * limits::PLACES;
    let part = &call.table[start..start + limits::PLACES];
    [1, -1].map(|sign| part.iter().map(|position| (sign * position).max(0)).sum())
}

/// Of the records of all calls.
pub(crate) const RECORD_TOTALS: [Way; 12] = [
    way(2, "sold of H below 0", |r, call| leave_total(r, call, 0, Sold, -1)),
    way(2, "sold of H above the bound", |r, call| leave_total(r, call, 0, Sold, 1)),
    way(2, "bought of H below 0", |r, call| leave_total(r, call, 0, Bought, -1)),
    way(2, "bought of H above the bound", |r, call| leave_total(r, call, 0, Bought, 1)),
    way(2, "sold of L below 0", |r, call| leave_total(r, call, 1, Sold, -1)),
    way(2, "sold of L above the bound", |r, call| leave_total(r, call, 1, Sold, 1)),
    way(2, "bought of L below 0", |r, call| leave_total(r, call, 1, Bought, -1)),
    way(2, "bought of L above the bound", |r, call| leave_total(r, call, 1, Bought, 1)),
    way(2, "sold of H with no hours done", |r, call| fill_total(r, call, 0, Sold)),
    way(2, "bought of H with no hours done", |r, call| fill_total(r, call, 0, Bought)),
    way(2, "sold of L with no hours done", |r, call| fill_total(r, call, 1, Sold)),
    way(2, "bought of L with no hours done", |r, call| fill_total(r, call, 1, Bought)),
];

/// Of hours and of previews.
pub(crate) const HOUR_TOTALS: [Way; 4] = [
    way(25, "sold one past the bound", |_, call| pass_by_one(call, added_by_hour, Sold)),
    way(25, "sold past the bound", |r, call| pass(r, call, added_by_hour, Sold)),
    way(25, "bought one past the bound", |_, call| pass_by_one(call, added_by_hour, Bought)),
    way(25, "bought past the bound", |r, call| pass(r, call, added_by_hour, Bought)),
];

/// Of closings.
pub(crate) const CLOSING_TOTALS: [Way; 5] = [
    way(25, "sold one past the bound", |_, call| pass_by_one(call, added_by_closing, Sold)),
    way(25, "sold past the bound", |r, call| pass(r, call, added_by_closing, Sold)),
    way(25, "bought one past the bound", |_, call| pass_by_one(call, added_by_closing, Bought)),
    way(25, "bought past the bound", |r, call| pass(r, call, added_by_closing, Bought)),
    way(25, "both past the bound", |_, call| Total::ALL.into_iter().for_each(|total| pass_by_one(call, added_by_closing, total))),
];

/// A total of a zone that has hours done is out of its range.
fn leave_total(random: &mut Random, call: &mut Call, zone: usize, total: Total, sign: i64) {
    with_hours(call, zone);
    total.of(&mut call.day)[zone] = made_up::odd_beyond(random, limits::TOTAL, sign);
}

/// A total of a zone that has no hours done, and so nothing in its part of the table, is not zero;
/// now and then the other one is just as much.
fn fill_total(random: &mut Random, call: &mut Call, zone: usize, total: Total) {
    make_idle(call, zone);
    let bound = *limits::TOTAL.end();
    let any = random.between(1, bound);
    let number = random.pick([1, 1, bound, any]);
    total.of(&mut call.day)[zone] = number;
    if random.one_in(3) {
        total.other().of(&mut call.day)[zone] = number;
    }
}

/// The zone has hours done, so that its totals may be other than zero: if it has none, one.
fn with_hours(call: &mut Call, zone: usize) {
    if call.day.hours[zone] == 0 {
        in_use(call, zone);
    }
}

/// The total of the zone that is called comes, by what the call adds, to the bound and so much
/// beyond it, which is no more than that. Whether the call adds anything to it.
pub fn lead(call: &mut Call, added: fn(&Call) -> Added, total: Total, beyond: i64) -> bool {
    let (Some(zone), added) = (called(call), added(call)[total as usize]) else {
        return false;
    };
    if added > 0 {
        with_hours(call, zone);
        total.of(&mut call.day)[zone] = limits::TOTAL.end() - added + beyond;
    }
    added > 0
}

fn pass_by_one(call: &mut Call, added: fn(&Call) -> Added, total: Total) {
    lead(call, added, total, 1);
}

/// The total passes the bound by any number; and those that do not matter may be at it.
fn pass(random: &mut Random, call: &mut Call, added: fn(&Call) -> Added, total: Total) {
    let most = added(call)[total as usize];
    let any = random.between(1, most);
    if lead(call, added, total, random.pick([most, most, any])) {
        lead_others(random, call, added, total);
    }
}

/// The totals that do not matter to the one that was led to the bound are at it, or come to it:
/// the zone's other one, or both of the other zone, or all of these or none.
pub fn lead_others(random: &mut Random, call: &mut Call, added: fn(&Call) -> Added, total: Total) {
    let zone = call.zone as usize;
    if random.one_in(2) {
        let left = limits::TOTAL.end() - added(call)[total.other() as usize];
        total.other().of(&mut call.day)[zone] = left;
    }
    if random.one_in(2) {
        with_hours(call, 1 - zone);
        Total::ALL.into_iter().for_each(|total| total.of(&mut call.day)[1 - zone] = *limits::TOTAL.end());
    }
}
