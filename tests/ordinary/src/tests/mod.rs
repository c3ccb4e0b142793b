//! Tests: the papers' cases, the edges that they name, and every cause.

mod cases;
mod causes;
mod edges;
mod judge;
mod lengths;
mod made_up;
mod preview;
mod reader;
mod spoilt;
mod totals;
mod writer;

use crate::made_up::Hour;
use crate::{close_zone, judge_hour, open, preview_hour, settle_hour, Day, Outcome, Side, Terms};

/// Thresholds and prices of zero: "a threshold or price not named is 0".
const NONE: Terms = Terms {
    upper: 0,
    lower: 0,
    excess_price: 0,
    shortfall_price: 0,
};

/// A record with all that is lent to hours, previews and closings.
#[derive(Clone, PartialEq, Debug)]
struct Bench {
    day: Day,
    table: Vec<i64>,
    quantity: Vec<i64>,
    money: Vec<i64>,
    after: Vec<i64>,
    scratch: Vec<u64>,
}

impl Bench {
    /// A day just opened, its lent lists full of old numbers: "The cases and the program
    /// have length 24."
    fn opened(users: usize) -> Bench {
        Bench::of_length(users, 24)
    }

    /// The same of a day of this length.
    fn of_length(users: usize, length: i64) -> Bench {
        let mut table = vec![77; 256];
        let day = open(users as i64, length, &mut table).unwrap();
        Bench {
            day,
            table,
            quantity: vec![71; users],
            money: vec![72; users],
            after: vec![74; users],
            scratch: vec![73; users],
        }
    }

    fn users(&self) -> usize {
        self.day.users as usize
    }

    /// The record with the quantities of an accepted call added to the zone's totals.
    fn added(&self, zone: i64) -> Day {
        let mut day = self.day;
        for &quantity in &self.quantity {
            let totals = if quantity > 0 { &mut day.sold } else { &mut day.bought };
            totals[zone as usize] += quantity.abs();
        }
        day
    }

    /// Runs an hour. If refused, checks that all is as it was; if accepted, that the
    /// scratch is zero, that the record has an hour more and the totals with the
    /// quantities, and that nothing else of it and of the table has changed.
    fn hour(&mut self, zone: i64, hour: i64, given: &Hour) -> Result<Outcome, u64> {
        let old = self.clone();
        let answer = settle_hour(
            self.day,
            &mut self.table,
            zone,
            hour,
            &given.entry,
            &given.exit,
            &given.title,
            &given.pooling,
            given.terms,
            &mut self.quantity,
            &mut self.money,
            &mut self.scratch,
        );
        match answer {
            Err(cause) => {
                assert_eq!(*self, old);
                Err(cause)
            }
            Ok((day, outcome)) => {
                let mut expected = self.added(zone);
                expected.hours[zone as usize] += 1;
                assert_eq!(day, expected);
                self.day = day;
                assert!(self.scratch.iter().all(|&place| place == 0));
                self.check_untouched(&old, zone);
                Ok(outcome)
            }
        }
    }

    /// Previews an hour. If refused, checks that all is as it was; if accepted, that record and
    /// table are, and "The answer and lists are those that settling a copy would give".
    fn preview(&mut self, zone: i64, hour: i64, given: &Hour) -> Result<Outcome, u64> {
        let old = self.clone();
        let answer = preview_hour(
            self.day,
            &self.table,
            zone,
            hour,
            &given.entry,
            &given.exit,
            &given.title,
            &given.pooling,
            given.terms,
            &mut self.quantity,
            &mut self.money,
            &mut self.after,
            &mut self.scratch,
        );
        match answer {
            Err(cause) => {
                assert_eq!(*self, old);
                Err(cause)
            }
            Ok((day, outcome)) => {
                assert_eq!((day, &self.table), (old.day, &old.table));
                let mut copy = old;
                assert_eq!(copy.hour(zone, hour, given), Ok(outcome));
                let start = zone as usize * 128;
                copy.after.copy_from_slice(&copy.table[start..start + self.users()]);
                (copy.day, copy.table) = (self.day, self.table.clone());
                assert_eq!(*self, copy);
                Ok(outcome)
            }
        }
    }

    /// Judges these quantities for an hour: an accepted call answers "the record [...]
    /// unchanged".
    fn judge(&self, zone: i64, hour: i64, given: &Hour, quantity: &[i64]) -> Result<(), u64> {
        let answer = judge_hour(
            self.day,
            &self.table,
            zone,
            hour,
            &given.entry,
            &given.exit,
            &given.title,
            &given.pooling,
            given.terms,
            quantity,
        );
        answer.map(|day| assert_eq!(day, self.day))
    }

    /// An hour after its preview, which has the same answer.
    fn previewed_hour(&mut self, zone: i64, hour: i64, given: &Hour) -> Result<Outcome, u64> {
        let previewed = self.preview(zone, hour, given);
        let answer = self.hour(zone, hour, given);
        assert_eq!(answer, previewed);
        answer
    }

    /// Closes a zone, with the same checks.
    fn close(&mut self, zone: i64, prices: (i64, i64)) -> Result<(i64, i64), u64> {
        let old = self.clone();
        let answer = close_zone(
            self.day,
            &mut self.table,
            zone,
            prices.0,
            prices.1,
            &mut self.quantity,
            &mut self.money,
        );
        match answer {
            Err(cause) => {
                assert_eq!(*self, old);
                Err(cause)
            }
            Ok((day, sold, bought)) => {
                let mut expected = self.added(zone);
                expected.closed[zone as usize] = 1;
                assert_eq!(day, expected);
                self.day = day;
                assert_eq!(self.scratch, old.scratch);
                self.check_untouched(&old, zone);
                Ok((sold, bought))
            }
        }
    }

    /// Only the users' places of the zone may differ.
    fn check_untouched(&self, old: &Bench, zone: i64) {
        let start = zone as usize * 128;
        for place in 0..256 {
            if !(start..start + self.users()).contains(&place) {
                assert_eq!(self.table[place], old.table[place]);
            }
        }
    }
}

/// An hour of zero amounts.
fn zeros(users: usize, terms: Terms) -> Hour {
    titles(&vec![0; users], terms)
}

/// An hour that moves each user by its title amount.
fn titles(title: &[i64], terms: Terms) -> Hour {
    let none = vec![0; title.len()];
    Hour {
        entry: none.clone(),
        exit: none.clone(),
        title: title.to_vec(),
        pooling: none,
        terms,
    }
}

/// A day of two users, in which hour 2 of H and hour 24 of L are next.
fn busy() -> Bench {
    let mut bench = Bench::opened(2);
    bench.day.hours = [1, 23];
    bench.table[..2].copy_from_slice(&[10, -10]);
    bench.table[128..130].copy_from_slice(&[20, -30]);
    bench
}

/// The same with all hours of L done, so that L can be closed: 20 are sold then, and 30 bought.
fn closable() -> Bench {
    let mut bench = busy();
    bench.day.hours[1] = 24;
    bench
}

/// An hour of `busy` with an excess, of 33 in H and of 23 in L.
fn large() -> Hour {
    titles(&[20, 20], Terms { upper: 7, ..NONE })
}

/// Settles these positions in hour 1 of zone H.
fn settled(positions: &[i64], terms: Terms) -> (Bench, Outcome) {
    let mut bench = Bench::opened(positions.len());
    let outcome = bench.hour(0, 1, &titles(positions, terms)).unwrap();
    (bench, outcome)
}

fn excess(total: i64, marks: [u64; 2], number: u64) -> Outcome {
    let side = Side::Excess;
    Outcome::Settled {
        side,
        total,
        marks,
        number,
    }
}

fn shortfall(total: i64, marks: [u64; 2], number: u64) -> Outcome {
    let side = Side::Shortfall;
    Outcome::Settled {
        side,
        total,
        marks,
        number,
    }
}
