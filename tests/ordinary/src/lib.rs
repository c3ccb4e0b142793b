//! The Gas Day: opening a day, settling an hour, the preview of one, judging an operator's own
//! quantities for one, closing a zone, the default thresholds, and the reader and the writer of
//! an hour's allocation file.
//!
//! An ordinary program, written from the requirements paper ("The Gas Day:
//! allocations, positions and settlement"), the writer, amounts in MWh, days of 23 and 25
//! hours, the preview, the judge and the record's totals from its change requests (Asks 1 to 3
//! and 5 to 7), and from nothing else.
//!
//! Every call either is accepted or answers a cause (see [`cause`]). "Checked in
//! the order of their numbers; the first that applies is given." Only 21 comes "at
//! opening, after 1 and before 3". A refused call leaves everything lent as it was;
//! the record is `Copy`, so that the caller still has the same one.

#![forbid(unsafe_code)]
#![warn(missing_docs)]

pub mod cause;
mod check;
mod closing;
mod day;
mod hour;
mod judge;
pub mod limits;
pub mod made_up;
pub mod present;
mod preview;
pub mod random;
mod reader;
pub mod spoilt;
pub mod spoilt_file;
pub mod spoilt_quantities;
pub mod spoilt_totals;
pub mod spoilt_writing;
mod thresholds;
mod writer;

#[cfg(test)]
mod tests;

pub use closing::close_zone;
pub use day::{open, Day};
pub use hour::{settle_hour, Outcome, Side, Terms};
pub use judge::judge_hour;
pub use preview::preview_hour;
pub use reader::{read_file, HEADER};
pub use thresholds::default_thresholds;
pub use writer::write_file;
