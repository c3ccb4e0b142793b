//! The writer of an hour's allocation file.

use crate::{cause, check, limits, HEADER};

/// "Every amount of up to nine digits can be written".
const DIGITS: usize = 9;

/// "Write the file of document 01 from hour, zone, user count and four lists into lent
/// bytes." Document 01: it "answers how many, and the lent bytes after them are as they
/// were". Causes 18 to 20.
#[allow(clippy::too_many_arguments)]
pub fn write_file(
    hour: i64,
    zone: i64,
    users: i64,
    entry: &[i64],
    exit: &[i64],
    title: &[i64],
    pooling: &[i64],
    file: &mut [u8],
) -> Result<i64, u64> {
    let lists = [entry, exit, title, pooling];
    let lists_fit = lists.iter().all(|list| list.len() as i64 == users);
    let count_fits = limits::USERS.contains(&users) && check::zone(zone).is_ok() && lists_fit;
    check::require(count_fits, cause::WRITER_COUNT)?;
    let amounts_fit = lists.iter().copied().flatten().all(|&amount| digits(amount) <= DIGITS);
    let numbers_fit = hour >= 0 && digits(hour) <= DIGITS && amounts_fit;
    check::require(numbers_fit, cause::WRITER_NUMBER)?;

    let mut text = HEADER.to_vec();
    for place in 0..entry.len() {
        text.extend_from_slice(line(hour, zone, place, lists.map(|list| list[place])).as_bytes());
    }
    let room = file.get_mut(..text.len()).ok_or(cause::WRITER_ROOM)?;
    room.copy_from_slice(&text);
    Ok(text.len() as i64)
}

/// The decimal digits of a number, without its sign.
fn digits(number: i64) -> usize {
    number.unsigned_abs().to_string().len()
}

/// "Every line ends in CR LF." "Zones: 0 is H, 1 is L."
fn line(hour: i64, zone: i64, place: usize, [entry, exit, title, pooling]: [i64; 4]) -> String {
    let letter = if zone == 0 { 'H' } else { 'L' };
    format!("{hour},{letter},{place},{entry},{exit},{title},{pooling}\r\n")
}
