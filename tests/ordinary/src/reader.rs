//! The reader of an hour's allocation file.

use crate::{cause, check, limits};

/// "The file opens with the 25 bytes `h,z,g,EEA,XEA,NCTTN,IPT` CR LF."
pub const HEADER: &[u8; 25] = b"h,z,g,EEA,XEA,NCTTN,IPT\r\n";

/// "Each has seven fields".
const FIELDS: usize = 7;

/// A line's seven numbers, the zone's letter read as the zone's number.
struct Row {
    hour: i64,
    zone: i64,
    place: i64,
    amounts: [i64; 4],
}

/// Reads an hour's file. "The reader is lent four lists of exactly 128 places, fills
/// the first as many as there are lines and touches no others. It answers h, z as the
/// zone's number, and the number of lines." Causes 12 to 17.
pub fn read_file(
    bytes: &[u8],
    entry: &mut [i64],
    exit: &mut [i64],
    title: &mut [i64],
    pooling: &mut [i64],
) -> Result<(i64, i64, i64), u64> {
    let lists = [entry, exit, title, pooling];
    let lists_fit = lists.iter().all(|list| list.len() == limits::PLACES);
    check::require(lists_fit, cause::READER_LIST)?;
    let mut rest = bytes.strip_prefix(HEADER).ok_or(cause::HEADER)?;
    check::require(!rest.is_empty(), cause::NO_LINE)?;

    let mut amounts = [[0; limits::PLACES]; 4];
    let mut first = None;
    let mut lines = 0;
    while !rest.is_empty() {
        let (line, after) = split_line(rest);
        let row = read_row(split_fields(line)?)?;
        let (hour, zone) = *first.get_or_insert((row.hour, row.zone));
        let follows = (row.hour, row.zone) == (hour, zone)
            && lines < limits::PLACES
            && row.place == lines as i64;
        check::require(follows, cause::SEQUENCE)?;
        for (list, amount) in amounts.iter_mut().zip(row.amounts) {
            list[lines] = amount;
        }
        lines += 1;
        rest = after;
    }

    for (list, read) in lists.into_iter().zip(&amounts) {
        list[..lines].copy_from_slice(&read[..lines]);
    }
    let (hour, zone) = first.ok_or(cause::NO_LINE)?;
    Ok((hour, zone, lines as i64))
}

/// "A line runs to the next CR LF pair or to the end of the file." Answers the line
/// without its CR LF, and the bytes after it.
fn split_line(rest: &[u8]) -> (&[u8], &[u8]) {
    match rest.windows(2).position(|pair| pair == b"\r\n") {
        Some(end) => (&rest[..end], &rest[end + 2..]),
        None => (rest, &[]),
    }
}

/// "Each field is read as its own part of the caller's bytes." Cause 14: "No empty
/// line, quote mark or stray CR or LF is allowed; each is cause 14", and so is any other
/// count of fields than seven.
fn split_fields(line: &[u8]) -> Result<[&[u8]; FIELDS], u64> {
    let strays = line.iter().any(|byte| matches!(byte, b'"' | b'\r' | b'\n'));
    check::require(!line.is_empty() && !strays, cause::LINE)?;
    let mut parts = line.split(|&byte| byte == b',');
    let mut fields: [&[u8]; FIELDS] = [&[]; FIELDS];
    for field in &mut fields {
        *field = parts.next().ok_or(cause::LINE)?;
    }
    check::require(parts.next().is_none(), cause::LINE)?;
    Ok(fields)
}

/// "h and g are unsigned; z is the letter H or L; the rest may begin with `-`."
/// Cause 15.
fn read_row([h, z, g, entry, exit, title, pooling]: [&[u8]; FIELDS]) -> Result<Row, u64> {
    Ok(Row {
        hour: read_unsigned(h)?,
        zone: read_zone(z)?,
        place: read_unsigned(g)?,
        amounts: [
            read_signed(entry)?,
            read_signed(exit)?,
            read_signed(title)?,
            read_signed(pooling)?,
        ],
    })
}

/// "Zones: 0 is H, 1 is L."
fn read_zone(field: &[u8]) -> Result<i64, u64> {
    match field {
        b"H" => Ok(0),
        b"L" => Ok(1),
        _ => Err(cause::FIELD),
    }
}

/// "A number has 1 to 9 digits, no needless leading zero".
fn read_unsigned(field: &[u8]) -> Result<i64, u64> {
    match field {
        [b'0'] => Ok(0),
        [b'1'..=b'9', ..] if field.len() <= 9 => read_digits(field),
        _ => Err(cause::FIELD),
    }
}

/// "the rest may begin with `-`", "and is not `-0`"; "`-0.000` is turned away by 15,
/// `-0.005` is read as minus 5."
fn read_signed(field: &[u8]) -> Result<i64, u64> {
    match field {
        b"-0" | b"-0.000" => Err(cause::FIELD),
        [b'-', size @ ..] => read_size(size).map(|kwh| -kwh),
        _ => read_size(field),
    }
}

/// An amount without its minus, in kWh. "A field without a point still means kWh."
fn read_size(size: &[u8]) -> Result<i64, u64> {
    match size.iter().position(|&byte| byte == b'.') {
        Some(point) => read_mwh(&size[..point], &size[point + 1..]),
        None => read_unsigned(size),
    }
}

/// "in MWh with exactly three decimals, so 12.345 means 12,345 kWh." "A field with a
/// point has one to six digits before it, written as whole numbers are, with 0 allowed
/// there".
fn read_mwh(whole: &[u8], decimals: &[u8]) -> Result<i64, u64> {
    check::require(whole.len() <= 6 && decimals.len() == 3, cause::FIELD)?;
    Ok(read_unsigned(whole)? * 1_000 + read_digits(decimals)?)
}

/// The number of at most nine decimal digits.
fn read_digits(digits: &[u8]) -> Result<i64, u64> {
    let mut number = 0;
    for &byte in digits {
        check::require(byte.is_ascii_digit(), cause::FIELD)?;
        number = number * 10 + i64::from(byte - b'0');
    }
    Ok(number)
}
