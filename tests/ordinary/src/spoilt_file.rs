//! Hour files that are read, and ways to spoil one, each by one part of one of the reader's
//! causes.
//!
//! A way that finds no room in a file (a first line whose h cannot differ from the first
//! line's, say) leaves it as it was.

use crate::made_up::{any_amount, any_number, Unit};
use crate::random::Random;
use crate::{limits, HEADER};

/// A file in its parts, and the lengths of the four lists that the reader is lent.
#[derive(Clone, Debug)]
pub struct File {
    /// The header's bytes.
    pub header: Vec<u8>,
    /// The lines without their CR LF.
    pub lines: Vec<Vec<u8>>,
    /// Whether the last line ends in CR LF.
    pub ended: bool,
    /// The lengths of the lists.
    pub lengths: [usize; 4],
}

/// A way to spoil a file; the last three causes are those of a line, at a place.
pub struct FileWay {
    /// The cause that it brings.
    pub cause: u64,
    /// The part of the cause, in words.
    pub part: &'static str,
    /// What it does.
    pub spoil: fn(&mut Random, &mut File, usize),
}

const fn way(cause: u64, part: &'static str, spoil: fn(&mut Random, &mut File, usize)) -> FileWay {
    FileWay { cause, part, spoil }
}

/// The ways to spoil a file, by cause.
pub const WAYS: [FileWay; 49] = [
    way(12, "entry list", |r, file, _| file.lengths[0] = r.pick([0, 127, 129, 256])),
    way(12, "exit list", |r, file, _| file.lengths[1] = r.pick([0, 127, 129, 256])),
    way(12, "title list", |r, file, _| file.lengths[2] = r.pick([0, 127, 129, 256])),
    way(12, "pooling list", |r, file, _| file.lengths[3] = r.pick([0, 127, 129, 256])),
    way(13, "a byte of the header changed", |r, file, _| {
        let at = r.below(HEADER.len());
        file.header[at] ^= 1 << r.below(8);
    }),
    way(13, "a byte of the header left out", |r, file, _| file.header = without(&file.header, r.below(HEADER.len()))),
    way(13, "a byte before the header", |r, file, _| file.header.insert(0, r.pick([b' ', b'h', 0xef, b'\n']))),
    way(13, "header without CR", |_, file, _| file.header = without(&file.header, HEADER.len() - 2)),
    way(13, "no bytes", |_, file, _| {
        file.header.clear();
        file.lines.clear();
    }),
    way(13, "a part of the header alone", |r, file, _| {
        file.header.truncate(1 + r.below(HEADER.len() - 1));
        file.lines.clear();
    }),
    way(14, "empty line", |_, file, at| {
        file.lines.insert(at, Vec::new());
        file.ended |= at + 1 == file.lines.len();
    }),
    way(14, "quote mark", |r, file, at| insert(r, &mut file.lines[at], b'"')),
    way(14, "stray CR", |r, file, at| insert(r, &mut file.lines[at], b'\r')),
    way(14, "stray LF", |r, file, at| insert(r, &mut file.lines[at], b'\n')),
    way(14, "a field too few", |_, file, at| {
        if let Some(comma) = file.lines[at].iter().rposition(|&byte| byte == b',') {
            file.lines[at].truncate(comma);
        }
    }),
    way(14, "a comma for the point", |r, file, at| set_any(r, file, at, &SIGNED, &[b"1,234", b"0,000", b"-12,345"])),
    way(14, "a field too many", |r, file, at| file.lines[at].extend_from_slice(r.pick([&b",0"[..], b",", b",,"]))),
    way(15, "h", |r, file, at| bad_unsigned(r, file, at, 0)),
    way(15, "z", |r, file, at| {
        let bad = r.pick([&b""[..], b"h", b"l", b"HL", b"0", b"1", b"H ", b" L", b"G", b"\0"]);
        set_field(file, at, 1, bad);
    }),
    way(15, "g", |r, file, at| bad_unsigned(r, file, at, 2)),
    way(15, "EEA", |r, file, at| bad_signed(r, file, at, 3)),
    way(15, "XEA", |r, file, at| bad_signed(r, file, at, 4)),
    way(15, "NCTTN", |r, file, at| bad_signed(r, file, at, 5)),
    way(15, "IPT", |r, file, at| bad_signed(r, file, at, 6)),
    way(15, "empty field", |r, file, at| set_any(r, file, at, &[0, 1, 2, 3, 4, 5, 6], &[b""])),
    way(15, "needless leading zero", |r, file, at| set_any(r, file, at, &NUMBERS, &[b"00", b"01", b"000000001"])),
    way(15, "leading zero after a minus", |r, file, at| set_any(r, file, at, &SIGNED, &[b"-00", b"-01"])),
    way(15, "ten digits", |r, file, at| set_any(r, file, at, &NUMBERS, &[b"1000000000", b"4294967296", b"9999999999"])),
    way(15, "ten digits after a minus", |r, file, at| set_any(r, file, at, &SIGNED, &[b"-1000000000", b"-9999999999"])),
    way(15, "minus zero", |r, file, at| set_any(r, file, at, &NUMBERS, &[b"-0"])),
    way(15, "minus alone or twice", |r, file, at| set_any(r, file, at, &NUMBERS, &[b"-", b"--1"])),
    way(15, "minus in h or g", |r, file, at| set_any(r, file, at, &[0, 2], &[b"-1", b"-5"])),
    way(15, "plus", |r, file, at| set_any(r, file, at, &NUMBERS, &[b"+1", b"+0"])),
    way(15, "another byte in a number", |r, file, at| set_any(r, file, at, &NUMBERS, &[b" 1", b"1 ", b"1.0", b"1/", b"1:", b"a", b"1\0"])),
    way(15, "a point in h or g", |r, file, at| set_any(r, file, at, &[0, 2], &[b"0.000", b"1.000", b"12.345", b".", b"1."])),
    way(15, "fewer than three decimals", |r, file, at| set_any(r, file, at, &SIGNED, &[b"1.", b"1.2", b"1.23", b"-1.23", b"0.00", b"999999."])),
    way(15, "more than three decimals", |r, file, at| set_any(r, file, at, &SIGNED, &[b"1.2345", b"-1.2345", b"0.0000", b"1.0000000"])),
    way(15, "no digit before the point", |r, file, at| set_any(r, file, at, &SIGNED, &[b".", b".005", b"-.001", b"-.", b".000"])),
    way(15, "needless zero before the point", |r, file, at| set_any(r, file, at, &SIGNED, &[b"01.000", b"00.000", b"-01.500", b"000012.345"])),
    way(15, "seven digits before the point", |r, file, at| set_any(r, file, at, &SIGNED, &[b"1000000.000", b"-1234567.890", b"9999999.999"])),
    way(15, "minus zero in MWh", |r, file, at| set_any(r, file, at, &SIGNED, &[b"-0.000"])),
    way(15, "two points", |r, file, at| set_any(r, file, at, &SIGNED, &[b"1..000", b"1.000.000", b"1.2.34", b".1.000"])),
    way(15, "another byte in MWh", |r, file, at| set_any(r, file, at, &SIGNED, &[b"1.-23", b"+1.000", b"--1.000", b"1. 23", b"1 .000", b"1.00x", b"1:000"])),
    way(16, "h differs", |r, file, at| {
        let other = any_number(r).abs().to_string();
        if at > 0 && fields(&file.lines[0])[0] != other.as_bytes() {
            set_field(file, at, 0, other.as_bytes());
        }
    }),
    way(16, "z differs", |_, file, at| {
        let other = if fields(&file.lines[0])[1] == b"H" { b"L" } else { b"H" };
        if at > 0 {
            set_field(file, at, 1, other);
        }
    }),
    way(16, "g too low", |r, file, at| {
        if at > 0 {
            let low = r.pick([0, at - 1]).to_string();
            set_field(file, at, 2, low.as_bytes());
        }
    }),
    way(16, "g too high", |r, file, at| {
        let high = r.pick([at + 1, at + 256, 127.max(at + 1), 999_999_999]).to_string();
        set_field(file, at, 2, high.as_bytes());
    }),
    way(16, "line 129", |r, file, _| {
        let first = fields(&file.lines[0]).map(<[u8]>::to_vec);
        let last = file.lines.len();
        file.lines.extend((last..=limits::PLACES).map(|place| line(r, &first[0], &first[1], place, Unit::Mixed)));
    }),
    way(17, "header alone", |_, file, _| file.lines.clear()),
];

/// The fields that are numbers, and those that may have a minus.
const NUMBERS: [usize; 6] = [0, 2, 3, 4, 5, 6];
const SIGNED: [usize; 4] = [3, 4, 5, 6];

/// A file that is read, of so many lines.
pub fn fit_file(random: &mut Random, lines: usize) -> File {
    let hour = any_number(random).abs().to_string();
    let zone = random.pick([b"H", b"L"]);
    let unit = random.pick(Unit::ALL);
    File {
        header: HEADER.to_vec(),
        lines: (0..lines).map(|place| line(random, hour.as_bytes(), zone, place, unit)).collect(),
        ended: random.one_in(2),
        lengths: [limits::PLACES; 4],
    }
}

impl File {
    /// The file's bytes.
    pub fn bytes(&self) -> Vec<u8> {
        let mut bytes = self.header.clone();
        bytes.extend(self.lines.join(&b"\r\n"[..]));
        if self.ended && !self.lines.is_empty() {
            bytes.extend_from_slice(b"\r\n");
        }
        bytes
    }

    /// The line gets what makes it wrong in form, after all that it has.
    pub fn spoil_form(&mut self, random: &mut Random, at: usize) {
        self.lines[at].extend_from_slice(random.pick([&b",0"[..], b"\"", b"\r", b"\n", b",,"]));
    }

    /// An amount of the line, and none of h, z and g, is not a number.
    pub fn spoil_amount(&mut self, random: &mut Random, at: usize) {
        let field = random.pick(SIGNED);
        bad_signed(random, self, at, field);
    }
}

fn line(random: &mut Random, hour: &[u8], zone: &[u8], place: usize, unit: Unit) -> Vec<u8> {
    let place = place.to_string();
    let amounts: [String; 4] = std::array::from_fn(|_| any_amount(random, unit));
    let [entry, exit, title, pooling] = amounts.each_ref().map(String::as_bytes);
    [hour, zone, place.as_bytes(), entry, exit, title, pooling].join(&b","[..])
}

fn without(bytes: &[u8], at: usize) -> Vec<u8> {
    [&bytes[..at], &bytes[at + 1..]].concat()
}

/// The first seven fields of a line; those that it lacks are empty.
fn fields(line: &[u8]) -> [&[u8]; 7] {
    let mut parts = line.split(|&byte| byte == b',');
    std::array::from_fn(|_| parts.next().unwrap_or(&[]))
}

fn set_field(file: &mut File, at: usize, field: usize, text: &[u8]) {
    let mut all = fields(&file.lines[at]);
    all[field] = text;
    file.lines[at] = all.join(&b","[..]);
}

fn set_any(random: &mut Random, file: &mut File, at: usize, among: &[usize], texts: &[&[u8]]) {
    let field = among[random.below(among.len())];
    set_field(file, at, field, texts[random.below(texts.len())]);
}

fn bad_unsigned(random: &mut Random, file: &mut File, at: usize, field: usize) {
    let texts: [&[u8]; 10] = [b"", b"00", b"01", b"-1", b"-0", b"+1", b"1234567890", b"x", b"1 ", b"1.000"];
    set_any(random, file, at, &[field], &texts);
}

fn bad_signed(random: &mut Random, file: &mut File, at: usize, field: usize) {
    let texts: [&[u8]; 13] = [b"", b"00", b"-", b"-0", b"-01", b"+1", b"1234567890", b"-1234567890", b"1-", b"--2", b"1.5", b"-0.000", b".005"];
    set_any(random, file, at, &[field], &texts);
}

fn insert(random: &mut Random, line: &mut Vec<u8>, byte: u8) {
    let any = random.below(line.len() + 1);
    let at = random.pick([0, line.len(), any, any]);
    line.insert(at, byte);
}
