//! The reader of an hour's file.

use crate::{read_file, HEADER};

type Lists = [[i64; 128]; 4];

/// What the lists hold before they are lent.
const OLD: Lists = [[-71; 128], [-72; 128], [-73; 128], [-74; 128]];

fn read_bytes(bytes: &[u8]) -> (Result<(i64, i64, i64), u64>, Lists) {
    let mut lists = OLD;
    let [entry, exit, title, pooling] = &mut lists;
    let answer = read_file(bytes, entry, exit, title, pooling);
    if answer.is_err() {
        assert_eq!(lists, OLD);
    }
    (answer, lists)
}

/// The answer for the header and then this text.
fn read(text: &str) -> Result<(i64, i64, i64), u64> {
    read_bytes(&[HEADER.as_slice(), text.as_bytes()].concat()).0
}

/// A file's text of this many good lines.
fn lines(count: usize) -> String {
    (0..count)
        .map(|g| format!("5,L,{g},1,-2,3,-4\r\n"))
        .collect()
}

#[test]
fn good_lines_fill_only_their_places() {
    let bytes = [
        HEADER.as_slice(),
        b"24,L,0,1,-2,3,-4\r\n24,L,1,999999999,-999999999,0,10",
    ]
    .concat();
    let (answer, lists) = read_bytes(&bytes);
    assert_eq!(answer, Ok((24, 1, 2)));
    let read = [[1, 999_999_999], [-2, -999_999_999], [3, 0], [-4, 10]];
    for ((list, old), read) in lists.iter().zip(&OLD).zip(read) {
        assert_eq!(list[..2], read);
        assert_eq!(list[2..], old[2..]);
    }
}

#[test]
fn the_last_line_may_lack_its_end() {
    assert_eq!(read("0,H,0,0,0,0,0"), Ok((0, 0, 1)));
    assert_eq!(read("999999999,H,0,0,0,0,0\r\n"), Ok((999_999_999, 0, 1)));
}

#[test]
fn cause_12_lists() {
    for short in 0..4 {
        for length in [0, 127, 129] {
            let mut lists: Vec<Vec<i64>> = vec![vec![9; 128]; 4];
            lists[short] = vec![9; length];
            let old = lists.clone();
            let [entry, exit, title, pooling] = &mut lists[..] else {
                unreachable!()
            };
            assert_eq!(
                read_file(b"no header", entry, exit, title, pooling),
                Err(12)
            );
            assert_eq!(lists, old);
        }
    }
}

#[test]
fn cause_13_header() {
    for bytes in [
        b"".as_slice(),
        &HEADER[..24],
        b"h,z,g,EEA,XEA,NCTTN,IPT\n1,H,0,0,0,0,0\r\n",
        b"H,z,g,EEA,XEA,NCTTN,IPT\r\n1,H,0,0,0,0,0\r\n",
        b"\xef\xbb\xbfh,z,g,EEA,XEA,NCTTN,IPT\r\n1,H,0,0,0,0,0\r\n",
    ] {
        assert_eq!(read_bytes(bytes).0, Err(13));
    }
}

#[test]
fn cause_14_lines() {
    for text in [
        "\r\n",
        "\r\n1,H,0,0,0,0,0",
        "\r",
        "\n",
        "1,H,0,0,0,0",
        "1,H,0,0,0,0,0,",
        "1,H,0,0,0,0,0,0\r\n",
        ",1,H,0,0,0,0,0",
        "1,H,0,0,0,0,0\r",
        "1,H,0,0,0,0,0\n",
        "1,H,0,0,0,0,0\r\r\n",
        "1,H,0,0,0,0,0\n\r\n",
        "1,H,0,0,0,0,0\n1,H,1,0,0,0,0\r\n",
        "1,H,0,0,\r0,0,0\r\n",
        "1,H,0,0,0,0,0\r\n\r\n",
        "1,H,0,0,0,0,0\r\n\r",
        "1,H,0,0,0,0,0\r\n\n",
        "\"1\",H,0,0,0,0,0\r\n",
        "1,H,0,0,0,0,\"\r\n",
        "x,H,0,0,0,\"0\",y",
        "x",
    ] {
        assert_eq!(read(text), Err(14), "{text:?}");
    }
}

#[test]
fn cause_15_fields() {
    for line in [
        ",H,0,0,0,0,0",
        "1,H,0,0,0,0,",
        ",,,,,,",
        "-1,H,0,0,0,0,0",
        "1,H,-0,0,0,0,0",
        "1,h,0,0,0,0,0",
        "1,HL,0,0,0,0,0",
        "1,,0,0,0,0,0",
        "1,0,0,0,0,0,0",
        "01,H,0,0,0,0,0",
        "1,H,00,0,0,0,0",
        "1,H,0,-0,0,0,0",
        "1,H,0,0,-01,0,0",
        "1,H,0,0,0,-,0",
        "1,H,0,0,0,--1,0",
        "1,H,0,0,0,+1,0",
        "1,H,0, 1,0,0,0",
        "1,H,0,1 ,0,0,0",
        "1,H,0,1.5,0,0,0",
        "1,H,0,1\0,0,0,0",
        "1,H,0,1\t,0,0,0",
        "1,H,0,0,0,0,1000000000",
        "1,H,0,0,0,0,-1000000000",
        "1000000000,H,0,0,0,0,0",
        "1,H,0,0,0,0,99999999999999999999999",
        "1,H,0,1:,0,0,0",
        "1,H,0,1/,0,0,0",
        // 15 goes before 16 in one line.
        "1,H,7,0,0,0,x",
    ] {
        assert_eq!(read(line), Err(15), "{line:?}");
    }
}

#[test]
fn cause_16_sequence() {
    for text in [
        "1,H,1,0,0,0,0",
        "1,H,999999999,0,0,0,0",
        "1,H,0,0,0,0,0\r\n1,H,0,0,0,0,0",
        "1,H,0,0,0,0,0\r\n1,H,2,0,0,0,0",
        "1,H,0,0,0,0,0\r\n2,H,1,0,0,0,0",
        "1,H,0,0,0,0,0\r\n1,L,1,0,0,0,0",
        // A fault of an earlier line goes first.
        "1,H,1,0,0,0,0\r\n\r\n",
    ] {
        assert_eq!(read(text), Err(16), "{text:?}");
    }
}

#[test]
fn cause_17_no_line() {
    assert_eq!(read(""), Err(17));
}

#[test]
fn lines_128_and_129() {
    let full = lines(128);
    assert_eq!(read(&full), Ok((5, 1, 128)));
    assert_eq!(read(&lines(129)), Err(16));
    assert_eq!(read(&(full.clone() + "5,L,0,0,0,0,0")), Err(16));
    assert_eq!(read(&(full.clone() + "5,L,x,0,0,0,0")), Err(15));
    assert_eq!(read(&(full.clone() + "5,L,128,0,0,0")), Err(14));
    assert_eq!(read(&(full + "\r\n")), Err(14));
}

#[test]
fn an_earlier_line_goes_before_a_lower_cause() {
    assert_eq!(read("1,H,0,0,0,0,x\r\n\r\n"), Err(15));
    assert_eq!(read("1,H,0,0,0,0,0\r\n1,H,1,0,0,0,+\r\n\"\r\n"), Err(15));
}

/// A line that is read, its amounts 7 kWh, but for the text in this field.
fn line_with(field: usize, text: &str) -> String {
    let mut fields = ["1", "H", "0", "7", "7", "7", "7"];
    fields[field] = text;
    fields.join(",")
}

/// "12.345 means 12,345 kWh", "`-0.005` is read as minus 5."
#[test]
fn amounts_in_mwh_are_read() {
    for (text, kwh) in [
        ("12.345", 12_345),
        ("-12.345", -12_345),
        ("-0.005", -5),
        ("0.005", 5),
        ("0.000", 0),
        ("0.010", 10),
        ("-0.100", -100),
        ("1.000", 1_000),
        ("-1.000", -1_000),
        ("10.001", 10_001),
        ("100000.000", 100_000_000),
        ("999999.999", 999_999_999),
        ("-999999.999", -999_999_999),
        // "A field without a point still means kWh."
        ("12345", 12_345),
        ("-5", -5),
        ("0", 0),
        ("999999999", 999_999_999),
        ("-999999999", -999_999_999),
    ] {
        for field in 3..7 {
            let line = line_with(field, text);
            let (answer, lists) = read_bytes(&[HEADER.as_slice(), line.as_bytes()].concat());
            assert_eq!(answer, Ok((1, 0, 1)), "{line:?}");
            let mut expected = OLD;
            expected.iter_mut().for_each(|list| list[0] = 7);
            expected[field - 3][0] = kwh;
            assert_eq!(lists, expected, "{line:?}");
        }
    }
}

#[test]
fn cause_15_amounts_with_a_point() {
    for text in [
        // "`-0.000` is turned away by 15".
        "-0.000",
        // "exactly three decimals".
        "1.",
        "1.2",
        "1.23",
        "1.2345",
        "0.0000",
        "-0.0050",
        // "one to six digits before it".
        ".",
        "-.",
        ".005",
        "-.005",
        "1000000.000",
        "-1234567.890",
        "99999999999999999999.000",
        // "written as whole numbers are".
        "00.005",
        "-00.005",
        "01.000",
        "-01.000",
        "000012.345",
        // The minus is first and alone.
        "--1.000",
        "1-.000",
        "1.-00",
        "-1.-05",
        "1.00-",
        // One point, and digits.
        "1..000",
        "1.000.",
        "1.000.000",
        "1.00.",
        "1.0.0",
        "+1.000",
        "1.+00",
        " 1.000",
        "1.000 ",
        "1. 00",
        "1.00a",
        "a.000",
        "1e1.000",
        "1.0e2",
        "1.00\0",
        "1.00/",
        "1:.000",
        "1;000",
        "1'000",
        "1.000MWh",
        "1.\u{661}0",
        "1\u{b7}000",
    ] {
        for field in 3..7 {
            let line = line_with(field, text);
            assert_eq!(read(&line), Err(15), "{line:?}");
        }
    }
    // 15 goes before 16 in one line.
    assert_eq!(read("1,H,7,0,0,0,-0.000"), Err(15));
    assert_eq!(read("1,H,7,0,0,0,-0.005"), Err(16));
}

/// "sends the last four fields in MWh", and no others.
#[test]
fn cause_15_a_point_in_h_or_g() {
    for text in [
        "0.000", "1.000", "0.001", "12.345", "1.", ".", "0.0", "-0.005",
    ] {
        for field in [0, 2] {
            let line = line_with(field, text);
            assert_eq!(read(&line), Err(15), "{line:?}");
        }
    }
    assert_eq!(read("1,H,0,0,0,0,0\r\n1.000,H,1,0,0,0,0"), Err(15));
    assert_eq!(read("1,H,0,0,0,0,0\r\n1,H,1.000,0,0,0,0"), Err(15));
    assert_eq!(read("1,H,0,0,0,0,0\r\n1,H,0.001,0,0,0,0"), Err(15));
}

/// A comma ends its field, so that the line has eight.
#[test]
fn cause_14_a_comma_in_place_of_a_point() {
    for text in [
        "12,345",
        "-12,345",
        "-0,005",
        "0,000",
        "12,345.678",
        "\"12,345\"",
    ] {
        for field in 3..7 {
            let line = line_with(field, text);
            assert_eq!(read(&line), Err(14), "{line:?}");
        }
    }
    assert_eq!(read("1,H,0,1,000,-1,000,0,000,0,000"), Err(14));
    // 14 goes before 15 in one line.
    assert_eq!(read("1,H,0,12,345,-0.000,0,0"), Err(14));
    // Where the line lacks a field the comma makes up for it: `005` is no number, and
    // 12 and 345 are kWh.
    assert_eq!(read("1,H,0,0,005,0,0"), Err(15));
    assert_eq!(read("1,H,0,12,345,0,0"), Ok((1, 0, 1)));
}

/// "A field without a point still means kWh", whatever the fields beside it have.
#[test]
fn both_units_in_one_line_and_in_one_file() {
    let bytes = [
        HEADER.as_slice(),
        b"24,L,0,12.345,-12345,0.000,0\r\n",
        b"24,L,1,12.345,-0.005,999999.999,-1.000\r\n",
        b"24,L,2,12345,-5,999999999,-1\r\n",
        b"24,L,3,1,-1.000,-1,1.000",
    ]
    .concat();
    let (answer, lists) = read_bytes(&bytes);
    assert_eq!(answer, Ok((24, 1, 4)));
    let read = [
        [12_345, 12_345, 12_345, 1],
        [-12_345, -5, -5, -1_000],
        [0, 999_999_999, 999_999_999, -1],
        [0, -1_000, -1, 1_000],
    ];
    for ((list, old), read) in lists.iter().zip(&OLD).zip(read) {
        assert_eq!(list[..4], read);
        assert_eq!(list[4..], old[4..]);
    }
}
