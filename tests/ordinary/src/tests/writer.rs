//! The writer of an hour's file.

use crate::made_up::file_of;
use crate::random::Random;
use crate::spoilt_writing::{fit_writing, Writing};
use crate::{read_file, HEADER};

/// What the bytes hold before they are lent.
const OLD: u8 = 0xa7;

/// Hour 24 of the L zone for two users, with bytes that are enough.
fn fit() -> Writing {
    Writing {
        hour: 24,
        zone: 1,
        users: 2,
        lists: [vec![1, 999_999_999], vec![-2, -999_999_999], vec![3, 0], vec![-4, 10]],
        file: vec![OLD; 100],
    }
}

const TEXT: &str = "24,L,0,1,-2,3,-4\r\n24,L,1,999999999,-999999999,0,10\r\n";

/// The text that was written; the bytes after it are as they were. If refused, all are.
fn written(mut writing: Writing) -> Result<Vec<u8>, u64> {
    let old = writing.clone();
    let answer = writing.write();
    let bytes = answer.unwrap_or(0) as usize;
    assert_eq!(writing.file[bytes..], old.file[bytes..]);
    assert_eq!((&writing.lists, writing.file.len()), (&old.lists, old.file.len()));
    answer.map(|_| writing.file[..bytes].to_vec())
}

/// The answer after the change.
fn after(change: impl FnOnce(&mut Writing)) -> Result<Vec<u8>, u64> {
    let mut writing = fit();
    change(&mut writing);
    written(writing)
}

fn with_header(text: &str) -> Vec<u8> {
    [HEADER.as_slice(), text.as_bytes()].concat()
}

#[test]
fn every_line_ends_in_cr_lf() {
    assert_eq!(written(fit()), Ok(with_header(TEXT)));
    let text = TEXT.replace('L', "H").replace("24,", "0,");
    assert_eq!(after(|writing| (writing.hour, writing.zone) = (0, 0)), Ok(with_header(&text)));
}

#[test]
fn case_a() {
    let writing = Writing {
        hour: 1,
        zone: 0,
        users: 3,
        lists: [
            vec![30_000_000, 15_000_000, 2_000_000],
            vec![-10_000_000, -5_000_000, -5_000_000],
            vec![0; 3],
            vec![0; 3],
        ],
        file: vec![OLD; 200],
    };
    let text = "1,H,0,30000000,-10000000,0,0\r\n1,H,1,15000000,-5000000,0,0\r\n1,H,2,2000000,-5000000,0,0\r\n";
    assert_eq!(written(writing), Ok(with_header(text)));
}

#[test]
fn exactly_enough_bytes_and_one_too_few() {
    let bytes = HEADER.len() + TEXT.len();
    assert_eq!(after(|writing| writing.file.truncate(bytes)), Ok(with_header(TEXT)));
    assert_eq!(after(|writing| writing.file.truncate(bytes - 1)), Err(20));
}

/// 58 bytes a line beside its place, and 274 digits for the 128 places.
#[test]
fn the_longest_file() {
    let writing = Writing {
        hour: 999_999_999,
        zone: 0,
        users: 128,
        lists: std::array::from_fn(|_| vec![-999_999_999; 128]),
        file: vec![OLD; 7_833],
    };
    assert_eq!(written(writing).unwrap().len(), 25 + 58 * 128 + 274);
}

#[test]
fn cause_18_count_zone_and_lists() {
    for users in [0, 1, 3, -2, 128, 129, 2 + 256, 2 + (1 << 32), i64::MIN, i64::MAX] {
        assert_eq!(after(|writing| writing.users = users), Err(18), "{users} users");
    }
    for users in [0, 129, 130] {
        let to_count = |writing: &mut Writing| {
            writing.users = users as i64;
            writing.lists.iter_mut().for_each(|list| list.resize(users, 0));
        };
        assert_eq!(after(to_count), Err(18), "{users} users");
    }
    for zone in [-1, 2, 256, i64::MIN, i64::MAX] {
        assert_eq!(after(|writing| writing.zone = zone), Err(18), "zone {zone}");
    }
    for list in 0..4 {
        for length in [0, 1, 3, 128] {
            assert_eq!(after(|writing| writing.lists[list].resize(length, 0)), Err(18), "list {list}");
        }
    }
}

#[test]
fn cause_19_numbers() {
    for hour in [-1, -999_999_999, 1_000_000_000, -1_000_000_000, 1 << 32, i64::MIN, i64::MAX] {
        assert_eq!(after(|writing| writing.hour = hour), Err(19), "hour {hour}");
    }
    for list in 0..4 {
        for place in 0..2 {
            for amount in [1_000_000_000, -1_000_000_000, 1 << 32, i64::MIN, i64::MAX] {
                assert_eq!(after(|writing| writing.lists[list][place] = amount), Err(19), "{amount}");
            }
            for amount in [999_999_999, -999_999_999] {
                assert!(after(|writing| writing.lists[list][place] = amount).is_ok(), "{amount}");
            }
        }
    }
    assert!(after(|writing| writing.hour = 999_999_999).is_ok());
}

#[test]
fn cause_20_room() {
    for bytes in [0, 1, 24, 25, 26, HEADER.len() + TEXT.len() / 2] {
        assert_eq!(after(|writing| writing.file.truncate(bytes)), Err(20), "{bytes} bytes");
    }
}

#[test]
fn the_lower_cause_is_given() {
    assert_eq!(after(|writing| (writing.zone, writing.hour) = (2, -1)), Err(18));
    assert_eq!(after(|writing| (writing.users, writing.lists[3][1]) = (3, 1_000_000_000)), Err(18));
    assert_eq!(after(|writing| (writing.users, writing.file) = (0, Vec::new())), Err(18));
    assert_eq!(after(|writing| (writing.hour, writing.file) = (-1, Vec::new())), Err(19));
    assert_eq!(after(|writing| (writing.lists[0][0], writing.file) = (i64::MIN, Vec::new())), Err(19));
}

/// "what is written is read to the same hour, zone and amounts."
#[test]
fn files_are_read_back() {
    let mut random = Random::new(6);
    for users in 1..=128 {
        let writing = fit_writing(&mut random, users, users % 3);
        let file = written(writing.clone()).unwrap();
        assert_eq!(file.len(), writing.bytes_wanted());
        let rows: Vec<[i64; 4]> = (0..users).map(|place| [0, 1, 2, 3].map(|list: usize| writing.lists[list][place])).collect();
        assert_eq!(file, file_of(writing.hour, writing.zone, &rows, true));
        let mut lists = [[-7; 128]; 4];
        let [entry, exit, title, pooling] = &mut lists;
        let answer = read_file(&file, entry, exit, title, pooling);
        assert_eq!(answer, Ok((writing.hour, writing.zone, users as i64)));
        for (read, given) in lists.iter().zip(&writing.lists) {
            assert_eq!(read[..users], given[..]);
            assert!(read[users..].iter().all(|&amount| amount == -7));
        }
    }
}
