//! Writings of an hour's file that are accepted, and ways to spoil one, each by one part of
//! one of the writer's causes.

use crate::made_up::any_number;
use crate::random::Random;
use crate::{limits, write_file, HEADER};

/// What the writer is given and lent.
#[derive(Clone, PartialEq, Debug)]
pub struct Writing {
    /// The hour.
    pub hour: i64,
    /// The zone.
    pub zone: i64,
    /// The user count.
    pub users: i64,
    /// The entry, exit, title and pooling lists.
    pub lists: [Vec<i64>; 4],
    /// The lent bytes.
    pub file: Vec<u8>,
}

impl Writing {
    /// Writes it: how many bytes were written.
    pub fn write(&mut self) -> Result<i64, u64> {
        let [entry, exit, title, pooling] = &self.lists;
        write_file(self.hour, self.zone, self.users, entry, exit, title, pooling, &mut self.file)
    }

    /// The bytes that the text takes, if the lists are of the count's length and the zone
    /// is one; else those that it would take with the shortest amounts for those that are
    /// not there. A count beyond 128 counts as 128.
    pub fn bytes_wanted(&self) -> usize {
        let users = self.users.clamp(0, *limits::USERS.end()) as usize;
        let amount = |list: &Vec<i64>, place: usize| list.get(place).copied().unwrap_or(0);
        let line = |place: usize| {
            let amounts: usize = self.lists.iter().map(|list| amount(list, place).to_string().len()).sum();
            self.hour.to_string().len() + "H".len() + place.to_string().len() + amounts + ",,,,,,\r\n".len()
        };
        HEADER.len() + (0..users).map(line).sum::<usize>()
    }

    /// Lends so many bytes, which hold something.
    pub fn lend(&mut self, random: &mut Random, bytes: usize) {
        self.file = (0..bytes).map(|_| random.bits() as u8).collect();
    }
}

/// How many bytes are lent beside those that are wanted, by name.
pub const ROOMS: [(&str, usize); 4] = [("exactly enough", 0), ("one more", 1), ("a line more", 61), ("many more", 7_833)];

/// A way to spoil a writing.
pub struct WritingWay {
    /// The cause that it brings.
    pub cause: u64,
    /// The part of the cause, in words.
    pub part: &'static str,
    /// What it does.
    pub spoil: fn(&mut Random, &mut Writing),
}

const fn way(cause: u64, part: &'static str, spoil: fn(&mut Random, &mut Writing)) -> WritingWay {
    WritingWay { cause, part, spoil }
}

/// The ways to spoil a writing, by cause.
pub const WRITING_WAYS: [WritingWay; 38] = [
    way(18, "count 0 and empty lists", |_, writing| count(writing, 0)),
    way(18, "count above 128 and lists to it", |r, writing| count(writing, r.pick([129, 129, 130, 256, 257]))),
    way(18, "count 0", |_, writing| writing.users = 0),
    way(18, "count below 0", |r, writing| writing.users = r.pick([-1, -writing.users, -128, i64::MIN])),
    way(18, "count above 128", |r, writing| {
        writing.users = r.pick([129, writing.users + 256, writing.users + (1 << 32), i64::MAX]);
    }),
    way(18, "count other than the lists' length", |r, writing| {
        let other = r.between(1, 128);
        writing.users = if other == writing.users { other % 128 + 1 } else { other };
    }),
    way(18, "zone below 0", |r, writing| writing.zone = r.pick([-1, -2, -256, i64::MIN])),
    way(18, "zone above 1", |r, writing| writing.zone = r.pick([2, 3, 256, 257, 1 << 32, i64::MAX])),
    way(18, "entry list too short", |r, writing| shorten(r, &mut writing.lists[0])),
    way(18, "exit list too short", |r, writing| shorten(r, &mut writing.lists[1])),
    way(18, "title list too short", |r, writing| shorten(r, &mut writing.lists[2])),
    way(18, "pooling list too short", |r, writing| shorten(r, &mut writing.lists[3])),
    way(18, "entry list too long", |r, writing| lengthen(r, &mut writing.lists[0])),
    way(18, "exit list too long", |r, writing| lengthen(r, &mut writing.lists[1])),
    way(18, "title list too long", |r, writing| lengthen(r, &mut writing.lists[2])),
    way(18, "pooling list too long", |r, writing| lengthen(r, &mut writing.lists[3])),
    way(19, "hour below 0", |r, writing| writing.hour = r.pick([-1, -9, -24, -999_999_999])),
    way(19, "hour of ten digits or more", |r, writing| writing.hour = too_long(r)),
    way(19, "hour below 0 of ten digits or more", |r, writing| writing.hour = -too_long(r)),
    way(19, "hour at the end of 64 bits", |_, writing| writing.hour = i64::MIN),
    way(19, "entry of ten digits or more", |r, writing| put(r, &mut writing.lists[0], too_long)),
    way(19, "exit of ten digits or more", |r, writing| put(r, &mut writing.lists[1], too_long)),
    way(19, "title amount of ten digits or more", |r, writing| put(r, &mut writing.lists[2], too_long)),
    way(19, "pooling amount of ten digits or more", |r, writing| put(r, &mut writing.lists[3], too_long)),
    way(19, "entry below 0 of ten digits or more", |r, writing| put(r, &mut writing.lists[0], |r| -too_long(r))),
    way(19, "exit below 0 of ten digits or more", |r, writing| put(r, &mut writing.lists[1], |r| -too_long(r))),
    way(19, "title amount below 0 of ten digits or more", |r, writing| put(r, &mut writing.lists[2], |r| -too_long(r))),
    way(19, "pooling amount below 0 of ten digits or more", |r, writing| put(r, &mut writing.lists[3], |r| -too_long(r))),
    way(19, "entry at the end of 64 bits", |r, writing| put(r, &mut writing.lists[0], |_| i64::MIN)),
    way(19, "exit at the end of 64 bits", |r, writing| put(r, &mut writing.lists[1], |_| i64::MIN)),
    way(19, "title amount at the end of 64 bits", |r, writing| put(r, &mut writing.lists[2], |_| i64::MIN)),
    way(19, "pooling amount at the end of 64 bits", |r, writing| put(r, &mut writing.lists[3], |_| i64::MIN)),
    way(20, "one byte too few", |_, writing| writing.file.truncate(writing.bytes_wanted() - 1)),
    way(20, "two bytes too few", |_, writing| writing.file.truncate(writing.bytes_wanted() - 2)),
    way(20, "the last line too few", |_, writing| writing.file.truncate(before_last_line(writing))),
    way(20, "the header's bytes alone", |_, writing| writing.file.truncate(HEADER.len())),
    way(20, "not all of the header's bytes", |r, writing| writing.file.truncate(1 + r.below(HEADER.len() - 1))),
    way(20, "no bytes", |_, writing| writing.file.clear()),
];

/// A writing for so many users that is accepted, with so many bytes beside those that it
/// takes.
pub fn fit_writing(random: &mut Random, users: usize, more: usize) -> Writing {
    let mut writing = Writing {
        hour: number(random).abs(),
        zone: random.between(0, 1),
        users: users as i64,
        lists: std::array::from_fn(|_| (0..users).map(|_| number(random)).collect()),
        file: Vec::new(),
    };
    let bytes = writing.bytes_wanted() + more;
    writing.lend(random, bytes);
    writing
}

/// A number of at most nine digits, quite often at an end or zero.
fn number(random: &mut Random) -> i64 {
    let any = any_number(random);
    random.pick([any, any, any, any, 0, 999_999_999, -999_999_999])
}

/// A number of ten digits or more, often the first.
fn too_long(random: &mut Random) -> i64 {
    let any = random.between(1_000_000_000, i64::MAX);
    random.pick([1_000_000_000, 1_000_000_000, 9_999_999_999, 1 << 32, (1 << 32) + 5, i64::MAX, any])
}

/// This count, and the lists to it.
fn count(writing: &mut Writing, users: usize) {
    writing.users = users as i64;
    writing.lists.iter_mut().for_each(|list| list.resize(users, 0));
}

fn shorten(random: &mut Random, list: &mut Vec<i64>) {
    list.truncate(random.pick([list.len() - 1, list.len() - 1, list.len() / 2, 0]));
}

fn lengthen(random: &mut Random, list: &mut Vec<i64>) {
    list.resize(list.len() + random.pick([1, 1, 2, 128, 256]), 0);
}

/// An amount of the list is such a number: often the first or the last.
fn put(random: &mut Random, list: &mut [i64], number: fn(&mut Random) -> i64) {
    let any = random.below(list.len());
    let place = random.pick([0, list.len() - 1, any]);
    list[place] = number(random);
}

/// The bytes that the text takes without its last line.
fn before_last_line(writing: &Writing) -> usize {
    let mut shorter = writing.clone();
    shorter.users -= 1;
    shorter.bytes_wanted()
}
