//! The inputs that fuzzing found, cut as `fuzz/harness.c` cuts them: a mesh, a claim or several, a table, and the rest
//! of what the calls take, with a byte 0 between. Where the rest is cut short or missing its words have their usual
//! values.

use crate::tally::{How, Tally, LINE};
use independent::sheet::{Files, Lists};
use independent::{Book, Trial};

/// The most bytes of a buffer for reports.
const ROOM: usize = 3 * LINE + 7;

/// Two trials, a book, the count that a commit names, decimals, bytes of the buffer, and which number of the lists is
/// another one.
const WORDS: usize = 15;

pub struct Found {
    pub files: Files,
    rest: [u64; WORDS],
}

fn usual() -> [u64; WORDS] {
    let mut words = [0; WORDS];
    words[..4].copy_from_slice(&[1.0, 0.5, 2.0, 0.25].map(f64::to_bits));
    words[11..14].copy_from_slice(&[6, ROOM as u64, u64::MAX]);
    words
}

impl Found {
    fn of(input: &[u8]) -> Found {
        let mut parts = input.splitn(4, |&byte| byte == 0);
        let mut next = || parts.next().unwrap_or_default().to_vec();
        let (mesh, claim, table, rest) = (next(), next(), next(), next());
        let mut bytes = usual().map(u64::to_le_bytes);
        let words = bytes.as_flattened_mut();
        let there = rest.len().min(words.len());
        words[..there].copy_from_slice(&rest[..there]);
        Found {
            files: Files { mesh, table, claim },
            rest: bytes.map(u64::from_le_bytes),
        }
    }

    pub fn all(folder: &str) -> Vec<Found> {
        let entries = std::fs::read_dir(folder).expect("the folder of found inputs");
        let mut names: Vec<_> = entries
            .map(|entry| entry.expect("an entry").path())
            .collect();
        names.sort();
        let read = |name| Found::of(&std::fs::read(name).expect("a found input"));
        names.iter().map(read).collect()
    }

    fn book(&self) -> Book {
        let [there, a, b, c, d, count] = self.rest[4..10] else {
            unreachable!("six words")
        };
        Book {
            lower_there: there as u32,
            upper_there: (there >> 32) as u32,
            lower_numerator: a as i64,
            lower_denominator: b as i64,
            upper_numerator: c as i64,
            upper_denominator: d as i64,
            count,
        }
    }

    fn lists(&self) -> Lists {
        let mut lists = lists(&self.files);
        let (at, number) = (self.rest[13] as usize, self.rest[14] as i64);
        let all = [&mut lists.mesh, &mut lists.table, &mut lists.claim];
        all.into_iter()
            .flatten()
            .skip(at)
            .take(1)
            .for_each(|other| *other = number);
        lists
    }

    /// Every call.
    pub fn put(&self, tally: &mut Tally) {
        let files = &self.files;
        let room = self.rest[12] as usize % (ROOM + 1);
        let how = How {
            decimals: self.rest[11] as i64,
            room,
            fill: 0xA5,
        };
        tally.file(files, how);
        tally.file(files, How::PLAIN);
        tally.run(files, room, 0xA5);
        tally.sizes(files);
        tally.list(&self.lists());
        let book = self.book();
        tally.ask(book, files);
        let next = tally.commit(book, self.rest[10], files).book;
        tally.commit(next, next.count, files);
        let [k1, l1, k2, l2] = [0, 1, 2, 3].map(|word| f64::from_bits(self.rest[word]));
        tally.any_strength(Trial { k: k1, l: l1 }, Trial { k: k2, l: l2 });
    }
}

/// What a column begins with as a number, 0 if it is none.
fn leading_number(column: &[u8]) -> i64 {
    let text = column.trim_ascii_start();
    let (sign, digits) = match text {
        [b'-', rest @ ..] => (-1, rest),
        [b'+', rest @ ..] => (1, rest),
        _ => (1, text),
    };
    let digits = digits.iter().take_while(|byte| byte.is_ascii_digit());
    sign * digits.fold(0, |value, &digit| 10 * value + i64::from(digit - b'0'))
}

/// The numbers of a file as far as its columns go, whatever they are.
fn numbers(file: &[u8]) -> Vec<i64> {
    let mut rest = file;
    let mut all = Vec::new();
    while let Some((column, after)) = rest.split_at_checked(12) {
        all.push(leading_number(column));
        rest = after.strip_prefix(b"\n").unwrap_or(after);
    }
    all
}

/// The numbers of files that need not be well formed.
pub fn lists(files: &Files) -> Lists {
    Lists {
        mesh: numbers(&files.mesh),
        table: numbers(&files.table),
        claim: numbers(&files.claim),
    }
}
