//! Holds the proved program and the independent implementation to cases of a third make: number,
//! place, report and every byte of the buffer. The arguments are the folder of cases, and folders of sheets with
//! `runs` and `sizes`.

#[path = "../../independent/programs/compare/archive.rs"]
mod archive;
mod books;
mod lists;
mod runs;
mod sizes;
mod strengths;

use independent::{Answer, Book, BookAnswer, NextStrength, Trial};
use std::fs;

/// The byte that a buffer is filled with before a call.
const FILL: u8 = b'#';

/// One of the two programs that are held to the cases.
struct Make {
    name: &'static str,
    check: fn(&[u8], &[u8], &[u8], i64, &mut [u8]) -> Answer,
    check_numbers: fn(&[i64], &[i64], &[i64]) -> independent::Numbers,
    check_run: fn(&[u8], &[u8], &[u8], &mut [u8]) -> independent::Run,
    mesh_sizes: fn(&[u8], &[u8]) -> independent::Sizes,
    book_ask: fn(Book, &[u8], &[u8], &[u8]) -> BookAnswer,
    book_commit: fn(Book, u64, &[u8], &[u8], &[u8]) -> BookAnswer,
    next_strength: fn(Trial, Trial) -> NextStrength,
}

const MAKES: [Make; 2] = [
    Make {
        name: "proved",
        check: archive::check,
        check_numbers: archive::check_numbers,
        check_run: archive::check_run,
        mesh_sizes: archive::mesh_sizes,
        book_ask: archive::book_ask,
        book_commit: archive::book_commit,
        next_strength: archive::next_strength,
    },
    Make {
        name: "independent",
        check: independent::check,
        check_numbers: independent::check_numbers,
        check_run: independent::check_run,
        mesh_sizes: independent::mesh_sizes,
        book_ask: independent::book_ask,
        book_commit: independent::book_commit,
        next_strength: independent::next_strength,
    },
];

/// How many answers were compared, and how many differed.
#[derive(Default)]
struct Tally {
    answers: usize,
    wrong: usize,
}

impl Tally {
    fn hold(&mut self, good: bool, what: impl FnOnce() -> String) {
        self.answers += 1;
        if !good {
            self.wrong += 1;
            println!("DIFFERS: {}", what());
        }
    }
}

/// The lines of a table of expected answers, cut at tabs.
fn answers(name: &str) -> Vec<Vec<String>> {
    let text = fs::read_to_string(name).unwrap_or_else(|error| panic!("{name}: {error}"));
    let columns = |line: &str| line.split('\t').map(String::from).collect();
    text.lines().map(columns).collect()
}

/// A file of a case; one that isn't there is empty.
fn file(name: &str) -> Vec<u8> {
    fs::read(name).unwrap_or_default()
}

fn number<T: std::str::FromStr>(text: &str) -> T {
    text.parse()
        .unwrap_or_else(|_| panic!("no number: {text:?}"))
}

/// The buffer after a call: the report, where there is one, then what was there before.
fn buffer(report: &str, room: usize) -> Vec<u8> {
    let mut bytes = vec![FILL; room];
    if report != "-" {
        let line = format!("{report}\n");
        bytes[..line.len()].copy_from_slice(line.as_bytes());
    }
    bytes
}

/// Files: name, number, place, report, kind of place, bytes of the buffer, decimals, how made.
fn files(tally: &mut Tally, folder: &str) {
    for case in answers(&format!("{folder}/expected")) {
        let part = |ending: &str| file(&format!("{folder}/{}.{ending}", case[0]));
        let expected = Answer {
            number: number(&case[1]),
            place: number(&case[2]),
        };
        let (mesh, table, claim) = (part("mesh"), part("table"), part("claim"));
        let (room, decimals) = (number(&case[5]), number(&case[6]));
        for make in &MAKES {
            let mut report = vec![FILL; room];
            let answer = (make.check)(&mesh, &table, &claim, decimals, &mut report);
            let good = answer == expected && report == buffer(&case[3], room);
            let text = String::from_utf8_lossy(&report);
            tally.hold(good, || {
                format!("{} {case:?}: {answer:?} {text}", make.name)
            });
        }
    }
}

fn main() {
    let folder = std::env::args().nth(1).expect("the folder of cases");
    let mut tally = Tally::default();
    files(&mut tally, &folder);
    lists::all(&mut tally, &format!("{folder}/numbers"));
    runs::all(&mut tally, &format!("{folder}/runs"));
    sizes::all(&mut tally, &folder);
    books::all(&mut tally, &format!("{folder}/book"));
    strengths::all(&mut tally, &format!("{folder}/strength"));
    for sheets in std::env::args().skip(2) {
        runs::all(&mut tally, &format!("{sheets}/runs"));
        sizes::all(&mut tally, &sheets);
    }
    println!("{} answers, {} of them differ", tally.answers, tally.wrong);
    std::process::exit(if tally.wrong == 0 && tally.answers > 0 {
        0
    } else {
        1
    });
}
