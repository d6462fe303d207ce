//! Calls both programs on one input and counts the answers.

use crate::archive;
use crate::random::Random;
use independent::sheet::{Files, Lists, Sheet};
use independent::{Answer, Book, BookAnswer, Run, Trial};
use std::collections::BTreeMap;

/// Every number in the order of the checks: 0, those of a mesh and its table, those of a claim, and those that have to
/// do with the call.
const ACCEPTED: [u32; 1] = [0];
const OF_MESH: [u32; 13] = [1, 2, 3, 4, 46, 45, 5, 6, 7, 47, 8, 44, 42];
const OF_CLAIM: [u32; 8] = [11, 12, 13, 21, 22, 31, 32, 33];
const OF_CHECK: [u32; 2] = [41, 43];
const OF_BOOK: [u32; 1] = [48];
const OF_NEXT: [u32; 1] = [49];
const NUMBERS: [&[u32]; 6] = [
    &ACCEPTED, &OF_MESH, &OF_CLAIM, &OF_CHECK, &OF_BOOK, &OF_NEXT,
];

/// The calls, each a column of what is printed. A run has the number of each of its reports.
#[derive(Clone, Copy)]
enum Call {
    Check,
    Numbers,
    Run,
    Sizes,
    Ask,
    Commit,
    Next,
}

/// Each call's name, and the numbers that it can get.
const CALLS: [(&str, &[&[u32]]); 7] = [
    ("check", &[&ACCEPTED, &OF_MESH, &OF_CLAIM, &OF_CHECK]),
    ("numbers", &[&ACCEPTED, &OF_MESH, &OF_CLAIM]),
    ("run", &[&ACCEPTED, &OF_MESH, &OF_CLAIM]),
    ("sizes", &[&ACCEPTED, &OF_MESH]),
    ("ask", &[&ACCEPTED, &OF_MESH, &OF_CLAIM, &OF_BOOK]),
    ("commit", &[&ACCEPTED, &OF_MESH, &OF_CLAIM, &OF_BOOK]),
    ("next", &[&ACCEPTED, &OF_NEXT]),
];

/// The bytes of a report, and of a column of it.
pub const LINE: usize = 113;
const COLUMN: usize = 28;

/// The number that a report begins with.
fn first_number(report: &[u8]) -> u32 {
    let text = std::str::from_utf8(&report[..COLUMN]).unwrap_or_default();
    text.trim_start().parse().unwrap_or(u32::MAX)
}

/// How a check is called: decimals, and a buffer of `room` bytes, filled with `fill` before.
#[derive(Clone, Copy, Debug)]
pub struct How {
    pub decimals: i64,
    pub room: usize,
    pub fill: u8,
}

impl How {
    pub const PLAIN: How = How {
        decimals: 6,
        room: LINE,
        fill: b'#',
    };

    pub fn at_random(random: &mut Random) -> How {
        let room = match random.below(16) {
            0 => random.below(LINE),
            1..=3 => LINE + random.below(8),
            _ => LINE,
        };
        let decimals = match random.below(32) {
            0 => random.pick(&[-1, 8, i64::MIN, i64::MAX, 1 << 32]),
            1..=16 => random.between(0, 7),
            _ => 6,
        };
        How {
            decimals,
            room,
            fill: random.below(256) as u8,
        }
    }
}

/// How often each number came, and how often the two disagreed.
#[derive(Default)]
pub struct Tally {
    /// By number, then call.
    counts: BTreeMap<u32, [u64; CALLS.len()]>,
    /// Runs by how many reports they wrote.
    runs: BTreeMap<u64, u64>,
    /// Claims whose lengths were held to the sizes told.
    lengths: u64,
    /// Blends of accepted fields.
    pub blends: u64,
    /// Sheets changed so that the report has to stay, and did.
    pub changed: u64,
    disagreements: u64,
}

impl Tally {
    fn count(&mut self, call: Call, number: u32) {
        self.counts.entry(number).or_default()[call as usize] += 1;
    }

    /// What another one counted is added.
    pub fn add(&mut self, other: Tally) {
        for (number, row) in other.counts {
            let sums = self.counts.entry(number).or_default();
            sums.iter_mut()
                .zip(row)
                .for_each(|(sum, more)| *sum += more);
        }
        for (reports, more) in other.runs {
            *self.runs.entry(reports).or_default() += more;
        }
        self.lengths += other.lengths;
        self.blends += other.blends;
        self.changed += other.changed;
        self.disagreements += other.disagreements;
    }

    pub fn disagree_on(&mut self, what: &str) {
        self.disagreements += 1;
        if self.disagreements <= 3 {
            println!("DISAGREEMENT: {what}");
        }
    }

    pub fn disagree(&mut self, what: &str, files: &Files) {
        self.disagree_on(what);
        if self.disagreements <= 3 {
            println!("mesh:\n{}", String::from_utf8_lossy(&files.mesh));
            println!("table:\n{}", String::from_utf8_lossy(&files.table));
            println!("claim:\n{}", String::from_utf8_lossy(&files.claim));
        }
    }

    /// Both checks, called one way; the answer is the independent one.
    pub fn file(&mut self, files: &Files, how: How) -> Answer {
        let Files { mesh, table, claim } = files;
        let mut proved = vec![how.fill; how.room];
        let mut independent = proved.clone();
        let theirs = archive::check(mesh, table, claim, how.decimals, &mut proved);
        let ours = independent::check(mesh, table, claim, how.decimals, &mut independent);
        self.count(Call::Check, ours.number);
        if theirs != ours || proved != independent {
            let line = String::from_utf8_lossy(&proved).into_owned();
            self.disagree(&format!("{theirs:?} not {ours:?}, {how:?}: {line}"), files);
        }
        ours
    }

    /// Both give the answer that was worked out by hand for cause number `k`.
    pub fn expect(&mut self, files: &Files, number: u32, place: u32, k: usize) {
        let ours = self.file(files, How::PLAIN);
        if (ours.number, ours.place) != (number, place) {
            let what = format!("{ours:?}, by hand {number}, {place}: cause {k}");
            self.disagree(&what, files);
        }
    }

    pub fn list(&mut self, lists: &Lists) {
        let Lists { mesh, table, claim } = lists;
        let theirs = archive::check_numbers(mesh, table, claim);
        let ours = independent::check_numbers(mesh, table, claim);
        self.count(Call::Numbers, ours.number);
        if theirs != ours {
            let text = |list: &[i64]| format!("{list:?}").into_bytes();
            let files = Files {
                mesh: text(mesh),
                table: text(table),
                claim: text(claim),
            };
            self.disagree(&format!("{theirs:?} not {ours:?}"), &files);
        }
    }

    /// Both runs, the claims as one file, on one buffer; the answer is the independent one.
    pub fn run(&mut self, files: &Files, room: usize, fill: u8) -> Run {
        let Files { mesh, table, claim } = files;
        let mut proved = vec![fill; room];
        let mut independent = proved.clone();
        let theirs = archive::check_run(mesh, table, claim, &mut proved);
        let ours = independent::check_run(mesh, table, claim, &mut independent);
        *self.runs.entry(ours.reports).or_default() += 1;
        let written = independent.chunks(LINE).take(ours.reports as usize);
        written.for_each(|report| self.count(Call::Run, first_number(report)));
        if theirs != ours || proved != independent {
            self.disagree(
                &format!("{theirs:?} not {ours:?}, a run, room {room}"),
                files,
            );
        }
        ours
    }

    /// Both sizes of a mesh; a claim that passes 11, 12 and 13 has the length said for its kind.
    pub fn sizes(&mut self, files: &Files) {
        let theirs = archive::mesh_sizes(&files.mesh, &files.table);
        let ours = independent::mesh_sizes(&files.mesh, &files.table);
        if theirs != ours {
            self.disagree(&format!("{theirs:?} not {ours:?}"), files);
        }
        self.count(Call::Sizes, ours.number);
        if ours.number != 0 {
            return;
        }
        let verdict = independent::judge_files(&files.mesh, &files.table, &files.claim);
        if verdict.is_err_and(|refusal| refusal.number < 20) {
            return;
        }
        self.lengths += 1;
        let said = match (files.claim[11], files.claim[23]) {
            (b'1', b'1') => ours.both_bytes,
            (b'1', _) => ours.field_bytes,
            _ => ours.multipliers_bytes,
        };
        if files.claim.len() as u64 != said {
            self.disagree(&format!("{ours:?}, not the claim's length"), files);
        }
    }

    fn book(&mut self, call: Call, [theirs, ours]: [BookAnswer; 2], files: &Files) -> BookAnswer {
        self.count(call, ours.number);
        if theirs != ours {
            self.disagree(&format!("{theirs:?} not {ours:?}"), files);
        }
        ours
    }

    /// Both books that an ask tells; the answer is the independent one.
    pub fn ask(&mut self, book: Book, files: &Files) -> BookAnswer {
        let Files { mesh, table, claim } = files;
        let theirs = archive::book_ask(book, mesh, table, claim);
        let ours = independent::book_ask(book, mesh, table, claim);
        self.book(Call::Ask, [theirs, ours], files)
    }

    /// Both books after a commit.
    pub fn commit(&mut self, book: Book, count: u64, files: &Files) -> BookAnswer {
        let Files { mesh, table, claim } = files;
        let theirs = archive::book_commit(book, count, mesh, table, claim);
        let ours = independent::book_commit(book, count, mesh, table, claim);
        self.book(Call::Commit, [theirs, ours], files)
    }

    /// An accepted sheet that was changed exactly has the report that it had.
    pub fn same(&mut self, before: &Sheet, after: &Sheet) {
        let report = |files: &Files| {
            let mut line = [0; LINE];
            let answer = independent::check(&files.mesh, &files.table, &files.claim, 7, &mut line);
            (answer.number == 0).then_some(line)
        };
        let Some(kept) = report(&before.files()) else {
            return;
        };
        self.changed += 1;
        let files = after.files();
        if report(&files) != Some(kept) {
            self.disagree("another report after an exact change", &files);
        }
    }

    /// Both next strengths, whatever they are.
    pub fn any_strength(&mut self, first: Trial, second: Trial) {
        let ours = independent::next_strength(first, second);
        let expected = (ours.number == 0).then_some(ours.strength);
        self.strength(first, second, expected);
    }

    /// Both next strengths, and the one that is expected; none where the trials are refused.
    pub fn strength(&mut self, first: Trial, second: Trial, expected: Option<f64>) {
        let theirs = archive::next_strength(first, second);
        let ours = independent::next_strength(first, second);
        self.count(Call::Next, ours.number);
        let number = if expected.is_some() { 0 } else { 49 };
        let bits = expected.map_or(0, f64::to_bits);
        for found in [theirs, ours] {
            if (found.number, found.place, found.strength.to_bits()) != (number, 0, bits) {
                self.disagree_on(&format!(
                    "{found:?}, not {expected:?}, of {first:?}, {second:?}"
                ));
            }
        }
    }

    /// A sheet as files and as numbers, and its mesh's sizes.
    pub fn sheet(&mut self, random: &mut Random, sheet: &Sheet) {
        let files = sheet.files();
        self.file(&files, How::at_random(random));
        self.sizes(&files);
        self.list(&sheet.lists());
    }

    /// A row for each number, with how often each call gave it; `-` where it can't.
    pub fn print(&self) {
        println!(
            "number{}",
            CALLS.map(|(name, _)| format!(" {name:>10}")).concat()
        );
        for number in NUMBERS.concat() {
            let row = self.counts.get(&number).copied().unwrap_or_default();
            let cells = CALLS.iter().zip(row).map(|((_, can), count)| {
                let is_there = count > 0 || can.concat().contains(&number);
                let text = if is_there {
                    count.to_string()
                } else {
                    "-".into()
                };
                format!(" {text:>10}")
            });
            println!("{number:>6}{}", cells.collect::<String>());
        }
        println!("runs by reports: {:?}", self.runs);
        println!("claims of the lengths told: {}", self.lengths);
        println!(
            "blends: {}, sheets changed exactly: {}",
            self.blends, self.changed
        );
        println!("disagreements: {}", self.disagreements);
    }

    pub fn agrees(&self) -> bool {
        self.disagreements == 0
    }

    /// The numbers that a call can give and never gave.
    fn missing(&self) -> Vec<String> {
        let came =
            |call: usize, number: u32| self.counts.get(&number).is_some_and(|row| row[call] > 0);
        let of_call = |(call, (name, can)): (usize, &(&str, &[&[u32]]))| {
            let never = can.concat().into_iter().filter(move |&n| !came(call, n));
            never
                .map(|number| format!("{name} {number}"))
                .collect::<Vec<_>>()
        };
        CALLS.iter().enumerate().flat_map(of_call).collect()
    }

    /// Every call gave every number that it can, and the two agreed each time.
    pub fn good(&self) -> bool {
        let missing = self.missing();
        if !missing.is_empty() {
            println!("never came: {}", missing.join(", "));
        }
        self.agrees()
            && missing.is_empty()
            && self.runs.keys().any(|&reports| reports > 2)
            && self.lengths > 0
            && self.changed > 0
    }
}
