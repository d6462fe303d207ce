//! The entries of both programs, and one call of each on a sheet.

use crate::archive;
use crate::sheets::{Timed, CLAIMS};
use independent::{Answer, Book, BookAnswer, NextStrength, Numbers, Run, Sizes, Trial};
use std::hint::black_box;

/// The bytes of a report, and the decimals of its loads.
const LINE: usize = 113;
const DECIMALS: i64 = 6;

/// The buffer that reports go to.
pub type Lines = [u8; CLAIMS * LINE];

pub const BLANK: Lines = [b' '; CLAIMS * LINE];

#[derive(Clone, Copy, PartialEq)]
pub enum Entry {
    Check,
    Numbers,
    Run,
    Sizes,
    Ask,
    Commit,
    Strength,
}

impl Entry {
    /// All of them.
    pub const ALL: [Entry; 7] = [
        Entry::Check,
        Entry::Numbers,
        Entry::Run,
        Entry::Sizes,
        Entry::Ask,
        Entry::Commit,
        Entry::Strength,
    ];

    pub fn name(self) -> &'static str {
        match self {
            Entry::Check => "check",
            Entry::Numbers => "check_numbers",
            Entry::Run => "check_run",
            Entry::Sizes => "mesh_sizes",
            Entry::Ask => "book_ask",
            Entry::Commit => "book_commit",
            Entry::Strength => "next_strength",
        }
    }

    pub fn named(name: &str) -> Entry {
        let is_named = |entry: &Entry| entry.name() == name;
        Entry::ALL.into_iter().find(is_named).expect("an entry")
    }
}

/// A book with two bounds and some commits.
const BOOK: Book = Book {
    lower_there: 1,
    upper_there: 1,
    lower_numerator: 1,
    lower_denominator: 3,
    upper_numerator: 1_000_000_000,
    upper_denominator: 7,
    count: 3,
};

/// Two trials that have a next strength.
const TRIALS: [Trial; 2] = [Trial { k: 1.0, l: 1.25 }, Trial { k: 1.5, l: 0.875 }];

/// What an entry answers.
#[derive(Clone, Copy, Debug, PartialEq)]
pub enum Told {
    Answer(Answer),
    Numbers(Numbers),
    Run(Run),
    Sizes(Sizes),
    Book(BookAnswer),
    Strength(NextStrength),
}

/// The functions of a program.
struct Program {
    check: fn(&[u8], &[u8], &[u8], i64, &mut [u8]) -> Answer,
    check_numbers: fn(&[i64], &[i64], &[i64]) -> Numbers,
    check_run: fn(&[u8], &[u8], &[u8], &mut [u8]) -> Run,
    mesh_sizes: fn(&[u8], &[u8]) -> Sizes,
    book_ask: fn(Book, &[u8], &[u8], &[u8]) -> BookAnswer,
    book_commit: fn(Book, u64, &[u8], &[u8], &[u8]) -> BookAnswer,
    next_strength: fn(Trial, Trial) -> NextStrength,
}

const PROVED: Program = Program {
    check: archive::check,
    check_numbers: archive::check_numbers,
    check_run: archive::check_run,
    mesh_sizes: archive::mesh_sizes,
    book_ask: archive::book_ask,
    book_commit: archive::book_commit,
    next_strength: archive::next_strength,
};

const INDEPENDENT: Program = Program {
    check: independent::check,
    check_numbers: independent::check_numbers,
    check_run: independent::check_run,
    mesh_sizes: independent::mesh_sizes,
    book_ask: independent::book_ask,
    book_commit: independent::book_commit,
    next_strength: independent::next_strength,
};

/// One call of an entry. It has to stand inside the two functions below: a jump out of them would end their count.
#[inline(always)]
fn call(program: &Program, entry: Entry, sheet: &Timed, lines: &mut Lines) -> Told {
    let (files, lists) = (&sheet.files, &sheet.lists);
    let (mesh, table, claim) = (&files.mesh[..], &files.table[..], &files.claim[..]);
    match entry {
        Entry::Check => {
            let line = &mut lines[..LINE];
            Told::Answer((program.check)(mesh, table, claim, DECIMALS, line))
        }
        Entry::Numbers => {
            let (mesh, table, claim) = (&lists.mesh[..], &lists.table[..], &lists.claim[..]);
            Told::Numbers((program.check_numbers)(mesh, table, claim))
        }
        Entry::Run => Told::Run((program.check_run)(mesh, table, &sheet.claims, lines)),
        Entry::Sizes => Told::Sizes((program.mesh_sizes)(mesh, table)),
        Entry::Ask => Told::Book((program.book_ask)(BOOK, mesh, table, claim)),
        Entry::Commit => Told::Book((program.book_commit)(BOOK, BOOK.count, mesh, table, claim)),
        Entry::Strength => {
            let [first, second] = black_box(TRIALS);
            Told::Strength((program.next_strength)(first, second))
        }
    }
}

/// Calls of both programs under names of their own, for a tool that counts instructions inside them.
#[no_mangle]
#[inline(never)]
pub fn proved_call(entry: Entry, sheet: &Timed, lines: &mut Lines) -> Told {
    call(&PROVED, entry, sheet, lines)
}

#[no_mangle]
#[inline(never)]
pub fn independent_call(entry: Entry, sheet: &Timed, lines: &mut Lines) -> Told {
    call(&INDEPENDENT, entry, sheet, lines)
}
