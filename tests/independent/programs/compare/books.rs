//! Books of the best bracket (document 02, N12): by hand, and calls at random, after which the book is
//! held to the best of the accepted claims committed.

use crate::causes::{changed, Change};
use crate::damage;
use crate::grids;
use crate::random::Random;
use crate::tally::Tally;
use independent::sheet::{file, Files, Sheet};
use independent::{Accepted, Book, Load};

fn book(lower: Option<(i64, i64)>, upper: Option<(i64, i64)>, count: u64) -> Book {
    let load = |(numerator, denominator)| Load {
        numerator,
        denominator,
    };
    Book::of(lower.map(load), upper.map(load), count)
}

const MOST: i64 = i64::MAX;

/// Books for the worked sheet, whose loads are 20/1 and 600/30, and the books after it.
fn accepted() -> Vec<(Book, Book)> {
    let (lower, upper) = (Some((20, 1)), Some((600, 30)));
    vec![
        (book(None, None, 0), book(lower, upper, 1)),
        (book(Some((19, 1)), None, 7), book(lower, upper, 8)),
        (book(None, Some((21, 1)), 7), book(lower, upper, 8)),
        // A tie moves nothing: the book keeps its own numbers.
        (
            book(Some((40, 2)), Some((40, 2)), 1),
            book(Some((40, 2)), Some((40, 2)), 2),
        ),
        (
            book(Some((21, 1)), Some((19, 1)), 1),
            book(Some((21, 1)), Some((19, 1)), 2),
        ),
        (
            book(Some((-21, 1)), Some((2001, 100)), 1),
            book(lower, upper, 2),
        ),
        (
            book(Some((1999, 100)), Some((1999, 100)), 1),
            book(lower, Some((1999, 100)), 2),
        ),
        // Products beyond 64 bits.
        (
            book(Some((MOST, MOST / 20)), Some((MOST, MOST / 20)), 3),
            book(Some((MOST, MOST / 20)), upper, 4),
        ),
        (
            book(Some((MOST, 1)), Some((i64::MIN, 1)), 3),
            book(Some((MOST, 1)), Some((i64::MIN, 1)), 4),
        ),
        (
            book(Some((i64::MIN, MOST)), Some((MOST, 1)), 3),
            book(lower, upper, 4),
        ),
        (
            book(Some((-1, MOST)), Some((MOST, MOST)), 3),
            book(lower, Some((MOST, MOST)), 4),
        ),
        (book(None, None, 999_999), book(lower, upper, 1_000_000)),
    ]
}

/// Books that nothing can be asked of: full, or with a bound that is no fraction.
fn unsound() -> Vec<Book> {
    vec![
        book(None, None, 1_000_000),
        book(Some((1, 1)), Some((30, 1)), 1_000_001),
        book(None, None, u64::MAX),
        book(Some((1, 0)), None, 0),
        book(None, Some((1, -1)), 0),
        book(Some((1, 1)), Some((1, 0)), 0),
        book(Some((1, i64::MIN)), Some((1, 1)), 0),
    ]
}

/// An ask and a commit that names the book's own count agree; both give this answer.
fn expect(tally: &mut Tally, files: &Files, before: Book, number: u32, place: u32, after: Book) {
    for answer in [
        tally.ask(before, files),
        tally.commit(before, before.count, files),
    ] {
        if (answer.number, answer.place, answer.book) != (number, place, after) {
            let what = format!("{answer:?}, by hand {number}, {place}, {after:?}");
            tally.disagree(&what, files);
        }
    }
}

pub fn by_hand(tally: &mut Tally) {
    let worked = Sheet::worked();
    let good = worked.files();
    let beyond = changed(
        &worked,
        &[Change::FieldColumn(2, -21), Change::Claim(1, 4, 21)],
    )
    .files();
    let field = changed(&worked, &[Change::NoMultipliers, Change::Claim(1, 2, 0)]).files();
    let broken = Files {
        mesh: Vec::new(),
        ..good.clone()
    };
    for (before, after) in accepted() {
        expect(tally, &good, before, 0, 0, after);
        expect(tally, &beyond, before, 22, 1, before);
        expect(tally, &broken, before, 1, 1, before);
        for count in [before.count + 1, before.count.wrapping_sub(1), u64::MAX] {
            let answer = tally.commit(before, count, &good);
            if (answer.number, answer.place, answer.book) != (48, 0, before) {
                tally.disagree(&format!("{answer:?}, by hand 48"), &good);
            }
        }
    }
    expect(
        tally,
        &field,
        book(None, None, 0),
        0,
        0,
        book(Some((20, 1)), None, 1),
    );
    bedded_by_hand(tally, &worked);
    for before in unsound() {
        for files in [&good, &beyond, &broken] {
            expect(tally, files, before, 48, 0, before);
        }
    }
}

/// "A book takes no carried load from such a mesh" (document 02, N14): the worked sheet with a bedded
/// soil that no element has, with both parts and with its field alone.
fn bedded_by_hand(tally: &mut Tally, worked: &Sheet) {
    let listed = [
        Change::Mesh(1, 3, 2),
        Change::MeshInsert(3, &[0, 1, 1, 10, 0, 0, 0, 0, 1, 6]),
    ];
    let both = changed(worked, &listed);
    let field = changed(&both, &[Change::NoMultipliers, Change::Claim(1, 2, 0)]).files();
    let both = both.files();
    for lower in [None, Some((-21, 1)), Some((21, 1))] {
        let before = book(lower, Some((21, 1)), 4);
        expect(tally, &both, before, 0, 0, book(lower, Some((600, 30)), 5));
        expect(tally, &field, before, 0, 0, book(lower, Some((21, 1)), 5));
    }
}

fn is_below(a: Load, b: Load) -> bool {
    i128::from(a.numerator) * i128::from(b.denominator)
        < i128::from(b.numerator) * i128::from(a.denominator)
}

/// A bound of a book that is no worse than any of the loads, and is one of them.
fn is_best(bound: Option<Load>, loads: &[Load], is_better: fn(Load, Load) -> bool) -> bool {
    match bound {
        None => loads.is_empty(),
        Some(bound) => loads.contains(&bound) && !loads.iter().any(|&load| is_better(load, bound)),
    }
}

fn holds_best(book: &Book, committed: &[Accepted]) -> bool {
    let carried: Vec<Load> = committed.iter().filter_map(|claim| claim.carried).collect();
    let limits: Vec<Load> = committed.iter().filter_map(|claim| claim.limit).collect();
    book.count == committed.len() as u64
        && is_best(book.lower(), &carried, |a, b| is_below(b, a))
        && is_best(book.upper(), &limits, is_below)
}

/// A bound that is none, near the loads of a claim, next to the ends of 64 bits, or any numbers at all.
fn any_bound(random: &mut Random) -> Option<(i64, i64)> {
    match random.below(5) {
        0 => None,
        1 => Some((random.between(-400, 400), random.between(1, 20))),
        2 => Some((
            random.between(-100_000_000, 100_000_000),
            random.between(1, 100_000),
        )),
        3 => Some((
            random.pick(&[i64::MIN, -1, 0, 1, MOST]),
            random.pick(&[MOST, MOST / 20, 1]),
        )),
        _ => {
            let shift = random.below(16).min(1);
            Some((random.next() as i64, (random.next() >> shift) as i64))
        }
    }
}

/// A book from before, sound or not, with any mark for a bound that is there.
pub fn any(random: &mut Random) -> Book {
    let count = match random.below(4) {
        0 => 0,
        1 => random.pick(&[1, 7, 999_998, 999_999, 999_999, 1_000_000, u64::MAX]),
        _ => random.below(1_000_000) as u64,
    };
    let (lower, upper) = (any_bound(random), any_bound(random));
    let mut book = book(lower, upper, count);
    if random.one_in(8) {
        book.lower_there = random.next() as u32;
        book.upper_there = random.next() as u32;
    }
    book
}

/// Asks and commits on one mesh, from an empty book, some with a count that is not the book's.
pub fn at_random(tally: &mut Tally, random: &mut Random) {
    let (mesh, table, claims) = grids::family(random, 8);
    let (mesh, table) = (file(&mesh), file(&table));
    let mut book = Book::default();
    let mut committed = Vec::new();
    for claim in &claims {
        let mut files = Files {
            mesh: mesh.clone(),
            table: table.clone(),
            claim: file(claim),
        };
        if random.one_in(6) {
            damage::bytes(random, &mut files.claim);
        }
        let asked = tally.ask(book, &files);
        let stale = random.one_in(6);
        let count = if stale { book.count + 1 } else { book.count };
        let answer = tally.commit(book, count, &files);
        if !stale && answer != asked {
            tally.disagree(&format!("{answer:?}, asked {asked:?}"), &files);
        }
        let verdict = independent::judge_files(&files.mesh, &files.table, &files.claim);
        if !stale {
            committed.extend(verdict);
        }
        book = answer.book;
        if !holds_best(&book, &committed) {
            tally.disagree(
                &format!("{book:?} is not the best of {committed:?}"),
                &files,
            );
        }
    }
}
