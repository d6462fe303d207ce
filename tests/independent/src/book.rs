//! A book of the best bracket (document 02, N12).

use crate::{judge_files, Load, Refusal};

/// The count from which on a book takes nothing.
const FULL: u64 = 1_000_000;

/// The highest carried load and the lowest limit, each where it is there, and how many commits.
#[repr(C)]
#[derive(Clone, Copy, Debug, Default, PartialEq, Eq)]
pub struct Book {
    pub lower_there: u32,
    pub upper_there: u32,
    pub lower_numerator: i64,
    pub lower_denominator: i64,
    pub upper_numerator: i64,
    pub upper_denominator: i64,
    pub count: u64,
}

/// Number and place, and the book after the call, or the one that would follow an ask.
#[repr(C)]
#[derive(Clone, Copy, Debug, PartialEq, Eq)]
pub struct BookAnswer {
    pub number: u32,
    pub place: u32,
    pub book: Book,
}

impl Book {
    /// A bound that is there is marked by 1; one that is not has zeros.
    pub fn of(lower: Option<Load>, upper: Option<Load>, count: u64) -> Book {
        let parts = |bound: Option<Load>| {
            bound.map_or((0, 0, 0), |load| (1, load.numerator, load.denominator))
        };
        let (lower_there, lower_numerator, lower_denominator) = parts(lower);
        let (upper_there, upper_numerator, upper_denominator) = parts(upper);
        Book {
            lower_there,
            upper_there,
            lower_numerator,
            lower_denominator,
            upper_numerator,
            upper_denominator,
            count,
        }
    }

    pub fn lower(&self) -> Option<Load> {
        (self.lower_there != 0).then_some(Load {
            numerator: self.lower_numerator,
            denominator: self.lower_denominator,
        })
    }

    pub fn upper(&self) -> Option<Load> {
        (self.upper_there != 0).then_some(Load {
            numerator: self.upper_numerator,
            denominator: self.upper_denominator,
        })
    }

    /// It can be asked: not full, and its bounds are fractions.
    fn is_sound(&self) -> bool {
        let bounds = [self.lower(), self.upper()];
        self.count < FULL && bounds.iter().flatten().all(|bound| bound.denominator > 0)
    }

    /// The book after an accepted claim with these loads, whatever marked a bound before.
    fn after(self, carried: Option<Load>, limit: Option<Load>) -> Book {
        let lower = better(self.lower(), carried, |load, bound| is_below(bound, load));
        let upper = better(self.upper(), limit, is_below);
        Book::of(lower, upper, self.count + 1)
    }
}

/// The load if it is strictly better than the bound; any is better than none.
fn better(
    bound: Option<Load>,
    load: Option<Load>,
    is_better: fn(Load, Load) -> bool,
) -> Option<Load> {
    match (bound, load) {
        (Some(bound), Some(load)) if !is_better(load, bound) => Some(bound),
        (_, Some(load)) => Some(load),
        (bound, None) => bound,
    }
}

/// Compared as exact fractions, denominators above 0.
fn is_below(a: Load, b: Load) -> bool {
    i128::from(a.numerator) * i128::from(b.denominator)
        < i128::from(b.numerator) * i128::from(a.denominator)
}

/// The book that would follow a commit of the claim.
pub fn book_ask(book: Book, mesh: &[u8], table: &[u8], claim: &[u8]) -> BookAnswer {
    let answer = |number, place, book| BookAnswer {
        number,
        place,
        book,
    };
    if !book.is_sound() {
        return answer(48, 0, book);
    }
    match judge_files(mesh, table, claim) {
        Ok(accepted) => answer(0, 0, book.after(accepted.carried, accepted.limit)),
        Err(Refusal { number, place }) => answer(number, place, book),
    }
}

/// A commit that names the count which its ask saw.
pub fn book_commit(book: Book, count: u64, mesh: &[u8], table: &[u8], claim: &[u8]) -> BookAnswer {
    if count != book.count {
        return BookAnswer {
            number: 48,
            place: 0,
            book,
        };
    }
    book_ask(book, mesh, table, claim)
}
