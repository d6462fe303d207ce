//! A book of the best bracket.

use crate::{ffi, Mesh, Refusal};

/// The best bracket of the claims for one mesh. The default is the empty book.
///
/// A bound is a fraction, numerator and denominator, as it stood in its claim and not reduced.
#[derive(Clone, Copy, Debug, Default, PartialEq, Eq)]
pub struct Book {
    /// The highest carried load.
    pub lower: Option<(i64, i64)>,
    /// The lowest limit.
    pub upper: Option<(i64, i64)>,
    /// How many accepted claims were committed.
    pub count: u64,
}

impl Book {
    /// Judges a claim and tells the book that would follow it. A refused claim leaves the book as it is. Refused with
    /// 48 when the count is 1,000,000 or more, or a bound has a denominator not above 0.
    pub fn ask(self, mesh: &Mesh<'_>, claim: &[u8]) -> Result<Book, Refusal> {
        told(ffi::book_ask(self.lent(), mesh.mesh, mesh.table, claim))
    }

    /// The same, and the book that comes back is the one to go on with. The count is that of the book which the ask
    /// saw; refused with 48 also where it isn't this one's.
    pub fn commit(self, count: u64, mesh: &Mesh<'_>, claim: &[u8]) -> Result<Book, Refusal> {
        told(ffi::book_commit(
            self.lent(),
            count,
            mesh.mesh,
            mesh.table,
            claim,
        ))
    }

    fn lent(self) -> ffi::Book {
        let (lower_numerator, lower_denominator) = self.lower.unwrap_or_default();
        let (upper_numerator, upper_denominator) = self.upper.unwrap_or_default();
        ffi::Book {
            lower_there: self.lower.is_some().into(),
            upper_there: self.upper.is_some().into(),
            lower_numerator,
            lower_denominator,
            upper_numerator,
            upper_denominator,
            count: self.count,
        }
    }
}

fn told(answer: ffi::BookAnswer) -> Result<Book, Refusal> {
    match Refusal::of(answer.number, answer.place) {
        Some(refusal) => Err(refusal),
        None => Ok(taken(&answer.book)),
    }
}

fn taken(book: &ffi::Book) -> Book {
    let bound =
        |there: u32, numerator, denominator| (there != 0).then_some((numerator, denominator));
    Book {
        lower: bound(
            book.lower_there,
            book.lower_numerator,
            book.lower_denominator,
        ),
        upper: bound(
            book.upper_there,
            book.upper_numerator,
            book.upper_denominator,
        ),
        count: book.count,
    }
}
