//! Books: name, ask or commit, the book before, the named count, which claim, number, place, the book
//! after. A book is lower, upper, count; a bound is numerator/denominator or none.

use crate::{answers, file, number, Tally, MAKES};
use independent::{Book, BookAnswer, Load};

fn bound(text: &str) -> Option<Load> {
    let (numerator, denominator) = text.split_once('/')?;
    Some(Load {
        numerator: number(numerator),
        denominator: number(denominator),
    })
}

fn book(text: &str) -> Book {
    let parts: Vec<&str> = text.split(',').collect();
    Book::of(bound(parts[0]), bound(parts[1]), number(parts[2]))
}

/// The same bound as a fraction, or the very same numbers.
fn same(found: Option<Load>, expected: Option<Load>) -> bool {
    let (Some(a), Some(b)) = (found, expected) else {
        return found == expected;
    };
    let product = |a: Load, b: Load| i128::from(a.numerator) * i128::from(b.denominator);
    a == b || a.denominator > 0 && b.denominator > 0 && product(a, b) == product(b, a)
}

/// The book as expected, with 1 for a bound that is there and zeros for one that is not.
fn same_book(book: &Book, expected: &Book) -> bool {
    let (lower, upper) = (book.lower(), book.upper());
    *book == Book::of(lower, upper, expected.count)
        && same(lower, expected.lower())
        && same(upper, expected.upper())
}

/// Cases of a request before N12 have no books.
pub fn all(tally: &mut Tally, folder: &str) {
    let expected = format!("{folder}/expected");
    if !std::path::Path::new(&expected).exists() {
        return;
    }
    for case in answers(&expected) {
        let part = |ending: &str| file(&format!("{folder}/{}.{ending}", case[0]));
        let (mesh, table) = (part("mesh"), part("table"));
        let claim = part(&format!("{}.claim", case[4]));
        let (before, after) = (book(&case[2]), book(&case[7]));
        for make in &MAKES {
            let answer: BookAnswer = match case[1].as_str() {
                "ask" => (make.book_ask)(before, &mesh, &table, &claim),
                // A count below 0 is one that no book has.
                _ => {
                    let count = number::<i64>(&case[3]) as u64;
                    (make.book_commit)(before, count, &mesh, &table, &claim)
                }
            };
            let good = answer.number == number::<u32>(&case[5])
                && answer.place == number::<u32>(&case[6])
                && same_book(&answer.book, &after);
            tally.hold(good, || format!("{} book {case:?}: {answer:?}", make.name));
        }
    }
}
