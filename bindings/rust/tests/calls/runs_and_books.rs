//! Runs beside single calls, and a book over a week.

use crate::files::{names, Sheet};
use pechuvo::{check, check_run, mesh_sizes, Answer, Book, Mesh, Run};

/// The mesh of document 01's sheet, and the claims on it.
fn claims() -> (Vec<u8>, Vec<Vec<u8>>) {
    let mesh = Sheet::named("worked").mesh;
    let sheets = names().into_iter().map(|name| Sheet::named(&name));
    let claims: Vec<_> = sheets
        .filter(|sheet| sheet.mesh == mesh && sheet.table.is_empty())
        .collect();
    assert!(claims.len() >= 4);
    (mesh, claims.into_iter().map(|sheet| sheet.claim).collect())
}

#[test]
fn answers_of_a_run_are_those_of_single_calls() {
    let (mesh, claims) = claims();
    let mesh = Mesh::new(&mesh);
    let run = check_run(&mesh, &claims.concat(), usize::MAX);
    let single: Vec<Answer> = claims.iter().map(|claim| check(&mesh, claim, 6)).collect();
    assert_eq!(run.answers, single);
    assert_eq!(run.taken, claims.concat().len());
}

#[test]
fn every_sheet_three_times() {
    for name in names() {
        let sheet = Sheet::named(&name);
        let single = check(&sheet.on(), &sheet.claim, 6);
        let form = single
            .result()
            .is_err_and(|refusal| (11..=13).contains(&refusal.number));
        let taken = if form || mesh_sizes(&sheet.on()).is_err() {
            0
        } else {
            3
        };
        let expected = Run {
            answers: vec![single; taken.max(1)],
            taken: taken * sheet.claim.len(),
        };
        assert_eq!(
            check_run(&sheet.on(), &sheet.claim.repeat(3), usize::MAX),
            expected,
            "{name}"
        );
    }
}

#[test]
fn a_run_of_many_goes_on_where_it_was_left() {
    let (mesh, claims) = claims();
    let mesh = Mesh::new(&mesh);
    let many = claims.concat().repeat(50);
    let whole = check_run(&mesh, &many, usize::MAX);
    assert_eq!(whole.answers.len(), 50 * claims.len());
    let (mut answers, mut left) = (Vec::new(), many.as_slice());
    while !left.is_empty() {
        let run = check_run(&mesh, left, 7);
        answers.extend(run.answers);
        left = &left[run.taken..];
    }
    assert_eq!(answers, whole.answers);
}

#[test]
fn a_claim_cut_short_ends_a_run() {
    let (mesh, claims) = claims();
    let first = &claims[0];
    let run = check_run(
        &Mesh::new(&mesh),
        &[first, &first[1..]].concat(),
        usize::MAX,
    );
    assert_eq!((run.answers.len(), run.taken), (2, first.len()));
    assert_eq!(run.answers[1].result().expect_err("cut short").number, 11);
}

/// What the ask tells is what the commit leaves; the count guards against a commit in between.
#[test]
fn a_week() {
    let mut book = Book::default();
    for (name, number, lower, upper, count) in [
        ("worked_below", 0, (19, 1), (600, 30), 1),
        ("worked_above", 22, (19, 1), (600, 30), 1),
        ("worked", 0, (20, 1), (600, 30), 2),
        ("worked_below", 0, (20, 1), (600, 30), 3),
        ("worked_column", 32, (20, 1), (600, 30), 3),
    ] {
        let sheet = Sheet::named(name);
        let asked = book.ask(&sheet.on(), &sheet.claim);
        let committed = book.commit(book.count, &sheet.on(), &sheet.claim);
        assert_eq!(asked, committed, "{name}");
        assert_eq!(
            committed.err().map_or(0, |refusal| refusal.number),
            number,
            "{name}"
        );
        let late = book
            .commit(book.count + 1, &sheet.on(), &sheet.claim)
            .expect_err("another count");
        assert_eq!(
            (late.number, late.place, late.kind),
            (48, 0, None),
            "{name}"
        );
        book = committed.unwrap_or(book);
        assert_eq!(
            book,
            Book {
                lower: Some(lower),
                upper: Some(upper),
                count
            },
            "{name}"
        );
    }
}

#[test]
fn a_book_at_the_ends_of_its_numbers() {
    let sheet = Sheet::named("worked");
    let ends = Book {
        lower: Some((i64::MIN, 1)),
        upper: Some((i64::MAX, 1)),
        count: 999_999,
    };
    let best = Book {
        lower: Some((20, 1)),
        upper: Some((600, 30)),
        count: 1_000_000,
    };
    assert_eq!(ends.ask(&sheet.on(), &sheet.claim), Ok(best));
    let broken = [0, -1, i64::MIN].map(|below| Book {
        upper: Some((1, below)),
        ..Book::default()
    });
    for book in broken.into_iter().chain([
        best,
        Book {
            count: u64::MAX,
            ..ends
        },
    ]) {
        assert_eq!(
            book.ask(&sheet.on(), &sheet.claim)
                .expect_err("no such book")
                .number,
            48
        );
        assert_eq!(
            book.commit(book.count, &sheet.on(), &sheet.claim)
                .expect_err("no such book")
                .number,
            48
        );
    }
}
