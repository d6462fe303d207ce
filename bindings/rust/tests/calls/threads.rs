//! Calls in several threads at once.

use crate::files::{names, Sheet};
use pechuvo::{check, check_numbers, check_run, mesh_sizes, next_strength};
use pechuvo::{Answer, Book, Kind, Loads, Mesh, Refusal, Report, Run, Sizes};
use std::sync::Barrier;
use std::thread;

const THREADS: usize = 8;

#[test]
fn every_type_goes_from_thread_to_thread() {
    fn goes<T: Send + Sync + 'static>() {}
    goes::<Answer>();
    goes::<Book>();
    goes::<Kind>();
    goes::<Loads>();
    goes::<Mesh<'static>>();
    goes::<Mesh<'static, i64>>();
    goes::<Refusal>();
    goes::<Report>();
    goes::<Run>();
    goes::<Sizes>();
}

type All = (
    Answer,
    Run,
    Result<Sizes, Refusal>,
    Result<Loads, Refusal>,
    [Result<Book, Refusal>; 2],
    Result<f64, Refusal>,
);

/// The answer of every call on a sheet.
fn all(sheet: &Sheet) -> All {
    let book = Book {
        lower: Some((-5, 3)),
        upper: None,
        count: 7,
    };
    let [mesh, table, claim] = sheet.numbers();
    (
        check(&sheet.on(), &sheet.claim, 7),
        check_run(&sheet.on(), &sheet.claim.repeat(2), usize::MAX),
        mesh_sizes(&sheet.on()),
        check_numbers(&Mesh::with_table(&mesh, &table), &claim),
        [
            book.ask(&sheet.on(), &sheet.claim),
            book.commit(7, &sheet.on(), &sheet.claim),
        ],
        next_strength(1.5, 2.0, 1.0, 0.5),
    )
}

#[test]
fn every_call_answers_as_in_one_thread() {
    let sheets: Vec<Sheet> = names().iter().map(|name| Sheet::named(name)).collect();
    let expected: Vec<All> = sheets.iter().map(all).collect();
    let gate = Barrier::new(THREADS);
    thread::scope(|scope| {
        for place in 0..THREADS {
            let (sheets, expected, gate) = (&sheets, &expected, &gate);
            scope.spawn(move || {
                gate.wait();
                // Each thread goes through the sheets from another one on.
                for step in 0..sheets.len() {
                    let at = (place * 13 + step) % sheets.len();
                    assert!(all(&sheets[at]) == expected[at]);
                }
            });
        }
    });
}
