//! Inputs that are empty, huge or at the ends of their numbers, and how answers read.

use crate::files::Sheet;
use pechuvo::{
    check, check_numbers, check_run, limits, mesh_sizes, next_strength, Book, Kind, Mesh, Number,
    Refusal, Run,
};

/// An answer without the words that go with its number.
fn refusal(answer: Result<impl Sized, Refusal>) -> String {
    answer.err().map_or("accepted".to_string(), |refusal| {
        let (told, words) = (refusal.to_string(), format!(": {}", refusal.words()));
        told.strip_suffix(&words).expect("words").to_string()
    })
}

#[test]
fn empty_inputs() {
    let sheet = Sheet::named("worked");
    let (mesh, none) = (Mesh::new(&sheet.mesh), Mesh::new(&[]));
    assert_eq!(refusal(check(&none, &[], 6).result()), "refused: 1, line 1");
    assert_eq!(
        refusal(check(&none, &sheet.claim, 6).result()),
        "refused: 1, line 1"
    );
    assert_eq!(
        refusal(check(&mesh, &[], 6).result()),
        "refused: 11, line 1"
    );
    assert_eq!(refusal(check(&mesh, &sheet.claim, 6).result()), "accepted");
    assert_eq!(
        check_run(&mesh, &[], usize::MAX),
        Run {
            answers: Vec::new(),
            taken: 0
        }
    );
    assert_eq!(
        check_run(&mesh, &sheet.claim, 0),
        Run {
            answers: Vec::new(),
            taken: 0
        }
    );
    assert_eq!(
        check_run(&none, &[], usize::MAX).answers,
        [check(&none, &[], 6)]
    );
    assert_eq!(
        refusal(check_numbers(&Mesh::new(&[]), &[])),
        "refused: 1, line 1"
    );
    assert_eq!(refusal(mesh_sizes(&none)), "refused: 1, line 1");
    assert_eq!(
        refusal(Book::default().ask(&mesh, &[])),
        "refused: 11, line 1"
    );
}

#[test]
fn other_decimals() {
    let sheet = Sheet::named("worked");
    for decimals in [-1, 8, (1 << 32) + 6, i64::MIN, i64::MAX] {
        let answer = check(&sheet.on(), &sheet.claim, decimals);
        assert_eq!(
            answer.result(),
            Err(Refusal {
                number: 43,
                place: 0,
                kind: None
            })
        );
        assert_eq!(answer.report(), None);
        assert_eq!(refusal(answer.result()), "refused: 43");
    }
}

#[test]
fn hostile_sizes() {
    let sheet = Sheet::named("table_worked");
    let long = vec![0; 1 << 26];
    let all_long = Mesh::with_table(&long, &long);
    assert_eq!(
        refusal(check(&all_long, &long, 6).result()),
        "refused: 1, line 1"
    );
    assert_eq!(check_run(&all_long, &long, usize::MAX).answers.len(), 1);
    let longer = [&sheet.claim, long.as_slice()].concat();
    let refused = check(&sheet.on(), &longer, 6)
        .result()
        .expect_err("bytes left over");
    assert_eq!((refused.number, refused.kind), (11, Some(Kind::Line)));
    let run = check_run(&sheet.on(), &longer, usize::MAX);
    assert_eq!((run.answers.len(), run.taken), (2, sheet.claim.len()));
    for number in [i64::MIN, 0, i64::MAX] {
        let numbers = vec![number; 1 << 20];
        let mesh = Mesh::with_table(&numbers, &numbers);
        assert_eq!(
            refusal(check_numbers(&mesh, &numbers)),
            "refused: 2, line 1"
        );
    }
}

#[test]
fn refused_strengths() {
    for [k1, l1, k2, l2] in [
        [1.0, 2.0, 1.0, 2.0],
        [0.0, 1.0, 1.0, 2.0],
        [f64::INFINITY, 1.0, 1.0, 2.0],
        [f64::NAN, 1.0, 1.0, 2.0],
        [1.0, -1.0, 1.0, 2.0],
    ] {
        assert_eq!(refusal(next_strength(k1, l1, k2, l2)), "refused: 49");
    }
    assert_eq!(next_strength(1.5, 2.0, 1.0, 0.5), Ok(4.0 / 3.0));
}

#[test]
fn a_refusal_is_an_error() {
    fn fails() -> Result<(), Box<dyn std::error::Error>> {
        mesh_sizes(&Mesh::new(b"x"))?;
        Ok(())
    }
    assert_eq!(
        fails().expect_err("refused").to_string(),
        "refused: 1, line 1: mesh or table form: length, character, spelling, bytes missing or left over"
    );
}

#[test]
fn numbers_and_limits() {
    assert_eq!(Number::of(22), Some(Number::StrengthFails));
    assert_eq!(Number::StrengthFails as u32, 22);
    assert_eq!(Number::of(9), None);
    let sheet = Sheet::named("worked_above");
    let refused = check(&sheet.on(), &sheet.claim, 6).result();
    let refused = refused.expect_err("more than is carried");
    assert_eq!(Number::of(refused.number), Some(Number::StrengthFails));
    assert_eq!(refused.words(), Number::StrengthFails.words());
    let most = check(&sheet.on(), &sheet.claim, limits::MOST_DECIMALS);
    assert!(most.report().is_some());
    let more = check(&sheet.on(), &sheet.claim, limits::MOST_DECIMALS + 1);
    assert!(more.report().is_none());
}
