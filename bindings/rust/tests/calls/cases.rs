//! The cases of tests/vectors, which were made by a program of another make, and those of sheets/ in the same form.

use crate::files::{
    cases, line, number, numbers_of, read, same, sheets, table_of, text, told, Sheet,
};
use pechuvo::{
    check, check_numbers, check_run, mesh_sizes, next_strength, Answer, Book, Mesh, Report,
};

#[test]
fn files() {
    for row in table_of(&cases().join("expected")) {
        if number::<usize>(&row[5]) < Report::BYTES {
            continue; // This crate always lends a whole line.
        }
        let case = Sheet::new(&cases(), &row[0]);
        let answer = check(&case.on(), &case.claim, number(&row[6]));
        let [number, place, kind] = told(answer.result().err());
        assert_eq!(
            [number, place, line(answer.report()), kind],
            row[1..5],
            "{row:?}"
        );
    }
}

/// Two columns of a table as a fraction; `-` stands for none.
fn fraction(columns: &[String]) -> Option<(i64, i64)> {
    (columns[0] != "-").then(|| (number(&columns[0]), number(&columns[1])))
}

#[test]
fn numbers() {
    let folder = cases().join("numbers");
    for row in table_of(&folder.join("expected")) {
        let text = text(&folder.join(format!("{}.txt", row[0])));
        let mut lines = text.lines();
        let [mesh, claim, table] = [0; 3].map(|_| numbers_of(lines.next().unwrap_or_default()));
        let loads = check_numbers(&Mesh::with_table(&mesh, &table), &claim);
        assert_eq!(told(loads.err()), row[1..4], "{row:?}");
        let Ok(loads) = loads else { continue };
        assert!(same(loads.lower, fraction(&row[4..6])), "{row:?}");
        assert!(same(loads.upper, fraction(&row[6..8])), "{row:?}");
        let open_rows = loads
            .open_rows
            .map_or("-".to_string(), |rows| rows.to_string());
        assert_eq!(open_rows, row[8], "{row:?}");
    }
}

#[test]
fn runs() {
    for folder in [cases().join("runs"), sheets().join("runs")] {
        for row in table_of(&folder.join("expected")) {
            let case = Sheet::with_claim(&folder, &row[0], &format!("{}.claims", row[0]));
            let run = check_run(
                &case.on(),
                &case.claim,
                number::<usize>(&row[1]) / Report::BYTES,
            );
            assert_eq!(
                (run.answers.len(), run.taken),
                (number(&row[2]), number(&row[3])),
                "{row:?}"
            );
            let reports = run.answers.iter().filter_map(Answer::report);
            let written: Vec<u8> = reports.flat_map(|report| *report.as_bytes()).collect();
            assert!(
                written == read(&folder.join(format!("{}.out", row[0]))),
                "{row:?}"
            );
        }
    }
}

#[test]
fn sizes() {
    for folder in [cases(), sheets()] {
        for row in table_of(&folder.join("sizes")) {
            let case = Sheet::new(&folder, &row[0]);
            let sizes = mesh_sizes(&case.on());
            assert_eq!(told(sizes.err()), row[1..4], "{row:?}");
            let told = sizes.map_or(vec!["-".to_string()], |sizes| {
                let rows = [
                    sizes.balance_rows,
                    sizes.side_rows,
                    sizes.jump_rows,
                    sizes.strength_rows,
                ];
                let bytes = [sizes.field_bytes, sizes.multipliers_bytes, sizes.both_bytes];
                rows.iter()
                    .chain(&[sizes.columns])
                    .chain(&bytes)
                    .map(u64::to_string)
                    .collect()
            });
            assert_eq!(told, row[4..], "{row:?}");
        }
    }
}

fn bound(text: &str) -> Option<(i64, i64)> {
    text.split_once('/')
        .map(|(above, below)| (number(above), number(below)))
}

fn book(text: &str) -> Book {
    let parts: Vec<&str> = text.split(',').collect();
    Book {
        lower: bound(parts[0]),
        upper: bound(parts[1]),
        count: number(parts[2]),
    }
}

#[test]
fn books() {
    let folder = cases().join("book");
    for row in table_of(&folder.join("expected")) {
        let case = Sheet::with_claim(&folder, &row[0], &format!("{}.{}.claim", row[0], row[4]));
        let (before, after) = (book(&row[2]), book(&row[7]));
        let answer = match row[1].as_str() {
            "ask" => before.ask(&case.on(), &case.claim),
            // A count below 0 is one that no book has.
            _ => before.commit(number::<i64>(&row[3]) as u64, &case.on(), &case.claim),
        };
        assert_eq!(told(answer.err())[..2], row[5..7], "{row:?}");
        match answer {
            Ok(told) => {
                assert!(
                    same(told.lower, after.lower) && same(told.upper, after.upper),
                    "{row:?}"
                );
                assert_eq!(told.count, after.count, "{row:?}");
            }
            Err(_) => assert_eq!(before, after, "{row:?}"),
        }
    }
}

#[test]
fn strengths() {
    for row in table_of(&cases().join("strength")) {
        let bits = |text: &str| u64::from_str_radix(text, 16).expect("bits");
        let [k1, l1, k2, l2] = [0, 1, 2, 3].map(|column| f64::from_bits(bits(&row[column])));
        let next = next_strength(k1, l1, k2, l2);
        assert_eq!(
            told(next.err())[..2],
            [row[4].clone(), "0".to_string()],
            "{row:?}"
        );
        let strength = next.map_or("-".to_string(), |strength| {
            format!("{:016x}", strength.to_bits())
        });
        assert_eq!(strength, row[5], "{row:?}");
    }
}
