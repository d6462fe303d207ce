//! Every sheet: its line, its numbers, its sizes.

use crate::files::{line, names, number, sheets, table_of, text, told, Sheet};
use pechuvo::{check, check_numbers, mesh_sizes, Book, Mesh};

#[test]
fn every_sheet_has_its_line() {
    let lines = names().into_iter().map(|name| {
        let sheet = Sheet::named(&name);
        format!(
            "{name} {}\n",
            line(check(&sheet.on(), &sheet.claim, 6).report())
        )
    });
    assert_eq!(lines.collect::<String>(), text(&sheets().join("expected")));
    assert!(names().len() >= 100);
}

#[test]
fn the_answer_is_that_of_its_line() {
    for name in names() {
        let sheet = Sheet::named(&name);
        let answer = check(&sheet.on(), &sheet.claim, 6);
        let report = *answer.report().expect("a report");
        match answer.result() {
            Ok(same) => assert_eq!((same, report.columns()[0]), (report, "0")),
            Err(refusal) => {
                let [number, place, _] = told(Some(refusal));
                assert_eq!(report.columns(), [&number, &place, "none", "none"]);
            }
        }
        assert_eq!(report.as_bytes()[..112], *report.to_string().as_bytes());
        assert_eq!(report.as_bytes()[112], b'\n');
    }
}

#[test]
fn numbers_get_what_files_get() {
    for name in names() {
        let sheet = Sheet::named(&name);
        let [mesh, table, claim] = sheet.numbers();
        let answer = check(&sheet.on(), &sheet.claim, 6);
        let loads = check_numbers(&Mesh::with_table(&mesh, &table), &claim);
        assert_eq!(loads.err(), answer.result().err(), "{name}");
        if let (Ok(loads), Ok(report)) = (loads, answer.result()) {
            let book = Book::default()
                .ask(&sheet.on(), &sheet.claim)
                .expect("accepted");
            assert_eq!(
                (loads.lower, loads.upper),
                (book.lower, book.upper),
                "{name}"
            );
            assert_eq!(
                (loads.field, loads.multipliers),
                (claim[0] == 1, claim[1] == 1),
                "{name}"
            );
            let open_rows = loads
                .open_rows
                .map_or("none".to_string(), |rows| rows.to_string());
            assert_eq!(report.columns()[1], open_rows, "{name}");
        }
    }
}

#[test]
fn decimals() {
    for row in table_of(&sheets().join("decimals")) {
        let sheet = Sheet::named(&row[0]);
        let answer = check(&sheet.on(), &sheet.claim, number(&row[1]));
        let [number, place, _] = told(answer.result().err());
        assert_eq!([number, place, line(answer.report())], row[2..], "{row:?}");
    }
}

#[test]
fn claims_have_the_lengths_that_are_said() {
    for name in names() {
        let sheet = Sheet::named(&name);
        if let Ok(sizes) = mesh_sizes(&sheet.on()) {
            let lengths = [sizes.field_bytes, sizes.multipliers_bytes, sizes.both_bytes];
            assert!(lengths.contains(&(sheet.claim.len() as u64)), "{name}");
        }
    }
}
