//! Sheets, cases and tables of what is expected of them.

use pechuvo::{Kind, Mesh, Refusal, Report};
use std::fs;
use std::path::{Path, PathBuf};

pub fn root() -> PathBuf {
    Path::new(env!("CARGO_MANIFEST_DIR")).join("../..")
}

pub fn sheets() -> PathBuf {
    root().join("sheets")
}

pub fn cases() -> PathBuf {
    root().join("tests/vectors/cases")
}

pub fn read(path: &Path) -> Vec<u8> {
    fs::read(path).unwrap_or_else(|error| panic!("{}: {error}", path.display()))
}

pub fn text(path: &Path) -> String {
    String::from_utf8(read(path)).expect("text")
}

/// The lines of a table of expected answers, cut at tabs.
pub fn table_of(path: &Path) -> Vec<Vec<String>> {
    let columns = |line: &str| line.split('\t').map(String::from).collect();
    text(path).lines().map(columns).collect()
}

pub fn number<T: std::str::FromStr>(text: &str) -> T {
    text.parse()
        .unwrap_or_else(|_| panic!("no number: {text:?}"))
}

/// The files of a sheet or a case. A table that isn't there is empty.
#[derive(PartialEq)]
pub struct Sheet {
    pub mesh: Vec<u8>,
    pub table: Vec<u8>,
    pub claim: Vec<u8>,
}

impl Sheet {
    pub fn new(folder: &Path, name: &str) -> Sheet {
        Sheet::with_claim(folder, name, &format!("{name}.claim"))
    }

    pub fn with_claim(folder: &Path, name: &str, claim: &str) -> Sheet {
        let table = folder.join(format!("{name}.table"));
        Sheet {
            mesh: read(&folder.join(format!("{name}.mesh"))),
            table: if table.exists() {
                read(&table)
            } else {
                Vec::new()
            },
            claim: read(&folder.join(claim)),
        }
    }

    pub fn named(name: &str) -> Sheet {
        Sheet::new(&sheets(), name)
    }

    pub fn on(&self) -> Mesh<'_> {
        Mesh::with_table(&self.mesh, &self.table)
    }

    /// The numbers of mesh, table and claim.
    pub fn numbers(&self) -> [Vec<i64>; 3] {
        let numbers = |file| numbers_of(std::str::from_utf8(file).expect("text"));
        [&self.mesh, &self.table, &self.claim].map(|file| numbers(file))
    }
}

/// The numbers of a text.
pub fn numbers_of(text: &str) -> Vec<i64> {
    text.split_whitespace().map(number).collect()
}

/// The names of all sheets, in the order of sheets/expected.
pub fn names() -> Vec<String> {
    let name = |line: &str| line.split(' ').next().unwrap_or_default().to_string();
    text(&sheets().join("expected")).lines().map(name).collect()
}

/// A refusal as the tables tell it: number, place and kind of place.
pub fn told(refusal: Option<Refusal>) -> [String; 3] {
    let none = Refusal {
        number: 0,
        place: 0,
        kind: None,
    };
    let Refusal {
        number,
        place,
        kind,
    } = refusal.unwrap_or(none);
    let kind = kind.map_or("none".to_string(), |kind: Kind| kind.to_string());
    [number.to_string(), place.to_string(), kind]
}

/// A report line as the tables tell it.
pub fn line(report: Option<&Report>) -> String {
    report.map_or("-".to_string(), Report::to_string)
}

/// The same bound as a fraction.
pub fn same(bound: Option<(i64, i64)>, expected: Option<(i64, i64)>) -> bool {
    match (bound, expected) {
        (Some(bound), Some(expected)) => {
            let [a, b, c, d] = [bound.0, bound.1, expected.0, expected.1].map(i128::from);
            b > 0 && a * d == b * c
        }
        _ => bound == expected,
    }
}
