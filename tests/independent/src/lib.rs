//! A second implementation of the check, written from documents 01 and 02 alone.
//! It shares no line with the proved program: the comparison and the fuzzer hold the two against
//! each other, and the bench takes it as the speed of ordinary Rust.

pub mod book;
pub mod claim;
pub mod field;
pub mod lines;
pub mod mesh;
pub mod multipliers;
pub mod overlap;
pub mod polygon;
pub mod report;
pub mod run;
pub mod shape;
pub mod sheet;
pub mod sizes;
pub mod strength;
pub mod strength_rows;
pub mod table;

pub use book::{book_ask, book_commit, Book, BookAnswer};
use claim::Claim;
use lines::Lines;
use mesh::Mesh;
pub use run::{check_run, Run};
pub use sizes::{mesh_sizes, Sizes};
pub use strength::{next_strength, NextStrength, Trial};

/// A refusal: its number in the table and its place.
#[derive(Clone, Copy, Debug, PartialEq, Eq)]
pub struct Refusal {
    pub number: u32,
    pub place: u32,
}

pub fn refuse<T>(number: u32, place: usize) -> Result<T, Refusal> {
    Err(Refusal {
        number,
        place: place as u32,
    })
}

/// An exact fraction as it stands, not reduced.
#[derive(Clone, Copy, Debug, PartialEq, Eq)]
pub struct Load {
    pub numerator: i64,
    pub denominator: i64,
}

/// What an accepted claim says; a part that the claim lacks is `None`.
#[derive(Clone, Copy, Debug, PartialEq, Eq)]
pub struct Accepted {
    /// The claim has a field; its load may be untold all the same.
    pub has_field: bool,
    pub carried: Option<Load>,
    pub limit: Option<Load>,
    pub open_rows: Option<u64>,
}

pub type Verdict = Result<Accepted, Refusal>;

fn judge(mesh: impl Lines, table: impl Lines, mut claim: impl Lines) -> Verdict {
    let mesh = Mesh::read(mesh, table)?;
    let claim = Claim::read(&mut claim, &mesh)?;
    judge_claim(&mesh, &claim)
}

/// The verdict on a claim whose lines have passed: 21, 22 and 31 to 33.
fn judge_claim(mesh: &Mesh, claim: &Claim) -> Verdict {
    if let Some(part) = &claim.field {
        field::check(mesh, part)?;
    }
    let limit = match &claim.multipliers {
        Some(part) => Some(multipliers::check(mesh, part)?),
        None => None,
    };
    let open_rows = match (&claim.field, &claim.multipliers) {
        (Some(f), Some(y)) => Some(field::open_rows(mesh, f, &y.strength)),
        _ => None,
    };
    let told = claim.field.as_ref().filter(|_| mesh.tells_carried());
    let carried = told.map(|f| Load {
        numerator: f.l,
        denominator: f.n,
    });
    Ok(Accepted {
        has_field: claim.field.is_some(),
        carried,
        limit,
        open_rows,
    })
}

/// The verdict on files.
pub fn judge_files(mesh: &[u8], table: &[u8], claim: &[u8]) -> Verdict {
    judge(mesh, table, claim)
}

/// What a call returns: 0 and place 0, or a refusal.
#[repr(C)]
#[derive(Clone, Copy, Debug, PartialEq, Eq)]
pub struct Answer {
    pub number: u32,
    pub place: u32,
}

impl Answer {
    /// A number that has no place.
    fn alone(number: u32) -> Answer {
        Answer { number, place: 0 }
    }
}

/// The whole check: the line, its loads with so many decimals, goes into the first 113 bytes. A
/// shorter buffer stays untouched, and so does any where there are no such decimals.
pub fn check(mesh: &[u8], table: &[u8], claim: &[u8], decimals: i64, report: &mut [u8]) -> Answer {
    let Some(decimals) = report::decimals(decimals) else {
        return Answer::alone(43);
    };
    let Some(line) = report.first_chunk_mut::<{ report::LINE }>() else {
        return Answer::alone(41);
    };
    let verdict = judge_files(mesh, table, claim);
    report::write(&verdict, decimals, line);
    match verdict {
        Ok(_) => Answer::alone(0),
        Err(Refusal { number, place }) => Answer { number, place },
    }
}

/// The answer to numbers handed over.
#[repr(C)]
#[derive(Clone, Copy, Debug, Default, PartialEq, Eq)]
pub struct Numbers {
    pub number: u32,
    pub place: u32,
    pub field: u32,
    pub multipliers: u32,
    pub l: i64,
    pub n: i64,
    pub w: i64,
    pub m: i64,
    pub open_rows: u64,
}

/// The check of the numbers of a mesh, of a table and of a claim.
pub fn check_numbers(mesh: &[i64], table: &[i64], claim: &[i64]) -> Numbers {
    match judge(mesh, table, claim) {
        Err(Refusal { number, place }) => Numbers {
            number,
            place,
            ..Numbers::default()
        },
        Ok(accepted) => {
            let absent = Load {
                numerator: 0,
                denominator: 0,
            };
            let carried = accepted.carried.unwrap_or(absent);
            let limit = accepted.limit.unwrap_or(absent);
            Numbers {
                field: accepted.has_field as u32,
                multipliers: accepted.limit.is_some() as u32,
                l: carried.numerator,
                n: carried.denominator,
                w: limit.numerator,
                m: limit.denominator,
                open_rows: accepted.open_rows.unwrap_or(0),
                ..Numbers::default()
            }
        }
    }
}
