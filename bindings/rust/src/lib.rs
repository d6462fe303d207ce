//! Load factor claims on soil meshes, checked: every call of include/pechuvo.h, over the archive libpechuvo.a.
//!
//! ```
//! use pechuvo::{check, Mesh};
//!
//! let sheet = concat!(env!("CARGO_MANIFEST_DIR"), "/../../sheets/worked");
//! let mesh = std::fs::read(format!("{sheet}.mesh"))?;
//! let claim = std::fs::read(format!("{sheet}.claim"))?;
//! let report = check(&Mesh::new(&mesh), &claim, 3).result()?;
//! assert_eq!(report.columns(), ["0", "0", "20.000", "20.000"]);
//! # Ok::<(), Box<dyn std::error::Error>>(())
//! ```
//!
//! The crate judges nothing itself: it lends slices to the archive and tells what comes back. No call keeps anything,
//! and calls in several threads do not disturb each other. Only [`check_run`] allocates, for the answers that it hands
//! over.

#![deny(missing_docs)]
#![deny(unsafe_code)]

mod book;
#[allow(unsafe_code)]
mod ffi;
pub mod limits;
mod number;
mod refusal;
mod report;

pub use book::Book;
pub use number::Number;
pub use refusal::{Kind, Refusal};
pub use report::{Answer, Report, Run};

/// A mesh and its borehole table: two files, or two lists of numbers where `T` is `i64`. An empty table is none.
#[derive(Clone, Copy, Debug)]
pub struct Mesh<'a, T = u8> {
    mesh: &'a [T],
    table: &'a [T],
}

impl<'a, T> Mesh<'a, T> {
    /// A mesh without a table.
    pub fn new(mesh: &'a [T]) -> Self {
        Mesh { mesh, table: &[] }
    }

    /// A mesh with a table.
    pub fn with_table(mesh: &'a [T], table: &'a [T]) -> Self {
        Mesh { mesh, table }
    }
}

/// Checks a claim file on a mesh. Both loads of the report have as many decimals as are asked for, 0 to 7; another
/// number is refused with 43.
pub fn check(mesh: &Mesh<'_>, claim: &[u8], decimals: i64) -> Answer {
    const UNWRITTEN: u8 = 0;
    let mut line = [UNWRITTEN; Report::BYTES];
    let answer = ffi::check(mesh.mesh, mesh.table, claim, decimals, &mut line);
    // A line that is written begins with a space or a digit.
    let report = (line[0] != UNWRITTEN).then_some(Report::new(line));
    match Refusal::of(answer.number, answer.place) {
        None => Answer::Accepted(Report::new(line)),
        Some(refusal) => Answer::Refused { refusal, report },
    }
}

/// Checks claims for one mesh, written one after another with nothing between, with six decimals each, and answers at
/// most `most` of them (`usize::MAX`: all). A run that was ended by this goes on with `&claims[run.taken..]`.
pub fn check_run(mesh: &Mesh<'_>, claims: &[u8], most: usize) -> Run {
    let room = most.min(reports_at_most(mesh, claims.len()));
    let mut lines = vec![0; room * Report::BYTES];
    let run = ffi::check_run(mesh.mesh, mesh.table, claims, &mut lines);
    let written = lines.chunks_exact(Report::BYTES).take(run.reports as usize);
    let answer = |bytes: &[u8]| {
        let mut line = [0; Report::BYTES];
        line.copy_from_slice(bytes);
        Report::new(line).answer()
    };
    Run {
        answers: written.map(answer).collect(),
        taken: run.bytes as usize,
    }
}

/// Each claim that is taken has at least the shorter length; one report more may end the run.
fn reports_at_most(mesh: &Mesh<'_>, claims_bytes: usize) -> usize {
    let shortest =
        mesh_sizes(mesh).map_or(0, |sizes| sizes.field_bytes.min(sizes.multipliers_bytes));
    1 + claims_bytes.checked_div(shortest as usize).unwrap_or(0)
}

/// The loads of an accepted claim as fractions, numerator and denominator, as they stand and not reduced.
#[derive(Clone, Copy, Debug, PartialEq, Eq)]
pub struct Loads {
    /// Whether the claim has a field.
    pub field: bool,
    /// Whether the claim has multipliers.
    pub multipliers: bool,
    /// The load that is carried, l and n; `None` without a field, and on a mesh that lists a soil of kind 1.
    pub lower: Option<(i64, i64)>,
    /// The limit, W and m; `None` without multipliers.
    pub upper: Option<(i64, i64)>,
    /// The open rows; `None` unless the claim has both parts.
    pub open_rows: Option<u64>,
}

/// Checks the numbers of a claim on the numbers of a mesh and its table, each list in the order of its file.
pub fn check_numbers(mesh: &Mesh<'_, i64>, claim: &[i64]) -> Result<Loads, Refusal> {
    let got = ffi::check_numbers(mesh.mesh, mesh.table, claim);
    if let Some(refusal) = Refusal::of(got.number, got.place) {
        return Err(refusal);
    }
    let (field, multipliers) = (got.field != 0, got.multipliers != 0);
    Ok(Loads {
        field,
        multipliers,
        lower: (got.n != 0).then_some((got.l, got.n)),
        upper: (got.m != 0).then_some((got.w, got.m)),
        open_rows: (field && multipliers).then_some(got.open_rows),
    })
}

/// What a mesh asks room for.
#[derive(Clone, Copy, Debug, PartialEq, Eq)]
pub struct Sizes {
    /// Balance rows.
    pub balance_rows: u64,
    /// Side rows, unfixed ones counted.
    pub side_rows: u64,
    /// Jump rows.
    pub jump_rows: u64,
    /// Strength rows.
    pub strength_rows: u64,
    /// Columns, three for each node.
    pub columns: u64,
    /// The bytes of a claim file with a field alone.
    pub field_bytes: u64,
    /// The bytes of a claim file with multipliers alone.
    pub multipliers_bytes: u64,
    /// The bytes of a claim file with both.
    pub both_bytes: u64,
}

/// The sizes of a mesh, without any claim.
pub fn mesh_sizes(mesh: &Mesh<'_>) -> Result<Sizes, Refusal> {
    let got = ffi::mesh_sizes(mesh.mesh, mesh.table);
    match Refusal::of(got.number, got.place) {
        Some(refusal) => Err(refusal),
        None => Ok(Sizes {
            balance_rows: got.balance_rows,
            side_rows: got.side_rows,
            jump_rows: got.jump_rows,
            strength_rows: got.strength_rows,
            columns: got.columns,
            field_bytes: got.field_bytes,
            multipliers_bytes: got.multipliers_bytes,
            both_bytes: got.both_bytes,
        }),
    }
}

/// The next strength to try after two trials: strength `k1` with load factor `l1`, and `k2` with `l2`. Refused with 49
/// where there is none.
pub fn next_strength(k1: f64, l1: f64, k2: f64, l2: f64) -> Result<f64, Refusal> {
    let got = ffi::next_strength(k1, l1, k2, l2);
    match Refusal::of(got.number, got.place) {
        Some(refusal) => Err(refusal),
        None => Ok(got.strength),
    }
}
