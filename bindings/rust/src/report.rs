//! Report lines, and the answers that have them.

use crate::Refusal;
use std::fmt;

/// A report line as it was written: four columns of 28 bytes, right-justified in spaces, and byte 10.
///
/// Of an accepted claim the columns are 0, the open rows, the load that is carried, rounded down, and the limit,
/// rounded up; `none` stands for what is not there. Of a refused one they are number, place, none, none.
#[derive(Clone, Copy, Debug, PartialEq, Eq)]
pub struct Report([u8; Report::BYTES]);

impl Report {
    /// The bytes of a report line.
    pub const BYTES: usize = 113;
    const WIDTH: usize = 28;

    pub(crate) fn new(line: [u8; Report::BYTES]) -> Report {
        Report(line)
    }

    /// The line with its byte 10.
    pub fn as_bytes(&self) -> &[u8; Report::BYTES] {
        &self.0
    }

    /// The four columns, without the spaces before them.
    pub fn columns(&self) -> [&str; 4] {
        [0, 1, 2, 3].map(|column| {
            let bytes = &self.0[column * Report::WIDTH..][..Report::WIDTH];
            std::str::from_utf8(bytes)
                .expect("a report is ASCII")
                .trim_start()
        })
    }

    /// The answer that the line tells.
    pub(crate) fn answer(self) -> Answer {
        let [number, place] = [0, 1].map(|column| self.columns()[column].parse().unwrap_or(0));
        match Refusal::of(number, place) {
            None => Answer::Accepted(self),
            Some(refusal) => Answer::Refused {
                refusal,
                report: Some(self),
            },
        }
    }
}

/// The line without its byte 10.
impl fmt::Display for Report {
    fn fmt(&self, out: &mut fmt::Formatter<'_>) -> fmt::Result {
        self.columns()
            .iter()
            .try_for_each(|column| write!(out, "{column:>width$}", width = Report::WIDTH))
    }
}

/// The answer of a check.
#[derive(Clone, Copy, Debug, PartialEq, Eq)]
#[must_use]
pub enum Answer {
    /// Each part that the claim has passes its checks.
    Accepted(Report),
    /// The mesh, the table, the claim or the number of decimals is refused.
    Refused {
        /// Why, and where.
        refusal: Refusal,
        /// The report; `None` with 43, which has none.
        report: Option<Report>,
    },
}

impl Answer {
    /// The report of an accepted claim, or the refusal.
    pub fn result(self) -> Result<Report, Refusal> {
        match self {
            Answer::Accepted(report) => Ok(report),
            Answer::Refused { refusal, .. } => Err(refusal),
        }
    }

    /// The report, of an accepted claim or a refused one.
    pub fn report(&self) -> Option<&Report> {
        match self {
            Answer::Accepted(report) => Some(report),
            Answer::Refused { report, .. } => report.as_ref(),
        }
    }
}

/// The answers of a run, in turn.
#[derive(Clone, Debug, PartialEq, Eq)]
#[must_use]
pub struct Run {
    /// An answer for each report that was written.
    pub answers: Vec<Answer>,
    /// The bytes of claims that were taken.
    pub taken: usize,
}
