//! What a refusal says.

use crate::Number;
use std::error::Error;
use std::fmt;

/// What the place of a refusal is.
#[derive(Clone, Copy, Debug, PartialEq, Eq, Hash)]
pub enum Kind {
    /// A line of the mesh or the claim, from 1, or of the table, from 1,001.
    Line,
    /// An element, from 1.
    Element,
    /// A node, from 1.
    Node,
    /// A row, from 1: of an equality with 21 and 31, or of strength with 22.
    Row,
    /// A column, from 1; 0 with 33.
    Column,
    /// A height in quarters of a unit, from 0.
    Height,
}

impl Kind {
    /// The kind of the place that goes with a refusal's number; none with 41, 43, 48 and 49.
    fn with(number: u32) -> Option<Kind> {
        match number {
            1..=4 | 8 | 11..=13 | 44 | 46 => Some(Kind::Line),
            5 | 6 | 47 => Some(Kind::Element),
            7 | 42 => Some(Kind::Node),
            21 | 22 | 31 => Some(Kind::Row),
            32 | 33 => Some(Kind::Column),
            45 => Some(Kind::Height),
            _ => None,
        }
    }
}

impl fmt::Display for Kind {
    fn fmt(&self, out: &mut fmt::Formatter<'_>) -> fmt::Result {
        out.write_str(match self {
            Kind::Line => "line",
            Kind::Element => "element",
            Kind::Node => "node",
            Kind::Row => "row",
            Kind::Column => "column",
            Kind::Height => "height",
        })
    }
}

/// A refusal, as the archive returned it: the first of the header's list that applies.
#[derive(Clone, Copy, Debug, PartialEq, Eq, Hash)]
pub struct Refusal {
    /// Its number in the header's list, never 0.
    pub number: u32,
    /// Where it is.
    pub place: u32,
    /// What the place is; `None` where the number has none, and the place is 0.
    pub kind: Option<Kind>,
}

impl Refusal {
    /// The refusal that a number and a place say, or `None` for number 0.
    pub(crate) fn of(number: u32, place: u32) -> Option<Refusal> {
        let kind = Kind::with(number);
        (number != 0).then_some(Refusal {
            number,
            place,
            kind,
        })
    }

    /// What the number says.
    pub fn words(&self) -> &'static str {
        Number::of(self.number).map_or("a number that this crate does not know", Number::words)
    }
}

impl fmt::Display for Refusal {
    fn fmt(&self, out: &mut fmt::Formatter<'_>) -> fmt::Result {
        write!(out, "refused: {}", self.number)?;
        if let Some(kind) = self.kind {
            write!(out, ", {kind} {}", self.place)?;
        }
        write!(out, ": {}", self.words())
    }
}

impl Error for Refusal {}
