//! The sheets that are made to be timed, by name.

use crate::full_claims::{sheet, Lengths};
use crate::grounds::{fan, grid, late_table, squares_apart, Ground};
use crate::sheets::Timed;
use independent::sheet::{Lines, Sheet};

/// As many nodes, soils, edges and sides as there can be.
fn largest_fan() -> Ground {
    Ground {
        soils: 16,
        ..fan(100, 36)
    }
}

/// Nothing in any file.
fn empty() -> Sheet {
    Sheet {
        mesh: Lines::new(),
        table: Lines::new(),
        claim: Lines::new(),
    }
}

/// The sheet that takes the check longest of all that were found: the fan, each soil's rows made anew for each
/// pair, and a table.
fn worst() -> Sheet {
    let ground = Ground {
        kind: 1,
        table: late_table(950),
        ..largest_fan()
    };
    sheet(&ground, Lengths::Longest)
}

/// A grid of 100 nodes, with a table in which each element's layer is the last line.
fn with_table() -> Sheet {
    let ground = Ground {
        table: late_table(86),
        ..grid(10, 10, 36)
    };
    sheet(&ground, Lengths::Any)
}

/// A grid of so many nodes by so many, each soil by direction.
fn by_direction(columns: usize, rows: usize, sides: i64) -> Sheet {
    let ground = Ground {
        kind: 1,
        ..grid(columns, rows, sides)
    };
    sheet(&ground, Lengths::Any)
}

/// Those of the table of times.
pub fn all() -> Vec<Timed> {
    let made = [
        ("grid_100", sheet(&grid(10, 10, 36), Lengths::Any)),
        ("grid_long", sheet(&grid(10, 10, 36), Lengths::Longest)),
        ("apart_100", sheet(&squares_apart(5, 36), Lengths::Any)),
        ("grid_table", with_table()),
        ("grid_planes", by_direction(10, 10, 36)),
        ("grid_108", sheet(&grid(8, 5, 108), Lengths::Any)),
        ("fan_98", sheet(&largest_fan(), Lengths::Longest)),
        ("worst", worst()),
        ("empty", empty()),
    ];
    made.iter()
        .map(|(name, sheet)| Timed::of(name, sheet))
        .collect()
}

/// Sheets that grow: a series' name, and its sheets with the numbers of their nodes.
pub struct Series {
    pub name: &'static str,
    pub sheets: Vec<(usize, Sheet)>,
}

/// Grids as near to a square as can be, from the fewest nodes to the most.
const GRIDS: [(usize, usize); 9] = [
    (2, 2),
    (3, 3),
    (4, 4),
    (5, 5),
    (6, 6),
    (7, 7),
    (8, 8),
    (9, 9),
    (10, 10),
];
const GRIDS_FOR_108: [(usize, usize); 6] = [(2, 2), (3, 3), (4, 4), (5, 5), (6, 6), (8, 5)];

pub fn series() -> Vec<Series> {
    let grids = |name, sizes: &[(usize, usize)], one: fn(usize, usize) -> Sheet| Series {
        name,
        sheets: sizes.iter().map(|&(c, r)| (c * r, one(c, r))).collect(),
    };
    let fans = (0..9).map(|k| 4 + 12 * k);
    vec![
        grids("12 sides", &GRIDS, |c, r| {
            sheet(&grid(c, r, 12), Lengths::Any)
        }),
        grids("20 sides", &GRIDS, |c, r| {
            sheet(&grid(c, r, 20), Lengths::Any)
        }),
        grids("36 sides", &GRIDS, |c, r| {
            sheet(&grid(c, r, 36), Lengths::Any)
        }),
        grids("36 sides, kind 1", &GRIDS, |c, r| by_direction(c, r, 36)),
        grids("108 sides", &GRIDS_FOR_108, |c, r| {
            sheet(&grid(c, r, 108), Lengths::Any)
        }),
        Series {
            name: "fan, 36 sides",
            sheets: fans
                .map(|nodes| (nodes, sheet(&fan(nodes, 36), Lengths::Any)))
                .collect(),
        },
    ]
}
