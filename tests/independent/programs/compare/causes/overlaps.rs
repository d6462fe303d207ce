//! Elements that lie on each other (document 02, N10): two elements with nodes of their own, with
//! places for the second one's corners; and which of three elements is told.

use super::Change::{Mesh, MeshInsert, MeshLine};
use super::{all, Listed, Table};
use independent::sheet::{printed, Lines, Sheet};

/// Elements with nodes of their own, a triangle where there are three, and an empty claim.
fn apart(outlines: &[&[[i64; 2]]]) -> Sheet {
    let nodes: usize = outlines.iter().map(|outline| outline.len()).sum();
    let mut mesh: Lines = vec![vec![nodes as i64, outlines.len() as i64, 1, 0, 12, 0]];
    mesh.extend(printed("0 1 1 10 0 0 0 0 0 0"));
    mesh.extend(
        outlines
            .iter()
            .flat_map(|outline| outline.iter().map(|at| at.to_vec())),
    );
    let mut first = 1;
    for outline in outlines {
        let last = first + outline.len() as i64 - 1;
        mesh.push(vec![first, first + 1, first + 2, last, 1]);
        first = last + 1;
    }
    Sheet {
        mesh,
        table: Lines::new(),
        claim: Lines::new(),
    }
}

type Outline = &'static [[i64; 2]];

const SQUARE: Outline = &[[0, 0], [2, 0], [2, 2], [0, 2]];
const HALF: Outline = &[[0, 0], [4, 0], [0, 4]];
const BAR: Outline = &[[0, 1], [3, 1], [3, 2], [0, 2]];

/// Two outlines that touch at most.
const FINE: &[(Outline, Outline)] = &[
    (SQUARE, &[[3, 0], [5, 0], [5, 2], [3, 2]]),
    // Along a whole side, along part of one, at a corner, a corner on a side, a side's end on a side.
    (SQUARE, &[[2, 0], [4, 0], [4, 2], [2, 2]]),
    (SQUARE, &[[2, 1], [4, 1], [4, 3], [2, 3]]),
    (SQUARE, &[[2, 2], [4, 2], [4, 4], [2, 4]]),
    (SQUARE, &[[2, 1], [3, 0], [4, 1], [3, 2]]),
    (SQUARE, &[[1, 2], [2, 3], [1, 4], [0, 3]]),
    // Boxes that meet, outlines that don't, or that touch along a slanting line.
    (HALF, &[[4, 1], [4, 4], [1, 4]]),
    (HALF, &[[4, 0], [4, 4], [0, 4]]),
    (HALF, &[[3, 1], [4, 4], [1, 3]]),
    (HALF, &[[3, 1], [5, 0], [4, 4], [2, 2]]),
    (
        &[[0, 0], [1000, 999], [999, 1000]],
        &[[0, 0], [1000, 998], [1000, 999]],
    ),
];

/// Two outlines that share a point inside both.
const SHARED: &[(Outline, Outline)] = &[
    (SQUARE, SQUARE),
    (SQUARE, &[[1, 1], [3, 1], [3, 3], [1, 3]]),
    (
        &[[0, 0], [4, 0], [4, 4], [0, 4]],
        &[[1, 1], [2, 1], [2, 2], [1, 2]],
    ),
    (
        &[[1, 1], [2, 1], [2, 2], [1, 2]],
        &[[0, 0], [4, 0], [4, 4], [0, 4]],
    ),
    // Crossing bars: no corner of one is inside the other.
    (BAR, &[[1, 0], [2, 0], [2, 3], [1, 3]]),
    // Corners in common, or on sides.
    (SQUARE, &[[0, 0], [2, 0], [1, 1]]),
    (SQUARE, &[[1, 0], [2, 1], [1, 2], [0, 1]]),
    (SQUARE, &[[0, 0], [4, 0], [4, 2], [0, 2]]),
    (HALF, &[[4, 4], [0, 4], [3, 0]]),
    // Points inside both that are all fractions.
    (&[[0, 0], [3, 1], [1, 1]], &[[1, 0], [2, 1], [0, 1]]),
    (
        &[[0, 0], [1000, 999], [999, 1000]],
        &[[0, 0], [1000, 998], [999, 999]],
    ),
    (
        &[[0, 0], [1000, 999], [999, 1000]],
        &[[1, 0], [1000, 1000], [0, 1]],
    ),
];

/// The order of 47: two squares side by side with an edge, nodes of their own.
const ORDER: &[Listed] = &[
    (&[], 11, 1),
    (&[Mesh(7, 1, 1), Mesh(10, 1, 1)], 47, 2),
    (
        &[
            Mesh(7, 1, 1),
            Mesh(10, 1, 1),
            MeshLine(13, &[2, 1, 3, 0, 0, 0, 0]),
        ],
        47,
        2,
    ),
    (&[MeshLine(13, &[2, 1, 3, 0, 0, 0, 0])], 8, 13),
    (
        &[
            Mesh(7, 1, 1),
            Mesh(10, 1, 1),
            Mesh(1, 1, 9),
            MeshInsert(11, &[9, 9]),
        ],
        7,
        9,
    ),
    (
        &[
            Mesh(7, 1, 1),
            Mesh(10, 1, 1),
            MeshLine(12, &[5, 6, 7, 4, 1]),
        ],
        7,
        8,
    ),
];

pub fn tables() -> Vec<Table> {
    let cause = |number, place| vec![(vec![], number, place)];
    let fine = FINE.iter().map(|&(a, b)| (apart(&[a, b]), cause(11, 1)));
    let shared = SHARED.iter().map(|&(a, b)| (apart(&[a, b]), cause(47, 2)));
    let mut tables: Vec<Table> = fine.chain(shared).collect();
    let far: Outline = &[[7, 7], [9, 7], [9, 9], [7, 9]];
    tables.extend([
        (apart(&[SQUARE, SQUARE, SQUARE]), cause(47, 2)),
        (apart(&[SQUARE, far, SQUARE]), cause(47, 3)),
        (apart(&[far, SQUARE, SQUARE]), cause(47, 3)),
        (apart(&[SQUARE, far, SQUARE, far]), cause(47, 3)),
        (apart(&[SQUARE, far, BAR]), cause(47, 3)),
    ]);
    let mut side_by_side = apart(&[SQUARE, &[[2, 0], [4, 0], [4, 2], [2, 2]]]);
    side_by_side.mesh[0][3] = 1;
    side_by_side.mesh.push(vec![1, 2, 3, 0, 0, 0, 0]);
    tables.push((side_by_side, all(Mesh, 2, &[], ORDER)));
    tables
}
