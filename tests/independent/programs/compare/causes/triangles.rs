//! Triangles (document 02, N1): a square of four around a node in its middle, which each repeats.

use super::Change::{Mesh, MeshInsert, MeshLine};
use super::{all, Listed, Table};
use independent::sheet::{printed, Lines, Sheet};

fn fan() -> Sheet {
    let zeros = " / 0 0 0 0 0 0 0 0 0 0 0 0";
    let field = " / 0 -20 0".repeat(5);
    let balance = " / 0 0".repeat(4);
    Sheet {
        mesh: printed(
            "5 4 1 3 12 0 / 0 1 1 10 0 0 0 0 0 0 / 0 0 / 2 0 / 2 2 / 0 2 / 1 1 / \
             1 2 5 5 1 / 2 3 5 5 1 / 3 4 5 5 1 / 4 1 5 5 1 / \
             3 4 3 0 0 -1 0 / 2 3 3 0 0 0 0 / 4 1 3 0 0 0 0",
        ),
        table: Lines::new(),
        claim: printed(&format!(
            "1 1 1 20{field}{balance} / 15 0 0 0 / 0 0 -15 0 / 0 0 0 0{zeros}{zeros} / \
             2 0 0 0 0 0 0 0 0 0 0 2{zeros}{zeros}"
        )),
    }
}

const CAUSES: &[Listed] = &[
    (&[], 0, 0),
    // Any of the three corners may be the one that is repeated.
    (&[MeshLine(8, &[2, 5, 1, 1, 1])], 0, 0),
    (&[MeshLine(9, &[5, 2, 3, 3, 1])], 0, 0),
    // Every other repeat.
    (&[MeshLine(8, &[1, 1, 2, 5, 1])], 5, 1),
    (&[MeshLine(8, &[1, 2, 2, 5, 1])], 5, 1),
    (&[MeshLine(8, &[5, 1, 2, 5, 1])], 5, 1),
    (&[MeshLine(9, &[2, 3, 2, 5, 1])], 5, 2),
    (&[MeshLine(9, &[2, 3, 5, 3, 1])], 5, 2),
    (&[MeshLine(10, &[3, 4, 4, 4, 1])], 5, 3),
    (&[MeshLine(10, &[4, 4, 5, 5, 1])], 5, 3),
    (&[MeshLine(11, &[5, 5, 5, 5, 1])], 5, 4),
    // Turned right, straight, folded.
    (&[MeshLine(11, &[1, 4, 5, 5, 1])], 5, 4),
    (&[MeshLine(11, &[4, 2, 5, 5, 1])], 5, 4),
    (&[MeshLine(8, &[1, 5, 3, 3, 1])], 5, 1),
    // Two nodes at one place are no repeat.
    (
        &[
            Mesh(1, 1, 6),
            MeshInsert(8, &[1, 1]),
            MeshLine(9, &[1, 2, 5, 6, 1]),
        ],
        5,
        1,
    ),
    // Three turns are not enough for four corners.
    (&[MeshLine(8, &[1, 2, 3, 5, 1])], 5, 1),
    // A side twice; the repeat makes none, so no edge can be on it.
    (&[MeshLine(9, &[1, 2, 3, 3, 1])], 6, 2),
    (&[MeshLine(11, &[3, 4, 1, 1, 1])], 6, 4),
    (&[MeshLine(12, &[5, 5, 3, 0, 0, -1, 0])], 8, 12),
    // A node that only a left-out triangle had; an inner side of two triangles.
    (
        &[MeshLine(8, &[1, 2, 3, 4, 1]), MeshLine(9, &[2, 1, 5, 5, 1])],
        5,
        2,
    ),
    (&[MeshLine(13, &[2, 5, 3, 0, 0, 0, 0])], 8, 13),
];

pub fn table() -> Table {
    (fan(), all(Mesh, 2, &[], CAUSES))
}
