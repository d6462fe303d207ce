//! Causes of document 01's refusals: those of a mesh in two squares, those of a claim in the worked
//! sheet.

use super::Change::{Claim, FieldColumn, Mesh, MeshInsert, NoMultipliers};
use super::{all, Beyond, Change, Listed, Table};
use independent::sheet::{printed, Lines, Sheet};

/// Two squares side by side, two soils, three of the six outer sides with an edge.
fn pair() -> Sheet {
    let zeros = " / 0 0 0 0 0 0 0 0 0 0 0 0".repeat(8);
    Sheet {
        mesh: printed(
            "6 2 2 3 12 0 / 0 1 1 10 0 0 0 0 0 0 / 3 4 5 10 0 0 0 0 0 0 / \
             0 0 / 1 0 / 2 0 / 0 1 / 1 1 / 2 1 / 1 2 5 4 1 / 2 3 6 5 2 / \
             6 5 3 0 0 -1 0 / 5 4 3 0 0 -1 0 / 3 6 1 0 0 0 0",
        ),
        table: Lines::new(),
        claim: printed(&format!(
            "0 1 0 0 / 0 0 / 0 0 / 0 0 0 0 / 0 0 0 0 / 0 0 0 0{zeros}"
        )),
    }
}

/// A seventh node of `pair`, in no element.
const LONE_NODE: &[Change] = &[Mesh(1, 1, 7), MeshInsert(10, &[9, 9])];

/// Beyond the limits of `pair`: its header, soils, nodes and edges.
const MESH_LIMITS: &[Beyond] = &[
    (1, 1, &[3, 101]),
    (1, 2, &[0, 101]),
    (1, 3, &[0, 17]),
    (1, 4, &[-1, 61]),
    (1, 5, &[-12, 0, 11, 13, 24, 107, 109]),
    (1, 6, &[-1, 61]),
    (2, 1, &[-1, 1001]),
    (2, 2, &[0, 1001]),
    (2, 3, &[0, 1001]),
    (2, 4, &[-1, 10001]),
    (2, 5, &[-1001]),
    (2, 6, &[1001]),
    (2, 7, &[-1001]),
    (2, 8, &[1001]),
    (2, 9, &[-1, 2]),
    (3, 10, &[-1, 10001]),
    (4, 1, &[-1]),
    (4, 2, &[-1]),
    (6, 1, &[1001]),
    (9, 2, &[1001]),
    (12, 3, &[0, 4]),
    (12, 4, &[10001]),
    (13, 5, &[-10001]),
    (13, 6, &[10001]),
    (14, 7, &[-10001]),
    (14, 5, &[10001]),
];

/// The other causes in `pair`, refusals 3 to 8.
const MESH: &[Listed] = &[
    (&[], 33, 0),
    // The angle of a soil; limits come first in a line.
    (&[Mesh(2, 2, 2)], 3, 2),
    (&[Mesh(3, 3, 6)], 3, 3),
    (&[Mesh(3, 3, 6), Mesh(3, 4, -1)], 2, 3),
    (&[Mesh(3, 3, 6), Mesh(4, 1, -1)], 3, 3),
    // Elements: a node or a soil that isn't there.
    (&[Mesh(10, 1, 0)], 4, 10),
    (&[Mesh(10, 2, 7)], 4, 10),
    (&[Mesh(11, 3, -1)], 4, 11),
    (&[Mesh(11, 4, 100)], 4, 11),
    (&[Mesh(10, 5, 0)], 4, 10),
    (&[Mesh(11, 5, 3)], 4, 11),
    (&[Mesh(11, 5, -99_999_999_999)], 4, 11),
    // Edges: limits come before names.
    (&[Mesh(12, 1, 0)], 4, 12),
    (&[Mesh(12, 2, 7)], 4, 12),
    (&[Mesh(12, 2, 7), Mesh(12, 3, 0)], 2, 12),
    // Turned right, a corner twice, a straight corner, a folded one.
    (
        &[
            Mesh(11, 1, 5),
            Mesh(11, 2, 6),
            Mesh(11, 3, 3),
            Mesh(11, 4, 2),
        ],
        5,
        2,
    ),
    (&[Mesh(10, 2, 1)], 5, 1),
    (&[Mesh(11, 3, 3)], 5, 2),
    (
        &[Mesh(5, 1, 2), Mesh(8, 1, 2), Mesh(8, 2, 2), Mesh(7, 1, 1)],
        5,
        1,
    ),
    (&[Mesh(8, 1, 0), Mesh(8, 2, 0)], 5, 1),
    // A side twice; 5 over the whole mesh comes first.
    (
        &[
            Mesh(11, 1, 1),
            Mesh(11, 2, 2),
            Mesh(11, 3, 6),
            Mesh(11, 4, 5),
        ],
        6,
        2,
    ),
    (
        &[
            Mesh(11, 1, 1),
            Mesh(11, 2, 2),
            Mesh(11, 3, 5),
            Mesh(11, 4, 4),
        ],
        6,
        2,
    ),
    // A node in no element, after 6 and before 8.
    (LONE_NODE, 7, 7),
    (
        &[Mesh(1, 1, 7), MeshInsert(10, &[9, 9]), Mesh(14, 1, 1)],
        7,
        7,
    ),
    (
        &[
            Mesh(11, 1, 1),
            Mesh(11, 2, 2),
            Mesh(11, 3, 6),
            Mesh(11, 4, 5),
            Mesh(1, 1, 7),
            MeshInsert(10, &[9, 9]),
        ],
        6,
        2,
    ),
    // An edge that is no side, turned, inner, twice.
    (&[Mesh(12, 1, 1)], 8, 12),
    (&[Mesh(12, 1, 5), Mesh(12, 2, 6)], 8, 12),
    (&[Mesh(13, 1, 4), Mesh(13, 2, 5)], 8, 13),
    (&[Mesh(14, 1, 2), Mesh(14, 2, 5)], 8, 14),
    (&[Mesh(14, 1, 5), Mesh(14, 2, 2)], 8, 14),
    (&[Mesh(13, 1, 6), Mesh(13, 2, 5)], 8, 13),
    (&[Mesh(12, 1, 3), Mesh(12, 2, 3)], 8, 12),
];

/// Beyond the limits of the worked sheet's claim: its header, field and multipliers.
const CLAIM_LIMITS: &[Beyond] = &[
    (1, 1, &[2, -1]),
    (1, 2, &[2]),
    (1, 3, &[-1, 100_001]),
    (1, 4, &[100_000_001, -100_000_001]),
    (2, 1, &[1_000_000_001]),
    (5, 3, &[-1_000_000_001]),
    (6, 2, &[100_001]),
    (7, 1, &[-100_001]),
    (9, 4, &[100_001]),
    (10, 1, &[-1]),
    (13, 12, &[10_001]),
];

/// The other causes in the worked sheet, refusals 11 to 33.
const CLAIM: &[Listed] = &[
    (&[], 0, 0),
    // Limits of the header come before 13, and 13 before line 2.
    (
        &[
            Claim(1, 1, 0),
            Claim(1, 2, 0),
            Claim(1, 3, 0),
            Claim(1, 4, 0),
        ],
        13,
        1,
    ),
    (&[Claim(1, 3, 0)], 13, 1),
    (&[Claim(1, 1, 0), Claim(1, 4, 0)], 13, 1),
    (&[Claim(1, 1, 0), Claim(1, 3, 0)], 13, 1),
    (&[Claim(1, 3, 0), Claim(1, 4, 100_000_001)], 12, 1),
    (&[Claim(1, 3, 0), Claim(2, 1, 1_000_000_001)], 13, 1),
    // A claim that is said to have fewer parts has lines left over, or others.
    (&[Claim(1, 2, 0)], 11, 6),
    (&[NoMultipliers], 11, 6),
    (&[NoMultipliers, Claim(1, 2, 0)], 0, 0),
    // Balance of x and of y, then the edges in order; an unfixed part asks nothing.
    (&[Claim(2, 1, 1)], 21, 1),
    (&[Claim(2, 2, -19)], 21, 2),
    (&[Claim(4, 3, 1)], 21, 1),
    (&[FieldColumn(2, -21)], 21, 3),
    (&[FieldColumn(3, 1)], 21, 4),
    (&[FieldColumn(1, 1)], 21, 7),
    (&[FieldColumn(1, 1), Mesh(9, 3, 2)], 21, 11),
    (&[Mesh(8, 4, 1)], 21, 3),
    (&[Mesh(8, 5, 1)], 21, 4),
    (&[Mesh(10, 7, 1)], 21, 12),
    (&[Mesh(2, 5, 1)], 21, 1),
    (&[Mesh(2, 8, 1)], 21, 2),
    // Strength, in compression and in tension.
    (&[FieldColumn(2, -21), Claim(1, 4, 21)], 22, 1),
    (&[FieldColumn(2, 21), Claim(1, 4, -21)], 22, 6),
    (&[Mesh(2, 4, 9)], 22, 1),
    (
        &[Mesh(2, 4, 9), FieldColumn(2, 20), Claim(1, 4, -20)],
        22,
        6,
    ),
    // Multipliers: an unfixed row, a column, and m.
    (&[Mesh(9, 3, 2)], 31, 9),
    (&[Mesh(8, 3, 1), Claim(7, 4, 1)], 31, 6),
    (&[Claim(8, 3, -29)], 32, 7),
    (&[Claim(7, 1, 31)], 32, 8),
    (&[Claim(6, 1, 1)], 32, 1),
    (&[Claim(6, 2, 1)], 32, 2),
    (&[Claim(13, 1, 1)], 32, 10),
    (
        &[
            Claim(7, 1, 0),
            Claim(8, 3, 0),
            Claim(12, 1, 0),
            Claim(12, 12, 0),
        ],
        33,
        0,
    ),
    (&[Mesh(8, 6, 1), Claim(1, 4, -20)], 33, 0),
    // A field that fails comes before multipliers that fail.
    (&[Claim(2, 1, 1), Claim(8, 3, -29)], 21, 1),
];

pub fn tables() -> [Table; 2] {
    [
        (pair(), all(Mesh, 2, MESH_LIMITS, MESH)),
        (Sheet::worked(), all(Claim, 12, CLAIM_LIMITS, CLAIM)),
    ]
}
