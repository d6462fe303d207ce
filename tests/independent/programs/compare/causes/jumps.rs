//! Stress jumps (document 02, N6): two squares on an upright joint, whose nodes are there twice.

use super::Change::{Claim, Mesh, MeshInsert, MeshLine, NoMultipliers};
use super::{all, Beyond, Change, Listed, Table};
use independent::sheet::{printed, Lines, Sheet};

/// Nodes 2 and 3 are the joint's on the left, 5 and 8 on the right; the jump is line 17.
fn joint() -> Sheet {
    let zeros = " / 0 0 0 0 0 0 0 0 0 0 0 0";
    let field = " / 0 -20 0".repeat(8);
    let before = zeros.repeat(6);
    Sheet {
        mesh: printed(
            "8 2 1 4 12 1 / 0 1 1 10 0 0 0 0 0 0 / \
             0 0 / 1 0 / 1 1 / 0 1 / 1 0 / 2 0 / 2 1 / 1 1 / 1 2 3 4 1 / 5 6 7 8 1 / \
             7 8 3 0 0 -1 0 / 3 4 3 0 0 -1 0 / 6 7 3 0 0 0 0 / 4 1 3 0 0 0 0 / 2 3 5 8",
        ),
        table: Lines::new(),
        claim: printed(&format!(
            "1 1 1 20{field} / 0 0 / 0 0 / 30 0 0 0 / 0 0 0 0 / 0 0 -30 0 / 0 0 0 0 / 0 0 0 0{before} / \
             1 0 0 0 0 0 0 0 0 0 0 1{zeros}"
        )),
    }
}

const LIMITS: &[Beyond] = &[(1, 6, &[-1, 61])];

/// A square between the two, so that 2 to 3 and 5 to 8 are inner sides; the jump is line 18 then.
const BETWEEN: [Change; 6] = [
    Mesh(1, 2, 3),
    Mesh(7, 1, 2),
    Mesh(8, 1, 3),
    Mesh(9, 1, 3),
    Mesh(10, 1, 2),
    MeshInsert(13, &[2, 5, 8, 3, 1]),
];

const fn across(jump: &'static [i64]) -> [Change; 7] {
    let [a, b, c, d, e, f] = BETWEEN;
    [a, b, c, d, e, f, MeshLine(18, jump)]
}

/// A field alone with this stress at all nodes of the right square, and up to two changes of what edges ask.
const fn leap(column: usize, stress: i64, edges: [Change; 2]) -> [Change; 8] {
    let [first, second] = edges;
    [
        NoMultipliers,
        Claim(1, 2, 0),
        first,
        second,
        Claim(6, column, stress),
        Claim(7, column, stress),
        Claim(8, column, stress),
        Claim(9, column, stress),
    ]
}

const CAUSES: &[Listed] = &[
    (&[], 0, 0),
    // Inner sides are no outer ones, not even one that faces itself.
    (&across(&[2, 3, 2, 3]), 44, 18),
    (&across(&[3, 2, 3, 2]), 44, 18),
    (&across(&[5, 8, 5, 8]), 44, 18),
    (&across(&[2, 3, 5, 8]), 44, 18),
    // The same jump told from the other side.
    (&[MeshLine(17, &[8, 5, 3, 2])], 0, 0),
    // Nodes that aren't there.
    (&[Mesh(17, 1, 0)], 4, 17),
    (&[Mesh(17, 2, 9)], 4, 17),
    (&[Mesh(17, 3, -1)], 4, 17),
    (&[Mesh(17, 4, 100)], 4, 17),
    // A jump that is said and missing, or there and not said.
    (&[Mesh(1, 6, 2)], 1, 18),
    (&[Mesh(1, 6, 0)], 1, 17),
    // Turned, facing nodes turned, both, no side at all.
    (&[MeshLine(17, &[3, 2, 8, 5])], 44, 17),
    (&[MeshLine(17, &[2, 3, 8, 5])], 44, 17),
    (&[MeshLine(17, &[3, 2, 5, 8])], 44, 17),
    (&[MeshLine(17, &[2, 3, 2, 3])], 44, 17),
    (&[MeshLine(17, &[2, 2, 5, 5])], 44, 17),
    (&[MeshLine(17, &[2, 3, 6, 7])], 44, 17),
    (&[MeshLine(17, &[1, 3, 5, 8])], 44, 17),
    (&[MeshLine(17, &[1, 2, 5, 6])], 44, 17),
    // Apart at one end.
    (&[Mesh(10, 2, 2)], 44, 17),
    (
        &[Mesh(7, 2, 1), Mesh(8, 2, 1), Mesh(9, 2, 2), Mesh(10, 2, 2)],
        44,
        17,
    ),
    // A side that an edge has, on this side of the joint and on the other.
    (&[MeshLine(14, &[2, 3, 3, 0, 0, 0, 0])], 44, 17),
    (&[MeshLine(14, &[8, 5, 3, 0, 0, 0, 0])], 44, 17),
    // A side that an earlier jump has, on either side.
    (&[Mesh(1, 6, 2), MeshInsert(17, &[2, 3, 5, 8])], 44, 18),
    (&[Mesh(1, 6, 2), MeshInsert(17, &[8, 5, 3, 2])], 44, 18),
    // One mesh line: 8 comes before 44 over the whole mesh.
    (
        &[
            MeshLine(17, &[3, 2, 8, 5]),
            MeshLine(16, &[1, 4, 3, 0, 0, 0, 0]),
        ],
        8,
        16,
    ),
    // An inner side: both squares on the same nodes.
    (
        &[
            MeshLine(12, &[2, 6, 7, 3, 1]),
            MeshLine(13, &[7, 3, 3, 0, 0, -1, 0]),
        ],
        7,
        5,
    ),
    // The rows: normal at from, shear at from, normal at to.
    (&leap(1, 1, [Mesh(15, 3, 2), Mesh(15, 3, 2)]), 21, 21),
    (&leap(3, 1, [Mesh(13, 3, 1), Mesh(15, 3, 1)]), 21, 22),
    (
        &[
            NoMultipliers,
            Claim(1, 2, 0),
            Mesh(15, 3, 2),
            Claim(8, 1, 1),
            Claim(9, 1, 1),
        ],
        21,
        23,
    ),
    // Stress along the joint may jump: sy is 5 less on the right, and so is its dead load.
    (&leap(2, -15, [Mesh(13, 4, 5), Mesh(13, 4, 5)]), 0, 0),
    // A jump's multipliers enter the columns of its first nodes, and of the facing ones with a minus.
    (&[Claim(16, 1, 1)], 32, 4),
    (&[Claim(16, 2, 1)], 32, 6),
    (&[Claim(16, 3, 1)], 32, 7),
    (&[Claim(16, 4, 1)], 32, 9),
    (
        &[
            Claim(16, 1, 1),
            Mesh(17, 1, 8),
            Mesh(17, 2, 5),
            Mesh(17, 3, 3),
            Mesh(17, 4, 2),
        ],
        32,
        7,
    ),
    // A rigid step to the right, undone at the joint and everywhere but at the foot: t of node 1 is left.
    (
        &[
            Claim(10, 1, 1),
            Claim(11, 1, 1),
            Claim(12, 2, 1),
            Claim(12, 4, 1),
            Claim(13, 2, 1),
            Claim(13, 4, 1),
            Claim(14, 1, -1),
            Claim(14, 3, -31),
            Claim(15, 1, 1),
            Claim(15, 3, 1),
            Claim(16, 1, -1),
            Claim(16, 3, -1),
        ],
        32,
        3,
    ),
];

const CLAIM_LIMITS: &[Beyond] = &[(16, 1, &[100_001, -100_001]), (16, 4, &[100_001])];

pub fn table() -> Table {
    let mut causes = all(Mesh, 2, LIMITS, CAUSES);
    causes.extend(all(Claim, 12, CLAIM_LIMITS, &[]));
    (joint(), causes)
}
