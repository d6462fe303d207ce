//! Ground that is stronger one way (document 02, N14): document 01's square of bedded clay, ch 10 along
//! and cv 6 across. On the plane with normal (4, 3)/5 it carries 12·sy up to 250 - 4·16 = 186, so 15.5.

use super::Change::{Claim, FieldColumn, Mesh, MeshInsert, NoMultipliers};
use super::{all, Beyond, Change, Listed, Table};
use independent::sheet::Sheet;

fn square() -> Sheet {
    let mut sheet = Sheet::worked();
    sheet.mesh[1][8] = 1;
    sheet.mesh[1][9] = 6;
    sheet.claim[0] = vec![1, 1, 2, 31];
    for node in 1..=4 {
        sheet.claim[node] = vec![0, -31, 0];
    }
    // pN - qT at (4, 3) and pN + qT at (-4, 3) have 12·(sx - sy) each.
    sheet.claim[6][0] = 24;
    sheet.claim[7][2] = -24;
    sheet.claim[11] = vec![0, 0, 0, 1, 0, 0, 0, 0, 0, 0, 1, 0];
    sheet
}

/// ch 6 along and cv 10 across, and this vertical load.
const fn crosswise(load: i64) -> [Change; 4] {
    [
        Mesh(2, 4, 6),
        Mesh(2, 10, 10),
        FieldColumn(2, -load),
        Claim(1, 4, load),
    ]
}

/// Kind 0, a field alone with this vertical load.
const fn of_kind_0(load: i64) -> [Change; 5] {
    [
        Mesh(2, 9, 0),
        NoMultipliers,
        Claim(1, 2, 0),
        FieldColumn(2, -load),
        Claim(1, 4, load),
    ]
}

/// A field of shear alone, and edges that fix no shear.
const fn sheared(t: i64) -> [Change; 8] {
    [
        NoMultipliers,
        Claim(1, 2, 0),
        Mesh(8, 3, 1),
        Mesh(9, 3, 1),
        Mesh(10, 3, 1),
        FieldColumn(2, 0),
        FieldColumn(3, t),
        Claim(1, 4, 0),
    ]
}

const LIMITS: &[Beyond] = &[(2, 9, &[-1, 2]), (2, 10, &[-1, 10_001])];

const CAUSES: &[Listed] = &[
    (&[], 0, 0),
    (&[FieldColumn(2, -32), Claim(1, 4, 32)], 22, 4),
    (&[FieldColumn(2, 32), Claim(1, 4, -32)], 22, 3),
    (&[Mesh(2, 10, 5)], 22, 4),
    // ch and cv the other way round: (3, 4) and its 12·sy up to 150 + 4·9 decide.
    (&[Mesh(2, 4, 6), Mesh(2, 10, 10)], 0, 0),
    (&crosswise(32), 22, 6),
    (&crosswise(-32), 22, 5),
    // Shear along the beds: the plane across them, normal (5, 0), has cv 6 on both of its rows.
    (&sheared(12), 0, 0),
    (&sheared(13), 22, 1),
    (&sheared(-13), 22, 2),
    // Kind 0 reads no cv: these rows are not its rows, and 20 is its load.
    (&[Mesh(2, 9, 0)], 32, 7),
    (&[Mesh(2, 9, 0), NoMultipliers, Claim(1, 2, 0)], 0, 0),
    (&of_kind_0(40), 0, 0),
    (&of_kind_0(41), 22, 1),
    // 3 is asked of kind 1 too; with 108 sides it gets 2, before 3 and used or not.
    (&[Mesh(2, 3, 2)], 3, 2),
    (&[Mesh(1, 5, 108)], 2, 2),
    (&[Mesh(1, 5, 108), Mesh(2, 3, 2)], 2, 2),
    (&[Mesh(1, 5, 108), Mesh(2, 9, 0)], 11, 10),
    (
        &[
            Mesh(1, 5, 108),
            Mesh(2, 9, 0),
            Mesh(1, 3, 2),
            MeshInsert(3, &[0, 1, 1, 10, 0, 0, 0, 0, 1, 0]),
        ],
        2,
        3,
    ),
    // Columns: the rows of a plane one by one.
    (&[Claim(12, 4, 2)], 32, 7),
    (&[Claim(10, 1, 1)], 32, 3),
    (&[Claim(10, 2, 1)], 32, 3),
    (&[Claim(10, 1, 1), Claim(10, 2, 1)], 0, 0),
    (&[Claim(13, 7, 1), Claim(13, 8, 1)], 0, 0),
    (&[Claim(13, 3, 1)], 32, 10),
];

pub fn table() -> Table {
    (square(), all(Mesh, 2, LIMITS, CAUSES))
}
