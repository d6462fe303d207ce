//! One hundred and eight sides (document 02, N9): document 01's square, twice as wide, with the
//! polygon's first and last side; and grids with just as many nodes and pairs as may be, and more.

use super::pairs::strips;
use super::Change::{Claim, FieldColumn, Mesh};
use super::{all, Beyond, Listed, Table};
use independent::sheet::{Lines, Sheet};

/// Corner (1104, 47) is next to (1105, 0): the rows have 2·1105·47 at sx, 51,935 twice.
fn square() -> Sheet {
    let mut sheet = Sheet::worked();
    sheet.mesh[0][4] = 108;
    for (node, place) in [(3, [2, 0]), (4, [2, 2]), (5, [0, 2])] {
        sheet.mesh[node] = place.to_vec();
    }
    sheet.claim.truncate(9);
    sheet.claim[6][0] = 51_935;
    sheet.claim[7][2] = -51_935;
    let mut strength: Lines = vec![vec![0; 108]; 4];
    strength[2][0] = 2;
    strength[2][107] = 2;
    sheet.claim.extend(strength);
    sheet
}

const LIMITS: &[Beyond] = &[
    (10, 1, &[-1, 301, 10_000]),
    (11, 55, &[301]),
    (13, 108, &[301]),
];

const CAUSES: &[Listed] = &[
    (&[], 0, 0),
    (&[FieldColumn(2, -21), Claim(1, 4, 21)], 22, 1),
    // Side 49, from (-1020, 425) to (-1071, 272), is the last that lets 21 pass: 177735/153 is above 1160.25.
    (&[FieldColumn(2, 21), Claim(1, 4, -21)], 22, 50),
    // A multiplier of 300 is within the limits.
    (&[Claim(10, 1, 300)], 32, 1),
    (&[Claim(13, 108, 300)], 32, 10),
    // Forty nodes are, and then lines are missing; forty-one aren't.
    (&[Mesh(1, 1, 40)], 1, 7),
    (&[Mesh(1, 1, 41)], 2, 1),
    (&[Mesh(1, 1, 100)], 2, 1),
    (&[Mesh(1, 1, 41), Mesh(1, 5, 36)], 1, 7),
];

pub fn tables() -> Vec<Table> {
    let with_108 = |soils: &[i64], rows, number, place| {
        (strips(soils, rows, 108), vec![(vec![], number, place)])
    };
    vec![
        (square(), all(Claim, 12, LIMITS, CAUSES)),
        // 40 nodes; 41 and more; 36 nodes and four with two soils; 40 and five; 14 pairs in each row.
        with_108(&[1, 1, 1, 1, 1, 1, 1], 4, 11, 1),
        with_108(&[1, 1, 1, 1, 1, 1, 1], 5, 2, 1),
        with_108(&[1, 2, 2, 2, 2, 2, 2, 2], 3, 11, 1),
        with_108(&[1, 1, 1, 1, 1, 1, 2], 4, 42, 37),
        with_108(&[1, 2, 1, 2, 1, 2, 1], 4, 42, 23),
    ]
}
