//! Nodes where two soils meet (document 02, N2): two squares side by side, the weaker soil listed
//! first; and grids in strips with just as many pairs of node and soil as may be, and more.

use super::Change::{Claim, FieldColumn, Mesh, NoMultipliers};
use super::{all, Listed, Table};
use independent::sheet::{printed, Lines, Sheet};

/// The pairs are 1-2, 2-1, 2-2, 3-1, 4-2, 5-1, 5-2 and 6-1, node and soil.
fn meeting() -> Sheet {
    let zeros = " / 0 0 0 0 0 0 0 0 0 0 0 0".repeat(7);
    let field = " / 0 -20 0".repeat(6);
    Sheet {
        mesh: printed(
            "6 2 2 4 12 0 / 0 1 1 10 0 0 0 0 0 0 / 0 1 1 20 0 0 0 0 0 0 / \
             0 0 / 1 0 / 2 0 / 0 1 / 1 1 / 2 1 / 1 2 5 4 2 / 2 3 6 5 1 / \
             6 5 3 0 0 -1 0 / 5 4 3 0 0 -1 0 / 3 6 3 0 0 0 0 / 4 1 3 0 0 0 0",
        ),
        table: Lines::new(),
        claim: printed(&format!(
            "1 1 1 20{field} / 0 0 / 0 0 / 30 0 0 0 / 0 0 0 0 / 0 0 -30 0 / 0 0 0 0{zeros} / \
             1 0 0 0 0 0 0 0 0 0 0 1"
        )),
    }
}

const MEETING: &[Listed] = &[
    (&[], 0, 0),
    // The stronger soil would carry 21; the weaker one's rows come first at node 2.
    (&[FieldColumn(2, -21), Claim(1, 4, 21)], 22, 13),
    (&[FieldColumn(2, 21), Claim(1, 4, -21)], 22, 18),
    // The second soil's rows follow at each node.
    (&[Mesh(3, 4, 9)], 22, 1),
    (&[Mesh(3, 4, 9), Mesh(10, 5, 1), Mesh(11, 5, 2)], 22, 25),
    // One soil for both: six pairs, two lines too many.
    (&[Mesh(11, 5, 2)], 11, 20),
    (&[NoMultipliers, Claim(1, 2, 0), Mesh(11, 5, 2)], 0, 0),
    // Multipliers at a pair enter the columns of its node.
    (&[Claim(14, 1, 1)], 32, 1),
    (&[Claim(15, 1, 1)], 32, 4),
    (&[Claim(16, 4, 1)], 32, 4),
    (&[Claim(17, 7, 1)], 32, 7),
    (&[Claim(18, 1, 1)], 32, 10),
    (&[Claim(19, 12, 1)], 32, 13),
    (&[Claim(20, 1, 1)], 32, 13),
    (&[Claim(21, 12, 2)], 32, 16),
];

/// A grid of nodes, its columns of elements in soils as listed, with an empty claim.
pub fn strips(soils: &[i64], rows: i64, sides: i64) -> Sheet {
    let (columns, most) = (soils.len() as i64, *soils.iter().max().expect("a column"));
    let across = columns + 1;
    let mut mesh: Lines = vec![vec![across * (rows + 1), columns * rows, most, 0, sides, 0]];
    mesh.extend((0..most).map(|_| vec![0, 1, 1, 10, 0, 0, 0, 0, 0, 0]));
    mesh.extend((0..across * (rows + 1)).map(|k| vec![k % across, k / across]));
    for e in 0..columns * rows {
        let corner = e / columns * across + e % columns + 1;
        let soil = soils[(e % columns) as usize];
        mesh.push(vec![
            corner,
            corner + 1,
            corner + across + 1,
            corner + across,
            soil,
        ]);
    }
    Sheet {
        mesh,
        table: Lines::new(),
        claim: Lines::new(),
    }
}

pub fn tables() -> Vec<Table> {
    let pairs_of = |soils: &[i64], rows, number, place| {
        (strips(soils, rows, 12), vec![(vec![], number, place)])
    };
    vec![
        (meeting(), all(Mesh, 2, &[], MEETING)),
        // 90 nodes and ten of them with two soils; 100 nodes and ten; 18 pairs in each row.
        pairs_of(&[1, 1, 2, 2, 2, 2, 2, 2], 9, 11, 1),
        pairs_of(&[1, 1, 1, 1, 1, 1, 1, 1, 2], 9, 42, 92),
        pairs_of(&[2, 1, 1, 1, 1, 1, 1, 1, 1], 9, 42, 92),
        pairs_of(&[1, 2, 1, 2, 1, 2, 1, 2, 1], 9, 42, 56),
        pairs_of(&[1, 3, 3, 3, 2, 2, 2, 2, 16], 9, 42, 78),
    ]
}
