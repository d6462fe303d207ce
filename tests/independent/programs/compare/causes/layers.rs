//! Soils from a borehole table (document 02, N8): two squares on each other, the soil of both left to
//! the table; and two triangles, whose heights depend on the corner that is repeated.

use super::Change::{
    Claim, FieldColumn, Mesh, MeshLine, NoTable, Table as InTable, TableInsert, TableLine,
};
use super::{all, Beyond, Change, Listed, Table};
use independent::sheet::{printed, Sheet};

/// Heights from 0 to 8 quarters; the upper layer is listed first.
pub fn tower() -> Sheet {
    Sheet {
        mesh: printed(
            "6 2 2 1 12 0 / 0 1 1 10 0 0 0 0 0 0 / 0 1 1 20 0 0 0 0 0 0 / \
             0 0 / 1 0 / 1 1 / 0 1 / 1 2 / 0 2 / 1 2 3 4 0 / 4 3 5 6 0 / 5 6 3 0 0 -1 0",
        ),
        table: printed("1 3 2 / -1 1 1"),
        claim: printed(&format!("1 0 1 20{}", " / 0 -20 0".repeat(6))),
    }
}

const LIMITS: &[Beyond] = &[
    (1, 1, &[-1001, 2001]),
    (1, 2, &[-1001, 2001]),
    (2, 1, &[-1001]),
    (2, 2, &[2001]),
];

/// A field of 21: too much for soil 1.
const BEYOND: [Change; 2] = [FieldColumn(2, -21), Claim(1, 4, 21)];

const TOWER: &[Listed] = &[
    (&[], 0, 0),
    // The lower layer is soil 1, the upper soil 2; an element's own soil stands.
    (&BEYOND, 22, 1),
    (
        &[BEYOND[0], BEYOND[1], InTable(1, 3, 1), InTable(2, 3, 2)],
        22,
        25,
    ),
    (&[BEYOND[0], BEYOND[1], Mesh(10, 5, 2)], 0, 0),
    (
        &[BEYOND[0], BEYOND[1], Mesh(10, 5, 2), Mesh(11, 5, 1)],
        22,
        25,
    ),
    (&[BEYOND[0], BEYOND[1], InTable(2, 3, 2)], 0, 0),
    // Without a table soil 0 is none; with one the other numbers are as before.
    (&[NoTable], 4, 10),
    (&[NoTable, Mesh(10, 5, 1)], 4, 11),
    (&[NoTable, Mesh(10, 5, 1), Mesh(11, 5, 2)], 0, 0),
    (&[Mesh(10, 5, -1)], 4, 10),
    (&[Mesh(11, 5, 3)], 4, 11),
    // Soils of the table.
    (&[InTable(1, 3, 0)], 4, 1001),
    (&[InTable(2, 3, 3)], 4, 1002),
    (&[InTable(2, 3, -1)], 4, 1002),
    (&[InTable(1, 3, 0), InTable(1, 2, 2001)], 2, 1001),
    (&[InTable(2, 3, 0), InTable(1, 2, 2001)], 2, 1001),
    // A gap: above, below, between; 0 is a height.
    (&[InTable(1, 2, 2)], 45, 8),
    (&[InTable(2, 2, 0)], 45, 0),
    (&[InTable(1, 1, 2)], 45, 4),
    (
        &[InTable(1, 1, 2), InTable(1, 2, 3), InTable(2, 2, 0)],
        45,
        0,
    ),
    (&[TableLine(1, &[2, 3, 2]), TableLine(2, &[1, 2, 1])], 45, 0),
    (&[InTable(2, 1, 0)], 0, 0),
    // A table is judged even where no element asks.
    (&[InTable(1, 2, 2), Mesh(10, 5, 1), Mesh(11, 5, 2)], 45, 8),
    // Upside down, flat; an overlap comes after these, and a gap after both.
    (&[InTable(1, 2, 1)], 46, 1001),
    (&[InTable(2, 2, -1)], 46, 1002),
    (&[InTable(2, 2, -2)], 46, 1002),
    (&[InTable(1, 1, 0)], 46, 1002),
    (&[InTable(2, 2, 2)], 46, 1002),
    (&[InTable(1, 1, 0), TableInsert(3, &[5, 5, 1])], 46, 1003),
    (&[TableInsert(1, &[2, 9, 1])], 46, 1002),
    (&[TableInsert(3, &[2, 9, 1])], 46, 1003),
    (&[TableInsert(3, &[-9, 1, 1])], 46, 1003),
    (&[TableInsert(2, &[0, 1, 1])], 46, 1003),
    (&[InTable(1, 1, 0), InTable(1, 2, 2)], 46, 1002),
    // Overlaps and gaps beyond the nodes are fine.
    (&[TableInsert(3, &[3, 9, 1])], 0, 0),
    (&[TableInsert(1, &[-9, 0, 2])], 0, 0),
    (
        &[
            TableInsert(1, &[-9, -5, 2]),
            TableInsert(1, &[7, 8, 2]),
            TableInsert(1, &[7, 8, 2]),
        ],
        0,
        0,
    ),
    // After the mesh's lines, before its shape.
    (&[InTable(1, 3, 0), MeshLine(10, &[4, 3, 2, 1, 0])], 4, 1001),
    (&[InTable(1, 2, 2), MeshLine(10, &[4, 3, 2, 1, 0])], 45, 8),
    (
        &[InTable(1, 2, 1), MeshLine(10, &[4, 3, 2, 1, 0])],
        46,
        1001,
    ),
    (&[InTable(1, 3, 0), Mesh(12, 3, 0)], 2, 12),
    (&[MeshLine(10, &[4, 3, 2, 1, 0])], 5, 1),
];

/// A square of two triangles with a field of 30, which soil 2 carries; from height 1 on it is soil 2.
fn slope() -> Sheet {
    Sheet {
        mesh: printed(
            "4 2 2 1 12 0 / 0 1 1 10 0 0 0 0 0 0 / 0 1 1 20 0 0 0 0 0 0 / \
             0 0 / 2 0 / 0 2 / 2 2 / 1 2 3 3 0 / 2 4 3 3 0 / 4 3 3 0 0 -1 0",
        ),
        table: printed("0 1 1 / 1 3 2"),
        claim: printed(&format!("1 0 1 30{}", " / 0 -30 0".repeat(4))),
    }
}

const SLOPE: &[Listed] = &[
    // The repeated corner twice: (0 + 0 + 2 + 2) / 4 is 1, which is the upper layer's.
    (&[], 0, 0),
    (&[MeshLine(8, &[2, 3, 1, 1, 0])], 22, 1),
    (&[MeshLine(8, &[3, 1, 2, 2, 0])], 22, 1),
    (&[MeshLine(9, &[4, 3, 2, 2, 0])], 0, 0),
    (&[TableLine(1, &[0, 2, 1]), TableLine(2, &[2, 3, 2])], 22, 1),
];

/// Table lines of a quarter each, too few, as many as may be, and too many.
fn many(lines: usize) -> Sheet {
    let mut sheet = tower();
    sheet.table = vec![vec![900, 901, 1]; lines];
    sheet.table[0] = vec![0, 3, 1];
    sheet
}

pub fn tables() -> Vec<Table> {
    let mut causes = all(Mesh, 2, &[], TOWER);
    for (mut changes, number, line) in all(InTable, 2, LIMITS, &[]) {
        changes.push(Claim(1, 1, 2));
        causes.push((changes, number, 1000 + line));
    }
    vec![
        (tower(), causes),
        (slope(), all(Mesh, 2, &[], SLOPE)),
        (many(32), vec![(vec![], 0, 0)]),
        (many(33), vec![(vec![], 1, 1033)]),
        (many(40), vec![(vec![InTable(32, 3, 0)], 4, 1032)]),
    ]
}
