//! Rows, columns and bytes of claims, from the mesh alone (document 02, N7).

use crate::lines::WIDTH;
use crate::mesh::Mesh;

/// All sizes are 0 where the mesh is refused.
#[repr(C)]
#[derive(Clone, Copy, Debug, Default, PartialEq, Eq)]
pub struct Sizes {
    pub number: u32,
    pub place: u32,
    pub balance_rows: u64,
    pub side_rows: u64,
    pub jump_rows: u64,
    pub strength_rows: u64,
    pub columns: u64,
    pub field_bytes: u64,
    pub multipliers_bytes: u64,
    pub both_bytes: u64,
}

/// The bytes of lines of so many columns.
fn bytes(lines: usize, columns: usize) -> u64 {
    (lines * (WIDTH * columns + 1)) as u64
}

pub fn mesh_sizes(mesh: &[u8], table: &[u8]) -> Sizes {
    match Mesh::read(mesh, table) {
        Ok(mesh) => sizes(&mesh),
        Err(refusal) => Sizes {
            number: refusal.number,
            place: refusal.place,
            ..Sizes::default()
        },
    }
}

fn sizes(mesh: &Mesh) -> Sizes {
    let sides = mesh.polygon.sides.len();
    let (edges, jumps, pairs) = (mesh.edges.len(), mesh.jumps.len(), mesh.pairs.len());
    let header = bytes(1, 4);
    let field = bytes(mesh.nodes.len(), 3);
    let multipliers = bytes(mesh.elements.len(), 2) + bytes(edges + jumps, 4) + bytes(pairs, sides);
    Sizes {
        balance_rows: 2 * mesh.elements.len() as u64,
        side_rows: 4 * edges as u64,
        jump_rows: 4 * jumps as u64,
        strength_rows: (pairs * sides) as u64,
        columns: 3 * mesh.nodes.len() as u64,
        field_bytes: header + field,
        multipliers_bytes: header + multipliers,
        both_bytes: header + field + multipliers,
        ..Sizes::default()
    }
}
