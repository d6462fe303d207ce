//! The limits of include/pechuvo.h, which says more of each.

/// The most decimals.
pub const MOST_DECIMALS: i64 = 7;
/// The decimals that [`check_run`](crate::check_run) writes.
pub const USUAL_DECIMALS: i64 = 6;
/// The most nodes.
pub const MOST_NODES: usize = 100;
/// The most elements.
pub const MOST_ELEMENTS: usize = 100;
/// The most soils.
pub const MOST_SOILS: usize = 16;
/// The most edges.
pub const MOST_EDGES: usize = 60;
/// The most jumps.
pub const MOST_JUMPS: usize = 60;
/// The most pairs of a node and a soil.
pub const MOST_PAIRS: usize = 100;
/// The most layers of a table.
pub const MOST_LAYERS: usize = 32;
/// The most sides of the polygon.
pub const MOST_SIDES: usize = 108;
/// The most nodes with 108 sides.
pub const MOST_NODES_WITH_108: usize = 40;
/// The most pairs with 108 sides.
pub const MOST_PAIRS_WITH_108: usize = 40;
/// The first line of a table, as a place.
pub const TABLE_LINE: u32 = 1001;
/// The most numbers of a mesh.
pub const MOST_MESH_NUMBERS: usize = 1526;
/// The most numbers of a table.
pub const MOST_TABLE_NUMBERS: usize = 96;
/// The most numbers of a claim.
pub const MOST_CLAIM_NUMBERS: usize = 5124;
/// The most bytes of a mesh file.
pub const MOST_MESH_BYTES: usize = 18_649;
/// The most bytes of a table file.
pub const MOST_TABLE_BYTES: usize = 1184;
/// The most bytes of a claim file.
pub const MOST_CLAIM_BYTES: usize = 61_789;
/// A book with so many commits takes no more.
pub const MOST_COMMITS: u64 = 1_000_000;
