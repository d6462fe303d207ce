//! The shape of a mesh whose lines have passed: refusals 5, 6, 7, 47, 8, 44 and 42, each over
//! the whole mesh.

use crate::mesh::{Edge, Element, Jump, Mesh, Pair};
use crate::{overlap, refuse, Refusal};

const MOST_SOILS: usize = 16;

/// The pairs of node and soil, where nothing is refused.
pub fn check(mesh: &Mesh) -> Result<Vec<Pair>, Refusal> {
    check_turns(mesh)?;
    let sides = directed_sides(&mesh.elements)?;
    let around = soils_around(mesh)?;
    overlap::check(mesh)?;
    let used = check_edges(mesh, &sides)?;
    check_jumps(mesh, &sides, used)?;
    pairs_of(&around, mesh.polygon.most_nodes)
}

/// A set of directed sides: bit `to` of entry `from`.
struct Sides([u128; 100]);

impl Sides {
    fn none() -> Sides {
        Sides([0; 100])
    }

    fn has(&self, from: usize, to: usize) -> bool {
        self.0[from] >> to & 1 == 1
    }

    /// Adds a side; false where it was there.
    fn add(&mut self, from: usize, to: usize) -> bool {
        let new = !self.has(from, to);
        self.0[from] |= 1 << to;
        new
    }

    /// A side whose reverse is no element's.
    fn has_outer(&self, from: usize, to: usize) -> bool {
        self.has(from, to) && !self.has(to, from)
    }
}

fn is_left_turn([before, here, after]: [[i64; 2]; 3]) -> bool {
    let into = [here[0] - before[0], here[1] - before[1]];
    let out = [after[0] - here[0], after[1] - here[1]];
    into[0] * out[1] > into[1] * out[0]
}

/// Refusal 5: each corner is a strict left turn, of three for a triangle.
fn check_turns(mesh: &Mesh) -> Result<(), Refusal> {
    let turns_left = |element: &Element| {
        let at = |turn: [usize; 3]| turn.map(|corner| mesh.nodes[corner]);
        element.turns().all(|turn| is_left_turn(at(turn)))
    };
    match mesh.elements.iter().position(|e| !turns_left(e)) {
        Some(element) => refuse(5, element + 1),
        None => Ok(()),
    }
}

/// Refusal 6, and the sides of all elements.
fn directed_sides(elements: &[Element]) -> Result<Sides, Refusal> {
    let mut all = Sides::none();
    for (e, element) in elements.iter().enumerate() {
        if !element.sides().all(|(from, to)| all.add(from, to)) {
            return refuse(6, e + 1);
        }
    }
    Ok(all)
}

/// Refusal 7, and the soils around each node: bit `soil` of the node's entry.
fn soils_around(mesh: &Mesh) -> Result<Vec<u16>, Refusal> {
    let mut around = vec![0; mesh.nodes.len()];
    for element in &mesh.elements {
        for corner in element.corners {
            around[corner] |= 1 << element.soil;
        }
    }
    match around.iter().position(|&soils| soils == 0) {
        Some(node) => refuse(7, node + 1),
        None => Ok(around),
    }
}

/// Refusal 8: an edge is an outer side, as directed, and is there once. The sides that edges use.
fn check_edges(mesh: &Mesh, sides: &Sides) -> Result<Sides, Refusal> {
    let mut used = Sides::none();
    let mut is_good =
        |&Edge { from, to, .. }: &Edge| sides.has_outer(from, to) && used.add(from, to);
    match mesh.edges.iter().position(|edge| !is_good(edge)) {
        Some(edge) => refuse(8, mesh.edge_line() + edge),
        None => Ok(used),
    }
}

/// Refusal 44: both sides of a jump are outer ones, as directed, at one place, and used by no edge
/// or earlier jump.
fn check_jumps(mesh: &Mesh, sides: &Sides, mut used: Sides) -> Result<(), Refusal> {
    let mut is_good = |jump: &Jump| {
        let [facing_from, facing_to] = jump.facing;
        let mut is_free = |from, to| sides.has_outer(from, to) && used.add(from, to);
        is_free(jump.from, jump.to)
            && is_free(facing_to, facing_from)
            && mesh.nodes[jump.from] == mesh.nodes[facing_from]
            && mesh.nodes[jump.to] == mesh.nodes[facing_to]
    };
    match mesh.jumps.iter().position(|jump| !is_good(jump)) {
        Some(jump) => refuse(44, mesh.jump_line() + jump),
        None => Ok(()),
    }
}

/// Refusal 42, and the pairs: nodes ascending, and for each its soils ascending.
fn pairs_of(around: &[u16], most: usize) -> Result<Vec<Pair>, Refusal> {
    let mut pairs = Vec::new();
    for (node, soils) in around.iter().enumerate() {
        let has = |soil: &usize| soils >> soil & 1 == 1;
        pairs.extend((0..MOST_SOILS).filter(has).map(|soil| Pair { node, soil }));
        if pairs.len() > most {
            return refuse(42, node + 1);
        }
    }
    Ok(pairs)
}
