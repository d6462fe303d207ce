//! The mesh: its lines and their refusals 1 to 4; `table` and `shape` have the refusals after them.

use crate::lines::Lines;
use crate::polygon::Polygon;
use crate::strength_rows::{of_soil, Row};
use crate::table::{self, Heights};
use crate::{refuse, shape, Refusal};

pub struct Soil {
    pub p: i64,
    pub q: i64,
    pub h: i64,
    /// C, or ch along the beds where the ground is stronger one way.
    pub cohesion: i64,
    pub dead: [i64; 2],
    pub live: [i64; 2],
    /// Kind 1: stronger one way, with cv across the beds (document 02, N14).
    pub is_directed: bool,
    pub cohesion_across: i64,
}

/// An element as its line has it; a soil 0 is left to the table (document 02, N8).
struct ElementLine {
    corners: [usize; 4],
    soil: Option<usize>,
}

impl ElementLine {
    /// The height is the sum of the four corner y's over four, so the sum in quarters.
    fn filled(&self, nodes: &[[i64; 2]], heights: Option<&Heights>) -> Element {
        let height = self.corners.iter().map(|&corner| nodes[corner][1]).sum();
        let from_table = || heights.expect("4 without a table").soil(height);
        Element {
            corners: self.corners,
            soil: self.soil.unwrap_or_else(from_table),
        }
    }
}

/// Corners and soil count from 0 here.
pub struct Element {
    pub corners: [usize; 4],
    pub soil: usize,
}

impl Element {
    /// The corners without the repeat: an element whose third and fourth nodes are the same is a
    /// triangle (document 02, N1).
    pub fn outline(&self) -> &[usize] {
        if self.corners[2] == self.corners[3] {
            &self.corners[..3]
        } else {
            &self.corners
        }
    }

    /// Each corner with the one before it and the one after it, around the outline.
    pub fn turns(&self) -> impl Iterator<Item = [usize; 3]> + '_ {
        let outline = self.outline();
        let count = outline.len();
        (0..count).map(move |i| [(i + count - 1) % count, i, (i + 1) % count].map(|k| outline[k]))
    }

    /// The directed sides, from corner to corner; the repeat makes none.
    pub fn sides(&self) -> impl Iterator<Item = (usize, usize)> + '_ {
        self.turns().map(|[_, from, to]| (from, to))
    }
}

/// Loads are normal, then shear; nodes count from 0 here.
pub struct Edge {
    pub from: usize,
    pub to: usize,
    pub fixed: [bool; 2],
    pub dead: [i64; 2],
    pub live: [i64; 2],
}

/// A side where stress may jump, and the nodes that face its ends (document 02, N6).
pub struct Jump {
    pub from: usize,
    pub to: usize,
    pub facing: [usize; 2],
}

/// A node and a soil of an element around it (document 02, N2).
#[derive(Clone, Copy)]
pub struct Pair {
    pub node: usize,
    pub soil: usize,
}

pub struct Mesh {
    pub polygon: Polygon,
    pub soils: Vec<Soil>,
    /// The strength rows of each soil.
    pub strength: Vec<Vec<Row>>,
    pub nodes: Vec<[i64; 2]>,
    pub elements: Vec<Element>,
    pub edges: Vec<Edge>,
    pub jumps: Vec<Jump>,
    /// Each node with each soil of the elements around it, in the order of their strength rows.
    pub pairs: Vec<Pair>,
}

pub fn within(number: i64, low: i64, high: i64) -> bool {
    low <= number && number <= high
}

fn all_within(numbers: &[i64], bound: i64) -> bool {
    numbers.iter().all(|&number| within(number, -bound, bound))
}

/// The index of a thing that is numbered from 1.
pub fn named(number: i64, count: usize) -> Option<usize> {
    if within(number, 1, count as i64) {
        Some(number as usize - 1)
    } else {
        None
    }
}

impl Mesh {
    pub fn read(mut lines: impl Lines, mut table: impl Lines) -> Result<Mesh, Refusal> {
        let mut reader = Reader {
            lines: &mut lines,
            place: 0,
        };
        let header = reader.line::<6>()?;
        let Some(polygon) = header_polygon(&header) else {
            return reader.refuse(2);
        };
        let [nodes, elements, soils, edges, _, jumps] = header.map(|count| count as usize);
        let has_table = !table.at_end();
        let with_kinds = header[4] != 108;
        let soils = reader.group(soils, |r| r.soil(with_kinds))?;
        let nodes = reader.group(nodes, Reader::node)?;
        let elements =
            reader.group(elements, |r| r.element(nodes.len(), soils.len(), has_table))?;
        let edges = reader.group(edges, |r| r.edge(nodes.len()))?;
        let jumps = reader.group(jumps, |r| r.jump(nodes.len()))?;
        if !reader.lines.at_end() {
            reader.place += 1;
            return reader.refuse(1);
        }
        let heights = table::read(&mut table, soils.len(), &nodes)?;
        let filled = |line: &ElementLine| line.filled(&nodes, heights.as_ref());
        let mut mesh = Mesh {
            strength: soils.iter().map(|soil| of_soil(soil, &polygon)).collect(),
            polygon,
            soils,
            elements: elements.iter().map(filled).collect(),
            nodes,
            edges,
            jumps,
            pairs: Vec::new(),
        };
        mesh.pairs = shape::check(&mesh)?;
        Ok(mesh)
    }

    /// No carried load is told where a soil of kind 1 is listed, used or not.
    pub fn tells_carried(&self) -> bool {
        !self.soils.iter().any(|soil| soil.is_directed)
    }

    /// The line of the first edge.
    pub fn edge_line(&self) -> usize {
        2 + self.soils.len() + self.nodes.len() + self.elements.len()
    }

    /// The line of the first jump.
    pub fn jump_line(&self) -> usize {
        self.edge_line() + self.edges.len()
    }

    /// The number of the first side row, less one.
    pub fn rows_before_sides(&self) -> usize {
        2 * self.elements.len()
    }

    /// The number of the first jump row, less one.
    pub fn rows_before_jumps(&self) -> usize {
        self.rows_before_sides() + 4 * self.edges.len()
    }

    /// The step (u, w) from one node to another.
    pub fn step(&self, from: usize, to: usize) -> (i64, i64) {
        let (from, to) = (self.nodes[from], self.nodes[to]);
        (to[0] - from[0], to[1] - from[1])
    }
}

fn header_polygon(header: &[i64; 6]) -> Option<Polygon> {
    let [nodes, elements, soils, edges, sides, jumps] = *header;
    let counts = within(elements, 1, 100)
        && within(soils, 1, 16)
        && within(edges, 0, 60)
        && within(jumps, 0, 60);
    let polygon = Polygon::of(sides)?;
    (counts && within(nodes, 4, polygon.most_nodes as i64)).then_some(polygon)
}

/// Reads lines and knows which one it has read.
pub struct Reader<'a, L: Lines> {
    pub lines: &'a mut L,
    pub place: usize,
}

impl<L: Lines> Reader<'_, L> {
    pub fn refuse<T>(&self, number: u32) -> Result<T, Refusal> {
        refuse(number, self.place)
    }

    pub fn line<const K: usize>(&mut self) -> Result<[i64; K], Refusal> {
        self.place += 1;
        let mut numbers = [0; K];
        if self.lines.next(&mut numbers) {
            Ok(numbers)
        } else {
            self.refuse(1)
        }
    }

    fn group<T>(
        &mut self,
        count: usize,
        mut one: impl FnMut(&mut Self) -> Result<T, Refusal>,
    ) -> Result<Vec<T>, Refusal> {
        (0..count).map(|_| one(self)).collect()
    }

    /// A soil; kind 1 only where the polygon has it.
    fn soil(&mut self, with_kinds: bool) -> Result<Soil, Refusal> {
        let line = self.line()?;
        let [p, q, h, cohesion, dead_x, dead_y, live_x, live_y, kind, cohesion_across] = line;
        let limits = within(p, 0, 1000)
            && within(q, 1, 1000)
            && within(h, 1, 1000)
            && within(cohesion, 0, 10_000)
            && within(kind, 0, i64::from(with_kinds))
            && within(cohesion_across, 0, 10_000)
            && all_within(&[dead_x, dead_y, live_x, live_y], 1000);
        if !limits {
            return self.refuse(2);
        }
        if p * p + q * q != h * h {
            return self.refuse(3);
        }
        Ok(Soil {
            p,
            q,
            h,
            cohesion,
            dead: [dead_x, dead_y],
            live: [live_x, live_y],
            is_directed: kind == 1,
            cohesion_across,
        })
    }

    fn node(&mut self) -> Result<[i64; 2], Refusal> {
        let [x, y] = self.line()?;
        if within(x, 0, 1000) && within(y, 0, 1000) {
            Ok([x, y])
        } else {
            self.refuse(2)
        }
    }

    fn element(
        &mut self,
        nodes: usize,
        soils: usize,
        has_table: bool,
    ) -> Result<ElementLine, Refusal> {
        let [a, b, c, d, soil] = self.line()?;
        let corners = [a, b, c, d].map(|corner| named(corner, nodes));
        let [Some(a), Some(b), Some(c), Some(d)] = corners else {
            return self.refuse(4);
        };
        let left_to_table = has_table && soil == 0;
        let soil = named(soil, soils);
        if soil.is_none() && !left_to_table {
            return self.refuse(4);
        }
        Ok(ElementLine {
            corners: [a, b, c, d],
            soil,
        })
    }

    fn edge(&mut self, nodes: usize) -> Result<Edge, Refusal> {
        let [from, to, fixed, dead_normal, dead_shear, live_normal, live_shear] = self.line()?;
        let loads = [dead_normal, dead_shear, live_normal, live_shear];
        if !within(fixed, 1, 3) || !all_within(&loads, 10_000) {
            return self.refuse(2);
        }
        let (Some(from), Some(to)) = (named(from, nodes), named(to, nodes)) else {
            return self.refuse(4);
        };
        Ok(Edge {
            from,
            to,
            fixed: [fixed != 2, fixed != 1],
            dead: [dead_normal, dead_shear],
            live: [live_normal, live_shear],
        })
    }

    fn jump(&mut self, nodes: usize) -> Result<Jump, Refusal> {
        let line: [i64; 4] = self.line()?;
        let [Some(from), Some(to), Some(facing_from), Some(facing_to)] =
            line.map(|node| named(node, nodes))
        else {
            return self.refuse(4);
        };
        Ok(Jump {
            from,
            to,
            facing: [facing_from, facing_to],
        })
    }
}
