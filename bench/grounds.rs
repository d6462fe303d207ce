//! Meshes that are made to be timed, all of one clay: grids of squares, squares apart with joints between
//! them, and a fan of triangles each of whose boxes meets every other.

use independent::sheet::Lines;

/// The length of a square's side.
const LENGTH: i64 = 10;

/// What every node has as stress: sx, sy and t, dead and live, so that all rows but those of strength hold.
pub const STRESS: [[i64; 2]; 3] = [[-7_654, 3], [-8_765, -2], [1_234, 1]];

pub struct Ground {
    pub sides: i64,
    /// 0, or 1 for clay that is stronger one way.
    pub kind: i64,
    /// How many soils are listed; the elements have the first, or 0 where there is a table.
    pub soils: usize,
    pub table: Lines,
    pub points: Vec<[i64; 2]>,
    /// Corners, and below the sides of edges and jumps, count from 0.
    pub elements: Vec<[usize; 4]>,
    pub edges: Vec<[usize; 2]>,
    pub jumps: Vec<[usize; 4]>,
    /// A node at which an upright edge and a level one end.
    pub corner: usize,
    /// Every outer side has its edge or its jump.
    pub is_covered: bool,
}

/// An empty ground, to be filled.
fn empty(sides: i64) -> Ground {
    Ground {
        sides,
        kind: 0,
        soils: 1,
        table: Lines::new(),
        points: Vec::new(),
        elements: Vec::new(),
        edges: Vec::new(),
        jumps: Vec::new(),
        corner: 0,
        is_covered: true,
    }
}

/// So many nodes to the right and upward, squares between them, an edge on every outer side.
pub fn grid(columns: usize, rows: usize, sides: i64) -> Ground {
    let mut ground = empty(sides);
    let node = |column: usize, row: usize| row * columns + column;
    let at = |k: usize| [k % columns, k / columns].map(|step| step as i64 * LENGTH);
    ground.points = (0..columns * rows).map(at).collect();
    for row in 1..rows {
        for column in 1..columns {
            let corners = [(1, 1), (0, 1), (0, 0), (1, 0)];
            let corner = |(left, down): (usize, usize)| node(column - left, row - down);
            ground.elements.push(corners.map(corner));
        }
    }
    let (right, top) = (columns - 1, rows - 1);
    let mut edge = |from: (usize, usize), to: (usize, usize)| {
        ground.edges.push([node(from.0, from.1), node(to.0, to.1)])
    };
    (0..right).for_each(|k| edge((k, 0), (k + 1, 0)));
    (0..top).for_each(|k| edge((right, k), (right, k + 1)));
    (0..right).rev().for_each(|k| edge((k + 1, top), (k, top)));
    (0..top).rev().for_each(|k| edge((0, k + 1), (0, k)));
    ground.corner = node(right, top);
    ground
}

/// Squares side by side, so many to the right and as many upward, each with nodes of its own: a jump on
/// every side that two share, an edge on every outer one.
pub fn squares_apart(count: usize, sides: i64) -> Ground {
    let mut ground = empty(sides);
    let node = |column: usize, row: usize, k: usize| 4 * (row * count + column) + k;
    for row in 0..count {
        for column in 0..count {
            let corners = [[0, 0], [1, 0], [1, 1], [0, 1]];
            let at = |[right, up]: [usize; 2]| {
                [column + right, row + up].map(|step| step as i64 * LENGTH)
            };
            ground.points.extend(corners.map(at));
            let own = |k: usize| node(column, row, k);
            ground.elements.push([own(0), own(1), own(2), own(3)]);
            ground.side([own(0), own(1)], row == 0, None);
            let right = || [node(column + 1, row, 0), node(column + 1, row, 3)];
            let is_last = column + 1 == count;
            ground.side([own(1), own(2)], is_last, (!is_last).then(right));
            let above = || [node(column, row + 1, 1), node(column, row + 1, 0)];
            let is_top = row + 1 == count;
            ground.side([own(2), own(3)], is_top, (!is_top).then(above));
            ground.side([own(3), own(0)], column == 0, None);
        }
    }
    ground.corner = node(count - 1, count - 1, 2);
    ground
}

/// A fan of triangles around node 1, of `nodes` in all. Each is long enough for its box to meet every other's,
/// and begins with its outer side, which all other far nodes lie on: of the lines that 47 asks for the one that
/// decides comes last, after as many corners as can be.
pub fn fan(nodes: usize, sides: i64) -> Ground {
    let mut ground = empty(sides);
    let far = |k: i64| [4 * LENGTH, k * LENGTH];
    ground.points = vec![[0, 0]];
    ground.points.extend((0..nodes as i64 - 1).map(far));
    ground.elements = (1..nodes - 1).map(|k| [k, k + 1, 0, 0]).collect();
    ground.edges = vec![[0, 1]];
    ground
        .edges
        .extend((1..(nodes - 1).min(60)).map(|k| [k, k + 1]));
    ground.corner = 1;
    ground.is_covered = false;
    ground
}

/// A table of 32 lines in which only the last has elements' heights, and the others are thin layers above it
/// that go from the highest down.
pub fn late_table(below: i64) -> Lines {
    let mut table: Lines = (0..31)
        .rev()
        .map(|k| vec![below + k, below + k + 1, 1])
        .collect();
    table[0][1] = 2_000;
    table.push(vec![-1_000, below, 1]);
    table
}

impl Ground {
    /// An edge on a side that is outer for good, or a jump to the side that faces it.
    fn side(&mut self, side: [usize; 2], is_outer: bool, facing: Option<[usize; 2]>) {
        if is_outer {
            self.edges.push(side);
        }
        if let Some([from, to]) = facing {
            self.jumps.push([side[0], side[1], from, to]);
        }
    }

    /// The step of a side.
    pub fn step(&self, from: usize, to: usize) -> [i64; 2] {
        let (from, to) = (self.points[from], self.points[to]);
        [to[0] - from[0], to[1] - from[1]]
    }

    /// An edge's line: both parts are fixed, at what the field has there. On an upright side that is sx and t,
    /// on a level one sy and -t.
    fn edge_line(&self, &[from, to]: &[usize; 2]) -> Vec<i64> {
        let [sx, sy, t] = STRESS;
        let ([dead, live], sign) = if self.step(from, to)[0] == 0 {
            (sx, 1)
        } else {
            (sy, -1)
        };
        let ends = [from, to].map(|node| node as i64 + 1);
        vec![ends[0], ends[1], 3, dead, sign * t[0], live, sign * t[1]]
    }

    pub fn mesh(&self) -> Lines {
        let named = |nodes: &[usize]| {
            nodes
                .iter()
                .map(|&node| node as i64 + 1)
                .collect::<Vec<_>>()
        };
        let counts = [
            self.points.len(),
            self.elements.len(),
            self.soils,
            self.edges.len(),
        ];
        let mut header: Vec<i64> = counts.iter().map(|&count| count as i64).collect();
        header.extend([self.sides, self.jumps.len() as i64]);
        let mut mesh = vec![header];
        mesh.extend(vec![
            vec![0, 1, 1, 10_000, 0, 0, 0, 0, self.kind, 9_000];
            self.soils
        ]);
        mesh.extend(self.points.iter().map(|point| point.to_vec()));
        let soil = if self.table.is_empty() { 1 } else { 0 };
        mesh.extend(
            self.elements
                .iter()
                .map(|e| [named(e), vec![soil]].concat()),
        );
        mesh.extend(self.edges.iter().map(|edge| self.edge_line(edge)));
        mesh.extend(self.jumps.iter().map(|jump| named(jump)));
        mesh
    }
}
