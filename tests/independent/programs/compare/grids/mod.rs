//! Sheets that are accepted, or nearly: rectangular grids in layers, some cells cut into triangles, some
//! with a joint, where the field may jump; else the field depends on height alone. Multipliers are
//! around one corner and over the whole grid.

mod claims;

use crate::random::Random;
use independent::sheet::{Lines, Sheet};
use std::collections::BTreeSet;

/// Friction angles with whole sides: p, q, h.
const FRICTION: [[i64; 3]; 8] = [
    [0, 1, 1],
    [0, 1, 1],
    [0, 7, 7],
    [3, 4, 5],
    [4, 3, 5],
    [5, 12, 13],
    [7, 24, 25],
    [280, 960, 1000],
];

/// A line of the grid, upright or level, whose nodes from one on are there twice.
#[derive(Clone, Copy)]
struct Joint {
    upright: bool,
    /// Which grid line it is, and the first place along it that is doubled; before that is the tip.
    line: usize,
    first: usize,
}

/// A node of the grid; on a joint the second one is beyond it.
#[derive(Clone, Copy)]
struct Spot {
    column: usize,
    row: usize,
    beyond: bool,
}

struct Grid {
    columns: usize,
    rows: usize,
    xs: Vec<i64>,
    ys: Vec<i64>,
    sides: i64,
    soils: Lines,
    layer_soil: Vec<usize>,
    joint: Option<Joint>,
    spots: Vec<Spot>,
    elements: Lines,
    edges: Lines,
    jumps: Lines,
    /// Dead and live parts of sx, and of sy and t at each height.
    sx: [i64; 2],
    sy: Vec<[i64; 2]>,
    t: Vec<[i64; 2]>,
    /// What is added beyond a joint: to sy if it is upright, to sx if it is level.
    leap: [i64; 2],
    /// The borehole table that some elements' soils are left to.
    table: Lines,
}

/// Grid lines in units; with 108 sides in tens, so that multipliers that undo strength rows are small.
fn coordinates(random: &mut Random, cells: usize, sides: i64) -> Vec<i64> {
    let mut at = random.between(0, 2);
    let mut all = vec![at];
    for _ in 0..cells {
        at += random.pick(&[1, 1, 2, 2, 4]);
        all.push(at);
    }
    let unit = match (sides, at) {
        (108, _) => 10,
        (_, 11..) => 1,
        _ => random.pick(&[1, 1, 10, 100]),
    };
    all.iter().map(|step| step * unit).collect()
}

/// A soil, of kind 1 at times; its forces are columns 5 to 8.
fn soil(random: &mut Random, with_kinds: bool) -> Vec<i64> {
    let mut line = random.pick(&FRICTION).to_vec();
    line.push(random.between(0, 10_000));
    line.extend((0..4).map(|_| {
        if random.one_in(2) {
            random.between(-9, 9)
        } else {
            0
        }
    }));
    line.push(i64::from(with_kinds && random.one_in(3)));
    line.push(random.between(0, 10_000));
    line
}

/// Up to four soils; one may have the forces of the one before it, so that a layer can have both.
fn soils(random: &mut Random, sides: i64) -> Lines {
    let with_kinds = sides != 108 && random.one_in(2);
    let mut all = vec![soil(random, with_kinds)];
    for k in 0..random.below(4) {
        all.push(soil(random, with_kinds));
        if random.one_in(2) {
            let forces = all[k][4..8].to_vec();
            all[k + 1][4..8].copy_from_slice(&forces);
        }
    }
    all
}

/// Stresses at each height from the lowest: a layer of depth d adds -d times its force.
fn integrated(random: &mut Random, ys: &[i64], forces: &[[i64; 2]]) -> Vec<[i64; 2]> {
    let mut at = [random.between(-40, 40), random.between(-40, 40)];
    let mut all = vec![at];
    for (k, force) in forces.iter().enumerate() {
        let depth = ys[k + 1] - ys[k];
        at = [at[0] - depth * force[0], at[1] - depth * force[1]];
        all.push(at);
    }
    all
}

/// A cell cut along one of its diagonals; any corner of a triangle may be the one that is repeated.
fn triangles(random: &mut Random, corners: [i64; 4], soil: i64) -> Lines {
    let mut cell = corners;
    cell.rotate_left(random.below(2));
    let [a, b, c, d] = cell;
    let mut triangle = |mut corners: [i64; 3]| {
        corners.rotate_left(random.below(3));
        [&corners[..], &[corners[2], soil]].concat()
    };
    vec![triangle([a, b, c]), triangle([c, d, a])]
}

impl Joint {
    /// On a line of a grid that isn't small; the tip is at the grid's end or inside.
    fn new(random: &mut Random, columns: usize, rows: usize) -> Option<Joint> {
        let upright = random.one_in(2);
        let (lines, length) = if upright {
            (columns, rows)
        } else {
            (rows, columns)
        };
        if lines < 2 || columns * rows > 64 || random.one_in(2) {
            return None;
        }
        let first = if random.one_in(2) {
            0
        } else {
            1 + random.below(length)
        };
        Some(Joint {
            upright,
            line: 1 + random.below(lines - 1),
            first,
        })
    }

    /// Whether a place of the grid has two nodes.
    fn doubles(&self, column: usize, row: usize) -> bool {
        let (across, along) = if self.upright {
            (column, row)
        } else {
            (row, column)
        };
        across == self.line && along >= self.first
    }

    /// Whether a cell lies beyond the joint's line.
    fn has_beyond(&self, column: usize, row: usize) -> bool {
        if self.upright {
            column >= self.line
        } else {
            row >= self.line
        }
    }
}

impl Grid {
    fn new(random: &mut Random) -> Grid {
        let sides = random.pick(&[12, 20, 36, 108]);
        let largest = match (random.one_in(4), sides) {
            (true, 108) => 5,
            (true, _) => 9,
            _ => 3,
        };
        let columns = 1 + random.below(largest);
        let rows = 1 + random.below(largest);
        Grid::of(random, columns, rows, sides)
    }

    fn of(random: &mut Random, columns: usize, rows: usize, sides: i64) -> Grid {
        let xs = coordinates(random, columns, sides);
        let ys = coordinates(random, rows, sides);
        let soils = soils(random, sides);
        let layer_soil: Vec<usize> = (0..rows).map(|_| random.below(soils.len())).collect();
        let forces = |k: usize| -> Vec<[i64; 2]> {
            layer_soil
                .iter()
                .map(|&s| [soils[s][4 + k], soils[s][6 + k]])
                .collect()
        };
        let t = integrated(random, &ys, &forces(0));
        let sy = integrated(random, &ys, &forces(1));
        let any_part = |random: &mut Random| [random.between(-40, 40), random.between(-40, 40)];
        let joint = Joint::new(random, columns, rows);
        let whole = joint.is_some_and(|joint| joint.first == 0);
        let mut grid = Grid {
            columns,
            rows,
            xs,
            ys,
            sides,
            soils,
            layer_soil,
            joint,
            spots: Vec::new(),
            elements: Lines::new(),
            edges: Lines::new(),
            jumps: Lines::new(),
            sx: any_part(random),
            sy,
            t,
            leap: if whole { any_part(random) } else { [0, 0] },
            table: Lines::new(),
        };
        grid.spots = grid.all_spots();
        grid.elements = grid.cells(random);
        grid.edges = grid.all_edges(random);
        grid.jumps = grid.all_jumps(random);
        if random.one_in(3) {
            grid.table = grid.layers(random);
        }
        grid
    }

    /// A table of the grid's layers in any order, at times with lines beyond the lowest and highest node.
    fn layers(&self, random: &mut Random) -> Lines {
        let mut table: Lines = (0..self.rows)
            .map(|row| {
                vec![
                    self.ys[row],
                    self.ys[row + 1],
                    self.layer_soil[row] as i64 + 1,
                ]
            })
            .collect();
        table[0][0] -= random.between(0, 9);
        table[self.rows - 1][1] += random.between(1, 9);
        for _ in 0..random.below(3) {
            let (low, high) = random.pick(&[(-1000, self.ys[0]), (self.ys[self.rows] + 1, 2000)]);
            table.push(vec![low, high, 1 + random.below(self.soils.len()) as i64]);
        }
        for k in 0..table.len() {
            let other = random.below(table.len());
            table.swap(k, other);
        }
        table
    }

    /// The nodes row by row, then the second ones along the joint.
    fn all_spots(&self) -> Vec<Spot> {
        let places =
            || (0..=self.rows).flat_map(|row| (0..=self.columns).map(move |column| (column, row)));
        let side = |column: usize, row: usize| {
            let on_line = |joint: &Joint| (if joint.upright { column } else { row }) == joint.line;
            self.joint
                .is_some_and(|joint| joint.has_beyond(column, row) && !on_line(&joint))
        };
        let first = places().map(|(column, row)| Spot {
            column,
            row,
            beyond: side(column, row),
        });
        let doubled = |&(column, row): &(usize, usize)| {
            self.joint.is_some_and(|joint| joint.doubles(column, row))
        };
        let second = places().filter(doubled).map(|(column, row)| Spot {
            column,
            row,
            beyond: true,
        });
        first.chain(second).collect()
    }

    /// The node at a corner of a cell, which lies `right` and `up` of its lower left one.
    fn corner(&self, cell: (usize, usize), right: usize, up: usize) -> i64 {
        let (column, row) = (cell.0 + right, cell.1 + up);
        let beyond = self
            .joint
            .is_some_and(|joint| joint.doubles(column, row) && joint.has_beyond(cell.0, cell.1));
        let there = |spot: &Spot| (spot.column, spot.row) == (column, row);
        let found = if beyond {
            self.spots.iter().rposition(there)
        } else {
            self.spots.iter().position(there)
        };
        found.expect("a node at each place") as i64 + 1
    }

    /// sx, sy and t at a spot, each dead and live.
    fn stress(&self, spot: Spot) -> [[i64; 2]; 3] {
        let upright = self.joint.is_some_and(|joint| joint.upright);
        let leap = |here: bool| {
            if spot.beyond && here {
                self.leap
            } else {
                [0, 0]
            }
        };
        let sum = |a: [i64; 2], b: [i64; 2]| [a[0] + b[0], a[1] + b[1]];
        [
            sum(self.sx, leap(!upright)),
            sum(self.sy[spot.row], leap(upright)),
            self.t[spot.row],
        ]
    }

    /// A soil with the forces of this one.
    fn twin(&self, random: &mut Random, soil: usize) -> usize {
        let same = |k: &usize| self.soils[*k][4..8] == self.soils[soil][4..8];
        let twins: Vec<usize> = (0..self.soils.len()).filter(same).collect();
        random.pick(&twins)
    }

    /// Node and soil, in the order of their strength rows.
    fn pairs(&self) -> Vec<(i64, i64)> {
        let of = |element: &Vec<i64>| [0, 1, 2, 3].map(|k| (element[k], element[4]));
        let all: BTreeSet<_> = self.elements.iter().flat_map(of).collect();
        all.into_iter().collect()
    }

    /// The elements, cell by cell; where there are triangles, a cell may be cut into two.
    fn cells(&self, random: &mut Random) -> Lines {
        let with_triangles = random.one_in(2);
        let with_twins = random.one_in(2);
        let mut all = Lines::new();
        for row in 0..self.rows {
            for column in 0..self.columns {
                let corners = [(0, 0), (1, 0), (1, 1), (0, 1)]
                    .map(|(right, up)| self.corner((column, row), right, up));
                let soil = if with_twins {
                    self.twin(random, self.layer_soil[row])
                } else {
                    self.layer_soil[row]
                };
                let soil = soil as i64 + 1;
                if with_triangles && random.one_in(2) {
                    all.extend(triangles(random, corners, soil));
                } else {
                    all.push([&corners[..], &[soil]].concat());
                }
            }
        }
        all
    }

    /// An edge on a side of a cell from one of its corners to another, its loads the field's own: along
    /// x the normal is sy and the shear -t; along y the normal is sx, and the shear t where it is the
    /// same at both ends.
    fn edge(&self, cell: (usize, usize), from: [usize; 2], to: [usize; 2], fixed: i64) -> Vec<i64> {
        let [from, to] = [from, to].map(|[right, up]| self.corner(cell, right, up));
        let [start, end] = [from, to].map(|node| self.spots[node as usize - 1]);
        let [sx, sy, t] = self.stress(start);
        if start.row == end.row {
            vec![from, to, fixed, sy[0], -t[0], sy[1], -t[1]]
        } else {
            let fixed = if t == self.t[end.row] { fixed } else { 1 };
            vec![from, to, fixed, sx[0], t[0], sx[1], t[1]]
        }
    }

    /// Every outer side but the joint's, counterclockwise; the first is the right side below the last
    /// corner.
    fn all_edges(&self, random: &mut Random) -> Lines {
        let all_fixed = random.one_in(2);
        let mut fixed = || if all_fixed { 3 } else { random.between(1, 3) };
        let (last_column, last_row) = (self.columns - 1, self.rows - 1);
        let mut edges = Vec::new();
        for row in (0..self.rows).rev() {
            edges.push(self.edge((last_column, row), [1, 0], [1, 1], fixed()));
        }
        for column in (0..self.columns).rev() {
            edges.push(self.edge((column, last_row), [1, 1], [0, 1], fixed()));
        }
        for row in 0..self.rows {
            edges.push(self.edge((0, row), [0, 1], [0, 0], fixed()));
        }
        for column in 0..self.columns {
            edges.push(self.edge((column, 0), [0, 0], [1, 0], fixed()));
        }
        edges
    }

    /// The jumps along the joint, from either side.
    fn all_jumps(&self, random: &mut Random) -> Lines {
        let Some(joint) = self.joint else {
            return Lines::new();
        };
        let length = if joint.upright {
            self.rows
        } else {
            self.columns
        };
        let mut jumps = Lines::new();
        for k in joint.first.saturating_sub(1)..length {
            let [from, to, facing_from, facing_to] = if joint.upright {
                let (near, far) = ((joint.line - 1, k), (joint.line, k));
                [(near, 1, 0), (near, 1, 1), (far, 0, 0), (far, 0, 1)]
            } else {
                let (near, far) = ((k, joint.line - 1), (k, joint.line));
                [(near, 1, 1), (near, 0, 1), (far, 1, 0), (far, 0, 0)]
            }
            .map(|(cell, right, up)| self.corner(cell, right, up));
            jumps.push(if random.one_in(2) {
                vec![from, to, facing_from, facing_to]
            } else {
                vec![facing_to, facing_from, to, from]
            });
        }
        jumps
    }

    fn mesh(&self) -> Lines {
        let counts = [
            self.spots.len(),
            self.elements.len(),
            self.soils.len(),
            self.edges.len(),
            self.sides as usize,
            self.jumps.len(),
        ];
        let mut mesh = vec![counts.iter().map(|&count| count as i64).collect::<Vec<_>>()];
        mesh.extend(self.soils.iter().cloned());
        mesh.extend(
            self.spots
                .iter()
                .map(|spot| vec![self.xs[spot.column], self.ys[spot.row]]),
        );
        mesh.extend(
            self.elements
                .iter()
                .map(|element| self.left_to_table(element)),
        );
        mesh.extend(self.edges.iter().cloned());
        mesh.extend(self.jumps.iter().cloned());
        mesh
    }

    /// Where there is a table, most elements with their layer's soil have soil 0.
    fn left_to_table(&self, element: &[i64]) -> Vec<i64> {
        let height = |node: &i64| self.ys[self.spots[*node as usize - 1].row];
        let lowest = element[..4].iter().map(height).min();
        let row = self
            .ys
            .iter()
            .position(|&y| Some(y) == lowest)
            .expect("a row");
        let mut line = element.to_vec();
        let is_layers = line[4] == self.layer_soil[row] as i64 + 1;
        if !self.table.is_empty() && is_layers && element[0] % 4 != 0 {
            line[4] = 0;
        }
        line
    }
}

/// One sheet; most of them are accepted.
pub fn sheet(random: &mut Random) -> Sheet {
    let (mesh, table, mut claims) = family(random, 1);
    let claim = claims.pop().expect("a claim");
    Sheet { mesh, table, claim }
}

/// An accepted sheet of a grid of this size, with both parts.
pub fn accepted(random: &mut Random, columns: usize, rows: usize, sides: i64) -> Sheet {
    loop {
        let grid = Grid::of(random, columns, rows, sides);
        let (mesh, claim) = (grid.mesh(), grid.claim(random));
        let table = grid.table;
        let sheet = Sheet { mesh, table, claim };
        let files = sheet.files();
        let verdict = independent::judge_files(&files.mesh, &files.table, &files.claim);
        if verdict.is_ok_and(|accepted| accepted.open_rows.is_some()) {
            return sheet;
        }
    }
}

/// A mesh, its table if it has one, and claims for it.
pub fn family(random: &mut Random, claims: usize) -> (Lines, Lines, Vec<Lines>) {
    let grid = Grid::new(random);
    let claims = (0..claims).map(|_| grid.claim(random)).collect();
    (grid.mesh(), grid.table, claims)
}
