//! Claims for a grid: its field, and multipliers around one corner and over the whole grid.

use super::{Grid, Spot};
use crate::random::Random;
use independent::sheet::Lines;

/// The radius of a polygon, and the height of its first corner above (r, 0).
fn radius_and_rise(sides: i64) -> (i64, i64) {
    match sides {
        12 => (5, 3),
        20 => (25, 7),
        36 => (65, 16),
        _ => (1105, 47),
    }
}

fn common_divisor(a: i64, b: i64) -> i64 {
    if b == 0 {
        a.abs()
    } else {
        common_divisor(b, a % b)
    }
}

fn common_multiple(a: i64, b: i64) -> i64 {
    a / common_divisor(a, b) * b
}

/// The least number above 0 that makes a whole number of `number` over `by`.
fn whole_from(number: i64, by: i64) -> i64 {
    by / common_divisor(by, number)
}

impl Grid {
    fn field(&self, n: i64, l: i64) -> Lines {
        let at = |part: [i64; 2]| n * part[0] + l * part[1];
        let line = |&spot: &Spot| self.stress(spot).map(at).to_vec();
        self.spots.iter().map(line).collect()
    }

    /// Zero multipliers, a line for each element, edge, jump and pair.
    fn zero_multipliers(&self) -> Lines {
        let mut lines = vec![vec![0; 2]; self.elements.len()];
        lines.extend(vec![vec![0; 4]; self.edges.len() + self.jumps.len()]);
        lines.extend(vec![vec![0; self.sides as usize]; self.pairs().len()]);
        lines
    }

    /// Two strength rows of a soil that together have no t, and what they have at sx and sy: the two
    /// sides next to (r, 0) or to (-r, 0); for kind 1 the planes next to (r, 0) and (-r, 0).
    fn level_rows(&self, random: &mut Random, soil: &[i64]) -> ([usize; 2], i64, i64) {
        let half = self.sides as usize / 2;
        let (r, rise) = radius_and_rise(self.sides);
        let (p, q, h, sign) = (soil[0], soil[1], soil[2], random.pick(&[1, -1]));
        if soil[8] == 1 {
            let run = (r * r - rise * rise).isqrt();
            let rows = if sign == 1 {
                [3, 2 * half - 2]
            } else {
                [2, 2 * half - 1]
            };
            let (across, down) = (p * run + sign * q * rise, p * rise - sign * q * run);
            return (rows, 2 * run * across, 2 * rise * down);
        }
        let rows = if sign == 1 {
            [0, 2 * half - 1]
        } else {
            [half - 1, half]
        };
        let (difference, friction) = (2 * r * h * rise * sign, 2 * p * r * rise);
        (rows, friction + difference, friction - difference)
    }

    /// Strength multipliers at the upper right corner; the right side's and the top's normal rows undo
    /// them.
    fn add_corner(&self, random: &mut Random, lines: &mut Lines) {
        let corner = self.corner((self.columns - 1, self.rows - 1), 1, 1);
        let pairs = self.pairs();
        let is_there = |&(node, _): &(i64, i64)| node == corner;
        let pair = pairs.iter().rposition(is_there).expect("a pair");
        let soil = &self.soils[pairs[pair].1 as usize - 1];
        let (rows, across, down) = self.level_rows(random, soil);
        let right = self.ys[self.rows] - self.ys[self.rows - 1];
        let top = self.xs[self.columns] - self.xs[self.columns - 1];
        let (by_right, by_top) = (
            whole_from(across, right * right),
            whole_from(down, top * top),
        );
        let y = common_multiple(by_right, by_top) * random.between(1, 2);
        let (elements, first) = (self.elements.len(), lines.len() - pairs.len());
        rows.iter().for_each(|&row| lines[first + pair][row] += y);
        lines[elements][2] -= y * across / (right * right);
        lines[elements + self.rows][0] -= y * down / (top * top);
    }

    /// A rigid step (a, b) of the whole grid; every outer side has an edge with both parts fixed, or a
    /// jump, whose rows undo the step on both of its sides.
    fn add_rigid(&self, random: &mut Random, lines: &mut Lines) {
        let (a, b) = (400 * random.between(-9, 9), 400 * random.between(-9, 9));
        let elements = self.elements.len();
        let at = |node: i64| {
            let spot = self.spots[node as usize - 1];
            (self.xs[spot.column], self.ys[spot.row])
        };
        lines[..elements].fill(vec![a, b]);
        let outer = self.edges.iter().chain(&self.jumps);
        for (line, side) in lines[elements..].iter_mut().zip(outer) {
            let (from, to) = (at(side[0]), at(side[1]));
            let (u, w) = (to.0 - from.0, to.1 - from.1);
            let size = u * u + w * w;
            for end in [0, 2] {
                line[end] -= (a * w - b * u) / size;
                line[end + 1] -= (a * u + b * w) / size;
            }
        }
    }

    pub(super) fn claim(&self, random: &mut Random) -> Lines {
        let parts = random.pick(&[[1, 0], [0, 1], [1, 1], [1, 1]]);
        let mut claim = vec![vec![parts[0], parts[1], 0, 0]];
        if parts[0] == 1 {
            let n = random.between(1, 50) * random.pick(&[1, 1, 1, 40, 2000]);
            let l = n * random.between(-9, 9) + random.between(-50, 50);
            claim[0][2..].copy_from_slice(&[n, l]);
            claim.extend(self.field(n, l));
        }
        if parts[1] == 1 {
            let mut lines = self.zero_multipliers();
            self.add_corner(random, &mut lines);
            if self.edges.iter().all(|edge| edge[2] == 3) {
                self.add_rigid(random, &mut lines);
            }
            claim.extend(lines);
        }
        claim
    }
}
