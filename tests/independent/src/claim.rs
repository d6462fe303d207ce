//! The claim's lines: refusals 11, 12 and 13.

use crate::lines::Lines;
use crate::mesh::Mesh;
use crate::polygon::Polygon;
use crate::{refuse, Refusal};

pub struct Field {
    pub n: i64,
    pub l: i64,
    /// sx, sy and t of each node.
    pub stresses: Vec<[i64; 3]>,
}

pub struct Multipliers {
    pub balance: Vec<[i64; 2]>,
    /// Normal and shear at from, then at to.
    pub sides: Vec<[i64; 4]>,
    /// In an edge's order.
    pub jumps: Vec<[i64; 4]>,
    /// One for each polygon side of each pair of node and soil, pair by pair.
    pub strength: Vec<i64>,
}

pub struct Claim {
    pub field: Option<Field>,
    pub multipliers: Option<Multipliers>,
}

impl Claim {
    /// A claim with nothing after it.
    pub fn read(lines: &mut impl Lines, mesh: &Mesh) -> Result<Claim, Refusal> {
        let mut reader = Reader { lines, place: 0 };
        let claim = reader.claim(mesh)?;
        if !reader.lines.at_end() {
            return refuse(11, reader.place + 1);
        }
        Ok(claim)
    }

    /// The claim in front; whatever comes after it is left.
    pub fn read_front(lines: &mut impl Lines, mesh: &Mesh) -> Result<Claim, Refusal> {
        Reader { lines, place: 0 }.claim(mesh)
    }
}
/// Reads lines and knows which one it has read.
struct Reader<'a, L: Lines> {
    lines: &'a mut L,
    place: usize,
}

impl<L: Lines> Reader<'_, L> {
    fn claim(&mut self, mesh: &Mesh) -> Result<Claim, Refusal> {
        let (has_field, has_multipliers, n, l) = self.header()?;
        let mut field = None;
        if has_field {
            let stresses = self.group(mesh.nodes.len(), 1_000_000_000)?;
            field = Some(Field { n, l, stresses });
        }
        let mut multipliers = None;
        if has_multipliers {
            let balance = self.group(mesh.elements.len(), 100_000)?;
            let sides = self.group(mesh.edges.len(), 100_000)?;
            let jumps = self.group(mesh.jumps.len(), 100_000)?;
            let strength = self.strength(mesh.pairs.len(), &mesh.polygon)?;
            multipliers = Some(Multipliers {
                balance,
                sides,
                jumps,
                strength,
            });
        }
        Ok(Claim { field, multipliers })
    }

    fn line(&mut self, out: &mut [i64], low: i64, high: i64) -> Result<(), Refusal> {
        self.place += 1;
        if !self.lines.next(out) {
            return refuse(11, self.place);
        }
        if !out.iter().all(|&number| low <= number && number <= high) {
            return refuse(12, self.place);
        }
        Ok(())
    }

    fn header(&mut self) -> Result<(bool, bool, i64, i64), Refusal> {
        let mut header = [0; 4];
        self.line(&mut header, i64::MIN, i64::MAX)?;
        let [field, multipliers, n, l] = header;
        let limits = (0..=1).contains(&field)
            && (0..=1).contains(&multipliers)
            && (0..=100_000).contains(&n)
            && (-100_000_000..=100_000_000).contains(&l);
        if !limits {
            return refuse(12, 1);
        }
        let (field, multipliers) = (field == 1, multipliers == 1);
        let absent = !field && !multipliers;
        if absent || field && n == 0 || !field && (n != 0 || l != 0) {
            return refuse(13, 1);
        }
        Ok((field, multipliers, n, l))
    }

    fn group<const K: usize>(
        &mut self,
        count: usize,
        bound: i64,
    ) -> Result<Vec<[i64; K]>, Refusal> {
        let mut all = vec![[0; K]; count];
        for numbers in &mut all {
            self.line(numbers, -bound, bound)?;
        }
        Ok(all)
    }

    fn strength(&mut self, pairs: usize, polygon: &Polygon) -> Result<Vec<i64>, Refusal> {
        let sides = polygon.sides.len();
        let mut all = vec![0; pairs * sides];
        for numbers in all.chunks_exact_mut(sides) {
            self.line(numbers, 0, polygon.most_multiplier)?;
        }
        Ok(all)
    }
}
