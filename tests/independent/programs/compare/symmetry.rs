//! Exact changes of a sheet: its things in another order, its elements from another corner, the mesh moved or mirrored,
//! its parts multiplied. What an accepted sheet's report says stays as it was.

use crate::random::Random;
use independent::mesh::Mesh;
use independent::sheet::{Lines, Sheet};

/// The most of a field's stresses, of n, of l, of other multipliers, and of strength multipliers.
const MOST_STRESS: i64 = 1_000_000_000;
const MOST_N: i64 = 100_000;
const MOST_L: i64 = 100_000_000;
const MOST_MULTIPLIER: i64 = 100_000;

/// A sheet cut into its groups of lines; a part that the claim lacks has none.
struct Groups {
    header: Vec<i64>,
    soils: Lines,
    nodes: Lines,
    elements: Lines,
    edges: Lines,
    jumps: Lines,
    table: Lines,
    claim_header: Vec<i64>,
    field: Lines,
    balance: Lines,
    edge_multipliers: Lines,
    jump_multipliers: Lines,
    strength: Lines,
    /// Node and soil of each line of strength multipliers, from 1.
    pairs: Vec<[i64; 2]>,
}

/// The next lines of a file.
fn take(lines: &mut impl Iterator<Item = Vec<i64>>, count: usize) -> Lines {
    lines.take(count).collect()
}

impl Groups {
    /// None where a mesh is refused or a claim has another form.
    fn of(sheet: &Sheet) -> Option<Groups> {
        let files = sheet.files();
        let mesh = Mesh::read(&files.mesh[..], &files.table[..]).ok()?;
        let verdict = independent::judge_files(&files.mesh, &files.table, &files.claim);
        if verdict.is_err_and(|refusal| refusal.number < 20) {
            return None;
        }
        let mut lines = sheet.mesh.iter().cloned();
        let mut claim = sheet.claim.iter().cloned();
        let (header, claim_header) = (lines.next()?, claim.next()?);
        let has = |part: usize, count: usize| count * claim_header[part] as usize;
        Some(Groups {
            soils: take(&mut lines, mesh.soils.len()),
            nodes: take(&mut lines, mesh.nodes.len()),
            elements: take(&mut lines, mesh.elements.len()),
            edges: take(&mut lines, mesh.edges.len()),
            jumps: take(&mut lines, mesh.jumps.len()),
            table: sheet.table.clone(),
            field: take(&mut claim, has(0, mesh.nodes.len())),
            balance: take(&mut claim, has(1, mesh.elements.len())),
            edge_multipliers: take(&mut claim, has(1, mesh.edges.len())),
            jump_multipliers: take(&mut claim, has(1, mesh.jumps.len())),
            strength: take(&mut claim, has(1, mesh.pairs.len())),
            pairs: (mesh.pairs.iter())
                .map(|pair| [pair.node as i64 + 1, pair.soil as i64 + 1])
                .collect(),
            header,
            claim_header,
        })
    }

    fn sheet(self) -> Sheet {
        let first = |header| vec![header];
        Sheet {
            mesh: [
                first(self.header),
                self.soils,
                self.nodes,
                self.elements,
                self.edges,
                self.jumps,
            ]
            .concat(),
            table: self.table,
            claim: [
                first(self.claim_header),
                self.field,
                self.balance,
                self.edge_multipliers,
                self.jump_multipliers,
                self.strength,
            ]
            .concat(),
        }
    }

    /// Everything in another order, with the new names.
    fn reorder(&mut self, random: &mut Random) {
        let nodes = order(random, self.nodes.len());
        let soils = order(random, self.soils.len());
        let elements = order(random, self.elements.len());
        let edges = order(random, self.edges.len());
        let jumps = order(random, self.jumps.len());
        put(&mut self.nodes, &nodes);
        put(&mut self.field, &nodes);
        put(&mut self.soils, &soils);
        put(&mut self.elements, &elements);
        put(&mut self.balance, &elements);
        put(&mut self.edges, &edges);
        put(&mut self.edge_multipliers, &edges);
        put(&mut self.jumps, &jumps);
        put(&mut self.jump_multipliers, &jumps);
        let (node, soil) = (names(&nodes), names(&soils));
        for line in &mut self.elements {
            rename(&mut line[..4], &node);
            rename(&mut line[4..], &soil);
        }
        self.edges
            .iter_mut()
            .for_each(|line| rename(&mut line[..2], &node));
        self.jumps.iter_mut().for_each(|line| rename(line, &node));
        self.table
            .iter_mut()
            .for_each(|line| rename(&mut line[2..], &soil));
        for pair in &mut self.pairs {
            rename(&mut pair[..1], &node);
            rename(&mut pair[1..], &soil);
        }
        let mut by_pair: Vec<usize> = (0..self.pairs.len()).collect();
        by_pair.sort_by_key(|&k| self.pairs[k]);
        self.pairs.sort();
        put(&mut self.strength, &by_pair);
        let layers = order(random, self.table.len());
        put(&mut self.table, &layers);
    }

    /// Elements from another corner. A triangle's repeat counts for its height, so with a table it stays.
    fn turn(&mut self, random: &mut Random) {
        for line in &mut self.elements {
            if line[2] != line[3] {
                line[..4].rotate_left(random.below(4));
            } else if line[4] != 0 {
                line[..3].rotate_left(random.below(3));
                line[3] = line[2];
            }
        }
    }

    /// The mesh, and the table with it, as far as the limits let them move.
    fn shift(&mut self, random: &mut Random) {
        for axis in 0..2 {
            let all = || self.nodes.iter().map(|node| node[axis]);
            let (low, high) = (all().min().unwrap_or(0), all().max().unwrap_or(0));
            let anywhere = random.between(-low, 1000 - high);
            let by = random.pick(&[-low, 1000 - high, anywhere]);
            let layers = self.table.iter().flat_map(|layer| &layer[..2]);
            if axis == 1
                && layers
                    .into_iter()
                    .any(|y| !(-1000..=2000).contains(&(y + by)))
            {
                continue;
            }
            self.nodes.iter_mut().for_each(|node| node[axis] += by);
            if axis == 1 {
                let tops = self.table.iter_mut().flat_map(|layer| &mut layer[..2]);
                tops.for_each(|y| *y += by);
            }
        }
    }

    /// Left and right exchanged: shear and everything along x change their signs.
    fn mirror(&mut self) {
        let all = || self.nodes.iter().map(|node| node[0]);
        let sum = all().min().unwrap_or(0) + all().max().unwrap_or(0);
        self.nodes
            .iter_mut()
            .for_each(|node| node[0] = sum - node[0]);
        negate(&mut self.soils, &[4, 6]);
        negate(&mut self.edges, &[4, 6]);
        negate(&mut self.field, &[2]);
        negate(&mut self.balance, &[0]);
        negate(&mut self.edge_multipliers, &[1, 3]);
        negate(&mut self.jump_multipliers, &[1, 3]);
        for line in &mut self.elements {
            if line[2] == line[3] {
                line.swap(0, 1);
            } else {
                line[..4].reverse();
            }
        }
        self.edges.iter_mut().for_each(|line| line.swap(0, 1));
        for line in &mut self.jumps {
            line.swap(0, 1);
            line.swap(2, 3);
        }
        for line in self
            .edge_multipliers
            .iter_mut()
            .chain(&mut self.jump_multipliers)
        {
            line.rotate_left(2);
        }
        for (line, pair) in self.strength.iter_mut().zip(&self.pairs) {
            // Of kind 1 the plane (r, 0) is the first, and stays so.
            let is_directed = self.soils[pair[1] as usize - 1][8] == 1;
            let (first, others) = line.split_at_mut(if is_directed { 2 } else { 0 });
            first.reverse();
            others.reverse();
        }
    }

    /// The field and the multipliers, each by a whole number that the limits let pass.
    fn multiply(&mut self, random: &mut Random) {
        let field_room = room(&self.field, MOST_STRESS)
            .min(room(&[vec![self.claim_header[2]]], MOST_N))
            .min(room(&[vec![self.claim_header[3]]], MOST_L));
        let by = factor(random, field_room);
        scale(&mut self.field, by);
        self.claim_header[2..]
            .iter_mut()
            .for_each(|number| *number *= by);
        let most_strength = if self.header[4] == 108 { 300 } else { 10_000 };
        let by = factor(
            random,
            [
                &self.balance,
                &self.edge_multipliers,
                &self.jump_multipliers,
            ]
            .map(|lines| room(lines, MOST_MULTIPLIER))
            .into_iter()
            .fold(room(&self.strength, most_strength), i64::min),
        );
        for lines in [
            &mut self.balance,
            &mut self.edge_multipliers,
            &mut self.jump_multipliers,
            &mut self.strength,
        ] {
            scale(lines, by);
        }
    }
}

/// The numbers below `count` in an order at random: which old one comes at each place.
fn order(random: &mut Random, count: usize) -> Vec<usize> {
    let mut all: Vec<usize> = (0..count).collect();
    for k in 1..count {
        all.swap(k, random.below(k + 1));
    }
    all
}

/// A part that the claim lacks has no lines to put in order.
fn put(lines: &mut Lines, order: &[usize]) {
    if !lines.is_empty() {
        *lines = order.iter().map(|&old| lines[old].clone()).collect();
    }
}

/// The new name of each old one, from 1; 0, an element that is left to the table, stays.
fn names(order: &[usize]) -> Vec<i64> {
    let mut all = vec![0; order.len() + 1];
    for (new, &old) in order.iter().enumerate() {
        all[old + 1] = new as i64 + 1;
    }
    all
}

fn rename(names: &mut [i64], new: &[i64]) {
    names
        .iter_mut()
        .for_each(|name| *name = new[*name as usize]);
}

fn negate(lines: &mut Lines, columns: &[usize]) {
    for line in lines {
        columns
            .iter()
            .for_each(|&column| line[column] = -line[column]);
    }
}

fn scale(lines: &mut Lines, by: i64) {
    lines.iter_mut().flatten().for_each(|number| *number *= by);
}

/// The largest factor that keeps these lines within the bound.
fn room(lines: &[Vec<i64>], bound: i64) -> i64 {
    let most = lines.iter().flatten().map(|number| number.abs()).max();
    bound / most.unwrap_or(0).max(1)
}

fn factor(random: &mut Random, room: i64) -> i64 {
    random.pick(&[1, 2, 3, room]).min(room).max(1)
}

/// The sheet changed so; none where a mesh or a claim's form is refused.
pub fn changed(random: &mut Random, sheet: &Sheet) -> Option<Sheet> {
    let mut groups = Groups::of(sheet)?;
    if random.one_in(2) {
        groups.mirror();
    }
    groups.turn(random);
    groups.reorder(random);
    groups.shift(random);
    groups.multiply(random);
    Some(groups.sheet())
}
