//! A claim that has as much to add up as can be: both parts, long stresses, and each strength multiplier above 0. It
//! is accepted, and every strength row is open.

use crate::grounds::{Ground, STRESS};
use crate::random::Random;
use independent::sheet::{Lines, Sheet};

/// n and l of the field.
const SCALE: i64 = 100_000;
const LOAD: i64 = 12_345_678;

/// A step (a, b) of the whole mesh, both of which a side's length divides.
const RIGID: [i64; 2] = [-12_340, 5_670];

/// From a corner on: its first coordinate and its second one are those of the corner after (r, 0).
fn corner_after_first(sides: i64) -> [i64; 2] {
    match sides {
        12 => [4, 3],
        20 => [24, 7],
        36 => [63, 16],
        _ => [1_104, 47],
    }
}

fn radius(sides: i64) -> i64 {
    match sides {
        12 => 5,
        20 => 25,
        36 => 65,
        _ => 1_105,
    }
}

/// How long strength multipliers are.
#[derive(Clone, Copy)]
pub enum Lengths {
    /// As chance has it, so that none can be foreseen.
    Any,
    /// Each is the largest that there can be.
    Longest,
}

/// A number above 0, each length as likely as another.
fn of_any_length(random: &mut Random, most: i64) -> i64 {
    let longest = most.ilog10() as usize;
    let low = 10i64.pow(random.below(longest + 1) as u32);
    random.between(low, (10 * low - 1).min(most))
}

/// The strength multipliers of a pair, whose rows without friction add up to no column: opposite sides have the
/// same, and so have the two rows of a plane.
fn pair_line(random: &mut Random, ground: &Ground, lengths: Lengths) -> Vec<i64> {
    let most = if ground.sides == 108 { 300 } else { 10_000 };
    let mut one = || match lengths {
        Lengths::Any => of_any_length(random, most),
        Lengths::Longest => most,
    };
    let half: Vec<i64> = (0..ground.sides / 2).map(|_| one()).collect();
    if ground.kind == 0 {
        half.repeat(2)
    } else {
        half.iter().flat_map(|&y| [y, y]).collect()
    }
}

/// Two strength rows of a pair that together have no t, and what they have at sx and, with a minus, at sy.
fn level_rows(ground: &Ground) -> ([usize; 2], i64) {
    let sides = ground.sides as usize;
    let [a, b] = corner_after_first(ground.sides);
    if ground.kind == 0 {
        ([0, sides - 1], 2 * radius(ground.sides) * b)
    } else {
        ([3, sides - 2], 2 * a * b)
    }
}

/// Zero multipliers, a line for each element, edge, jump and pair.
fn zeros(ground: &Ground) -> Lines {
    let sides = ground.edges.len() + ground.jumps.len();
    let mut lines = vec![vec![0; 2]; ground.elements.len()];
    lines.extend(vec![vec![0; 4]; sides]);
    lines.extend(vec![vec![0; ground.sides as usize]; ground.points.len()]);
    lines
}

/// A step of the whole mesh, which the edges and jumps around it undo.
fn add_rigid(ground: &Ground, lines: &mut Lines) {
    let [a, b] = RIGID;
    let elements = ground.elements.len();
    lines[..elements].fill(RIGID.to_vec());
    let edges = ground.edges.iter().map(|edge| &edge[..]);
    let outer = edges.chain(ground.jumps.iter().map(|jump| &jump[..2]));
    for (line, side) in lines[elements..].iter_mut().zip(outer) {
        let [u, w] = ground.step(side[0], side[1]);
        let square = u * u + w * w;
        let [normal, shear] = [-(a * w - b * u) / square, -(a * u + b * w) / square];
        line.copy_from_slice(&[normal, shear, normal, shear]);
    }
}

/// Two rows of the corner's pair, which the normal rows of the two edges there undo: they alone give m.
fn add_corner(ground: &Ground, lines: &mut Lines) {
    let (rows, across) = level_rows(ground);
    let first_pair = lines.len() - ground.points.len();
    let at_corner = |upright: bool| {
        let meets = |&k: &usize| {
            let [from, to] = ground.edges[k];
            (from == ground.corner || to == ground.corner)
                && (ground.step(from, to)[0] == 0) == upright
        };
        let edge = (0..ground.edges.len()).find(meets).expect("an edge");
        let [from, to] = ground.edges[edge];
        let [u, w] = ground.step(from, to);
        let end = if from == ground.corner { 0 } else { 2 };
        (ground.elements.len() + edge, end, u * u + w * w)
    };
    let (upright, level) = (at_corner(true), at_corner(false));
    let is_whole = |y: &i64| (y * across) % upright.2 == 0 && (y * across) % level.2 == 0;
    let y = (1..).find(is_whole).expect("a multiplier");
    lines[upright.0][upright.1] -= y * across / upright.2;
    lines[level.0][level.1] += y * across / level.2;
    rows.iter()
        .for_each(|&row| lines[first_pair + ground.corner][row] += y);
}

/// The ground with its claim. Where every outer side has its edge or its jump, equality rows have multipliers too.
pub fn sheet(ground: &Ground, lengths: Lengths) -> Sheet {
    let mut random = Random::new(0x9E37_79B9_7F4A_7C15);
    let mut lines = zeros(ground);
    let first_pair = lines.len() - ground.points.len();
    for line in &mut lines[first_pair..] {
        *line = pair_line(&mut random, ground, lengths);
    }
    lines[first_pair + ground.corner].fill(1);
    if ground.is_covered {
        add_rigid(ground, &mut lines);
    }
    add_corner(ground, &mut lines);
    let stress = STRESS.map(|[dead, live]| SCALE * dead + LOAD * live);
    let mut claim = vec![vec![1, 1, SCALE, LOAD]];
    claim.extend(vec![stress.to_vec(); ground.points.len()]);
    claim.extend(lines);
    let sheet = Sheet {
        mesh: ground.mesh(),
        table: ground.table.clone(),
        claim,
    };
    hold_open(&sheet, ground);
    sheet
}

/// The claim is accepted, and all strength rows are open.
fn hold_open(sheet: &Sheet, ground: &Ground) {
    let files = sheet.files();
    let verdict = independent::judge_files(&files.mesh, &files.table, &files.claim);
    let open = ground.points.len() as u64 * ground.sides as u64;
    let told = verdict.map(|accepted| accepted.open_rows);
    assert_eq!(told, Ok(Some(open)));
}
