//! Damage to sheets: numbers, lines, bytes and lists. Each call makes one change.

use crate::random::Random;
use independent::sheet::{Lines, Sheet};

/// The limits of document 01, and what stands next to them.
const LIMITS: [i64; 26] = [
    0,
    1,
    2,
    3,
    4,
    12,
    16,
    20,
    36,
    40,
    60,
    100,
    108,
    300,
    1000,
    -1000,
    10_000,
    -10_000,
    100_000,
    -100_000,
    100_000_000,
    -100_000_000,
    1_000_000_000,
    -1_000_000_000,
    999_999_999_998,
    -99_999_999_998,
];

fn near_limit(random: &mut Random) -> i64 {
    random.pick(&LIMITS) + random.between(-1, 1)
}

/// One number of one line becomes a limit, or what stands next to one, or moves a little.
fn number(random: &mut Random, lines: &mut Lines) {
    let line = random.below(lines.len());
    if lines[line].is_empty() {
        return;
    }
    let column = random.below(lines[line].len());
    let number = &mut lines[line][column];
    *number = match random.below(4) {
        0 => near_limit(random),
        1 => *number + random.between(-1, 1),
        2 => -*number,
        _ => random.between(-5, 105),
    };
}

/// A whole line swapped, left out, put twice, or with its numbers turned round.
fn line(random: &mut Random, lines: &mut Lines) {
    let (a, b) = (random.below(lines.len()), random.below(lines.len()));
    match random.below(5) {
        0 => lines.swap(a, b),
        1 if lines.len() > 1 => drop(lines.remove(a)),
        2 => lines.insert(b, lines[a].clone()),
        3 => lines[a].reverse(),
        _ => lines[a] = lines[b].clone(),
    }
}

/// Where a mesh's soils, nodes, elements, edges and jumps begin, if earlier damage left them in place.
pub fn groups(mesh: &Lines) -> Option<[usize; 6]> {
    let [nodes, elements, soils, edges, _, jumps] = mesh[0][..] else {
        return None;
    };
    let mut ends = [1usize; 6];
    let groups = [
        (soils, 10),
        (nodes, 2),
        (elements, 5),
        (edges, 7),
        (jumps, 4),
    ];
    for (k, (count, width)) in groups.into_iter().enumerate() {
        ends[k + 1] = ends[k].checked_add(usize::try_from(count).ok()?)?;
        let lines = mesh.get(ends[k]..ends[k + 1])?;
        if k < 3 && lines.is_empty() || lines.iter().any(|line| line.len() != width) {
            return None;
        }
    }
    (ends[5] == mesh.len()).then_some(ends)
}

/// One line of a mesh so that each refusal from 3 to 8 comes about in each of its ways.
fn shape(random: &mut Random, mesh: &mut Lines) {
    let Some([soils, nodes, elements, edges, jumps, end]) = groups(mesh) else {
        return;
    };
    let soil = soils + random.below(nodes - soils);
    let element = elements + random.below(edges - elements);
    let other = elements + random.below(edges - elements);
    let node = nodes + random.below(elements - nodes);
    let edge = edges + random.below((jumps - edges).max(1));
    let corner = random.below(4);
    match random.below(19) {
        0 => mesh[soil][random.below(3)] += 1,
        18 => mesh[soil][8] = 1 - mesh[soil][8],
        1 => mesh[element][corner] = near_limit(random),
        2 => mesh[element][4] = near_limit(random),
        3 => mesh[element][..4].reverse(),
        4 => mesh[node] = mesh[nodes].clone(),
        5 => mesh[element] = mesh[other].clone(),
        6 => mesh[element][corner] = mesh[other][corner],
        7 => mesh[node][random.below(2)] += random.between(-2, 2),
        8 if edge < jumps => mesh[edge].swap(0, 1),
        9 if edge < jumps => edge_of(random, mesh, element, edge),
        10 if edge < jumps => mesh[edge] = mesh[edges + random.below(jumps - edges)].clone(),
        11 => mesh[element][corner] = mesh[element][(corner + 1) % 4],
        12 => mesh[element][3] = mesh[element][2],
        13 => add_node(mesh, elements),
        _ if jumps < end => jump(random, mesh, element, edges, jumps),
        _ => add_node(mesh, elements),
    }
}

/// One jump so that 44 comes about in each of its ways, or 4.
fn jump(random: &mut Random, mesh: &mut Lines, element: usize, edges: usize, jumps: usize) {
    let end = mesh.len();
    let jump = jumps + random.below(end - jumps);
    let other = jumps + random.below(end - jumps);
    let corner = random.below(4);
    let (from, to) = (mesh[element][corner], mesh[element][(corner + 1) % 4]);
    match random.below(8) {
        0 => mesh[jump].swap(0, 1),
        1 => mesh[jump].swap(2, 3),
        2 => mesh[jump].rotate_left(2),
        3 => mesh[jump] = mesh[other].clone(),
        4 => mesh[jump].reverse(),
        5 if edges < jumps => {
            let line = mesh[edges + random.below(jumps - edges)][..2].to_vec();
            mesh[jump][..2].copy_from_slice(&line);
        }
        6 => mesh[jump] = vec![from, to, from, to],
        _ => mesh[jump][random.below(4)] = near_limit(random),
    }
}

/// The edge becomes a side of an element, which may be an inner one, or that side turned.
fn edge_of(random: &mut Random, mesh: &mut Lines, element: usize, edge: usize) {
    let corner = random.below(4);
    let (from, to) = (mesh[element][corner], mesh[element][(corner + 1) % 4]);
    let (from, to) = if random.one_in(4) {
        (to, from)
    } else {
        (from, to)
    };
    mesh[edge][..2].copy_from_slice(&[from, to]);
}

/// A node more, in no element.
fn add_node(mesh: &mut Lines, elements: usize) {
    mesh[0][0] += 1;
    mesh.insert(elements, vec![500, 500]);
}

/// The claim's header, and multipliers that vanish or change sides.
fn parts(random: &mut Random, claim: &mut Lines) {
    if claim[0].len() != 4 {
        return;
    }
    let line = random.below(claim.len());
    match random.below(6) {
        0 => claim[0][0] = random.between(-1, 2),
        1 => claim[0][1] = random.between(-1, 2),
        2 => claim[0][2] = 0,
        3 => claim[0][3] += random.between(-1, 1),
        4 => claim[line].fill(0),
        _ => claim[1..].iter_mut().for_each(|line| line.fill(0)),
    }
}

/// One line of the table so that 46 and 45 come about in each of their ways.
fn layer(random: &mut Random, table: &mut Lines) {
    if table.is_empty() {
        return table.push(vec![0, 1000, 1]);
    }
    let (line, other) = (random.below(table.len()), random.below(table.len()));
    if table[line].len() != 3 {
        return;
    }
    match random.below(8) {
        0..=1 => table[line][0] += random.between(-2, 2),
        2..=3 => table[line][1] += random.between(-2, 2),
        4 => table[line].swap(0, 1),
        5 => table[line] = table[other].clone(),
        6 => table[line][random.below(3)] = near_limit(random),
        _ => drop(table.remove(line)),
    }
}

/// A change to the numbers of a sheet.
pub fn sheet(random: &mut Random, sheet: &mut Sheet) {
    match random.below(10) {
        0 => number(random, &mut sheet.mesh),
        1..=2 => number(random, &mut sheet.claim),
        3 => line(random, &mut sheet.mesh),
        4 => line(random, &mut sheet.claim),
        5..=6 => shape(random, &mut sheet.mesh),
        7 => layer(random, &mut sheet.table),
        8 if !sheet.table.is_empty() => line(random, &mut sheet.table),
        _ => parts(random, &mut sheet.claim),
    }
}

const SPELLINGS: [&[u8; 12]; 16] = [
    b"            ",
    b"           -",
    b"          -0",
    b"          +1",
    b"          01",
    b"         -01",
    b"         - 1",
    b"         --1",
    b"1           ",
    b"          1 ",
    b"         1 1",
    b"         1.0",
    b"         1-1",
    b"000000000001",
    b"999999999999",
    b"-99999999999",
];

fn spell(random: &mut Random, bytes: &mut [u8]) {
    let spelling = random.pick(&SPELLINGS);
    let line_starts: Vec<usize> = (0..bytes.len())
        .filter(|&k| k == 0 || bytes[k - 1] == b'\n')
        .collect();
    if line_starts.is_empty() {
        return;
    }
    let start = random.pick(&line_starts) + 12 * random.below(5);
    if let Some(column) = bytes.get_mut(start..start + 12) {
        column.copy_from_slice(spelling);
    }
}

fn any_byte(random: &mut Random) -> u8 {
    if random.one_in(3) {
        random.below(256) as u8
    } else {
        random.pick(b" 0123456789-+\n\r\t/:")
    }
}

/// The bytes of two lines exchanged, or those of one line moved along it, at times by whole columns.
fn line_of_bytes(random: &mut Random, bytes: &mut Vec<u8>) {
    let mut lines: Vec<&[u8]> = bytes.split_inclusive(|&byte| byte == b'\n').collect();
    if lines.is_empty() {
        return;
    }
    let (a, b) = (random.below(lines.len()), random.below(lines.len()));
    let mut moved = lines[a].to_vec();
    moved.rotate_right(random.pick(&[1, 11, 12, 13, 24]) % lines[a].len());
    if random.one_in(2) {
        lines.swap(a, b);
    } else {
        lines[a] = &moved;
    }
    *bytes = lines.concat();
}

/// A change to the bytes of a file.
pub fn bytes(random: &mut Random, bytes: &mut Vec<u8>) {
    let at = random.below(bytes.len() + 1);
    let byte = any_byte(random);
    match random.below(9) {
        0..=1 if at < bytes.len() => bytes[at] = byte,
        2 => bytes.insert(at, byte),
        3 if at < bytes.len() => drop(bytes.remove(at)),
        4 => bytes.truncate(at),
        5 => bytes.extend_from_within(at..),
        6 => bytes.extend(std::iter::repeat(byte).take(random.below(30))),
        7 => line_of_bytes(random, bytes),
        _ => spell(random, bytes),
    }
}

/// A change to a list of numbers, which no column bounds.
pub fn list(random: &mut Random, numbers: &mut Vec<i64>) {
    let at = random.below(numbers.len() + 1);
    let number = match random.below(4) {
        0 => random.pick(&[i64::MIN, i64::MAX, i64::MIN + 1, 1 << 32, -1 << 32, 1 << 62]),
        1 => random.next() as i64,
        _ => near_limit(random),
    };
    match random.below(6) {
        0..=2 if at < numbers.len() => numbers[at] = number,
        3 => numbers.insert(at, number),
        4 => numbers.truncate(at),
        _ => numbers.push(number),
    }
}
