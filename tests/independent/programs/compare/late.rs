//! Changes of a sheet that its shape and its claim's form pass, so that the rows decide: 21, 22 and 31 to 33.

use crate::damage::groups;
use crate::random::Random;
use independent::sheet::Sheet;

/// How many lines of a claim, after its header, are the field's.
fn field_lines(sheet: &Sheet) -> usize {
    let has_field = sheet.claim[0].first() == Some(&1);
    let nodes = sheet.mesh[0][0] as usize;
    if has_field { nodes } else { 0 }.min(sheet.claim.len() - 1)
}

/// A number that isn't 0, of the first line that has any from one at random on.
fn one_not_zero<'a>(random: &mut Random, lines: &'a mut [Vec<i64>]) -> Option<&'a mut i64> {
    if lines.is_empty() {
        return None;
    }
    let line = random.below(lines.len());
    let count = lines.len();
    let line = (line..line + count)
        .map(|k| k % count)
        .find(|&k| lines[k].iter().any(|&n| n != 0))?;
    let there: Vec<usize> = (0..lines[line].len())
        .filter(|&k| lines[line][k] != 0)
        .collect();
    Some(&mut lines[line][random.pick(&there)])
}

/// The live loads the other way, the field's with them.
fn turn_live_loads(soils: &mut [Vec<i64>], edges: &mut [Vec<i64>], header: &mut [i64]) {
    let of_soils = soils.iter_mut().flat_map(|line| &mut line[6..8]);
    let of_edges = edges.iter_mut().flat_map(|line| &mut line[5..7]);
    of_soils
        .chain(of_edges)
        .chain(&mut header[3..])
        .for_each(|load| *load = -*load);
}

/// One stress of one node.
fn change_stress(random: &mut Random, field: &mut [Vec<i64>]) {
    let node = random.below(field.len());
    let column = random.below(field[node].len().max(1));
    if let Some(stress) = field[node].get_mut(column) {
        *stress += random.pick(&[-1, 1]);
    }
}

/// All multipliers are 0, or those of the first lines.
fn leave_out(random: &mut Random, multipliers: &mut [Vec<i64>]) {
    let all = multipliers.len();
    if all > 0 {
        let count = if random.one_in(2) {
            all
        } else {
            random.below(all)
        };
        multipliers[..count]
            .iter_mut()
            .for_each(|line| line.fill(0));
    }
}

/// One change; none where earlier ones have left no mesh or no claim.
pub fn change(random: &mut Random, sheet: &mut Sheet) {
    let Some([soils, nodes, _, edges, jumps, _]) = groups(&sheet.mesh) else {
        return;
    };
    if sheet.claim.first().map_or(true, |header| header.len() != 4) {
        return;
    }
    let field = field_lines(sheet);
    let soil = soils + random.below(nodes - soils);
    let mesh = &mut sheet.mesh;
    let (header, lines) = sheet.claim.split_at_mut(1);
    let (field, multipliers) = lines.split_at_mut(field);
    match random.below(7) {
        // A weaker soil, or another strength across its beds.
        0 => mesh[soil][3] = random.between(0, mesh[soil][3].clamp(0, 10_000)),
        1 => mesh[soil][9] = random.between(0, 10_000),
        // Other parts of an edge are fixed.
        2 if edges < jumps => mesh[edges + random.below(jumps - edges)][2] = random.between(1, 3),
        3 => {
            let (before, from_edges) = mesh.split_at_mut(edges);
            let edges = &mut from_edges[..jumps - edges];
            turn_live_loads(&mut before[soils..nodes], edges, &mut header[0]);
        }
        4 if !field.is_empty() => change_stress(random, field),
        5 => {
            if let Some(number) = one_not_zero(random, multipliers) {
                *number += random.pick(&[-1, 1]);
            }
        }
        _ => leave_out(random, multipliers),
    }
}
