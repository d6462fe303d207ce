//! The borehole table (document 02, N8): its lines with 1, 2 and 4, then 46 and 45, and the soil at
//! each height. A height is counted in quarters.

use crate::lines::Lines;
use crate::mesh::{named, within, Reader};
use crate::{refuse, Refusal};

/// The table's lines are numbered from here on, less one.
const LINES_BEFORE: usize = 1000;
const MOST_LINES: usize = 32;

struct Layer {
    bottom: i64,
    top: i64,
    soil: usize,
}

/// The soil of each height from the lowest node to the highest.
pub struct Heights {
    lowest: i64,
    soils: Vec<usize>,
}

impl Heights {
    pub fn soil(&self, height: i64) -> usize {
        self.soils[(height - self.lowest) as usize]
    }
}

/// The soils of all heights; an empty table is none.
pub fn read(
    lines: &mut impl Lines,
    soils: usize,
    nodes: &[[i64; 2]],
) -> Result<Option<Heights>, Refusal> {
    if lines.at_end() {
        return Ok(None);
    }
    let layers = read_layers(lines, soils)?;
    check_tops(&layers)?;
    heights(&layers, nodes).map(Some)
}

fn read_layers(lines: &mut impl Lines, soils: usize) -> Result<Vec<Layer>, Refusal> {
    let mut layers = Vec::new();
    let mut reader = Reader {
        lines,
        place: LINES_BEFORE,
    };
    while !reader.lines.at_end() {
        if layers.len() == MOST_LINES {
            return refuse(1, reader.place + 1);
        }
        let [bottom, top, soil] = reader.line()?;
        if !within(bottom, -1000, 2000) || !within(top, -1000, 2000) {
            return reader.refuse(2);
        }
        let Some(soil) = named(soil, soils) else {
            return reader.refuse(4);
        };
        layers.push(Layer { bottom, top, soil });
    }
    Ok(layers)
}

/// The first half of refusal 46.
fn check_tops(layers: &[Layer]) -> Result<(), Refusal> {
    match layers.iter().position(|layer| layer.top <= layer.bottom) {
        Some(line) => refuse(46, LINES_BEFORE + line + 1),
        None => Ok(()),
    }
}

/// The second half of refusal 46, then 45: layer by layer each height gets its one soil.
fn heights(layers: &[Layer], nodes: &[[i64; 2]]) -> Result<Heights, Refusal> {
    let ys = || nodes.iter().map(|node| 4 * node[1]);
    let lowest = ys().min().expect("a mesh has nodes");
    let count = ys().max().expect("a mesh has nodes") - lowest + 1;
    let mut soils = vec![None; count as usize];
    for (line, layer) in layers.iter().enumerate() {
        let [from, to] =
            [layer.bottom, layer.top].map(|at| (4 * at - lowest).clamp(0, count) as usize);
        for soil in &mut soils[from..to] {
            if soil.replace(layer.soil).is_some() {
                return refuse(46, LINES_BEFORE + line + 1);
            }
        }
    }
    match soils.iter().position(Option::is_none) {
        Some(gap) => refuse(45, lowest as usize + gap),
        None => Ok(Heights {
            lowest,
            soils: soils.into_iter().flatten().collect(),
        }),
    }
}
