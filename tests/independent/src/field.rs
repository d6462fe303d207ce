//! A field against the rows: refusals 21 and 22, and the open rows.
//! Every sum fits 64 bits: the largest right side, of an edge, stays below 2.1e18.

use crate::claim::Field;
use crate::mesh::{Element, Mesh};
use crate::strength_rows::Row;
use crate::{refuse, Refusal};

/// The coefficients of an element's balance rows at its corners, y[i+1]-y[i-1] and x[i-1]-x[i+1],
/// and D, twice its area.
pub fn balance(mesh: &Mesh, element: &Element) -> ([[i64; 2]; 4], i64) {
    let at = element.corners.map(|corner| mesh.nodes[corner]);
    let mut coefficients = [[0; 2]; 4];
    let mut doubled_area = 0;
    for i in 0..4 {
        let (after, before) = (at[(i + 1) % 4], at[(i + 3) % 4]);
        coefficients[i] = [after[1] - before[1], before[0] - after[0]];
        doubled_area += at[i][0] * coefficients[i][0];
    }
    (coefficients, doubled_area)
}

/// Normal and shear on a side with step (u, w), times u² + w².
fn traction((u, w): (i64, i64), [sx, sy, t]: [i64; 3]) -> [i64; 2] {
    let normal = w * w * sx - 2 * u * w * t + u * u * sy;
    let shear = u * w * (sx - sy) + (w * w - u * u) * t;
    [normal, shear]
}

pub fn check(mesh: &Mesh, field: &Field) -> Result<(), Refusal> {
    check_balance(mesh, field)?;
    check_sides(mesh, field)?;
    check_jumps(mesh, field)?;
    check_strength(mesh, field)
}

fn check_balance(mesh: &Mesh, field: &Field) -> Result<(), Refusal> {
    for (e, element) in mesh.elements.iter().enumerate() {
        let (coefficients, doubled_area) = balance(mesh, element);
        let soil = &mesh.soils[element.soil];
        let force = |k: usize| doubled_area * (field.n * soil.dead[k] + field.l * soil.live[k]);
        let mut sums = [force(0), force(1)];
        for (corner, [by_y, by_x]) in element.corners.iter().zip(coefficients) {
            let [sx, sy, t] = field.stresses[*corner];
            sums[0] += by_y * sx + by_x * t;
            sums[1] += by_x * sy + by_y * t;
        }
        if let Some(row) = sums.iter().position(|&sum| sum != 0) {
            return refuse(21, 2 * e + row + 1);
        }
    }
    Ok(())
}

fn check_sides(mesh: &Mesh, field: &Field) -> Result<(), Refusal> {
    for (k, edge) in mesh.edges.iter().enumerate() {
        let step @ (u, w) = mesh.step(edge.from, edge.to);
        let asked =
            |part: usize| (u * u + w * w) * (field.n * edge.dead[part] + field.l * edge.live[part]);
        let asked = [asked(0), asked(1)];
        let found = [edge.from, edge.to].map(|node| traction(step, field.stresses[node]));
        let found = found.as_flattened();
        let fails = |row: usize| edge.fixed[row % 2] && found[row] != asked[row % 2];
        if let Some(row) = (0..4).find(|&row| fails(row)) {
            return refuse(21, mesh.rows_before_sides() + 4 * k + row + 1);
        }
    }
    Ok(())
}

/// Normal and shear agree on both sides of each jump.
fn check_jumps(mesh: &Mesh, field: &Field) -> Result<(), Refusal> {
    for (k, jump) in mesh.jumps.iter().enumerate() {
        let step = mesh.step(jump.from, jump.to);
        let at = |node: usize| traction(step, field.stresses[node]);
        let (found, facing) = ([jump.from, jump.to].map(at), jump.facing.map(at));
        let (found, facing) = (found.as_flattened(), facing.as_flattened());
        if let Some(row) = (0..4).find(|&row| found[row] != facing[row]) {
            return refuse(21, mesh.rows_before_jumps() + 4 * k + row + 1);
        }
    }
    Ok(())
}

fn check_strength(mesh: &Mesh, field: &Field) -> Result<(), Refusal> {
    for (k, pair) in mesh.pairs.iter().enumerate() {
        let (rows, stress) = (&mesh.strength[pair.soil], field.stresses[pair.node]);
        if let Some(row) = rows.iter().position(|row| row.slack(stress, field.n) < 0) {
            return refuse(22, k * rows.len() + row + 1);
        }
    }
    Ok(())
}

/// Strength rows with a multiplier above 0 and a left side below the right.
pub fn open_rows(mesh: &Mesh, field: &Field, multipliers: &[i64]) -> u64 {
    let lines = multipliers.chunks_exact(mesh.polygon.sides.len());
    let mut open = 0;
    for (pair, line) in mesh.pairs.iter().zip(lines) {
        let stress = field.stresses[pair.node];
        let is_open = |(row, &y): &(&Row, &i64)| y > 0 && row.slack(stress, field.n) > 0;
        open += mesh.strength[pair.soil]
            .iter()
            .zip(line)
            .filter(is_open)
            .count() as u64;
    }
    open
}
