//! Multipliers against the rows: refusals 31, 32 and 33, and the limit W/m ("Columns").

use crate::claim::Multipliers;
use crate::field::balance;
use crate::mesh::Mesh;
use crate::{refuse, Load, Refusal};

/// The sums over all rows; W and m are kept wide, so that no limit is needed to add them up.
struct Sums {
    /// sx, sy and t of each node.
    columns: Vec<[i64; 3]>,
    m: i128,
    w: i128,
}

pub fn check(mesh: &Mesh, multipliers: &Multipliers) -> Result<Load, Refusal> {
    check_unfixed(mesh, multipliers)?;
    let mut sums = Sums {
        columns: vec![[0; 3]; mesh.nodes.len()],
        m: 0,
        w: 0,
    };
    sums.add_balance(mesh, multipliers);
    sums.add_sides(mesh, multipliers);
    sums.add_jumps(mesh, multipliers);
    sums.add_strength(mesh, multipliers);
    if let Some(column) = sums.columns.as_flattened().iter().position(|&sum| sum != 0) {
        return refuse(32, column + 1);
    }
    if sums.m <= 0 {
        return refuse(33, 0);
    }
    let whole =
        |sum: i128| i64::try_from(sum).expect("document 01's limits keep W and m in 64 bits");
    Ok(Load {
        numerator: whole(sums.w),
        denominator: whole(sums.m),
    })
}

fn check_unfixed(mesh: &Mesh, multipliers: &Multipliers) -> Result<(), Refusal> {
    for (k, (edge, line)) in mesh.edges.iter().zip(&multipliers.sides).enumerate() {
        let wrong = |row: &usize| !edge.fixed[row % 2] && line[*row] != 0;
        if let Some(row) = (0..4).find(wrong) {
            return refuse(31, mesh.rows_before_sides() + 4 * k + row + 1);
        }
    }
    Ok(())
}

impl Sums {
    fn add_balance(&mut self, mesh: &Mesh, multipliers: &Multipliers) {
        for (element, &[first, second]) in mesh.elements.iter().zip(&multipliers.balance) {
            let (coefficients, doubled_area) = balance(mesh, element);
            for (&corner, [by_y, by_x]) in element.corners.iter().zip(coefficients) {
                let column = &mut self.columns[corner];
                column[0] += first * by_y;
                column[1] += second * by_x;
                column[2] += first * by_x + second * by_y;
            }
            let soil = &mesh.soils[element.soil];
            let work = |force: [i64; 2]| doubled_area * (first * force[0] + second * force[1]);
            self.m += i128::from(work(soil.live));
            self.w -= i128::from(work(soil.dead));
        }
    }

    /// Multipliers of a normal and a shear row at one node, on a side with step (u, w).
    fn add_traction(&mut self, node: usize, (u, w): (i64, i64), [normal, shear]: [i64; 2]) {
        let column = &mut self.columns[node];
        column[0] += w * w * normal + u * w * shear;
        column[1] += u * u * normal - u * w * shear;
        column[2] += (w * w - u * u) * shear - 2 * u * w * normal;
    }

    fn add_sides(&mut self, mesh: &Mesh, multipliers: &Multipliers) {
        for (edge, &[normal, shear, normal_to, shear_to]) in
            mesh.edges.iter().zip(&multipliers.sides)
        {
            let step @ (u, w) = mesh.step(edge.from, edge.to);
            self.add_traction(edge.from, step, [normal, shear]);
            self.add_traction(edge.to, step, [normal_to, shear_to]);
            let work = |load: [i64; 2]| {
                (u * u + w * w) * ((normal + normal_to) * load[0] + (shear + shear_to) * load[1])
            };
            self.m -= i128::from(work(edge.live));
            self.w += i128::from(work(edge.dead));
        }
    }

    /// A jump's rows have the first node's traction minus the facing one's, and right side 0.
    fn add_jumps(&mut self, mesh: &Mesh, multipliers: &Multipliers) {
        for (jump, &[normal, shear, normal_to, shear_to]) in
            mesh.jumps.iter().zip(&multipliers.jumps)
        {
            let step = mesh.step(jump.from, jump.to);
            self.add_traction(jump.from, step, [normal, shear]);
            self.add_traction(jump.facing[0], step, [-normal, -shear]);
            self.add_traction(jump.to, step, [normal_to, shear_to]);
            self.add_traction(jump.facing[1], step, [-normal_to, -shear_to]);
        }
    }

    fn add_strength(&mut self, mesh: &Mesh, multipliers: &Multipliers) {
        let lines = multipliers.strength.chunks_exact(mesh.polygon.sides.len());
        for (pair, line) in mesh.pairs.iter().zip(lines) {
            let column = &mut self.columns[pair.node];
            let mut right = 0;
            for (&y, row) in line.iter().zip(&mesh.strength[pair.soil]) {
                for (sum, coefficient) in column.iter_mut().zip(row.coefficients) {
                    *sum += y * coefficient;
                }
                right += y * row.right;
            }
            self.w += i128::from(right);
        }
    }
}
