//! The strength rows of a soil, one for each side of the polygon: document 01's polygon inside the
//! circle, or for ground that is stronger one way a pair for each plane (document 02, N14).

use crate::mesh::Soil;
use crate::polygon::{Polygon, Side};

/// coefficients · (sx, sy, t) ≤ right · n
pub struct Row {
    pub coefficients: [i64; 3],
    pub right: i64,
}

impl Row {
    /// Right side minus left side.
    pub fn slack(&self, [sx, sy, t]: [i64; 3], n: i64) -> i64 {
        let [by_sx, by_sy, by_t] = self.coefficients;
        self.right * n - (by_sx * sx + by_sy * sy + by_t * t)
    }
}

pub fn of_soil(soil: &Soil, polygon: &Polygon) -> Vec<Row> {
    if soil.is_directed {
        let half_turn = &polygon.sides[..polygon.sides.len() / 2];
        let pair =
            |side: &Side| [1, -1].map(|sign| plane_row(soil, polygon.radius, side.from, sign));
        half_turn.iter().flat_map(pair).collect()
    } else {
        let row = |side: &Side| side_row(soil, polygon.radius, side);
        polygon.sides.iter().map(row).collect()
    }
}

/// r·h·[(d-b)(sx-sy) - 2(c-a)t] ≤ (ad-bc)·[2qCn - p(sx+sy)]
fn side_row(soil: &Soil, radius: i64, side: &Side) -> Row {
    let scale = radius * soil.h;
    let (difference, sum) = (scale * side.step[1], soil.p * side.cross);
    Row {
        coefficients: [
            sum + difference,
            sum - difference,
            -2 * scale * side.step[0],
        ],
        right: side.cross * 2 * soil.q * soil.cohesion,
    }
}

/// pN + qT, or pN - qT, ≤ q·n·(r²·ch + (cv-ch)·a²), on the plane with normal (a, b)/r.
fn plane_row(soil: &Soil, radius: i64, [a, b]: [i64; 2], sign: i64) -> Row {
    let (p, q) = (soil.p, sign * soil.q);
    let cohesion = radius * radius * soil.cohesion + (soil.cohesion_across - soil.cohesion) * a * a;
    Row {
        coefficients: [
            p * a * a - q * a * b,
            p * b * b + q * a * b,
            2 * p * a * b + q * (a * a - b * b),
        ],
        right: soil.q * cohesion,
    }
}
