//! Elements that lie on each other (document 02, N10). One is cut off along the sides of the other, in
//! exact fractions: they share a point inside both exactly where what is left has an area.

use crate::mesh::{Element, Mesh};
use crate::{refuse, Refusal};

/// The point (x/w, y/w), w above 0, in lowest terms.
#[derive(Clone, Copy)]
struct Point {
    x: i128,
    y: i128,
    w: i128,
}

/// Refusal 47: the lowest element that lies on a lower one.
pub fn check(mesh: &Mesh) -> Result<(), Refusal> {
    let bounds: Vec<Bounds> = mesh.elements.iter().map(|e| Bounds::of(mesh, e)).collect();
    let lies_on_lower = |e: &usize| {
        let mut lower = bounds[..*e].iter().zip(&mesh.elements);
        lower.any(|(other, element)| {
            bounds[*e].meets(other) && share_area(mesh, &mesh.elements[*e], element)
        })
    };
    match (0..bounds.len()).find(lies_on_lower) {
        Some(element) => refuse(47, element + 1),
        None => Ok(()),
    }
}

/// What two elements have in common has an area.
fn share_area(mesh: &Mesh, one: &Element, other: &Element) -> bool {
    has_area(&common(&outline(mesh, one), &outline(mesh, other)))
}

fn outline(mesh: &Mesh, element: &Element) -> Vec<[i64; 2]> {
    let corners = element.outline().iter();
    corners.map(|&corner| mesh.nodes[corner]).collect()
}

/// The least box with level and upright sides around an outline.
struct Bounds {
    low: [i64; 2],
    high: [i64; 2],
}

impl Bounds {
    fn of(mesh: &Mesh, element: &Element) -> Bounds {
        let first = mesh.nodes[element.corners[0]];
        let mut all = Bounds {
            low: first,
            high: first,
        };
        for corner in element.corners {
            let place = mesh.nodes[corner];
            for k in 0..2 {
                all.low[k] = all.low[k].min(place[k]);
                all.high[k] = all.high[k].max(place[k]);
            }
        }
        all
    }

    /// Some point is inside both boxes.
    fn meets(&self, other: &Bounds) -> bool {
        (0..2).all(|k| self.low[k] < other.high[k] && other.low[k] < self.high[k])
    }
}

/// What two outlines have in common, sides included.
fn common(first: &[[i64; 2]], second: &[[i64; 2]]) -> Vec<Point> {
    let corner = |&[x, y]: &[i64; 2]| Point {
        x: x.into(),
        y: y.into(),
        w: 1,
    };
    let mut left: Vec<Point> = first.iter().map(corner).collect();
    for (k, from) in second.iter().enumerate() {
        let to = second[(k + 1) % second.len()];
        left = cut(&left, *from, to);
    }
    left
}

/// The part of an outline that is not to the right of a line.
fn cut(outline: &[Point], from: [i64; 2], to: [i64; 2]) -> Vec<Point> {
    let mut kept = Vec::new();
    for (k, here) in outline.iter().enumerate() {
        let next = &outline[(k + 1) % outline.len()];
        let (at_here, at_next) = (left_by(here, from, to), left_by(next, from, to));
        if at_here >= 0 {
            kept.push(*here);
        }
        if at_here.signum() * at_next.signum() < 0 {
            kept.push(crossing(here, at_here, next, at_next));
        }
    }
    kept
}

/// Above 0 where the point is to the left of the line, below 0 to the right; times the point's w.
fn left_by(point: &Point, from: [i64; 2], to: [i64; 2]) -> i128 {
    let [x, y] = from.map(i128::from);
    let (u, w) = (i128::from(to[0]) - x, i128::from(to[1]) - y);
    u * (point.y - y * point.w) - w * (point.x - x * point.w)
}

/// Where the way from one point to the next crosses a line that they are on two sides of.
fn crossing(a: &Point, at_a: i128, b: &Point, at_b: i128) -> Point {
    let (for_a, for_b) = (at_b.abs(), at_a.abs());
    let mix = |of_a: i128, of_b: i128| for_a * of_a + for_b * of_b;
    let (x, y, w) = (mix(a.x, b.x), mix(a.y, b.y), mix(a.w, b.w));
    let common = divisor(divisor(x, y), w);
    Point {
        x: x / common,
        y: y / common,
        w: w / common,
    }
}

fn divisor(a: i128, b: i128) -> i128 {
    if b == 0 {
        a.abs()
    } else {
        divisor(b, a % b)
    }
}

/// Some three corners make a left turn.
fn has_area(outline: &[Point]) -> bool {
    let turn = |a: &Point, b: &Point, c: &Point| {
        a.x * (b.y * c.w - c.y * b.w) - a.y * (b.x * c.w - c.x * b.w)
            + a.w * (b.x * c.y - c.x * b.y)
    };
    outline
        .windows(2)
        .any(|two| turn(&outline[0], &two[0], &two[1]) != 0)
}
