//! The polygons inside the circle ("Strength"; document 02, N9): all whole-number points on a circle,
//! counterclockwise from (r, 0), found by walking along its first quadrant.

/// A side from corner (a, b) to the next, (c, d).
#[derive(Clone, Copy)]
pub struct Side {
    /// a and b.
    pub from: [i64; 2],
    /// c - a and d - b.
    pub step: [i64; 2],
    /// ad - bc.
    pub cross: i64,
}

pub struct Polygon {
    pub radius: i64,
    pub sides: &'static [Side],
    /// The most nodes, and the most pairs of node and soil, of a mesh with this polygon.
    pub most_nodes: usize,
    /// The largest strength multiplier.
    pub most_multiplier: i64,
}

static TWELVE: [Side; 12] = sides(5);
static TWENTY: [Side; 20] = sides(25);
static THIRTY_SIX: [Side; 36] = sides(65);
static HUNDRED_AND_EIGHT: [Side; 108] = sides(1105);

/// The corners from (r, 0) to (0, r), and how many they are.
const fn quadrant(radius: i64) -> ([(i64, i64); 28], usize) {
    let mut corners = [(0, 0); 28];
    let mut count = 0;
    let (mut x, mut y) = (radius, 0);
    while x >= 0 {
        let rest = radius * radius - x * x;
        while y * y < rest {
            y += 1;
        }
        if y * y == rest {
            corners[count] = (x, y);
            count += 1;
        }
        x -= 1;
    }
    (corners, count)
}

/// By so many right angles.
const fn turned([x, y]: [i64; 2], quarters: usize) -> [i64; 2] {
    match quarters {
        0 => [x, y],
        1 => [-y, x],
        2 => [-x, -y],
        _ => [y, -x],
    }
}

/// All sides; each quadrant is the one before, turned.
const fn sides<const N: usize>(radius: i64) -> [Side; N] {
    let (corners, count) = quadrant(radius);
    assert!(N == 4 * (count - 1));
    let mut all = [Side {
        from: [0, 0],
        step: [0, 0],
        cross: 0,
    }; N];
    let mut k = 0;
    while k < N {
        let (a, b) = corners[k % (N / 4)];
        let (c, d) = corners[k % (N / 4) + 1];
        let quarters = k / (N / 4);
        all[k] = Side {
            from: turned([a, b], quarters),
            step: turned([c - a, d - b], quarters),
            cross: a * d - b * c,
        };
        k += 1;
    }
    all
}

impl Polygon {
    pub fn of(sides: i64) -> Option<Polygon> {
        let plain = |radius, sides| Polygon {
            radius,
            sides,
            most_nodes: 100,
            most_multiplier: 10_000,
        };
        match sides {
            12 => Some(plain(5, &TWELVE)),
            20 => Some(plain(25, &TWENTY)),
            36 => Some(plain(65, &THIRTY_SIX)),
            108 => Some(Polygon {
                radius: 1105,
                sides: &HUNDRED_AND_EIGHT,
                most_nodes: 40,
                most_multiplier: 300,
            }),
            _ => None,
        }
    }
}
