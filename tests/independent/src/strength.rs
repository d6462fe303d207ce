//! The next strength to try: the hyperbola of source 001, eq. 23 (document 02, N13).

/// A trial: a strength reduction and the load factor found with it.
#[derive(Clone, Copy, Debug)]
pub struct Trial {
    pub k: f64,
    pub l: f64,
}

/// The strength is 0 where the trials are refused.
#[repr(C)]
#[derive(Clone, Copy, Debug, PartialEq)]
pub struct NextStrength {
    pub number: u32,
    pub place: u32,
    pub strength: f64,
}

fn is_usable(number: f64) -> bool {
    number > 0.0 && number.is_finite()
}

/// Refusal 49, or the answer; each operation is rounded once, from left to right.
pub fn next_strength(first: Trial, second: Trial) -> NextStrength {
    let refused = NextStrength {
        number: 49,
        place: 0,
        strength: 0.0,
    };
    let inputs = [first.k, first.l, second.k, second.l];
    if !inputs.into_iter().all(is_usable) || first.l == second.l {
        return refused;
    }
    let one = (1.0 - second.l) * first.l * first.k;
    let other = (1.0 - first.l) * second.l * second.k;
    let strength = (one - other) / (first.l - second.l);
    if !is_usable(strength) {
        return refused;
    }
    NextStrength {
        number: 0,
        place: 0,
        strength,
    }
}
