//! The next strength to try (document 02, N13): bits at random, numbers around 1 and loads next to each other, whole
//! 64ths, and every four of a list of special numbers, each held to arithmetic in whole numbers.

use crate::exact::Exact;
use crate::random::Random;
use crate::tally::Tally;
use independent::Trial;

const SPECIAL: [f64; 18] = [
    0.0,
    -0.0,
    1.0,
    -1.0,
    0.5,
    2.0,
    1.0 / 3.0,
    1.0 - f64::EPSILON / 2.0,
    1.0 + f64::EPSILON,
    16.0,
    1.0 / 64.0,
    f64::MIN_POSITIVE,
    5e-324,
    1e-300,
    1e300,
    f64::MAX,
    f64::INFINITY,
    f64::NAN,
];

/// Equation 23 in whole numbers, each operation rounded once; none where it is refused.
fn by_whole_numbers([k1, l1, k2, l2]: [f64; 4]) -> Option<f64> {
    let is_usable = |number: f64| number.is_finite() && !number.is_sign_negative() && number != 0.0;
    if ![k1, l1, k2, l2].into_iter().all(is_usable) || l1 == l2 {
        return None;
    }
    let one = Exact::of(1.0);
    let [k1, l1, k2, l2] = [k1, l1, k2, l2].map(Exact::of);
    let first = one.minus(l2)?.times(l1)?.times(k1)?;
    let second = one.minus(l1)?.times(l2)?.times(k2)?;
    first.minus(second)?.divided_by(l1.minus(l2)?)?.positive()
}

/// The same of whole 64ths: the exact quotient, rounded once.
fn of_64ths([k1, l1, k2, l2]: [i64; 4]) -> Option<f64> {
    if l1 == l2 {
        return None;
    }
    let above = (64 - l2) * l1 * k1 - (64 - l1) * l2 * k2;
    Exact::of_fraction(above, (l1 - l2) * 64 * 64)?.positive()
}

fn hold(tally: &mut Tally, inputs: [f64; 4], expected: Option<f64>) {
    let [k1, l1, k2, l2] = inputs;
    tally.strength(Trial { k: k1, l: l1 }, Trial { k: k2, l: l2 }, expected);
}

pub fn all(tally: &mut Tally, random: &mut Random) {
    let count = SPECIAL.len();
    for k in 0..count.pow(4) {
        let at = |place: u32| SPECIAL[k / count.pow(place) % count];
        let inputs = [at(0), at(1), at(2), at(3)];
        hold(tally, inputs, by_whole_numbers(inputs));
    }
    (0..6_000_000).for_each(|_| at_random(tally, random));
}

/// Any bits, numbers around 1, or whole 64ths.
pub fn at_random(tally: &mut Tally, random: &mut Random) {
    match random.below(3) {
        0 => {
            let shift = random.below(8).min(1);
            let inputs = [0; 4].map(|_| f64::from_bits(random.next() >> shift));
            hold(tally, inputs, by_whole_numbers(inputs));
        }
        1 => {
            let mut near_one =
                [0; 4].map(|_| f64::from_bits(0x3FE8_0000_0000_0000 + (random.next() >> 11)));
            if random.one_in(4) {
                near_one[3] = near_one[1].next_up();
            }
            hold(tally, near_one, by_whole_numbers(near_one));
        }
        _ => {
            let wholes = [0; 4].map(|_| random.between(1, 1024));
            let inputs = wholes.map(|number| number as f64 / 64.0);
            let expected = by_whole_numbers(inputs);
            if expected.map(f64::to_bits) != of_64ths(wholes).map(f64::to_bits) {
                tally.disagree_on(&format!("{inputs:?}: the division isn't the only rounding"));
            }
            hold(tally, inputs, expected);
        }
    }
}
