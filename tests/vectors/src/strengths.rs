//! Strengths: the bits of K1, L1, K2 and L2 in hexadecimal, the number, the bits of the answer or `-`. Cases of
//! requests before N13 have none.

use crate::{answers, number, Tally, MAKES};
use independent::Trial;
use std::path::Path;

fn bits(text: &str) -> u64 {
    u64::from_str_radix(text, 16).expect("bits in hexadecimal")
}

pub fn all(tally: &mut Tally, name: &str) {
    if !Path::new(name).exists() {
        return;
    }
    for case in answers(name) {
        let [k1, l1, k2, l2] = [0, 1, 2, 3].map(|k| f64::from_bits(bits(&case[k])));
        let expected = if case[5] == "-" { 0 } else { bits(&case[5]) };
        for make in &MAKES {
            let answer = (make.next_strength)(Trial { k: k1, l: l1 }, Trial { k: k2, l: l2 });
            let good = answer.number == number::<u32>(&case[4])
                && answer.place == 0
                && answer.strength.to_bits() == expected;
            tally.hold(good, || {
                format!("{} strength {case:?}: {answer:?}", make.name)
            });
        }
    }
}
