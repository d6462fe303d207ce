//! Binary64 numbers in whole numbers: differences, products and quotients, each exact and then rounded
//! once to the nearest, a tie to the even one. No floating point operation is used.

/// ± mantissa · 2^exponent.
#[derive(Clone, Copy)]
pub struct Exact {
    negative: bool,
    mantissa: u128,
    exponent: i32,
}

/// The lowest exponent of a binary64 number's last bit, and the highest.
const LOWEST: i32 = -1074;
const HIGHEST: i32 = 971;
/// How far a number is moved, so that what is lost lies well below the last bit.
const ROOM: i32 = 70;

fn bits(number: u128) -> i32 {
    128 - number.leading_zeros() as i32
}

impl Exact {
    /// A finite number.
    pub fn of(number: f64) -> Exact {
        let all = number.to_bits();
        let (field, fraction) = (
            (all >> 52 & 0x7FF) as i32,
            u128::from(all & ((1 << 52) - 1)),
        );
        let (mantissa, exponent) = if field == 0 {
            (fraction, LOWEST)
        } else {
            (fraction | 1 << 52, field - 1075)
        };
        Exact {
            negative: all >> 63 == 1,
            mantissa,
            exponent,
        }
    }

    /// Above 0, as binary64.
    pub fn positive(self) -> Option<f64> {
        if self.negative || self.mantissa == 0 {
            return None;
        }
        let all = if self.mantissa < 1 << 52 {
            self.mantissa as u64
        } else {
            ((self.exponent + 1075) as u64) << 52 | (self.mantissa as u64 & ((1 << 52) - 1))
        };
        Some(f64::from_bits(all))
    }

    /// Rounded to binary64; none where that is beyond all finite numbers.
    fn rounded(self) -> Option<Exact> {
        if self.mantissa == 0 {
            return Some(Exact {
                exponent: LOWEST,
                ..self
            });
        }
        let exponent = (self.exponent + bits(self.mantissa) - 53).max(LOWEST);
        let shift = exponent - self.exponent;
        if shift <= 0 {
            let mantissa = self.mantissa << -shift;
            return (exponent <= HIGHEST).then_some(Exact {
                mantissa,
                exponent,
                ..self
            });
        }
        let kept = if shift < 128 {
            self.mantissa >> shift
        } else {
            0
        };
        let (lost, half) = (
            self.mantissa - (kept << shift.min(127)),
            1 << (shift - 1).min(127),
        );
        let up = lost > half || lost == half && kept & 1 == 1;
        let mantissa = kept + u128::from(up);
        let (mantissa, exponent) = if mantissa == 1 << 53 {
            (1 << 52, exponent + 1)
        } else {
            (mantissa, exponent)
        };
        (exponent <= HIGHEST).then_some(Exact {
            mantissa,
            exponent,
            ..self
        })
    }

    pub fn times(self, other: Exact) -> Option<Exact> {
        Exact {
            negative: self.negative != other.negative,
            mantissa: self.mantissa * other.mantissa,
            exponent: self.exponent + other.exponent,
        }
        .rounded()
    }

    /// The mantissa over 2^exponent; what lies below is told by a last bit.
    fn over(self, exponent: i32) -> i128 {
        let shift = self.exponent - exponent;
        let size = if shift >= 0 {
            self.mantissa << shift
        } else {
            u128::from(self.mantissa != 0)
        };
        if self.negative {
            -(size as i128)
        } else {
            size as i128
        }
    }

    pub fn minus(self, other: Exact) -> Option<Exact> {
        let highest = self.exponent.max(other.exponent);
        let exponent = self.exponent.min(other.exponent).max(highest - ROOM);
        let difference = self.over(exponent) - other.over(exponent);
        Exact {
            negative: difference < 0,
            mantissa: difference.unsigned_abs(),
            exponent,
        }
        .rounded()
    }

    /// The divisor isn't 0.
    pub fn divided_by(self, other: Exact) -> Option<Exact> {
        let up = if self.mantissa == 0 {
            0
        } else {
            53 - bits(self.mantissa) + ROOM
        };
        let dividend = self.mantissa << up;
        let (quotient, rest) = (dividend / other.mantissa, dividend % other.mantissa);
        Exact {
            negative: self.negative != other.negative,
            mantissa: quotient << 1 | u128::from(rest != 0),
            exponent: self.exponent - up - other.exponent - 1,
        }
        .rounded()
    }

    /// A fraction of whole numbers, rounded once.
    pub fn of_fraction(numerator: i64, denominator: i64) -> Option<Exact> {
        let whole = |number: i64| Exact {
            negative: number < 0,
            mantissa: u128::from(number.unsigned_abs()),
            exponent: 0,
        };
        whole(numerator).divided_by(whole(denominator))
    }
}
