//! The report line of 113 bytes ("Verdict and report").

use crate::{Load, Refusal, Verdict};

const COLUMN: usize = 28;
pub const LINE: usize = 4 * COLUMN + 1;
/// The decimals of the desk program and of runs.
pub const SIX: usize = 6;

/// A number of decimals that a report can have (document 02, N5).
pub fn decimals(number: i64) -> Option<usize> {
    usize::try_from(number).ok().filter(|&number| number <= 7)
}

pub fn write(verdict: &Verdict, decimals: usize, line: &mut [u8; LINE]) {
    line.fill(b' ');
    line[LINE - 1] = b'\n';
    let (first, rest) = line.split_at_mut(COLUMN);
    let (second, rest) = rest.split_at_mut(COLUMN);
    let (third, fourth) = rest.split_at_mut(COLUMN);
    let fourth = &mut fourth[..COLUMN];
    match verdict {
        Err(Refusal { number, place }) => {
            put_count(first, u64::from(*number));
            put_count(second, u64::from(*place));
            put_word(third);
            put_word(fourth);
        }
        Ok(accepted) => {
            put_count(first, 0);
            match accepted.open_rows {
                Some(open) => put_count(second, open),
                None => put_word(second),
            }
            put_load(third, accepted.carried, decimals, floor);
            put_load(fourth, accepted.limit, decimals, ceiling);
        }
    }
}

/// A load times `unit`, rounded down.
fn floor(load: Load, unit: i128) -> i128 {
    (i128::from(load.numerator) * unit).div_euclid(i128::from(load.denominator))
}

/// A load times `unit`, rounded up.
fn ceiling(load: Load, unit: i128) -> i128 {
    -floor(
        Load {
            numerator: -load.numerator,
            ..load
        },
        unit,
    )
}

fn put_word(column: &mut [u8]) {
    column[COLUMN - 4..].copy_from_slice(b"none");
}

/// Writes digits that end before `end`; returns where they begin.
fn put_digits(column: &mut [u8], end: usize, mut number: u64) -> usize {
    let mut start = end;
    loop {
        start -= 1;
        column[start] = b'0' + (number % 10) as u8;
        number /= 10;
        if number == 0 {
            return start;
        }
    }
}

fn put_count(column: &mut [u8], number: u64) {
    put_digits(column, COLUMN, number);
}

/// A load with so many decimals, rounded once; with none there is no point.
fn put_load(column: &mut [u8], load: Option<Load>, decimals: usize, round: fn(Load, i128) -> i128) {
    let Some(load) = load else {
        return put_word(column);
    };
    let unit = 10i128.pow(decimals as u32);
    let rounded = round(load, unit);
    let (size, unit) = (rounded.unsigned_abs(), unit as u128);
    let mut end = COLUMN;
    if decimals > 0 {
        column[COLUMN - decimals..].fill(b'0');
        put_digits(column, COLUMN, (size % unit) as u64);
        end -= decimals + 1;
        column[end] = b'.';
    }
    let start = put_digits(column, end, (size / unit) as u64);
    if rounded < 0 {
        column[start - 1] = b'-';
    }
}
