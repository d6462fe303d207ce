//! Where numbers come from, line by line: the bytes of a file, or a list of numbers that the
//! counts of its header cut into lines ("The two files").

/// Characters of a column.
pub const WIDTH: usize = 12;

pub trait Lines {
    /// The next line, of as many numbers as `out` has room for; false where it is not well formed.
    fn next(&mut self, out: &mut [i64]) -> bool;
    /// Nothing is left over.
    fn at_end(&self) -> bool;
}

/// The bytes of a file that are left.
impl Lines for &[u8] {
    fn next(&mut self, out: &mut [i64]) -> bool {
        let length = WIDTH * out.len();
        if self.len() <= length || self[length] != b'\n' {
            return false;
        }
        let (columns, _) = self[..length].as_chunks::<WIDTH>();
        for (number, column) in out.iter_mut().zip(columns) {
            match spelled(column) {
                Some(value) => *number = value,
                None => return false,
            }
        }
        *self = &self[length + 1..];
        true
    }

    fn at_end(&self) -> bool {
        self.is_empty()
    }
}

/// The numbers of a list that are left.
impl Lines for &[i64] {
    fn next(&mut self, out: &mut [i64]) -> bool {
        let Some((line, rest)) = self.split_at_checked(out.len()) else {
            return false;
        };
        out.copy_from_slice(line);
        *self = rest;
        true
    }

    fn at_end(&self) -> bool {
        self.is_empty()
    }
}

/// The value of a column: spaces, then a minus if any, then digits without a leading zero;
/// a zero has no minus.
fn spelled(column: &[u8; WIDTH]) -> Option<i64> {
    // Most numbers are short: eight spaces are passed at once.
    let mut start = if column[..8] == *b"        " { 8 } else { 0 };
    while start < WIDTH - 1 && column[start] == b' ' {
        start += 1;
    }
    match column[start] {
        b'-' => Some(-positive(&column[start + 1..])?),
        b'0' if start == WIDTH - 1 => Some(0),
        _ => positive(&column[start..]),
    }
}

fn positive(digits: &[u8]) -> Option<i64> {
    if digits.first().map_or(true, |&first| first == b'0') {
        return None;
    }
    let mut value = 0i64;
    for &byte in digits {
        let digit = byte.wrapping_sub(b'0');
        if digit > 9 {
            return None;
        }
        value = 10 * value + i64::from(digit);
    }
    Some(value)
}
