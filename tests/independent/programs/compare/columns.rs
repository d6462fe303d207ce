//! Columns of twelve bytes, well formed and not (document 02, N4): a claim whose load is the column,
//! on a mesh that asks nothing of it, so that the report shows the column's value.

use crate::random::Random;
use crate::tally::Tally;
use independent::sheet::{file, Files, Sheet};

const WIDTH: usize = 12;

/// A mesh without edges and forces, and a field of zeros up to its load.
fn files() -> Files {
    let mut sheet = Sheet::worked();
    sheet.mesh[0][3] = 0;
    sheet.mesh.truncate(7);
    let mut claim = vec![vec![1, 0, 1, 0]];
    claim.extend(vec![vec![0; 3]; 4]);
    Files {
        mesh: file(&sheet.mesh),
        table: Vec::new(),
        claim: file(&claim),
    }
}

/// A column is well formed exactly where it is the printed form of a number.
fn printed(column: &[u8; WIDTH]) -> Option<i64> {
    let text = std::str::from_utf8(column).ok()?;
    let number: i64 = text.trim_start_matches(' ').parse().ok()?;
    (format!("{number:>WIDTH$}") == text).then_some(number)
}

struct Columns<'a> {
    tally: &'a mut Tally,
    files: Files,
}

impl Columns<'_> {
    /// Both programs give the answer that the printed form says.
    fn one(&mut self, column: &[u8; WIDTH]) {
        let (number, place, load) = match printed(column) {
            None => (11, 1, None),
            Some(l) if l.abs() > 100_000_000 => (12, 1, None),
            Some(l) => (0, 0, Some(l)),
        };
        self.files.claim[3 * WIDTH..4 * WIDTH].copy_from_slice(column);
        self.tally.expect(&self.files, number, place, 0);
        let shown = independent::judge_files(&self.files.mesh, b"", &self.files.claim).ok();
        let shown = shown
            .and_then(|accepted| accepted.carried)
            .map(|load| load.numerator);
        if shown != load {
            let what = format!("column {:?}", String::from_utf8_lossy(column));
            self.tally.disagree(&what, &self.files);
        }
    }

    /// Every ending of five bytes out of these, after spaces.
    fn endings(&mut self, bytes: &[u8]) {
        let mut column = [b' '; WIDTH];
        for k in 0..bytes.len().pow(5) {
            let mut rest = k;
            for byte in &mut column[WIDTH - 5..] {
                *byte = bytes[rest % bytes.len()];
                rest /= bytes.len();
            }
            self.one(&column);
        }
    }

    /// Every byte at every place of a column.
    fn every_byte(&mut self, kept: &[u8; WIDTH]) {
        for at in 0..WIDTH {
            let mut column = *kept;
            for byte in 0..=255 {
                column[at] = byte;
                self.one(&column);
            }
        }
    }

    /// Spaces, a minus at times, digits; then at times one byte of it changed.
    fn at_random(&mut self, random: &mut Random) {
        let mut column = [b' '; WIDTH];
        let start = random.below(WIDTH);
        column[start..].fill_with(|| random.pick(b"0123456789"));
        if random.one_in(3) {
            column[start] = b'-';
        }
        if random.one_in(4) {
            column[random.below(WIDTH)] = random.pick(b" -+0\n\t.");
        }
        self.one(&column);
    }
}

pub fn all(tally: &mut Tally, random: &mut Random) {
    let files = files();
    let mut columns = Columns { tally, files };
    columns.endings(b" -019+");
    columns.every_byte(b"            ");
    columns.every_byte(b"           0");
    columns.every_byte(b"   -10000000");
    columns.every_byte(b"-12345678901");
    columns.every_byte(b"123456789012");
    (0..20_000).for_each(|_| columns.at_random(random));
}
