//! Sheets as lines of numbers, and how a file of them is written. Only the tests need it.

use crate::lines::WIDTH;

/// The lines of one file.
pub type Lines = Vec<Vec<i64>>;

#[derive(Clone)]
pub struct Sheet {
    pub mesh: Lines,
    /// The borehole table; without lines there is none.
    pub table: Lines,
    pub claim: Lines,
}

/// The bytes of a sheet's files.
#[derive(Clone)]
pub struct Files {
    pub mesh: Vec<u8>,
    pub table: Vec<u8>,
    pub claim: Vec<u8>,
}

/// A sheet's numbers, file by file.
#[derive(Clone)]
pub struct Lists {
    pub mesh: Vec<i64>,
    pub table: Vec<i64>,
    pub claim: Vec<i64>,
}

/// The lines of a file as document 01 prints them: numbers apart by a space, lines by " / ".
pub fn printed(text: &str) -> Lines {
    let line = |line: &str| {
        line.split_whitespace()
            .map(|n| n.parse().expect("a number"))
            .collect()
    };
    text.split('/').map(line).collect()
}

/// A number at the end of a column; one that is wider makes the line longer.
fn push_column(bytes: &mut Vec<u8>, number: i64) {
    let mut rest = number.unsigned_abs();
    if rest > 99_999_999_999 {
        return bytes.extend(format!("{number:>WIDTH$}").into_bytes());
    }
    let mut column = [b' '; WIDTH];
    let mut at = WIDTH;
    while at == WIDTH || rest > 0 {
        at -= 1;
        column[at] = b'0' + (rest % 10) as u8;
        rest /= 10;
    }
    if number < 0 {
        column[at - 1] = b'-';
    }
    bytes.extend(column);
}

/// The bytes of a file.
pub fn file(lines: &Lines) -> Vec<u8> {
    let mut bytes = Vec::new();
    for line in lines {
        line.iter()
            .for_each(|&number| push_column(&mut bytes, number));
        bytes.push(b'\n');
    }
    bytes
}

/// The numbers of a file, line by line; none where a column is none or a line does not end.
fn read(bytes: &[u8]) -> Option<Lines> {
    if bytes.is_empty() {
        return Some(Lines::new());
    }
    let column = |c: &[u8]| std::str::from_utf8(c).ok()?.trim_start().parse().ok();
    let line = |line: &[u8]| line.chunks(WIDTH).map(column).collect();
    let body = bytes.strip_suffix(b"\n")?;
    body.split(|&byte| byte == b'\n').map(line).collect()
}

impl Files {
    /// The sheet that these are the files of.
    pub fn sheet(&self) -> Option<Sheet> {
        Some(Sheet {
            mesh: read(&self.mesh)?,
            table: read(&self.table)?,
            claim: read(&self.claim)?,
        })
    }
}

impl Sheet {
    /// Document 01's whole sheet.
    pub fn worked() -> Sheet {
        let zeros = "0 0 0 0 0 0 0 0 0 0 0 0";
        let third = "1 0 0 0 0 0 0 0 0 0 0 1";
        let field = "1 1 1 20 / 0 -20 0 / 0 -20 0 / 0 -20 0 / 0 -20 0";
        let equalities = "0 0 / 30 0 0 0 / 0 0 -30 0 / 0 0 0 0";
        Sheet {
            mesh: printed(
                "4 1 1 3 12 0 / 0 1 1 10 0 0 0 0 0 0 / 0 0 / 1 0 / 1 1 / 0 1 / 1 2 3 4 1 / \
                 3 4 3 0 0 -1 0 / 2 3 3 0 0 0 0 / 4 1 3 0 0 0 0",
            ),
            table: Lines::new(),
            claim: printed(&format!(
                "{field} / {equalities} / {zeros} / {zeros} / {third} / {zeros}"
            )),
        }
    }

    pub fn files(&self) -> Files {
        Files {
            mesh: file(&self.mesh),
            table: file(&self.table),
            claim: file(&self.claim),
        }
    }

    pub fn lists(&self) -> Lists {
        Lists {
            mesh: self.mesh.concat(),
            table: self.table.concat(),
            claim: self.claim.concat(),
        }
    }
}
