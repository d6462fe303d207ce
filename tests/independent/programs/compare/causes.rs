//! Every refusal with each of its causes, one by one, with its place.
//! The answers were worked out by hand from documents 01 and 02.

mod base;
mod beds;
mod jumps;
mod layers;
mod overlaps;
mod pairs;
mod sides;
mod triangles;

use independent::sheet::Sheet;
pub use layers::tower;

/// A change to a sheet; lines and columns count from 1.
#[derive(Clone, Copy)]
pub enum Change {
    Mesh(usize, usize, i64),
    MeshLine(usize, &'static [i64]),
    /// A line that is put before this one.
    MeshInsert(usize, &'static [i64]),
    Table(usize, usize, i64),
    TableLine(usize, &'static [i64]),
    TableInsert(usize, &'static [i64]),
    NoTable,
    Claim(usize, usize, i64),
    /// One number at every node of the field.
    FieldColumn(usize, i64),
    NoMultipliers,
}

/// Changes, and the number and the place that they are answered with.
type Cause = (Vec<Change>, u32, u32);

type Listed = (&'static [Change], u32, u32);

/// A line, a column, and numbers beyond its limits: each is refused at the line.
type Beyond = (usize, usize, &'static [i64]);

/// A sheet and causes in it.
pub type Table = (Sheet, Vec<Cause>);

pub fn tables() -> Vec<Table> {
    let mut all = base::tables().to_vec();
    all.push(triangles::table());
    all.extend(pairs::tables());
    all.push(jumps::table());
    all.extend(layers::tables());
    all.extend(sides::tables());
    all.extend(overlaps::tables());
    all.push(beds::table());
    all
}

fn all(
    change: fn(usize, usize, i64) -> Change,
    number: u32,
    limits: &[Beyond],
    others: &[Listed],
) -> Vec<Cause> {
    let beyond = limits.iter().flat_map(|&(line, column, numbers)| {
        let at = move |&n| (vec![change(line, column, n)], number, line as u32);
        numbers.iter().map(at)
    });
    let listed = |&(changes, number, place): &Listed| (changes.to_vec(), number, place);
    beyond.chain(others.iter().map(listed)).collect()
}

/// The sheet with the changes of a cause.
pub fn changed(sheet: &Sheet, changes: &[Change]) -> Sheet {
    use Change::*;
    let mut sheet = sheet.clone();
    for change in changes {
        match *change {
            Mesh(line, column, number) => sheet.mesh[line - 1][column - 1] = number,
            MeshLine(line, numbers) => sheet.mesh[line - 1] = numbers.to_vec(),
            MeshInsert(line, numbers) => sheet.mesh.insert(line - 1, numbers.to_vec()),
            Table(line, column, number) => sheet.table[line - 1][column - 1] = number,
            TableLine(line, numbers) => sheet.table[line - 1] = numbers.to_vec(),
            TableInsert(line, numbers) => sheet.table.insert(line - 1, numbers.to_vec()),
            NoTable => sheet.table.clear(),
            Claim(line, column, number) => sheet.claim[line - 1][column - 1] = number,
            FieldColumn(column, number) => field(&mut sheet)
                .iter_mut()
                .for_each(|line| line[column - 1] = number),
            NoMultipliers => {
                let end = 1 + field(&mut sheet).len();
                sheet.claim.truncate(end);
            }
        }
    }
    sheet
}

/// The lines of the field.
fn field(sheet: &mut Sheet) -> &mut [Vec<i64>] {
    let nodes = sheet.mesh[0][0] as usize;
    &mut sheet.claim[1..1 + nodes]
}

/// Forms that are refused, in place of the last column of a line.
const MISSPELLED: [&[u8; 12]; 17] = [
    b"            ",
    b"           -",
    b"          -0",
    b"          +0",
    b"          00",
    b"          01",
    b"         -01",
    b"         - 1",
    b"         --1",
    b"0           ",
    b"          0 ",
    b"         1 0",
    b"         0.0",
    b"         1e0",
    b"          1-",
    b"          \t0",
    b"          0\r",
];

/// The bytes of a file with its form damaged, and the line that is at fault.
pub fn misformed(file: &[u8]) -> Vec<(Vec<u8>, u32)> {
    let ends: Vec<usize> = (0..file.len()).filter(|&k| file[k] == b'\n').collect();
    let mut all = vec![(Vec::new(), 1)];
    for (k, &end) in ends.iter().enumerate() {
        let line = k as u32 + 1;
        for spelling in MISSPELLED {
            let mut bytes = file.to_vec();
            bytes[end - 12..end].copy_from_slice(spelling);
            all.push((bytes, line));
        }
        all.push((file[..end].to_vec(), line));
        all.push((file[..end - 5].to_vec(), line));
        all.push((file[..end + 1].to_vec(), line + 1));
        all.push(([&file[..end], b"\r", &file[end..]].concat(), line));
        all.push(([&file[..end], b"           0", &file[end..]].concat(), line));
    }
    all.retain(|(bytes, _)| bytes != file);
    let after = ends.len() as u32 + 1;
    for rest in [&b"\n"[..], b" ", b"0", b"\0", b"           0\n"] {
        all.push(([file, rest].concat(), after));
    }
    all
}
