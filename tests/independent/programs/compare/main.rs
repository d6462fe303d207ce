//! Holds the proved program against the independent implementation, on sheets, on grids and on
//! damaged ones of both: answer, line and every byte of the buffer, for files and for numbers.
//! Arguments: `all`, or `many` for nothing but inputs by the million; how many of these, their seed, and the threads
//! that make them; a folder of inputs that fuzzing found; then the sheets, each as a .mesh, a .claim and perhaps a
//! .table file of one name.

mod archive;
mod blends;
mod books;
mod causes;
mod columns;
mod damage;
mod exact;
mod found;
// The bench takes an accepted grid of a given size.
#[allow(dead_code)]
mod grids;
mod late;
mod many;
mod overlaps;
mod random;
mod runs;
mod strengths;
mod symmetry;
mod tally;

use found::Found;
use independent::sheet::{Files, Sheet};
use many::{Amount, Sources};
use random::Random;
use tally::{How, Tally};

/// Every buffer length up to 120 with every number of decimals, on an accepted and on a refused sheet.
fn every_call(tally: &mut Tally, sheet: &Sheet) {
    let accepted = sheet.files();
    let mut refused = accepted.clone();
    refused.claim.pop();
    for room in 0..=120 {
        for decimals in [-2, -1, 0, 1, 2, 3, 4, 5, 6, 7, 8, 9, i64::MIN, i64::MAX] {
            for (files, fill) in [(&accepted, b'#'), (&refused, 0)] {
                let how = How {
                    decimals,
                    room,
                    fill,
                };
                let number = tally.file(files, how).number;
                let expected = match (decimals, room) {
                    (0..=7, 113..) => number,
                    (0..=7, _) => 41,
                    _ => 43,
                };
                if number != expected {
                    tally.disagree(&format!("{number}, by hand {expected}: {how:?}"), files);
                }
            }
        }
    }
}

/// Every length of both files, and every byte of the mesh replaced.
fn every_byte(tally: &mut Tally, random: &mut Random, sheet: &Sheet) {
    let whole = sheet.files();
    let mut cut = whole.clone();
    while cut.mesh.pop().is_some() {
        tally.file(&cut, How::PLAIN);
    }
    let mut cut = whole.clone();
    while cut.claim.pop().is_some() {
        tally.file(&cut, How::PLAIN);
    }
    let mut cut = whole.clone();
    while cut.table.pop().is_some() {
        tally.file(&cut, How::PLAIN);
    }
    let mut changed = whole.clone();
    for at in 0..whole.mesh.len() {
        for byte in [b' ', b'0', b'1', b'-', b'\n', random.below(256) as u8] {
            changed.mesh[at] = byte;
            tally.file(&changed, How::PLAIN);
        }
        changed.mesh[at] = whole.mesh[at];
    }
}

/// Each cause gets the answer that was worked out for it, from both.
fn every_cause(tally: &mut Tally, random: &mut Random) {
    for (sheet, table) in &causes::tables() {
        for (k, (changes, number, place)) in table.iter().enumerate() {
            let changed = causes::changed(sheet, changes);
            tally.expect(&changed.files(), *number, *place, k);
            tally.sheet(random, &changed);
        }
        if !sheet.claim.is_empty() && sheet.table.len() <= 32 {
            every_form(tally, &sheet.files());
        }
    }
}

/// Each file with its form damaged.
fn every_form(tally: &mut Tally, whole: &Files) {
    for (k, (mesh, line)) in causes::misformed(&whole.mesh).into_iter().enumerate() {
        let files = Files {
            mesh,
            ..whole.clone()
        };
        tally.expect(&files, 1, line, k);
    }
    for (k, (table, line)) in causes::misformed(&whole.table).into_iter().enumerate() {
        // A table that ends after a line is a shorter table.
        let is_shorter = whole.table.starts_with(&table) && table.ends_with(b"\n");
        if whole.table.is_empty() || table.is_empty() || is_shorter {
            continue;
        }
        let files = Files {
            table,
            ..whole.clone()
        };
        tally.expect(&files, 1, 1000 + line, k);
    }
    for (k, (claim, line)) in causes::misformed(&whole.claim).into_iter().enumerate() {
        let files = Files {
            claim,
            ..whole.clone()
        };
        tally.expect(&files, 11, line, k);
    }
}

/// One sheet with up to three changes to its numbers, then to its bytes, then to its lists.
fn damaged(tally: &mut Tally, random: &mut Random, seed: &Sheet) {
    let mut sheet = seed.clone();
    for _ in 0..1 + random.below(3) {
        damage::sheet(random, &mut sheet);
    }
    tally.sheet(random, &sheet);
    let kept = if random.one_in(2) { seed } else { &sheet };
    let (mut files, mut lists) = (kept.files(), kept.lists());
    let (bytes, list) = match random.below(5) {
        0..=1 => (&mut files.mesh, &mut lists.mesh),
        2..=3 => (&mut files.claim, &mut lists.claim),
        _ => (&mut files.table, &mut lists.table),
    };
    damage::bytes(random, bytes);
    damage::list(random, list);
    tally.file(&files, How::PLAIN);
    tally.list(&lists);
}

fn read_sheet(name: &str) -> Sheet {
    let part = |ending: &str| std::fs::read(format!("{name}.{ending}")).expect("a sheet's file");
    let files = Files {
        mesh: part("mesh"),
        table: std::fs::read(format!("{name}.table")).unwrap_or_default(),
        claim: part("claim"),
    };
    files.sheet().expect("a sheet's numbers")
}

/// The comparison that the gate makes, but for inputs by the million.
fn all(tally: &mut Tally, random: &mut Random, from: &Sources) {
    from.found.iter().for_each(|found| found.put(tally));
    from.sheets
        .iter()
        .for_each(|sheet| tally.sheet(random, sheet));
    every_cause(tally, random);
    every_call(tally, &Sheet::worked());
    every_byte(tally, random, &Sheet::worked());
    every_byte(tally, random, &causes::tower());
    for _ in 0..30_000 {
        let grid = grids::sheet(random);
        tally.sheet(random, &grid);
        damaged(tally, random, &grid);
    }
    columns::all(tally, random);
    (0..20_000).for_each(|_| overlaps::at_random(tally, random));
    (0..2_000).for_each(|_| blends::at_random(tally, random));
    books::by_hand(tally);
    (0..2_000).for_each(|_| books::at_random(tally, random));
    runs::by_hand(tally);
    (0..6_000).for_each(|_| runs::at_random(tally, random));
    for _ in 0..500 {
        from.sheets
            .iter()
            .for_each(|sheet| damaged(tally, random, sheet));
    }
    strengths::all(tally, random);
}

fn main() {
    let mut arguments = std::env::args().skip(1);
    let mut next = || arguments.next().expect("an argument");
    let what = next();
    let [inputs, seed, threads] = [0; 3].map(|_| next().parse::<u64>().expect("a whole number"));
    let found = Found::all(&next());
    let mut sheets: Vec<Sheet> = arguments.map(|name| read_sheet(&name)).collect();
    println!(
        "sheets: {}, found by fuzzing: {}",
        sheets.len(),
        found.len()
    );
    sheets.push(Sheet::worked());
    let mut from = Sources { sheets, found };
    let mut tally = Tally::default();
    if what == "all" {
        all(&mut tally, &mut Random::new(0x9E37_79B9_7F4A_7C15), &from);
    }
    let of_causes = causes::tables().into_iter().map(|(sheet, _)| sheet);
    let of_found = from.found.iter().filter_map(|found| found.files.sheet());
    let with_claims = of_causes
        .chain(of_found)
        .filter(|sheet| !sheet.claim.is_empty());
    from.sheets.extend(with_claims);
    let amount = Amount {
        inputs: inputs as usize,
        seed,
        threads: threads as usize,
    };
    many::all(&mut tally, &amount, &from);
    tally.print();
    std::process::exit(if tally.good() { 0 } else { 1 });
}
