//! The proved program beside the independent implementation, entry by entry and sheet by sheet.
//! bench times: nanoseconds of each entry on each sheet. bench once ENTRY: the entry once by each
//! program on each sheet, and the names of the sheets. bench growth: the same for a check on sheets that grow.
//! bench only ENTRY SHEET: the same on one sheet, for a tool that counts instructions.

// The test of the archive has the entries and the random numbers.
#[path = "../tests/independent/programs/compare/archive.rs"]
mod archive;
mod entries;
mod full_claims;
mod grounds;
mod made;
#[allow(dead_code)]
#[path = "../tests/independent/programs/compare/random.rs"]
mod random;
mod sheets;
mod times;

use entries::{independent_call, proved_call, Entry, BLANK};
use sheets::Timed;
use times::Timing;

/// The sheets of `sheets/` that are timed.
const SHIPPED: [&str; 6] = [
    "worked",
    "footing_20",
    "largest",
    "table_slope",
    "bedded_slope",
    "footing_largest_108",
];

const PASSES: usize = 5;

fn all_sheets() -> Vec<Timed> {
    let shipped = SHIPPED.iter().map(|name| Timed::shipped(name));
    shipped.chain(made::all()).collect()
}

/// Every entry on every sheet; the next strength, which reads no mesh, once. The best of some passes over all, so that
/// other work that comes and goes slows none of them each time.
fn all_timings(sheets: &[Timed]) -> Vec<Timing<'_>> {
    let mut all = Vec::new();
    for entry in Entry::ALL {
        let count = if entry == Entry::Strength {
            1
        } else {
            sheets.len()
        };
        for sheet in &sheets[..count] {
            once(entry, sheet);
            all.push(Timing::new(entry, sheet));
        }
    }
    for _ in 0..PASSES {
        all.iter_mut().for_each(Timing::pass);
    }
    all
}

fn times() {
    for timing in all_timings(&all_sheets()) {
        let reads_mesh = timing.entry != Entry::Strength;
        let sheet = if reads_mesh { &timing.sheet.name } else { "-" };
        let [proved, independent] = timing.nanoseconds;
        let entry = timing.entry.name();
        println!("{entry}\t{sheet}\t{proved:.1}\t{independent:.1}");
    }
}

/// The entry by each program, which answer and write the same. Twice, and the second time is the one to count: the
/// first also binds symbols and asks for memory that later calls find there.
fn once(entry: Entry, sheet: &Timed) {
    for _ in 0..2 {
        let [mut by_proved, mut by_independent] = [BLANK; 2];
        let proved = proved_call(entry, sheet, &mut by_proved);
        let independent = independent_call(entry, sheet, &mut by_independent);
        assert_eq!(proved, independent, "{}", sheet.name);
        assert_eq!(by_proved, by_independent, "{}", sheet.name);
    }
}

fn growth() {
    for series in made::series() {
        for (nodes, sheet) in &series.sheets {
            let sheet = Timed::of(series.name, sheet);
            once(Entry::Check, &sheet);
            println!("{}\t{nodes}\t{}", sheet.name, sheet.bytes());
        }
    }
}

fn main() {
    let words: Vec<String> = std::env::args().skip(1).collect();
    let words: Vec<&str> = words.iter().map(String::as_str).collect();
    match words[..] {
        ["times"] => times(),
        ["growth"] => growth(),
        ["once", entry] => {
            for sheet in all_sheets() {
                once(Entry::named(entry), &sheet);
                println!("{}\t{}", sheet.name, sheet.bytes());
            }
        }
        ["only", entry, name] => {
            let is_named = |sheet: &Timed| sheet.name == name;
            let sheet = all_sheets().into_iter().find(is_named);
            once(Entry::named(entry), &sheet.expect("a sheet"));
        }
        _ => panic!("times, growth, once ENTRY or only ENTRY SHEET"),
    }
}
