//! Inputs by the million, from a seed: grids, sheets and what fuzzing found, changed exactly, then so that the rows
//! decide, then in any number, line or byte. Each is put to every call. The inputs are the same for any number of
//! threads.

use crate::found::{self, Found};
use crate::random::Random;
use crate::tally::{How, Tally, LINE};
use crate::{books, damage, grids, late, strengths, symmetry};
use independent::sheet::{file, Files, Lists, Sheet};

/// Inputs that one generator makes, and of these the inputs made from one grid or sheet. Threads take blocks in turn.
const BLOCK: usize = 500;
const OF_ONE: usize = 5;

/// How often the counts so far are printed.
const STEP: usize = 1_000_000;

/// What inputs are made from.
pub struct Sources {
    pub sheets: Vec<Sheet>,
    pub found: Vec<Found>,
}

/// How many inputs, from which seed, in how many threads.
pub struct Amount {
    pub inputs: usize,
    pub seed: u64,
    pub threads: usize,
}

/// A sheet, the smaller of two most of the time: the largest take a hundred times as long.
fn listed<'a>(random: &mut Random, sheets: &'a [Sheet]) -> &'a Sheet {
    let (one, other) = (random.below(sheets.len()), random.below(sheets.len()));
    let (one, other) = (&sheets[one], &sheets[other]);
    let is_smaller = one.claim.len() + one.mesh.len() < other.claim.len() + other.mesh.len();
    if is_smaller || random.one_in(8) {
        one
    } else {
        other
    }
}

/// A grid or a listed sheet, changed exactly at times.
fn whole(tally: &mut Tally, random: &mut Random, from: &Sources) -> Sheet {
    let sheet = if random.one_in(2) {
        grids::sheet(random)
    } else {
        listed(random, &from.sheets).clone()
    };
    let changed = if random.one_in(2) {
        symmetry::changed(random, &sheet)
    } else {
        None
    };
    match changed {
        Some(changed) => {
            tally.same(&sheet, &changed);
            changed
        }
        None => sheet,
    }
}

/// The sheet, at times with changes that the shape passes, at times with any.
fn damaged(random: &mut Random, whole: &Sheet) -> Sheet {
    let mut sheet = whole.clone();
    match random.below(6) {
        0..=1 => (),
        2..=3 => (0..1 + random.below(2)).for_each(|_| late::change(random, &mut sheet)),
        _ => (0..1 + random.below(3)).for_each(|_| damage::sheet(random, &mut sheet)),
    }
    sheet
}

/// Up to three claims beside a sheet's own, each with one change.
fn more_claims(random: &mut Random, sheet: &Sheet) -> Vec<u8> {
    let mut more = Vec::new();
    for _ in 0..random.below(4) {
        let mut other = sheet.clone();
        late::change(random, &mut other);
        more.extend(file(&other.claim));
    }
    more
}

fn one(tally: &mut Tally, random: &mut Random, from: &Sources, whole: &Sheet) {
    let (mut files, mut lists, more) = if random.one_in(16) {
        let files = from.found[random.below(from.found.len())].files.clone();
        let lists = found::lists(&files);
        (files, lists, Vec::new())
    } else {
        let sheet = damaged(random, whole);
        let more = more_claims(random, &sheet);
        (sheet.files(), sheet.lists(), more)
    };
    let which = random.below(5);
    if random.one_in(6) {
        damage::bytes(
            random,
            [&mut files.mesh, &mut files.claim, &mut files.table][which % 3],
        );
    }
    if random.one_in(6) {
        damage::list(
            random,
            [&mut lists.mesh, &mut lists.claim, &mut lists.table][which % 3],
        );
    }
    put(tally, random, files, lists, &more);
    strengths::at_random(tally, random);
}

/// One input to every call that takes a mesh.
fn put(tally: &mut Tally, random: &mut Random, mut files: Files, lists: Lists, more: &[u8]) {
    tally.file(&files, How::at_random(random));
    tally.list(&lists);
    tally.sizes(&files);
    let book = books::any(random);
    let named = match random.below(8) {
        0 => book.count.wrapping_add(random.pick(&[1, u64::MAX])),
        _ => book.count,
    };
    tally.ask(book, &files);
    let next = tally.commit(book, named, &files).book;
    if random.one_in(4) {
        tally.commit(next, next.count, &files);
    }
    if random.one_in(2) {
        files.claim.extend(more);
    } else {
        files.claim = [more, &files.claim].concat();
    }
    let room = random.pick(&[0, LINE - 1, LINE, 2 * LINE, 5 * LINE, 5 * LINE, 5 * LINE]);
    tally.run(&files, room + random.below(3), random.below(256) as u8);
}

/// The blocks from one number to another that one thread makes: every one that is `first` more than a multiple of the
/// threads.
fn blocks(amount: &Amount, [start, end]: [usize; 2], from: &Sources, first: usize) -> Tally {
    let mut tally = Tally::default();
    for block in (start..end).filter(|block| block % amount.threads == first) {
        let mut random = Random::of_block(amount.seed, block as u64);
        for _ in 0..BLOCK / OF_ONE {
            let whole = whole(&mut tally, &mut random, from);
            (0..OF_ONE).for_each(|_| one(&mut tally, &mut random, from, &whole));
        }
        if !tally.agrees() {
            println!("in block {block} of seed {}", amount.seed);
            break;
        }
    }
    tally
}

/// As many inputs as are said, up to whole blocks; the first difference ends the run.
pub fn all(tally: &mut Tally, amount: &Amount, from: &Sources) {
    let end = amount.inputs.div_ceil(BLOCK);
    let steps: Vec<usize> = (0..end).step_by(STEP / BLOCK).chain([end]).collect();
    for step in steps.windows(2) {
        let tallies: Vec<Tally> = std::thread::scope(|scope| {
            let start =
                |first| scope.spawn(move || blocks(amount, [step[0], step[1]], from, first));
            let threads: Vec<_> = (0..amount.threads).map(start).collect();
            (threads.into_iter())
                .map(|thread| thread.join().expect("a thread"))
                .collect()
        });
        tallies.into_iter().for_each(|other| tally.add(other));
        if !tally.agrees() {
            break;
        }
        if step[1] < end {
            println!("after {} inputs:", step[1] * BLOCK);
            tally.print();
        }
    }
}
