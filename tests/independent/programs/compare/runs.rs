//! Runs of claims on one mesh (document 02, N3): by hand, and made at random.

use crate::causes::{changed, Change};
use crate::damage;
use crate::grids;
use crate::random::Random;
use crate::tally::{Tally, LINE};
use independent::sheet::{file, Files, Sheet};
use independent::Run;

/// A mesh, claims as they stand one after another, the bytes of the buffer, and what comes of it.
type Listed<'a> = (&'a [u8], &'a [&'a [u8]], usize, u64, usize);

/// Runs whose answers were worked out by hand.
pub fn by_hand(tally: &mut Tally) {
    let worked = Sheet::worked();
    let claim = |changes: &[Change]| changed(&worked, changes).files().claim;
    let (mesh, good) = (worked.files().mesh, claim(&[]));
    let beyond = claim(&[Change::FieldColumn(2, -21), Change::Claim(1, 4, 21)]);
    let limit = claim(&[Change::Claim(9, 4, 100_001)]);
    let neither = claim(&[Change::Claim(1, 3, 0)]);
    let field = claim(&[Change::Claim(1, 2, 0), Change::NoMultipliers]);
    let (whole, part) = (good.len(), field.len());
    let cases: [Listed; 21] = [
        (&mesh, &[&good, &good], 2 * LINE, 2, 2 * whole),
        (&mesh, &[&good, &good], 2 * LINE + 112, 2, 2 * whole),
        (&mesh, &[&good, &good], 2 * LINE - 1, 1, whole),
        (&mesh, &[&good, &good], LINE - 1, 0, 0),
        (&mesh, &[&good, &good], 0, 0, 0),
        (&mesh, &[&good, &good], 5 * LINE, 2, 2 * whole),
        (&mesh, &[], 5 * LINE, 0, 0),
        (&mesh, &[], 0, 0, 0),
        (
            &mesh,
            &[&good, &field, &good],
            5 * LINE,
            3,
            2 * whole + part,
        ),
        // 22 does not end a run; 11, 12 and 13 do, and their bytes aren't taken.
        (&mesh, &[&good, &beyond, &good], 5 * LINE, 3, 3 * whole),
        (&mesh, &[&good, &limit, &good], 5 * LINE, 2, whole),
        (&mesh, &[&field, &neither, &good], 5 * LINE, 2, part),
        (&mesh, &[&good, &good[..whole - 1]], 5 * LINE, 2, whole),
        (&mesh, &[&good, &good[..30], &good], 5 * LINE, 2, whole),
        (&mesh, &[&field[..part - 1]], 5 * LINE, 1, 0),
        (&mesh, &[&good, b"\n"], 5 * LINE, 2, whole),
        (&mesh, &[&good, b"\n"], LINE, 1, whole),
        // A refused mesh: one report, even with no claim byte; none without room.
        (&good, &[&good, &good], 5 * LINE, 1, 0),
        (&good, &[], LINE, 1, 0),
        (&good, &[&good], LINE - 1, 0, 0),
        (b"", &[], LINE, 1, 0),
    ];
    for (k, (mesh, claims, room, reports, bytes)) in cases.into_iter().enumerate() {
        let files = Files {
            mesh: mesh.to_vec(),
            table: Vec::new(),
            claim: claims.concat(),
        };
        let run = tally.run(&files, room, b'#');
        let bytes = bytes as u64;
        if run != (Run { reports, bytes }) {
            tally.disagree(&format!("{run:?}: run {k} by hand"), &files);
        }
    }
}

/// What single calls say of claims that are well formed, or of the last of them if it is not.
fn by_single_calls(files: &Files, claims: &[Vec<u8>], room: usize) -> (Run, Vec<u8>) {
    let (mut run, mut written) = (Run::default(), Vec::new());
    for claim in claims {
        if written.len() + LINE > room {
            break;
        }
        let mut report = [0; LINE];
        let answer = independent::check(&files.mesh, &files.table, claim, 6, &mut report);
        written.extend(report);
        run.reports += 1;
        if answer.number < 20 && answer.number != 0 {
            break;
        }
        run.bytes += claim.len() as u64;
    }
    (run, written)
}

/// A mesh with several claims, the last of them cut short or damaged at times; then damage to both.
pub fn at_random(tally: &mut Tally, random: &mut Random) {
    let count = random.below(7);
    let (mesh, table, claims) = grids::family(random, count);
    let mut claims: Vec<_> = claims.iter().map(file).collect();
    if let (Some(last), true) = (claims.last_mut(), random.one_in(2)) {
        last.truncate(random.below(last.len()) + 1);
    }
    let room = random.pick(&[0, 112, 113, 300, 4 * LINE, 8 * LINE]) + random.below(3);
    let mut files = Files {
        mesh: file(&mesh),
        table: file(&table),
        claim: claims.concat(),
    };
    let run = tally.run(&files, room, b'#');
    let (expected, written) = by_single_calls(&files, &claims, room);
    let mut reports = vec![0; room];
    independent::check_run(&files.mesh, &files.table, &files.claim, &mut reports);
    let accepted =
        independent::check(&files.mesh, &files.table, b"", 6, &mut [0; LINE]).number == 11;
    if accepted && (run != expected || !reports.starts_with(&written)) {
        tally.disagree(&format!("{run:?}, by single calls {expected:?}"), &files);
    }
    let damaged = match random.below(8) {
        0 => &mut files.mesh,
        1 => &mut files.table,
        _ => &mut files.claim,
    };
    damage::bytes(random, damaged);
    tally.run(&files, room, random.below(256) as u8);
}
