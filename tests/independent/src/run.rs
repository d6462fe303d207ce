//! Claims for one mesh, written one after another (document 02, N3).

use crate::claim::Claim;
use crate::mesh::Mesh;
use crate::report;
use crate::{judge_claim, Verdict};

/// Reports written and claim bytes taken.
#[repr(C)]
#[derive(Clone, Copy, Debug, Default, PartialEq, Eq)]
pub struct Run {
    pub reports: u64,
    pub bytes: u64,
}

/// The reports of the claims in turn, as long as there is room for one more.
pub fn check_run(mesh: &[u8], table: &[u8], claims: &[u8], reports: &mut [u8]) -> Run {
    let mut run = Run::default();
    let mut rooms = reports.as_chunks_mut::<{ report::LINE }>().0.iter_mut();
    let Some(first) = rooms.next() else {
        return run;
    };
    let mesh = match Mesh::read(mesh, table) {
        Ok(mesh) => mesh,
        Err(refusal) => {
            report::write(&Err(refusal), report::SIX, first);
            run.reports = 1;
            return run;
        }
    };
    let mut rest = claims;
    for room in std::iter::once(first).chain(rooms) {
        if rest.is_empty() {
            break;
        }
        let (verdict, after) = next_claim(&mesh, rest);
        report::write(&verdict, report::SIX, room);
        run.reports += 1;
        let Some(after) = after else {
            break;
        };
        rest = after;
    }
    run.bytes = (claims.len() - rest.len()) as u64;
    run
}

/// The verdict on the claim in front, and the bytes after it; none after 11, 12 or 13.
fn next_claim<'a>(mesh: &Mesh, claims: &'a [u8]) -> (Verdict, Option<&'a [u8]>) {
    let mut rest = claims;
    match Claim::read_front(&mut rest, mesh) {
        Ok(claim) => (judge_claim(mesh, &claim), Some(rest)),
        Err(refusal) => (Err(refusal), None),
    }
}
