//! Runs of claims: name, bytes of the buffer, reports, bytes taken; NAME.out is all that is written.

use crate::{answers, file, number, Tally, FILL, MAKES};
use independent::Run;

pub fn all(tally: &mut Tally, folder: &str) {
    for case in answers(&format!("{folder}/expected")) {
        let part = |ending: &str| file(&format!("{folder}/{}.{ending}", case[0]));
        let (mesh, table, claims) = (part("mesh"), part("table"), part("claims"));
        let mut written = part("out");
        let expected = Run {
            reports: number(&case[2]),
            bytes: number(&case[3]),
        };
        let room = number(&case[1]);
        written.resize(room, FILL);
        for make in &MAKES {
            let mut reports = vec![FILL; room];
            let run = (make.check_run)(&mesh, &table, &claims, &mut reports);
            let good = run == expected && reports == written;
            tally.hold(good, || format!("{} run {case:?}: {run:?}", make.name));
        }
    }
}
