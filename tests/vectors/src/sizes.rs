//! Sizes of meshes: name, number, place, kind of place, then the eight sizes, or `-`.

use crate::{answers, file, number, Tally, MAKES};
use independent::Sizes;

fn expected(case: &[String]) -> Sizes {
    let size = |k: usize| number(&case[4 + k]);
    let refused = Sizes {
        number: number(&case[1]),
        place: number(&case[2]),
        ..Sizes::default()
    };
    if case[4] == "-" {
        return refused;
    }
    Sizes {
        balance_rows: size(0),
        side_rows: size(1),
        jump_rows: size(2),
        strength_rows: size(3),
        columns: size(4),
        field_bytes: size(5),
        multipliers_bytes: size(6),
        both_bytes: size(7),
        ..refused
    }
}

pub fn all(tally: &mut Tally, folder: &str) {
    for case in answers(&format!("{folder}/sizes")) {
        let part = |ending: &str| file(&format!("{folder}/{}.{ending}", case[0]));
        let (mesh, table) = (part("mesh"), part("table"));
        for make in &MAKES {
            let sizes = (make.mesh_sizes)(&mesh, &table);
            let good = sizes == expected(&case);
            tally.hold(good, || format!("{} sizes {case:?}: {sizes:?}", make.name));
        }
    }
}
