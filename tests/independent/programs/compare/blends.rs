//! Blended sheets (document 02, N11): accepted fields for one mesh, weighted with whole numbers. Where
//! the blend stays within a claim's limits it is a claim, and is accepted; no limit is below its load.

use crate::grids;
use crate::random::Random;
use crate::tally::{How, Tally};
use independent::sheet::{file, Files, Lines};
use independent::Load;

/// The first claim's field `a` times and the second's `b` times, over one denominator.
fn blend(nodes: usize, first: &Lines, second: &Lines, [a, b]: [i64; 2]) -> Lines {
    let (n1, n2) = (first[0][2], second[0][2]);
    let mix = |one: &i64, other: &i64| a * n2 * one + b * n1 * other;
    let mut claim = vec![vec![
        1,
        0,
        (a + b) * n1 * n2,
        mix(&first[0][3], &second[0][3]),
    ]];
    for (one, other) in first[1..=nodes].iter().zip(&second[1..=nodes]) {
        claim.push(
            one.iter()
                .zip(other)
                .map(|(one, other)| mix(one, other))
                .collect(),
        );
    }
    claim
}

fn is_above(load: Load, limit: Load) -> bool {
    i128::from(load.numerator) * i128::from(limit.denominator)
        > i128::from(limit.numerator) * i128::from(load.denominator)
}

pub fn at_random(tally: &mut Tally, random: &mut Random) {
    let (mesh, table, claims) = grids::family(random, 6);
    let nodes = mesh[0][0] as usize;
    let (mesh, table) = (file(&mesh), file(&table));
    let judge = |claim: &Lines| independent::judge_files(&mesh, &table, &file(claim));
    let (mut fields, mut limits) = (Vec::new(), Vec::new());
    for claim in &claims {
        if let Ok(accepted) = judge(claim) {
            // Their loads count where they aren't told, too.
            fields.extend((accepted.has_field && claim[0][2] <= 50).then_some(claim));
            limits.extend(accepted.limit);
        }
    }
    for pair in fields.windows(2) {
        let weights = random.pick(&[[1, 1], [1, 0], [0, 3], [2, 5], [7, 1]]);
        let claim = blend(nodes, pair[0], pair[1], weights);
        let files = Files {
            mesh: mesh.clone(),
            table: table.clone(),
            claim: file(&claim),
        };
        tally.blends += 1;
        let load = Load {
            numerator: claim[0][3],
            denominator: claim[0][2],
        };
        let accepted = tally.file(&files, How::PLAIN).number == 0;
        if !accepted || limits.iter().any(|&limit| is_above(load, limit)) {
            tally.disagree(&format!("a blend with weights {weights:?}"), &files);
        }
    }
}
