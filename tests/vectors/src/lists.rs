//! Numbers handed over: name, number, place, kind of place, l, n, W, m, open rows.

use crate::{answers, number, Tally, MAKES};
use independent::Numbers;

/// The numbers of one line.
fn list(line: Option<&str>) -> Vec<i64> {
    let words = line.unwrap_or("").split_whitespace();
    words.map(number).collect()
}

/// The same load as a fraction; `-` stands for none, which is 0 over 0.
fn same(numerator: i64, denominator: i64, expected: &[String]) -> bool {
    if expected[0] == "-" {
        return (numerator, denominator) == (0, 0);
    }
    let [above, below] = [0, 1].map(|k| number::<i128>(&expected[k]));
    denominator > 0 && i128::from(numerator) * below == i128::from(denominator) * above
}

fn agrees(answer: &Numbers, claim: &[i64], case: &[String]) -> bool {
    let accepted = answer.number == 0;
    let part = |k: usize| if accepted { claim[k] as u32 } else { 0 };
    let open_rows = if case[8] == "-" { 0 } else { number(&case[8]) };
    answer.number == number::<u32>(&case[1])
        && answer.place == number::<u32>(&case[2])
        && (answer.field, answer.multipliers) == (part(0), part(1))
        && same(answer.l, answer.n, &case[4..6])
        && same(answer.w, answer.m, &case[6..8])
        && answer.open_rows == open_rows
}

pub fn all(tally: &mut Tally, folder: &str) {
    for case in answers(&format!("{folder}/expected")) {
        let name = format!("{folder}/{}.txt", case[0]);
        let text = std::fs::read_to_string(name).expect("the numbers of a case");
        let mut lines = text.lines();
        let [mesh, claim, table] = [0; 3].map(|_| list(lines.next()));
        for make in &MAKES {
            let answer = (make.check_numbers)(&mesh, &table, &claim);
            let good = agrees(&answer, &claim, &case);
            tally.hold(good, || {
                format!("{} numbers {case:?}: {answer:?}", make.name)
            });
        }
    }
}
