//! Small meshes of elements anywhere (document 02, N10): many lie on each other, many only touch.
//! The answer is held to the line that decides it, one along a side of either element.

use crate::random::Random;
use crate::tally::{How, Tally};
use independent::sheet::{file, Files, Lines};

type Place = [i64; 2];

fn is_left_turn([a, b, c]: [Place; 3]) -> bool {
    (b[0] - a[0]) * (c[1] - b[1]) > (b[1] - a[1]) * (c[0] - b[0])
}

fn is_convex(outline: &[Place]) -> bool {
    let count = outline.len();
    (0..count).all(|k| is_left_turn([0, 1, 2].map(|step| outline[(k + step) % count])))
}

/// All of one outline is on a side's line of the other, or to its right.
fn is_parted_by(one: &[Place], other: &[Place]) -> bool {
    (0..one.len()).any(|k| {
        let (from, to) = (one[k], one[(k + 1) % one.len()]);
        other
            .iter()
            .all(|&corner| !is_left_turn([from, to, corner]))
    })
}

/// Places in a small square, and at times far corners.
fn places(random: &mut Random) -> Vec<Place> {
    let size = random.pick(&[3, 4, 6, 12, 1000]);
    let place = |random: &mut Random| [random.between(0, size), random.between(0, size)];
    (0..4 + random.below(8)).map(|_| place(random)).collect()
}

/// The directed sides of an outline.
fn sides(outline: &[usize]) -> impl Iterator<Item = (usize, usize)> + '_ {
    (0..outline.len()).map(|k| (outline[k], outline[(k + 1) % outline.len()]))
}

/// Up to four outlines by their places, of three or four corners, no directed side twice.
fn outlines(random: &mut Random, places: &[Place]) -> Vec<Vec<usize>> {
    let mut all: Vec<Vec<usize>> = Vec::new();
    for _ in 0..200 {
        let corners = 3 + random.below(2);
        let outline: Vec<usize> = (0..corners).map(|_| random.below(places.len())).collect();
        let at: Vec<Place> = outline.iter().map(|&k| places[k]).collect();
        let is_taken = |side| all.iter().any(|earlier| sides(earlier).any(|s| s == side));
        if is_convex(&at) && !sides(&outline).any(is_taken) {
            all.push(outline);
        }
        if all.len() == 4 {
            break;
        }
    }
    all
}

/// A mesh of the outlines, with the nodes that they have.
fn mesh(places: &[Place], outlines: &[Vec<usize>]) -> Lines {
    let used: Vec<usize> = (0..places.len())
        .filter(|place| outlines.iter().flatten().any(|corner| corner == place))
        .collect();
    let number = |place: usize| 1 + used.iter().position(|&k| k == place).expect("a node") as i64;
    let mut mesh = vec![vec![used.len() as i64, outlines.len() as i64, 1, 0, 12, 0]];
    mesh.push(vec![0, 1, 1, 10, 0, 0, 0, 0, 0, 0]);
    mesh.extend(used.iter().map(|&place| places[place].to_vec()));
    for outline in outlines {
        let mut line: Vec<i64> = outline.iter().map(|&place| number(place)).collect();
        line.resize(4, line[line.len() - 1]);
        line.push(1);
        mesh.push(line);
    }
    mesh
}

pub fn at_random(tally: &mut Tally, random: &mut Random) {
    let places = places(random);
    let outlines = outlines(random, &places);
    let at = |k: usize| -> Vec<Place> { outlines[k].iter().map(|&place| places[place]).collect() };
    let lies_on =
        |a: usize, b: usize| !is_parted_by(&at(a), &at(b)) && !is_parted_by(&at(b), &at(a));
    let first = (0..outlines.len()).find(|&k| (0..k).any(|lower| lies_on(k, lower)));
    let files = Files {
        mesh: file(&mesh(&places, &outlines)),
        table: Vec::new(),
        claim: Vec::new(),
    };
    let answer = tally.file(&files, How::PLAIN);
    let expected = match first {
        Some(element) => (47, element as u32 + 1),
        None => (11, 1),
    };
    let is_judged = answer.number == 47 || answer.number == 11;
    if is_judged && (answer.number, answer.place) != expected {
        tally.disagree(&format!("{answer:?}, by lines {expected:?}"), &files);
    }
}
