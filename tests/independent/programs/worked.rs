//! Prints what the independent implementation answers to the sheets of document 01's section
//! "A whole sheet, and its neighbours"; the answers that it gives are in worked.expected.

use independent::sheet::{file, printed, Files, Lines, Sheet};

fn show(name: &str, files: &Files, decimals: i64, room: usize) {
    let mut buffer = vec![b'#'; room];
    let Files { mesh, table, claim } = files;
    let answer = independent::check(mesh, table, claim, decimals, &mut buffer);
    let text = String::from_utf8_lossy(&buffer).replace('\n', "|");
    let line = text.split_whitespace().collect::<Vec<_>>().join(" ");
    println!("{name}: {}, {}: {line}", answer.number, answer.place);
}

fn show_sheet(name: &str, sheet: &Sheet) {
    show(name, &sheet.files(), 6, 113);
}

/// Decimals to taste (document 02, N5).
fn show_decimals(name: &str, sheet: &Sheet) {
    for decimals in [0, 3, 7] {
        show(
            &format!("{name}, {decimals} decimals"),
            &sheet.files(),
            decimals,
            113,
        );
    }
}

/// Room worked out beforehand (document 02, N7).
fn show_sizes(name: &str, files: &Files) {
    let s = independent::mesh_sizes(&files.mesh, &files.table);
    let rows = [s.balance_rows, s.side_rows, s.jump_rows, s.strength_rows];
    let bytes = [s.field_bytes, s.multipliers_bytes, s.both_bytes];
    println!(
        "{name}: {}, {}: {rows:?} {} {bytes:?}",
        s.number, s.place, s.columns
    );
}

/// The worked sheet with another load and another sy at every node.
fn loaded(l: i64, sy: i64) -> Sheet {
    let mut sheet = Sheet::worked();
    sheet.claim[0][3] = l;
    for node in 1..=4 {
        sheet.claim[node][1] = sy;
    }
    sheet
}

/// The top carries dead + live·λ and no more than 20, so that λ is at most (20 - dead)/live;
/// the field has λ = l/3.
fn thirds(dead: i64, live: i64, l: i64) -> Sheet {
    let mut sheet = loaded(l, -3 * dead - live * l);
    sheet.mesh[7] = vec![3, 4, 3, -dead, 0, -live, 0];
    sheet.claim[0][2] = 3;
    sheet
}

/// The worked sheet with a soil of kind 1 (document 02, N14): the only one, or a second that no element
/// has. The first carries 15.5, and so do its multipliers allow; the lower load reads none all the same.
fn bedded(soils: i64) -> Sheet {
    let mut sheet = loaded(15, -15);
    sheet.mesh[0][2] = soils;
    let line = vec![0, 1, 1, 10, 0, 0, 0, 0, 1, 6];
    if soils == 2 {
        sheet.mesh.insert(2, line);
        return sheet;
    }
    sheet.mesh[1] = line;
    sheet.claim[6][0] = 24;
    sheet.claim[7][2] = -24;
    sheet.claim[11] = vec![0, 0, 0, 1, 0, 0, 0, 0, 0, 0, 1, 0];
    sheet
}

/// Two edges at one node ask λ = -1/3000000 of any field: the foot (169, 0) fixes sy and t, the
/// side (119, 120) fixes its own normal and shear, and 119·sy - 120·t follows from both.
fn one_in_three_million() -> Sheet {
    let zeros = " / 0 0 0 0 0 0 0 0 0 0 0 0".repeat(4);
    Sheet {
        mesh: printed(
            "4 1 1 2 12 0 / 0 1 1 10000 0 0 0 0 0 0 / 0 0 / 169 0 / 288 120 / 0 120 / 1 2 3 4 1 / \
             1 2 3 -1 1 6000 6600 / 2 3 3 0 0 -6000 6500",
        ),
        table: Lines::new(),
        claim: printed(&format!(
            "0 1 0 0 / 0 0 / 0 0 -119 -120 / 119 -120 0 0{zeros}"
        )),
    }
}

fn hundred_nodes(nodes: i64) -> Files {
    let mut mesh = vec![
        vec![nodes, 81, 1, 0, 12, 0],
        vec![0, 1, 1, 10, 0, 0, 0, 0, 0, 0],
    ];
    mesh.extend((0..nodes).map(|node| vec![node % 10, node / 10]));
    let corner = |e: i64| e / 9 * 10 + e % 9 + 1;
    mesh.extend(
        (0..81)
            .map(corner)
            .map(|c| vec![c, c + 1, c + 11, c + 10, 1]),
    );
    Files {
        mesh: file(&mesh),
        table: Vec::new(),
        claim: Vec::new(),
    }
}

fn main() {
    show_sheet("worked sheet", &Sheet::worked());
    show_sheet("l 19, sy -19", &loaded(19, -19));
    show_sheet("l 21, sy -21", &loaded(21, -21));
    show_sheet("l 20, sy -21", &loaded(20, -21));
    let mut sheet = Sheet::worked();
    sheet.claim[7][2] = -29;
    show_sheet("-30 as -29", &sheet);
    let mut empty = Sheet::worked();
    empty.mesh.clear();
    show_sheet("empty mesh", &empty);
    let mut sheet = Sheet::worked();
    sheet.mesh[1][..3].copy_from_slice(&[3, 4, 6]);
    show_sheet("soil 3 4 6", &sheet);
    show_sheet("1/3", &thirds(0, 60, 1));
    show_sheet("-1/3", &thirds(40, 60, -1));
    show_sheet("-1/3000000", &one_in_three_million());
    let worked = Sheet::worked().files();
    show("112 bytes", &worked, 6, 112);
    show("113 bytes", &worked, 6, 113);
    show("115 bytes", &worked, 6, 115);
    show("100 nodes", &hundred_nodes(100), 6, 113);
    show("101 nodes", &hundred_nodes(101), 6, 113);
    show_decimals("2/3", &thirds(0, 30, 2));
    show_decimals("-1/3", &thirds(40, 60, -1));
    show_decimals("-1/3000000", &one_in_three_million());
    show_sheet("bedded clay", &bedded(1));
    show_sheet("bedded clay, listed only", &bedded(2));
    show_sizes("sizes", &worked);
    show_sizes("sizes of an empty mesh", &empty.files());
    show("-1 decimals", &worked, -1, 113);
    show("8 decimals, 112 bytes", &worked, 8, 112);
}
