//! Checks a claim, tells what its mesh asks room for, and keeps a book of it. From bindings/rust:
//!
//! ```text
//! cargo run --example check -- ../../sheets/worked.mesh ../../sheets/worked.claim [TABLE]
//! ```
//!
//! The status is 0 for an accepted claim, 1 for a refused one, 2 where a file is missing.

use pechuvo::{check, mesh_sizes, Book, Mesh};
use std::process::ExitCode;

/// The files that are named, or what is wrong.
fn files() -> Result<[Vec<u8>; 3], String> {
    let names: Vec<_> = std::env::args_os().skip(1).collect();
    if !(2..=3).contains(&names.len()) {
        return Err("usage: check MESH CLAIM [TABLE]".to_string());
    }
    let mut files: [Vec<u8>; 3] = Default::default();
    for (file, name) in files.iter_mut().zip(&names) {
        *file =
            std::fs::read(name).map_err(|error| format!("{}: {error}", name.to_string_lossy()))?;
    }
    Ok(files)
}

fn main() -> ExitCode {
    let [mesh, claim, table] = match files() {
        Ok(files) => files,
        Err(wrong) => {
            eprintln!("{wrong}");
            return ExitCode::from(2);
        }
    };
    let mesh = Mesh::with_table(&mesh, &table);
    let answer = check(&mesh, &claim, 3);
    if let Some(report) = answer.report() {
        println!("{report}");
    }
    if let Ok(sizes) = mesh_sizes(&mesh) {
        println!(
            "rows of strength: {}; bytes of a claim with both parts: {}",
            sizes.strength_rows, sizes.both_bytes
        );
    }
    let empty = Book::default();
    match empty
        .ask(&mesh, &claim)
        .and_then(|_| empty.commit(empty.count, &mesh, &claim))
    {
        Ok(book) => println!(
            "the book: carried {:?}, limit {:?}, claims {}",
            book.lower, book.upper, book.count
        ),
        Err(refusal) => println!("no claim for the book: {refusal}"),
    }
    match answer.result() {
        Ok(_) => ExitCode::SUCCESS,
        Err(_) => ExitCode::FAILURE,
    }
}
