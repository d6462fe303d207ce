//! The desk program once more, by the independent implementation: independent MESH CLAIM [TABLE].

use std::io::{Read, Write};

/// At most 65,536 bytes of a file; one that can't be opened counts as empty.
fn file_start(name: Option<String>) -> Vec<u8> {
    let mut bytes = Vec::new();
    if let Some(file) = name.and_then(|name| std::fs::File::open(name).ok()) {
        let _ = file.take(65_536).read_to_end(&mut bytes);
    }
    bytes
}

fn main() -> std::io::Result<()> {
    let mut arguments = std::env::args().skip(1);
    let mesh = file_start(arguments.next());
    let claim = file_start(arguments.next());
    let table = file_start(arguments.next());
    let mut line = [0; independent::report::LINE];
    independent::check(&mesh, &table, &claim, 6, &mut line);
    std::io::stdout().write_all(&line)
}
