//! Links the archive libpechuvo.a, which is in the folder PECHUVO_ARCHIVE_DIR or, without it, in the target/staticlib
//! of the repository that this crate stands in.

use std::env;
use std::path::{Path, PathBuf};
use std::process::exit;

const ARCHIVE: &str = "libpechuvo.a";

fn folder_of_the_archive() -> PathBuf {
    match env::var_os("PECHUVO_ARCHIVE_DIR") {
        Some(folder) => PathBuf::from(folder),
        None => Path::new(&env::var_os("CARGO_MANIFEST_DIR").unwrap_or_default())
            .join("../../target/staticlib"),
    }
}

fn main() {
    let folder = folder_of_the_archive();
    let archive = folder.join(ARCHIVE);
    println!("cargo:rerun-if-env-changed=PECHUVO_ARCHIVE_DIR");
    println!("cargo:rerun-if-changed={}", archive.display());
    if !archive.is_file() {
        eprintln!("{} is missing.", archive.display());
        eprintln!("Build it by 'bash tests/archive' in Pechuvo's repository, or set PECHUVO_ARCHIVE_DIR to the");
        eprintln!("folder that has it, such as the lib of an installation.");
        exit(1);
    }
    println!("cargo:rustc-link-search=native={}", folder.display());
    println!("cargo:rustc-link-lib=static=pechuvo");
}
