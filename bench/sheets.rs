//! The sheets that are timed: their bytes and numbers, and the claim over and over for a run.

use independent::sheet::{Files, Lists, Sheet};

/// The claims of a run.
pub const CLAIMS: usize = 50;

pub struct Timed {
    pub name: String,
    pub files: Files,
    pub lists: Lists,
    /// The claim as often as a run has it.
    pub claims: Vec<u8>,
}

impl Timed {
    fn new(name: &str, files: Files, lists: Lists) -> Timed {
        Timed {
            name: name.to_string(),
            claims: files.claim.repeat(CLAIMS),
            files,
            lists,
        }
    }

    pub fn of(name: &str, sheet: &Sheet) -> Timed {
        Timed::new(name, sheet.files(), sheet.lists())
    }

    /// A sheet of `sheets/`, with its table where it has one.
    pub fn shipped(name: &str) -> Timed {
        let part = |ending: &str| std::fs::read(format!("sheets/{name}.{ending}"));
        let files = Files {
            mesh: part("mesh").expect("a mesh"),
            table: part("table").unwrap_or_default(),
            claim: part("claim").expect("a claim"),
        };
        let lists = files.sheet().expect("a sheet's numbers").lists();
        Timed::new(name, files, lists)
    }

    pub fn bytes(&self) -> usize {
        self.files.mesh.len() + self.files.table.len() + self.files.claim.len()
    }
}
