//! Values that the repository stores and that no program of the gate makes: the outputs of the gate's programs, the tables of the rules,
//! the lines of the samples. Here they are worked out anew by `plain`, from the stored inputs or from the papers. The tests compare
//! them with what is stored, and `remake` prints them.

mod file_cases;
pub mod input;
mod line;
mod names;
mod reader;
mod reduce_files;
pub mod samples;
pub mod search_files;
mod solve;
pub mod tables;
mod terms;

use std::fs;
use std::path::{Path, PathBuf};

/// The repository's folder.
fn repository() -> PathBuf {
    Path::new(env!("CARGO_MANIFEST_DIR")).join("..")
}

/// A file of the repository. Its name is the path from the repository's folder.
pub fn bytes(name: &str) -> Result<Vec<u8>, String> {
    fs::read(repository().join(name)).map_err(|error| format!("{name}: {error}"))
}

pub fn text(name: &str) -> Result<String, String> {
    String::from_utf8(bytes(name)?).map_err(|_| format!("{name}: is not text"))
}

/// A program of the gate, whose input and output are stored.
pub struct Program {
    pub name: &'static str,
    remake: fn() -> Result<String, String>,
}

impl Program {
    /// The name of the stored output.
    pub fn output(&self) -> String {
        format!("crates/{}/stdout", self.name)
    }

    /// The whole output, worked out anew.
    pub fn remade(&self) -> Result<String, String> {
        (self.remake)()
    }
}

pub const PROGRAMS: [Program; 4] = [
    Program { name: "file_cases", remake: file_cases::remade },
    Program { name: "reduce_files", remake: reduce_files::remade },
    Program { name: "search_files", remake: search_files::remade },
    Program { name: "solve", remake: solve::remade },
];
