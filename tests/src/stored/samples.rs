//! What samples/ states of each sample: the line that the program prints for it, and its numbers of sailings and duties; and how mail.spp is
//! made.

use std::fs;

use super::{bytes, input, line, repository, text};
use crate::edition::Edition;
use crate::files::Columns;
use crate::goal::Goal;
use crate::plain;

/// What a file of samples/ states of a sample, and where.
pub struct Stored {
    pub place: String,
    pub name: String,
    pub text: String,
}

/// A file of samples/ that has a line for each sample.
pub struct List {
    pub file: &'static str,
    /// The sample that a line is about, and what it states; none for other lines.
    read: fn(&str) -> Option<(String, String)>,
    /// What the line states, worked out anew.
    pub remade: fn(&str) -> Result<String, String>,
}

pub const LISTS: [List; 2] = [
    List { file: "samples/lines.txt", read: named_line, remade: remade_line },
    List { file: "samples/README.md", read: table_line, remade: remade_sizes },
];

impl List {
    pub fn stored(&self) -> Result<Vec<Stored>, String> {
        let text = text(self.file)?;
        let row = |(number, line): (usize, &str)| {
            let (name, text) = (self.read)(line)?;
            Some(Stored { place: format!("{}, line {}", self.file, number + 1), name, text })
        };
        let rows: Vec<Stored> = text.lines().enumerate().filter_map(row).collect();
        if rows.is_empty() {
            return Err(format!("{}: has no line of a sample", self.file));
        }
        Ok(rows)
    }
}

/// NAME and the program's line.
fn named_line(line: &str) -> Option<(String, String)> {
    Some((format!("{}.spp", line.split(' ').next()?), line.to_string()))
}

/// | `NAME.spp` | sailings | duties | what it is |
fn table_line(line: &str) -> Option<(String, String)> {
    let name = line.strip_prefix("| `")?.split_once('`')?.0.to_string();
    let front: Vec<&str> = line.split_inclusive('|').take(4).collect();
    Some((name, front.concat()))
}

/// The mail of mail.spp: two sailings, and what a duty with both of them brings in.
const MAIL: [([u8; 2], i32); 6] = [([1, 3], 260), ([2, 4], 116), ([5, 7], 112), ([6, 8], 240), ([9, 11], 88), ([10, 12], 210)];

/// The columns of mail.spp: those of harbour.spp, at their costs less what their mail brings in.
pub fn mail() -> Result<Columns, String> {
    let harbour = input::columns(&file("harbour.spp")?).ok_or("samples/harbour.spp: is refused")?;
    let carries = |body: &[u8], sailings: [u8; 2]| sailings.iter().all(|sailing| body.contains(sailing));
    let brings = |body: &[u8]| MAIL.iter().filter(|mail| carries(body, mail.0)).map(|mail| mail.1).sum::<i32>();
    let costs = harbour.costs.iter().zip(&harbour.bodies).map(|(cost, body)| cost - brings(body)).collect();
    Ok(Columns { edition: Edition::Two, costs, ..harbour })
}

/// The names of all samples, in the sequence of the alphabet.
pub fn names() -> Result<Vec<String>, String> {
    let folder = fs::read_dir(repository().join("samples")).map_err(|error| format!("samples: {error}"))?;
    let mut names: Vec<String> = folder.flatten().filter_map(|entry| entry.file_name().into_string().ok()).collect();
    names.retain(|name| name.ends_with(".spp"));
    names.sort();
    if names.is_empty() {
        return Err("samples: has no .spp file".into());
    }
    Ok(names)
}

/// A sample's bytes.
pub fn file(name: &str) -> Result<Vec<u8>, String> {
    bytes(&format!("samples/{name}"))
}

/// A sample's line in samples/lines.txt.
pub fn remade_line(name: &str) -> Result<String, String> {
    let line = line::of(&plain::search(Goal::Sum, &file(name)?, 1_000_000, &mut [0; 64]));
    Ok(format!("{} {line}", name.trim_end_matches(".spp")))
}

/// The front of a sample's line in the table of samples/README.md.
fn remade_sizes(name: &str) -> Result<String, String> {
    let columns = input::columns(&file(name)?).ok_or_else(|| format!("samples/{name}: is refused"))?;
    Ok(format!("| `{name}` | {} | {} |", columns.rows, columns.costs.len()))
}
