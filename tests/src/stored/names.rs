//! The instances and numbers that the files of the rules' tables name,
//!
//!     abbrev NAME : Instance
//!     NAME = file ROWS COSTS BODIES
//!
//! and `NAME = NUMBER`.

use std::collections::HashMap;
use std::str::FromStr;

use super::reader::{texts, Reader, Token};
use super::terms::Term;
use crate::files::Columns;

#[derive(Default)]
pub struct Names {
    pub instances: HashMap<String, Columns>,
    pub numbers: HashMap<String, u32>,
}

/// The numbers of a list.
pub fn numbers<T: FromStr>(term: &Term) -> Option<Vec<T>> {
    let number = |item: &Term| item.words()?.concat().parse().ok();
    term.items()?.iter().map(number).collect()
}

/// The instance of `ROWS COSTS BODIES`.
fn instance(file: &str, tokens: &[Token]) -> Result<Columns, String> {
    let mut reader = Reader::new(file, tokens);
    let (rows, costs, bodies) = (reader.part()?, reader.part()?, reader.part()?);
    reader.end()?;
    let rows_number = rows.words().and_then(|words| words.concat().parse().ok());
    let body_lists: Option<Vec<Vec<u8>>> = bodies.items().and_then(|items| items.iter().map(numbers).collect());
    match (rows_number, numbers(&costs), body_lists) {
        (Some(rows), Some(costs), Some(bodies)) if costs.len() == bodies.len() => Ok(Columns::new(rows, costs, bodies)),
        _ => Err(format!("{file}, line {}: not a number of rows and as many costs as bodies", rows.line)),
    }
}

impl Names {
    /// Reads what the statements of a file name.
    pub fn read(&mut self, file: &str, statements: &[Vec<Token>]) -> Result<(), String> {
        let mut declared = Vec::new();
        for statement in statements {
            match texts(statement)[..] {
                ["abbrev", name, ":", "Instance"] => declared.push((name.to_string(), statement[0].line)),
                [name, "=", "file", ..] => drop(self.instances.insert(name.to_string(), instance(file, &statement[3..])?)),
                [name, "=", number] => drop(number.parse().map(|number| self.numbers.insert(name.to_string(), number))),
                _ => {}
            }
        }
        match declared.iter().find(|(name, _)| !self.instances.contains_key(name)) {
            Some((name, line)) => Err(format!("{file}, line {line}: {name} is not given as file ROWS COSTS BODIES")),
            None => Ok(()),
        }
    }
}
