//! The output of crates/search_files: for each line of its input, a name, a node limit and a file, the program's line and the plan shown.

use super::{input, line};
use crate::answers::Answer;
use crate::goal::Goal;
use crate::plain;

pub const INPUT: &str = "crates/search_files/stdin";

/// A line of the input with what its search comes to.
pub struct Search {
    pub name: String,
    pub limit: u32,
    pub file: Vec<u8>,
    pub answer: Answer,
    plan: Vec<u16>,
}

impl Search {
    fn new(line: input::Line) -> Result<Search, String> {
        let [name, limit] = &line.words[..] else {
            return Err(format!("{INPUT}: a line without a name and a node limit"));
        };
        let limit = limit.parse().map_err(|_| format!("{INPUT}: {name}: {limit} is not a node limit"))?;
        let mut plan = vec![0; 64];
        let answer = plain::search(Goal::Sum, &line.file, limit, &mut plan);
        plan.truncate(answer.columns as usize);
        Ok(Search { name: name.clone(), limit, file: line.file, answer, plan })
    }

    fn text(&self) -> String {
        format!("{} {}: {}\n  duties{}\n", self.name, self.limit, line::of(&self.answer), line::fields(&self.plan))
    }
}

pub fn searches() -> Result<Vec<Search>, String> {
    input::lines(INPUT, 2)?.into_iter().map(Search::new).collect()
}

pub fn remade() -> Result<String, String> {
    Ok(searches()?.iter().map(Search::text).collect())
}
