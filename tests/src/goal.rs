//! What a search minimises.

use std::fmt;

use crate::edition::Edition;

#[derive(Clone, Copy, Debug, PartialEq, Eq)]
pub enum Goal {
    /// The sum of the plan's costs (01).
    Sum,
    /// The largest of the plan's costs, that of its longest duty (02, P1).
    Longest,
}

impl Goal {
    pub const BOTH: [Goal; 2] = [Goal::Sum, Goal::Longest];

    /// The goals of the searches that take files of an edition (02, P10).
    pub fn of(edition: Edition) -> &'static [Goal] {
        match edition {
            Edition::One => &Goal::BOTH,
            Edition::Two => &[Goal::Sum],
        }
    }
}

impl fmt::Display for Goal {
    fn fmt(&self, out: &mut fmt::Formatter) -> fmt::Result {
        out.pad(match self {
            Goal::Sum => "sum",
            Goal::Longest => "longest duty",
        })
    }
}
