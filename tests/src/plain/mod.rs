//! The rules of 01 and of 02, P1, P2 and P5 to P10 in plain code: the same calls as the static library, on slices, and for P7
//! a desk of its own.

mod assign;
mod desk;
mod file;
mod goal;
mod matrix;
mod node;
mod pairs;
mod reduce;
mod requests;
mod search;
mod uncrewed;

pub use assign::assign;
pub use desk::{counted, Recount};
pub use file::{check, read, write};
pub use pairs::Uses;
pub use reduce::reduce;
pub use search::{search, search_with, tree, tree_with, Tree};
pub use uncrewed::{trial, uncrewed};
