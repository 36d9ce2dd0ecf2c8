//! The output of crates/solve: the program's line for the file that is its input.

use super::{bytes, line};
use crate::goal::Goal;
use crate::plain;

pub fn remade() -> Result<String, String> {
    let file = bytes("crates/solve/stdin")?;
    let answer = plain::search(Goal::Sum, &file, 1_000_000, &mut [0; 64]);
    Ok(line::of(&answer) + "\n")
}
