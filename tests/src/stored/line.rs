//! The program's line for an answer of the search (01, The program and the plan check), and numbers as the programs print them.

use std::fmt::Display;

use crate::answers::{Answer, BEST, NONE};

/// The line, without the line feed that ends it.
pub fn of(answer: &Answer) -> String {
    let Answer { refusal, outcome, has_plan, columns, nodes, price, bound } = *answer;
    if refusal != 0 {
        return format!("refused {refusal}");
    }
    match outcome {
        BEST => format!("best {price} {bound} {nodes} {columns}"),
        NONE => format!("none {nodes}"),
        _ if has_plan == 0 => format!("stopped - {bound} {nodes} 0"),
        _ => format!("stopped {price} {bound} {nodes} {columns}"),
    }
}

/// A space and a number, for each number.
pub fn fields<T: Display>(numbers: &[T]) -> String {
    numbers.iter().map(|number| format!(" {number}")).collect()
}
