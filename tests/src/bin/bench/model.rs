//! A duty file as an integer program in the LP format, for other solvers.

use std::fmt::Write;

use spp_tests::files::Columns;

/// Exactly one column on each row, at the least sum of costs.
pub fn model(columns: &Columns) -> String {
    let mut text = String::from("Minimize\n cost:");
    for (column, cost) in columns.costs.iter().enumerate() {
        writeln!(text, " + {cost} x{}", column + 1).expect("a string takes all text");
    }
    text.push_str("Subject To\n");
    for row in 1..=columns.rows as u8 {
        write!(text, " r{row}:").expect("a string takes all text");
        for (column, body) in columns.bodies.iter().enumerate() {
            if body.contains(&row) {
                writeln!(text, " + x{}", column + 1).expect("a string takes all text");
            }
        }
        text.push_str(" = 1\n");
    }
    text.push_str("Binary\n");
    for column in 1..=columns.costs.len() {
        writeln!(text, " x{column}").expect("a string takes all text");
    }
    text.push_str("End\n");
    text
}
