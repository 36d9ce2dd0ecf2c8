//! Prints what the repository stores and `plain` works out anew (tests/src/stored):
//!
//!     cargo run --release --manifest-path tests/Cargo.toml --bin remake search_files
//!
//! `file_cases`, `reduce_files`, `search_files` and `solve` print the output of the gate's program of that name, crates/NAME/stdout;
//! `files`, `orders`, `cases`, `longest_cases`, `request_cases` and `pair_cases` the values of that table in crates/rules/specs; `samples` the
//! lines of samples/lines.txt, by name.

use std::process::ExitCode;

use spp_tests::stored::{samples, tables, PROGRAMS};

fn all_samples() -> Result<String, String> {
    let lines: Result<Vec<String>, String> = samples::names()?.iter().map(|name| samples::remade_line(name)).collect();
    Ok(lines?.join("\n") + "\n")
}

fn remade(name: &str) -> Result<String, String> {
    if let Some(program) = PROGRAMS.iter().find(|program| program.name == name) {
        return program.remade();
    }
    if name == "samples" {
        return all_samples();
    }
    let tables = tables::tables()?;
    let table = tables.iter().find(|table| table.name == name);
    table.map(tables::Table::remade).ok_or_else(|| format!("{name} is not stored"))
}

fn main() -> ExitCode {
    let words: Vec<String> = std::env::args().skip(1).collect();
    let [name] = &words[..] else {
        eprintln!(
            "usage: remake file_cases|reduce_files|search_files|solve|files|orders|cases|longest_cases|request_cases|pair_cases|samples"
        );
        return ExitCode::FAILURE;
    };
    match remade(name) {
        Ok(text) => {
            print!("{text}");
            ExitCode::SUCCESS
        }
        Err(fault) => {
            eprintln!("remake: {fault}");
            ExitCode::FAILURE
        }
    }
}
