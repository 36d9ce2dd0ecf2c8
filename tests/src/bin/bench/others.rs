//! The other solvers: their command lines, and the price in their answers.

use std::process::{Command, Stdio};

use crate::measure;

/// The seconds after which the other solvers are stopped.
pub const TIME_LIMIT: u32 = 5;

pub struct Solver {
    pub name: &'static str,
    pub command: &'static str,
    /// Debian's package.
    package: &'static str,
    /// The command's words: the model's file, and the file for its answer.
    pub words: fn(&str, &str) -> Vec<String>,
    /// The price in the answer's text, if the solver came to its end.
    pub price: fn(&str) -> Option<f64>,
}

const SOLVERS: [Solver; 2] = [
    Solver {
        name: "GLPK",
        command: "glpsol",
        package: "glpk-utils",
        words: |model, answer| ["--tmlim", &TIME_LIMIT.to_string(), "--lp", model, "-o", answer].map(String::from).to_vec(),
        price: |text| {
            text.lines().find(|line| line.starts_with("Status:") && line.ends_with(" INTEGER OPTIMAL"))?;
            let line = text.lines().find(|line| line.starts_with("Objective:"))?;
            line.split_whitespace().nth(3)?.parse().ok()
        },
    },
    Solver {
        name: "CBC",
        command: "cbc",
        package: "coinor-cbc",
        words: |model, answer| [model, "sec", &TIME_LIMIT.to_string(), "solve", "solution", answer].map(String::from).to_vec(),
        price: |text| {
            let line = text.lines().next().filter(|line| line.starts_with("Optimal"))?;
            line.split_whitespace().last()?.parse().ok()
        },
    },
];

fn is_there(solver: &Solver) -> bool {
    let mut run = Command::new(solver.command);
    run.arg("--version").stdin(Stdio::null()).stdout(Stdio::null()).stderr(Stdio::null()).status().is_ok()
}

/// The version that the system's package list gives.
fn version(package: &str) -> String {
    measure::first_line("dpkg-query", &["-W", "-f", "${Version}", package]).unwrap_or("version unknown".into())
}

/// The solvers that can be run; prints a line for each, also for those that cannot.
pub fn present() -> Vec<Solver> {
    let mut present = Vec::new();
    for solver in SOLVERS {
        let Solver { name, command, package, .. } = solver;
        if is_there(&solver) {
            println!("- {name}: {package} {}", version(package));
            present.push(solver);
        } else {
            println!("- {name}: not measured, `{command}` is not on the path (Debian's {package})");
        }
    }
    present
}
