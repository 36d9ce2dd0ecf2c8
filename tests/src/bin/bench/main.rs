//! Measures the engine's static library and prints tables in Markdown. Nothing here passes or fails.
//!
//! `bench solve FILE` is the engine as a process of its own, for the comparison with other solvers.

mod assign;
mod calls;
mod desk;
mod earning;
mod growth;
mod measure;
mod model;
mod nodes;
mod others;
mod pairs;
mod processes;
mod runs;
mod solvers;
mod stack;
mod uncrewed;

use std::fs;

use spp_tests::goal::Goal;

/// The processor's name as the system gives it.
fn processor() -> String {
    let text = fs::read_to_string("/proc/cpuinfo").unwrap_or_default();
    let line = text.lines().find(|line| line.starts_with("model name")).unwrap_or_default();
    line.split_once(": ").map_or("unknown", |parts| parts.1).to_string()
}

fn machine() {
    let cores = std::thread::available_parallelism().map_or(0, |count| count.get());
    let compiler = measure::first_line("rustc", &["--version"]).unwrap_or("an unknown rustc".into());
    println!("# Benchmarks\n");
    println!(
        "Printed by `./bench`. \"Engine\" is the proved static library, \"(a)\" the plain implementation in tests/src/plain,"
    );
    println!("both built for release. Times are medians of repeated runs, in processor time (user and system) of one thread or");
    println!(
        "process; in parentheses stand the lower and the upper quartile of these runs. A ratio is the engine's time divided by"
    );
    println!("that of the other's run that was taken in turn with it. Lent lists are not cleared between the runs.\n");
    println!("- Machine: {}, {cores} cores, {} {}", processor(), std::env::consts::OS, std::env::consts::ARCH);
    println!("- Compiler of (a): {compiler}\n");
}

fn main() {
    let words: Vec<String> = std::env::args().collect();
    if words.len() == 3 && words[1] == "solve" {
        return processes::solve(&words[2]);
    }
    machine();
    let files = nodes::ferry_files(Goal::Sum);
    nodes::table(Goal::Sum, &files);
    solvers::table(&files);
    let longest_files = nodes::ferry_files(Goal::Longest);
    nodes::table(Goal::Longest, &longest_files);
    pairs::table(Goal::Sum, &files);
    pairs::table(Goal::Longest, &longest_files);
    calls::table();
    growth::table();
    earning::tables();
    stack::table();
    assign::table();
    uncrewed::table();
    desk::table();
}
