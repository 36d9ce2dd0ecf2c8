//! Whole solves against GLPK and CBC, each a process of its own that reads a file.

use std::time::Instant;

use crate::nodes::Sample;
use crate::others::{self, Solver, TIME_LIMIT};
use crate::processes::{by_engine, by_other, Folder};
use crate::runs::Runs;

/// Rounds on a file: the fewest, and the most, of which no further one starts after so many seconds on the clock.
const LEAST_ROUNDS: usize = 3;
const MOST_ROUNDS: usize = 7;
const MOST_SECONDS: f64 = 10.0;

/// What the processes on one file come to, in seconds.
#[derive(Default)]
struct Solves {
    call: Runs,
    engine: Runs,
    others: Vec<Runs>,
    unfinished: bool,
    differ: bool,
}

/// Runs the engine and the other solvers on a file in turn. A first round is not counted.
fn solves(sample: &Sample, solvers: &[Solver], folder: &Folder) -> Solves {
    folder.put(sample);
    let mut solves = Solves { others: vec![Runs::default(); solvers.len()], ..Solves::default() };
    let start = Instant::now();
    for round in 0..=MOST_ROUNDS {
        if round > LEAST_ROUNDS && start.elapsed().as_secs_f64() > MOST_SECONDS {
            break;
        }
        let (price, call, engine) = by_engine(folder);
        let others: Vec<(Option<f64>, f64)> = solvers.iter().map(|solver| by_other(solver, folder)).collect();
        if round == 0 {
            continue;
        }
        solves.call.push(call);
        solves.engine.push(engine);
        for (runs, (found, seconds)) in solves.others.iter_mut().zip(others) {
            runs.push(seconds);
            solves.unfinished |= found.is_none();
            solves.differ |= found.is_some_and(|found| (found - price).abs() > 0.5);
        }
    }
    solves
}

/// What is said of the prices.
fn verdict(solves: &Solves) -> &'static str {
    match solves {
        Solves { others, .. } if others.is_empty() => "",
        Solves { differ: true, .. } => "DIFFER",
        Solves { unfinished: true, .. } => "not all finished",
        _ => "equal",
    }
}

fn head() {
    println!("## Whole solves against GLPK and CBC\n");
    println!(
        "The files of the table above. Each solve is a process of its own, its start and the reading of its file included; the"
    );
    println!("other solvers read the same problem in the LP format and run with their defaults, at most {TIME_LIMIT} seconds. The processes");
    println!("run in turn, {LEAST_ROUNDS} to {MOST_ROUNDS} times each; ratios are of the processes. The engine's call alone is timed inside the same");
    println!("processes, where it is the first call and meets cold caches and a stack that is not yet mapped; the calls of the");
    println!("table above are repeated in one process.\n");
}

pub fn table(samples: &[Sample]) {
    head();
    let solvers = others::present();
    println!();
    let heads: String = solvers.iter().map(|solver| format!(" {}, ms | ratio |", solver.name)).collect();
    println!("| file | nodes | engine's call alone, ms | engine, ms |{heads} prices |");
    println!("|---|---|---|---|{}---|", "---|---|".repeat(solvers.len()));
    let folder = Folder::new();
    let mut ratios = vec![Vec::new(); solvers.len()];
    for (number, sample) in samples.iter().enumerate() {
        eprintln!("bench: whole solves, file {} of {}", number + 1, samples.len());
        let solves = solves(sample, &solvers, &folder);
        let ms = |runs: &Runs| runs.times(1e3).shown(2);
        print!("| {} | {} | {} | {} |", number + 1, sample.nodes, ms(&solves.call), ms(&solves.engine));
        for (place, other) in solves.others.iter().enumerate() {
            let ratio = solves.engine.divided_by(other);
            print!(" {} | {} |", ms(other), ratio.shown(2));
            ratios[place].push(ratio.median());
        }
        println!(" {} |", verdict(&solves));
    }
    let medians: String = ratios.into_iter().map(|list| format!(" | {:.2} |", Runs::new(list).median())).collect();
    println!("| median | | | |{medians} |\n");
}
