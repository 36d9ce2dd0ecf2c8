//! Time for each node of a search with 128 pairs, on the files of the tables without pairs.

use spp_tests::generate_pairs::{self, MOST_PAIRS};
use spp_tests::goal::Goal;
use spp_tests::random::Random;
use spp_tests::requests::Requests;
use spp_tests::{engine, plain};

use crate::measure;
use crate::nodes::Sample;
use crate::runs::Runs;

const REPEATS: usize = 9;
const LIMIT: u32 = 1_000_000;

/// For each file, which of its lists of pairs is taken; chosen by the sizes of the trees.
fn chosen(goal: Goal) -> &'static [u64] {
    match goal {
        Goal::Sum => &[1, 1, 0, 0, 1, 0, 1, 3, 1, 3, 0, 0, 0, 1, 1, 2, 3],
        Goal::Longest => &[0, 3, 1, 2, 0, 1, 1, 2, 3, 3, 4, 7, 1, 4, 0, 0],
    }
}

/// Prints the line of a file; gives its figures.
fn line(goal: Goal, number: usize, sample: &Sample, choice: u64) -> [Runs; 3] {
    let mut random = Random::new(1000 * number as u64 + choice);
    let pairs = generate_pairs::by_sharing(&mut random, &sample.columns, MOST_PAIRS, false);
    let requests = Requests { pairs: &pairs, ..Requests::NONE };
    let (mut plan, mut other) = ([0; 64], [0; 64]);
    let nodes = engine::search_with(goal, &sample.file, LIMIT, requests, &mut plan).nodes;
    eprintln!("bench: time for each node with pairs ({goal}), file {number}, {nodes} nodes");
    let (engine, base) = measure::in_turn(
        REPEATS,
        || measure::keep(engine::search_with(goal, &sample.file, LIMIT, requests, &mut plan)),
        || measure::keep(plain::search_with(goal, &sample.file, LIMIT, requests, &mut other)),
    );
    let each = 1e6 / nodes as f64;
    let line = [engine.times(each), base.times(each), engine.divided_by(&base)];
    let cells = line.each_ref().map(|runs| runs.shown(2)).join(" | ");
    println!("| {number} | {} | {} | {nodes} | {cells} |", sample.nodes, pairs.len() / 2);
    line
}

/// The table of a goal, on the files that are chosen for it.
pub fn table(goal: Goal, samples: &[Sample]) {
    println!("## Time for each node with 128 pairs, {goal}\n");
    println!("The files of the table without pairs for this goal, 64 sailings by 256 duties, allowance 1,000,000; the whole call divided");
    println!("by its nodes, {REPEATS} runs each. The pairs of a file are drawn at random from those of duties that share no sailing, by a");
    println!("fixed seed, which was chosen so that the tree has some hundred to some ten thousand nodes.\n");
    println!("| file | nodes without pairs | pairs | nodes | engine, µs a node | (a), µs a node | ratio |");
    println!("|---|---|---|---|---|---|---|");
    let lines: Vec<[Runs; 3]> = samples
        .iter()
        .zip(chosen(goal))
        .enumerate()
        .map(|(place, (sample, &choice))| line(goal, place + 1, sample, choice))
        .collect();
    let medians = [0, 1, 2].map(|cell| Runs::new(lines.iter().map(|line| line[cell].median()).collect()).median());
    println!("| median | | | | {:.2} | {:.2} | {:.2} |\n", medians[0], medians[1], medians[2]);
}
