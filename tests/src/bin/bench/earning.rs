//! SPP2 files (02, P10): the time for each node of the sum search, and how often it is stopped, against the same duties as SPP1.

use spp_tests::answers::{Answer, STOPPED};
use spp_tests::edition::Edition;
use spp_tests::files::Columns;
use spp_tests::generate_earning::{kind, of_kind};
use spp_tests::goal::Goal;
use spp_tests::random::Random;
use spp_tests::{engine, generate, plain};

use crate::measure;
use crate::runs::Runs;

const REPEATS: usize = 5;

/// Files of each size that are timed, and their node limit.
const TIMED: usize = 5;
const TIMED_LIMIT: u32 = 3000;

/// Files of each size that are searched for the count, and their node limit.
const COUNTED: usize = 10;
const COUNTED_LIMIT: u32 = 1_000_000;

/// Rows, columns and the longest duty.
type Size = (usize, usize, usize);

const SIZES: [Size; 7] = [(8, 30, 4), (12, 50, 4), (16, 70, 5), (24, 100, 6), (32, 140, 6), (48, 200, 7), (64, 256, 8)];

/// Ferry files of one size, at prices from 1 to 1,000,000.
fn files((rows, columns, longest): Size, count: usize) -> Vec<Columns> {
    let mut random = Random::new((rows * 1_000_003 + columns * 1009 + longest) as u64);
    (0..count).map(|_| generate::ferry_of(&mut random, rows, columns, longest, 20)).collect()
}

/// The runs of the engine and of (a) on one file.
fn timed(file: &[u8]) -> [Runs; 2] {
    let (mut plan, mut other) = ([0; 64], [0; 64]);
    let (engine, base) = measure::in_turn(
        REPEATS,
        || measure::keep(engine::search(Goal::Sum, file, TIMED_LIMIT, &mut plan)),
        || measure::keep(plain::search(Goal::Sum, file, TIMED_LIMIT, &mut other)),
    );
    [engine, base]
}

/// The search by (a), whose nodes are those of the engine.
fn answer(columns: &Columns, limit: u32) -> Answer {
    plain::search(Goal::Sum, &columns.file(), limit, &mut [0; 64])
}

/// A line of the times. The duties have prices from -1,000,000 to 1,000,000.
fn timed_line(size: Size) {
    let mut random = Random::new(10);
    let (mut nodes, mut stopped, mut times) = (0, 0, [Vec::new(), Vec::new()]);
    for columns in files(size, TIMED) {
        let columns = of_kind(&mut random, kind("mixed"), &columns);
        let found = answer(&columns, TIMED_LIMIT);
        nodes += found.nodes;
        stopped += (found.outcome == STOPPED) as usize;
        times.iter_mut().zip(timed(&columns.file())).for_each(|(all, runs)| all.push(runs));
    }
    let [engine, base] = times.map(|all| Runs::sums(&all));
    let each = 1e6 / nodes as f64;
    let cells = [engine.times(each), base.times(each), engine.divided_by(&base)].map(|runs| runs.shown(2)).join(" | ");
    println!("| {} | {} | {nodes} | {stopped} | {cells} |", size.0, size.1);
}

/// A line of the counts: of each edition how many searches are stopped, and the median of the nodes.
fn counted_line(size: Size) {
    let made = files(size, COUNTED);
    let cells = Edition::BOTH.map(|edition| {
        let answers: Vec<Answer> = made.iter().map(|columns| answer(&columns.under(edition), COUNTED_LIMIT)).collect();
        let stopped = answers.iter().filter(|answer| answer.outcome == STOPPED).count();
        let nodes = Runs::new(answers.iter().map(|answer| answer.nodes as f64).collect());
        format!("{stopped} | {:.0}", nodes.median())
    });
    println!("| {} | {} | {} |", size.0, size.1, cells.join(" | "));
}

pub fn tables() {
    eprintln!("bench: SPP2, time for each node");
    println!("## Time for each node, SPP2\n");
    println!("Ferry-like SPP2 files, {TIMED} of each size, with prices from -1,000,000 to 1,000,000; the sum search, allowance {TIMED_LIMIT}: all");
    println!("nodes of the {TIMED} searches, how many of the {TIMED} were stopped, and the time of the {TIMED} calls divided by their nodes, {REPEATS} runs.\n");
    println!("| sailings | duties | nodes | stopped | engine, µs a node | (a), µs a node | ratio |");
    println!("|---|---|---|---|---|---|---|");
    SIZES.into_iter().for_each(timed_line);
    eprintln!("bench: SPP2, how often a search is stopped");
    println!("\n## How often a search is stopped, SPP1 and SPP2\n");
    println!("Ferry-like files, {COUNTED} of each size, with prices from 1 to 1,000,000, which both editions take: the same duties under both");
    println!("marks, searched for the sum with allowance {COUNTED_LIMIT} by (a), whose trees are those of the engine. The trees differ, since SPP2's");
    println!("search adds 1,000,000 to a price for each sailing. A stopped search counts with all its nodes in the median.\n");
    println!("| sailings | duties | stopped, SPP1 | nodes, median | stopped, SPP2 | nodes, median |");
    println!("|---|---|---|---|---|---|");
    SIZES.into_iter().for_each(counted_line);
    println!();
}
