//! How time grows with rows, columns and entries.

use spp_tests::answers::STOPPED;
use spp_tests::files::Columns;
use spp_tests::goal::Goal;
use spp_tests::random::Random;
use spp_tests::{engine, generate, plain};

use crate::measure;
use crate::runs::Runs;

const REPEATS: usize = 9;
const FILES: usize = 5;
const LIMIT: u32 = 3000;

/// Ferry files of one size: rows, columns, longest duty.
fn files(rows: usize, columns: usize, longest: usize) -> Vec<Columns> {
    let mut random = Random::new((rows * 1_000_003 + columns * 1009 + longest) as u64);
    (0..FILES).map(|_| generate::ferry_of(&mut random, rows, columns, longest, 20)).collect()
}

/// What is measured on one file: the search by the engine and by (a), and reducing by the engine.
fn measured(file: &[u8]) -> [Runs; 3] {
    let (mut plan, mut other) = ([0; 64], [0; 64]);
    let (search, base) = measure::in_turn(
        REPEATS,
        || measure::keep(engine::search(Goal::Sum, file, LIMIT, &mut plan)),
        || measure::keep(plain::search(Goal::Sum, file, LIMIT, &mut other)),
    );
    let (mut reduced, mut order) = ([0; 256], [0; 64]);
    let reduce = measure::repeated(REPEATS, || measure::keep(engine::reduce(file, &mut reduced, &mut order)));
    [search, base, reduce]
}

fn line(rows: usize, columns: usize, longest: usize) {
    let samples = files(rows, columns, longest);
    let entries: usize = samples.iter().map(Columns::entries).sum::<usize>() / FILES;
    let (mut nodes, mut stopped) = (0, 0);
    let mut times: [Vec<Runs>; 3] = Default::default();
    for sample in &samples {
        let file = sample.file();
        let answer = engine::search(Goal::Sum, &file, LIMIT, &mut [0; 64]);
        nodes += answer.nodes;
        stopped += (answer.outcome == STOPPED) as usize;
        times.iter_mut().zip(measured(&file)).for_each(|(all, runs)| all.push(runs));
    }
    let [search, base, reduce] = times.map(|all| Runs::sums(&all));
    let each = 1e6 / nodes as f64;
    let cells = [search.times(each), base.times(each), search.divided_by(&base)].map(|runs| runs.shown(2)).join(" | ");
    let reduce = reduce.times(1e6 / FILES as f64).shown(1);
    println!("| {rows} | {columns} | {entries} | {nodes} | {stopped} | {cells} | {reduce} |");
}

/// Ferry files of several sizes: what grows, and the rows, columns and longest duty of each line.
fn part(what: &str, sizes: &[(usize, usize, usize)]) {
    eprintln!("bench: how time grows {}", what.to_lowercase());
    println!("{what}:\n");
    println!(
        "| sailings | duties | entries | nodes | stopped | engine, µs a node | (a), µs a node | ratio | engine's reduce, µs |"
    );
    println!("|---|---|---|---|---|---|---|---|---|");
    for &(rows, columns, longest) in sizes {
        line(rows, columns, longest);
    }
    println!();
}

pub fn table() {
    println!("## How time grows\n");
    println!("Ferry-like files, {FILES} of each size, allowance {LIMIT}: all nodes of the {FILES} searches, how many of the {FILES} were");
    println!("stopped, and the time of the {FILES} calls divided by their nodes, {REPEATS} runs. Entries and the reducing call are means of");
    println!("the {FILES} files.\n");
    part("With sailings", &[(8, 256, 6), (16, 256, 6), (32, 256, 6), (64, 256, 6)]);
    part("With duties", &[(64, 64, 8), (64, 128, 8), (64, 192, 8), (64, 256, 8)]);
    part("With entries", &[(64, 256, 4), (64, 256, 8), (64, 256, 16), (64, 256, 24), (64, 256, 40)]);
}
