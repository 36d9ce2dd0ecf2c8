//! Time for each node of a search on ferry-like files of 64 rows and 256 columns.

use spp_tests::files::Columns;
use spp_tests::goal::Goal;
use spp_tests::random::Random;
use spp_tests::{engine, generate, plain};

use crate::measure;
use crate::runs::Runs;

const SMALL_REPEATS: usize = 15;
const LARGE_REPEATS: usize = 5;

/// A file with the size of its tree, and how often its search is repeated.
pub struct Sample {
    pub columns: Columns,
    pub file: Vec<u8>,
    pub nodes: u32,
    pub repeats: usize,
}

/// The files of a goal, which stay the same whatever the search does. They were chosen by the sizes of their trees before P4.
struct Chosen {
    /// Numbers of files from one run of the generator, by the sizes of their trees: 200 to 6,000 nodes.
    small: [usize; 12],
    /// Seeds of files with larger trees.
    large: &'static [u64],
}

fn chosen(goal: Goal) -> Chosen {
    match goal {
        // The larger ones: about 10,000, 30,000, 100,000, 300,000 and 500,000 nodes.
        Goal::Sum => Chosen { small: [14, 18, 23, 13, 0, 7, 12, 3, 1, 22, 17, 15], large: &[118, 138, 160, 521, 353] },
        // The larger ones: about 10,000, 50,000, 100,000 and 200,000 nodes.
        Goal::Longest => Chosen { small: [62, 96, 68, 127, 1, 128, 58, 40, 84, 49, 106, 24], large: &[10, 547, 491, 295] },
    }
}

fn sample(goal: Goal, columns: Columns, repeats: usize) -> Sample {
    let file = columns.file();
    let nodes = engine::search(goal, &file, 1_000_000, &mut [0; 64]).nodes;
    Sample { columns, file, nodes, repeats }
}

/// Ferry files whose trees for a goal have some hundred to some thousand nodes, and larger ones.
pub fn ferry_files(goal: Goal) -> Vec<Sample> {
    let Chosen { small, large } = chosen(goal);
    let mut random = Random::new(64_256);
    let count = small.iter().max().map_or(0, |last| last + 1);
    let made: Vec<Columns> = (0..count).map(|_| generate::large_ferry(&mut random)).collect();
    let small = small.iter().map(|&number| sample(goal, made[number].clone(), SMALL_REPEATS));
    let large = large.iter().map(|&seed| sample(goal, generate::large_ferry(&mut Random::new(seed)), LARGE_REPEATS));
    small.chain(large).collect()
}

/// The table of a goal, on files that are chosen for it.
pub fn table(goal: Goal, samples: &[Sample]) {
    println!("## Time for each node, {goal}\n");
    println!(
        "Ferry-like files, 64 sailings by 256 duties, allowance 1,000,000; the whole call divided by its nodes. The files are"
    );
    println!(
        "the same in every run, chosen for this goal by the sizes of their trees before P4: 200 to 6,000 nodes for files 1 to"
    );
    println!("12, {SMALL_REPEATS} runs each, and more for the others, {LARGE_REPEATS} runs each.\n");
    println!("| file | entries | nodes | engine, µs a node | (a), µs a node | ratio |");
    println!("|---|---|---|---|---|---|");
    let mut all = Vec::new();
    for (number, sample) in samples.iter().enumerate() {
        eprintln!("bench: time for each node ({goal}), file {} of {}, {} nodes", number + 1, samples.len(), sample.nodes);
        let (mut plan, mut other) = ([0; 64], [0; 64]);
        let (engine, base) = measure::in_turn(
            sample.repeats,
            || measure::keep(engine::search(goal, &sample.file, 1_000_000, &mut plan)),
            || measure::keep(plain::search(goal, &sample.file, 1_000_000, &mut other)),
        );
        let each = 1e6 / sample.nodes as f64;
        let line = [engine.times(each), base.times(each), engine.divided_by(&base)];
        let cells = line.each_ref().map(|runs| runs.shown(2)).join(" | ");
        println!("| {} | {} | {} | {cells} |", number + 1, sample.columns.entries(), sample.nodes);
        all.push(line);
    }
    let medians = [0, 1, 2].map(|cell| Runs::new(all.iter().map(|line| line[cell].median()).collect()).median());
    println!("| median | | | {:.2} | {:.2} | {:.2} |\n", medians[0], medians[1], medians[2]);
}
