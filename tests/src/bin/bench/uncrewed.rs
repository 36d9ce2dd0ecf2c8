//! The time of one call for the sailings that can't be crewed, on files of 64 rows and 192 columns whose last row is the first that can't,
//! and the stack of one call.

use std::ffi::c_void;

use spp_tests::answers::STOPPED;
use spp_tests::files;
use spp_tests::generate_uncrewed;
use spp_tests::random::Random;
use spp_tests::{engine, plain};

use crate::measure;
use crate::stack;

const REPEATS: usize = 7;
const LIMIT: u32 = 1_000_000;

/// Seeds of the files, by the nodes of all trials: about 8,000, 20,000, 30,000, 100,000 and 400,000. Trial 64 has some hundred to some
/// thousand of them.
const SEEDS: [u64; 5] = [766, 580, 2486, 701, 1045];

extern "C" fn try_by_engine(task: *mut c_void) -> *mut c_void {
    let (file, mut shown) = (unsafe { &*(task as *const Vec<u8>) }, [0; 64]);
    measure::keep(engine::uncrewed(file, LIMIT, &mut shown));
    std::ptr::null_mut()
}

extern "C" fn try_by_plain(task: *mut c_void) -> *mut c_void {
    let (file, mut shown) = (unsafe { &*(task as *const Vec<u8>) }, [0; 64]);
    measure::keep(plain::uncrewed(file, LIMIT, &mut shown));
    std::ptr::null_mut()
}

/// Prints the line of a file; gives how many of its trials are stopped.
fn line(number: usize, seed: u64) -> usize {
    let columns = generate_uncrewed::ferry_to_last(&mut Random::new(seed));
    let (file, entries) = (columns.file(), columns.entries());
    let trials: Vec<_> = (1..=64).map(|row| plain::trial(&file, row, LIMIT).expect("the file is accepted").answer).collect();
    let (nodes, last): (u32, u32) = (trials.iter().map(|answer| answer.nodes).sum(), trials[63].nodes);
    eprintln!("bench: sailings that can't be crewed, file {} of {}, {nodes} nodes", number + 1, SEEDS.len());
    let (mut shown, mut other) = ([0; 64], [0; 64]);
    let k = engine::uncrewed(&file, LIMIT, &mut shown).row;
    let (engine, base) = measure::in_turn(
        REPEATS,
        || measure::keep(engine::uncrewed(&file, LIMIT, &mut shown)),
        || measure::keep(plain::uncrewed(&file, LIMIT, &mut other)),
    );
    let cells = [engine.times(1e3), base.times(1e3), engine.divided_by(&base)].map(|runs| runs.shown(2)).join(" | ");
    let each = engine.median() * 1e6 / nodes as f64;
    println!("| {} | {entries} | {k} | {nodes} | {last} | {cells} | {each:.2} |", number + 1);
    trials.iter().filter(|answer| answer.outcome == STOPPED).count()
}

pub fn table() {
    println!("## Sailings that can't be crewed\n");
    println!("Ferry-like files, 64 sailings by 192 duties, whose last sailing is the first that can't be crewed: one call has 64 trials,");
    println!("63 with a plan and the last without, each with allowance 1,000,000; {REPEATS} runs of one call. Nodes are those of all trials");
    println!("and of the last one, counted by (a). The files were chosen by these numbers.\n");
    println!("| file | entries | k | nodes | of the last trial | engine, ms | (a), ms | ratio | engine, µs a node |");
    println!("|---|---|---|---|---|---|---|---|---|");
    let stopped: usize = SEEDS.iter().enumerate().map(|(number, &seed)| line(number, seed)).sum();
    println!("\nTrials stopped by the allowance: {stopped}.");
    stack::of_call(try_by_engine, try_by_plain, &files::deepest_of_trials().file());
}
