//! The cost of crews onto vessels on the largest tables, by kind, and the stack of one call.

use std::ffi::c_void;

use spp_tests::generate_table::{Kind, KINDS};
use spp_tests::random::Random;
use spp_tests::table::{Table, MOST};
use spp_tests::{engine, plain};

use crate::measure;
use crate::runs::Runs;
use crate::stack;

const REPEATS: usize = 9;
/// Tables of each kind.
const TABLES: usize = 30;

extern "C" fn assign_by_engine(task: *mut c_void) -> *mut c_void {
    let (table, mut answer) = (unsafe { &*(task as *const Table) }, [0; MOST]);
    measure::keep(engine::assign(MOST, MOST, &table.costs, &mut answer));
    std::ptr::null_mut()
}

extern "C" fn assign_by_plain(task: *mut c_void) -> *mut c_void {
    let (table, mut answer) = (unsafe { &*(task as *const Table) }, [0; MOST]);
    measure::keep(plain::assign(MOST, MOST, &table.costs, &mut answer));
    std::ptr::null_mut()
}

/// A table's medians of the engine and of (a), in ms.
fn medians(table: &Table) -> (f64, f64) {
    let (mut answer, mut other) = ([0; MOST], [0; MOST]);
    let (engine, base) = measure::in_turn(
        REPEATS,
        || measure::keep(engine::assign(MOST, MOST, &table.costs, &mut answer)),
        || measure::keep(plain::assign(MOST, MOST, &table.costs, &mut other)),
    );
    (engine.median() * 1e3, base.median() * 1e3)
}

/// A line of some tables: of the engine's and of (a)'s times the median and the largest, and the ratio of the largest.
fn line(name: &str, engine: &Runs, base: &Runs, count: usize) {
    let times = [engine.median(), engine.largest(), base.median(), base.largest()].map(|time| format!("{time:.3}"));
    println!("| {name} | {count} | {} | {:.1} |", times.join(" | "), engine.largest() / base.largest());
}

/// The times of a kind's tables, printed as a line.
fn of_kind(kind: &Kind, random: &mut Random) -> Vec<(f64, f64)> {
    eprintln!("bench: crews onto vessels, {}", kind.name);
    let times: Vec<(f64, f64)> = (0..TABLES).map(|_| medians(&(kind.make)(random, MOST, MOST))).collect();
    let (engine, base) = times.iter().copied().unzip();
    line(kind.name, &Runs::new(engine), &Runs::new(base), TABLES);
    times
}

pub fn table() {
    println!("## Crews onto vessels\n");
    println!("16 crews and 16 vessels, {TABLES} tables of each kind. The time of a table is the median of {REPEATS} runs of one call; the lines give");
    println!("the median and the worst of these times, and the engine's worst divided by that of (a).\n");
    println!("| tables | number | engine, ms: median | worst | (a), ms: median | worst | ratio of the worst |");
    println!("|---|---|---|---|---|---|---|");
    let mut random = Random::new(16_016);
    let times: Vec<(f64, f64)> = KINDS.iter().flat_map(|kind| of_kind(kind, &mut random)).collect();
    let (engine, base) = times.iter().copied().unzip();
    line("all", &Runs::new(engine), &Runs::new(base), times.len());
    let dense = Table::new(MOST, MOST, |crew, vessel| (1 + crew * vessel) as u32);
    stack::of_call(assign_by_engine, assign_by_plain, &dense);
}
