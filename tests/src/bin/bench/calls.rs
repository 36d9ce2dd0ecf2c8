//! The cost of reader, writer, plan check and reducing on the largest file, and of a search of one node with the longest lists.

use std::hint::black_box;

use spp_tests::edition::Edition;
use spp_tests::files;
use spp_tests::goal::Goal;
use spp_tests::requests::Requests;
use spp_tests::{engine, plain};

use crate::measure::{self, keep};

const REPEATS: usize = 31;
/// Calls in one run.
const CALLS: usize = 200;

/// Lists with room for any file, lent again in each call.
struct Lists {
    costs: [i32; 256],
    lengths: [u16; 256],
    rows: [u8; 4096],
    out: [u8; 6152],
    plan: [u16; 64],
}

fn lists() -> Box<Lists> {
    Box::new(Lists { costs: [0; 256], lengths: [0; 256], rows: [0; 4096], out: [0; 6152], plan: [0; 64] })
}

/// One line: the same call of the engine and of (a), each with lists of its own.
fn line(name: &str, engine: impl Fn(&mut Lists), base: impl Fn(&mut Lists)) {
    let (mut first_lists, mut second_lists) = (lists(), lists());
    let (first, second) = measure::in_turn(
        REPEATS,
        || (0..CALLS).for_each(|_| engine(&mut first_lists)),
        || (0..CALLS).for_each(|_| base(&mut second_lists)),
    );
    let each = 1e6 / CALLS as f64;
    let cells = [first.times(each), second.times(each), first.divided_by(&second)].map(|runs| runs.shown(2));
    println!("| {name} | {} |", cells.join(" | "));
}

pub fn table() {
    let columns = files::largest();
    let file = columns.file();
    let (costs, lengths, numbers) = (columns.costs.clone(), columns.lengths(), columns.numbers());
    let offered: Vec<u16> = (1..=256).step_by(64).collect();
    eprintln!("bench: the other calls");
    println!("## The other calls on the largest file\n");
    println!("64 sailings, 256 duties, 4,096 sailing numbers, {} bytes; {REPEATS} runs of {CALLS} calls.\n", file.len());
    println!("| call | engine, µs | (a), µs | ratio |");
    println!("|---|---|---|---|");
    line(
        "read",
        |l| keep(engine::read(black_box(&file), &mut l.costs, &mut l.lengths, &mut l.rows)),
        |l| keep(plain::read(black_box(&file), &mut l.costs, &mut l.lengths, &mut l.rows)),
    );
    line(
        "write",
        |l| keep(engine::write(Edition::One, 64, black_box(&costs), &lengths, &numbers, &mut l.out)),
        |l| keep(plain::write(Edition::One, 64, black_box(&costs), &lengths, &numbers, &mut l.out)),
    );
    line("check", |_| keep(engine::check(black_box(&file), &offered)), |_| keep(plain::check(black_box(&file), &offered)));
    line(
        "reduce",
        |l| keep(engine::reduce(black_box(&file), &mut l.costs, &mut l.rows)),
        |l| keep(plain::reduce(black_box(&file), &mut l.costs, &mut l.rows)),
    );
    longest_lists(&file);
    println!();
}

/// All duties absent, so that the root is dead, and all of them agreed too.
fn longest_lists(file: &[u8]) {
    let all: Vec<u16> = (1..=256).collect();
    for (name, agreed) in [("search, 256 absent", &all[..0]), ("search, 256 agreed and absent", &all)] {
        let asked = Requests { agreed, absent: &all, pairs: &[] };
        line(
            name,
            |l| keep(engine::search_with(Goal::Sum, black_box(file), 1, asked, &mut l.plan)),
            |l| keep(plain::search_with(Goal::Sum, black_box(file), 1, asked, &mut l.plan)),
        );
    }
}
