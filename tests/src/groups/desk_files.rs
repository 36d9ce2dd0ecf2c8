//! A desk that is stepped over several files of both editions (02, P7), so that numbers wrap at 32 bits; and desks of any numbers.

use spp_tests::answers::Reply;
use spp_tests::desk::{Desk, Way};
use spp_tests::edition::Edition;
use spp_tests::engine;
use spp_tests::files::{columns, Columns};
use spp_tests::generate;
use spp_tests::generate_desk::{any_desk, few_rows, largest, plans, single_rows};
use spp_tests::generate_earning::in_edition;
use spp_tests::random::Random;

use super::desk_case::{Desks, File};
use super::desk_walks::OUT_OF_RANGE;
use crate::report::Report;

/// Walks over several files, and the steps of each.
const WALKS: usize = 30;
const STEPS: usize = 1500;

/// Desks of any numbers, and the steps of each.
const DESKS: usize = 10_000;
const DESK_STEPS: usize = 8;

/// Numbers that wrapped in one step, by kind: how often.
#[derive(Default)]
struct Wraps {
    /// A row's count below 0, and above 2^32 - 1.
    covered: [usize; 2],
    /// The number of rows off, in the same way.
    off: [usize; 2],
    /// The total below -2^31, and above 2^31 - 1.
    total: [usize; 2],
    /// A mark of a column that the file of the step has not, and that is in.
    beyond: usize,
}

/// Whether a number wrapped below its range and above it, if it moves by less than half of the range.
fn wrapped(before: i64, after: i64) -> [bool; 2] {
    let half = 1 << 31;
    [after - before > half, before - after > half]
}

fn add(numbers: &mut [usize; 2], wraps: [bool; 2]) {
    numbers.iter_mut().zip(wraps).for_each(|(number, wraps)| *number += wraps as usize);
}

impl Wraps {
    fn count(&mut self, before: &Desk, after: &Desk) {
        for (&before, &after) in before.covered.iter().zip(&after.covered) {
            add(&mut self.covered, wrapped(before.into(), after.into()));
        }
        add(&mut self.off, wrapped(before.off.into(), after.off.into()));
        add(&mut self.total, wrapped(before.total.into(), after.total.into()));
    }

    fn finish(&self, report: &mut Report, name: &str, numbers: &[usize]) {
        let Wraps { covered, off, total, beyond } = self;
        println!("  {name}: below and above, counts of sailings {covered:?}, sailings off {off:?}, totals {total:?};");
        println!("    {beyond} steps refused on a duty that is in and that the step's file has not");
        report.group("running plan over several files: numbers wrap, each below and above its range");
        for &number in numbers {
            report.holds(number >= 10, || format!("{name}: {number}, at least 10 of each"));
        }
    }
}

/// Files of all sizes, so that columns of one number differ in rows and cost.
fn some_files(random: &mut Random) -> Vec<File> {
    let mut files = vec![columns(1, &[(&[1], 5)]), columns(2, &[(&[1, 2], 9), (&[1], 4), (&[2], 1_000_000)])];
    files.extend([few_rows, generate::tiny, generate::small, generate::ferry, single_rows, largest].map(|make| make(random)));
    files.extend([1, 2, 3, 7, 64].map(|parts| plans(random, 64, parts, 3)));
    let earning: Vec<Columns> = files.iter().map(|columns| in_edition(random, Edition::Two, columns.clone())).collect();
    files.into_iter().chain(earning).map(File::new).collect()
}

/// A step of any column: of those that a small file has too, of all, or out of range.
fn any_step(random: &mut Random, file: &File) -> (Way, u32) {
    let column = match random.within(1, 20) {
        1 => OUT_OF_RANGE[random.within(0, OUT_OF_RANGE.len() - 1)],
        2..=6 => random.within(1, 256) as u32,
        7..=14 => random.within(1, 5.min(file.count() as usize)) as u32,
        _ => random.within(1, file.count() as usize) as u32,
    };
    (Way::BOTH[random.within(0, 1)], column)
}

/// Makes a step and asks for the reply, and counts what wraps.
fn one_step(report: &mut Report, desks: &mut Desks, way: Way, file: &File, column: u32, wraps: &mut Wraps) {
    let before = *desks.desk();
    let step = desks.step(report, way, file, column);
    wraps.count(&before, desks.desk());
    let is_in = before.marks.get((column as usize).wrapping_sub(1)).is_some_and(|&mark| mark != 0);
    wraps.beyond += (step.refusal == 19 && is_in) as usize;
    desks.reply(report);
}

/// Walks that take another file at each step, and now and then make the desk anew.
fn walks(report: &mut Report, random: &mut Random) {
    let mut wraps = Wraps::default();
    for _ in 0..WALKS {
        let files = some_files(random);
        let mut desks = Desks::over(report, &files[random.within(0, files.len() - 1)]);
        for _ in 0..STEPS {
            let file = &files[random.within(0, files.len() - 1)];
            if random.chance(1) {
                desks.empty(report, file);
                continue;
            }
            let (way, column) = any_step(random, file);
            one_step(report, &mut desks, way, file, column, &mut wraps);
        }
    }
    let numbers = [wraps.covered.to_vec(), wraps.off.to_vec(), vec![wraps.beyond]].concat();
    wraps.finish(report, "walks over several files", &numbers);
}

/// Adds at the least cost of an edition and removes at the largest, until the total has wrapped, and then the converse.
fn total_by_steps(report: &mut Report, edition: Edition) {
    let costs = edition.of([[1, 1_000_000], [-1_000_000, 1_000_000]]);
    let [cheap, dear] = costs.map(|cost| File::new(columns(1, &[(&[1], cost)]).under(edition)));
    for (first, second, way) in [(&cheap, &dear, 0), (&dear, &cheap, 1)] {
        let (mut desks, mut wraps) = (Desks::over(report, first), Wraps::default());
        for _ in 0..2200 {
            one_step(report, &mut desks, Way::Add, first, 1, &mut wraps);
            one_step(report, &mut desks, Way::Remove, second, 1, &mut wraps);
        }
        report.group("running plan over several files: totals that wrap by many steps");
        let mut wanted = [0; 2];
        wanted[way] = 1;
        let total = 2200 * (first.columns.costs[0] as i64 - second.columns.costs[0] as i64);
        report.same(&(wraps.total, desks.desk().total), &(wanted, total as i32), || "2,200 steps in and out".into());
    }
}

/// Desks of any numbers, each with some steps over any files, and at the end made empty.
fn any_desks(report: &mut Report, random: &mut Random) {
    let (files, mut wraps) = (some_files(random), Wraps::default());
    for _ in 0..DESKS {
        let mut desks = Desks::new(any_desk(random));
        desks.reply(report);
        for _ in 0..DESK_STEPS {
            let file = &files[random.within(0, files.len() - 1)];
            let (way, column) = any_step(random, file);
            one_step(report, &mut desks, way, file, column, &mut wraps);
        }
        desks.empty(report, &files[random.within(0, files.len() - 1)]);
    }
    let numbers = [wraps.covered, wraps.off, wraps.total].concat();
    wraps.finish(report, "desks of any numbers", &numbers);
}

/// Replies to all pairs of some numbers: a plan with the total as its price exactly if no row is off.
fn replies(report: &mut Report) {
    report.group("running plan: stated replies");
    let totals = [i32::MIN, i32::MIN + 1, -1_000_000, -2, -1, 0, 1, 2, 42, 1_000_000, 256_000_000, i32::MAX - 1, i32::MAX];
    for off in [0, 1, 2, 3, 63, 64, 255, 256, 65_536, 1 << 24, 1 << 31, u32::MAX - 1, u32::MAX] {
        for total in totals {
            let wanted = if off == 0 { Reply { refusal: 0, is_plan: 1, price: total } } else { Reply::default() };
            report.same(&engine::desk_reply(off, total), &wanted, || format!("{off} sailings off, total {total}"));
        }
    }
}

pub fn run(report: &mut Report) {
    println!("running plan, numbers that wrap:");
    let mut random = Random::new(32);
    replies(report);
    walks(report, &mut random);
    report.each_edition(total_by_steps);
    any_desks(report, &mut random);
}
