//! Node limits of the trials of 02, P6: every one from 1 to one above the largest tree of a trial, or some of them. Some stop a trial
//! without a plan, which ends the trials, and some with one, which counts as covered; the run counts both, and where the plan of a stopped
//! trial is the one shown.

use spp_tests::answers::{Uncrewed, NO_CREW, PLAN_EXISTS, STOPPED};
use spp_tests::files::Columns;
use spp_tests::generate;
use spp_tests::generate_uncrewed::{thinned, with_row, KINDS};
use spp_tests::plain;
use spp_tests::random::Random;

use super::uncrewed_case::Case;
use crate::compare;
use crate::report::{hex, Report};

const GROUP: &str = "sailings that can't be crewed: allowances from 1 to the largest tree, 0, 1,000,000 and 1,000,001";

/// The node limit that no trial of these files reaches.
const WHOLE: u32 = 1_000_000;

/// Largest trees up to this size are tried with every node limit.
const EVERY: u32 = 60;

/// What the limits come to, over all files: numbers of calls.
#[derive(Default)]
struct Totals {
    /// A trial was stopped without a plan.
    without: usize,
    /// Some trial was stopped with a plan, and the trials went on; at the place of the outcome.
    with: [usize; 4],
    /// The plan shown is that of a trial that was stopped.
    shown: usize,
    /// And it is another one than with the largest limit.
    other: usize,
}

fn some_files() -> Vec<Columns> {
    let mut random = Random::new(6);
    let mut files: Vec<Columns> = Vec::new();
    for _ in 0..150 {
        let whole = generate::tiny(&mut random);
        files.push(thinned(&mut random, whole));
    }
    for _ in 0..200 {
        let whole = generate::small(&mut random);
        files.push(thinned(&mut random, whole));
    }
    // The last trial but one is the search of the file without the last row.
    files.extend((0..200).map(|_| with_row(generate::small(&mut random))));
    for kind in &KINDS {
        for rows in 2..=16 {
            let k = random.within(1, rows);
            files.push((kind.make)(&mut random, rows, k));
        }
    }
    files
}

pub fn run(report: &mut Report) {
    let (mut totals, files) = (Totals::default(), some_files());
    files.iter().for_each(|columns| one_file(report, columns, &mut totals));
    let Totals { without, with, shown, other } = totals;
    let [_, to_k, to_plan, to_stop] = with;
    println!("allowances of trials, {} files:", files.len());
    println!("  {without} calls stopped; after a trial stopped with a plan: {to_k} calls with a k, {to_plan} with a plan, {to_stop} stopped");
    println!("  {shown} calls show the plan of a stopped trial, {other} of them another one than with the largest allowance");
    report.group("sailings that can't be crewed: trials stopped with a plan and without occur");
    for number in [without, to_k, to_plan, to_stop, shown, other] {
        report.holds(number >= 10, || "at least 10 calls of each kind".into());
    }
}

/// The number of trials that found a plan.
fn covered(case: &Case, answer: &Uncrewed) -> u32 {
    let rows = case.columns.rows as u32;
    if answer.outcome == PLAN_EXISTS {
        rows
    } else {
        answer.row.saturating_sub(1).min(rows)
    }
}

/// The size of the largest tree of the trials up to the one that ends them.
fn largest_tree(case: &Case, answer: &Uncrewed) -> u32 {
    let last = (covered(case, answer) + 1).min(case.columns.rows as u32);
    (1..=last).map(|row| tree(case, row, WHOLE).answer.nodes).max().unwrap_or(0)
}

fn tree(case: &Case, row: u32, limit: u32) -> plain::Tree {
    plain::trial(&case.file, row as usize, limit).expect("the file is accepted")
}

fn one_file(report: &mut Report, columns: &Columns, totals: &mut Totals) {
    let (case, room) = (Case::new(columns), columns.rows as usize);
    let whole = case.accepted(report, WHOLE, room);
    for limit in [0, 1_000_001, u32::MAX] {
        report.group(GROUP);
        let found = compare::uncrewed(report, &case.file, limit, room).0;
        report
            .same(&found, &Uncrewed { refusal: 11, ..Uncrewed::default() }, || format!("allowance {limit}, {}", hex(&case.file)));
    }
    let largest = largest_tree(&case, &whole.0);
    let limits: Vec<u32> = if largest <= EVERY {
        (1..=largest + 1).collect()
    } else {
        (1..=EVERY / 2).chain([largest / 2, largest - 1, largest, largest + 1]).collect()
    };
    for limit in limits {
        let found = case.accepted(report, limit, room);
        count(&case, limit, &found, &whole, totals);
        report.group(GROUP);
        let is_whole = found == whole;
        report.holds(is_whole || limit < largest, || format!("allowance {limit}, {found:?}, {}", hex(&case.file)));
        let same_k = found.0.outcome == STOPPED || (found.0.outcome, found.0.row) == (whole.0.outcome, whole.0.row);
        report.holds(same_k, || format!("allowance {limit}, {found:?}, {}", hex(&case.file)));
    }
}

/// Counts what the node limit does to the trials, by (a).
fn count(case: &Case, limit: u32, found: &(Uncrewed, Vec<u16>), whole: &(Uncrewed, Vec<u16>), totals: &mut Totals) {
    let (answer, plan) = found;
    let is_stopped = |row| tree(case, row, limit).answer.outcome == STOPPED;
    let stopped: Vec<bool> = (1..=covered(case, answer)).map(is_stopped).collect();
    totals.without += (answer.outcome == STOPPED) as usize;
    if let Some(number) = totals.with.get_mut(answer.outcome as usize) {
        *number += stopped.contains(&true) as usize;
    }
    let shows_stopped = answer.outcome == NO_CREW && stopped.last() == Some(&true);
    totals.shown += shows_stopped as usize;
    totals.other += (shows_stopped && *plan != whole.1) as usize;
}
