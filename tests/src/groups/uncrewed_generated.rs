//! Generated files for the sailings that can't be crewed (02, P6): each kind for numbers of rows and every k, files with a plan of every
//! number of rows, families of any files, and files of the most columns.

use spp_tests::answers::{Uncrewed, NO_CREW, PLAN_EXISTS, STOPPED};
use spp_tests::files::Columns;
use spp_tests::generate;
use spp_tests::generate_uncrewed::{planned, thinned, Kind, KINDS, MOST_COLUMNS};
use spp_tests::random::Random;

use super::uncrewed_case::Case;
use crate::report::{hex, Report};

/// The node limit of files that were made for a k.
const LIMIT: u32 = 150;

/// Files with a plan for each number of rows.
const PLANNED: usize = 6;

/// A family of generated files, some columns of which are left out.
struct Family {
    name: &'static str,
    make: fn(&mut Random) -> Columns,
    files: usize,
    limit: u32,
}

fn families() -> Vec<Family> {
    let family = |name, make, files, limit| Family { name, make, files, limit };
    vec![
        family("tiny", generate::tiny, 4000, 1_000_000),
        family("small", generate::small, 1000, 20_000),
        family("medium", generate::medium, 150, 2000),
        family("ferry", generate::ferry, 60, 300),
        family("dense", generate::dense, 60, 300),
        family("sparse", generate::sparse, 20, 100),
    ]
}

/// What the run says besides the counted cases.
#[derive(Default)]
struct Totals {
    no_crew: usize,
    planned: usize,
    stopped: usize,
    unknown: usize,
}

impl Totals {
    fn count(&mut self, case: &Case, answer: &Uncrewed) {
        self.no_crew += (answer.outcome == NO_CREW) as usize;
        self.planned += (answer.outcome == PLAN_EXISTS) as usize;
        self.stopped += (answer.outcome == STOPPED) as usize;
        self.unknown += case.furthest.is_none() as usize;
    }

    fn print(&self, name: &str) {
        let Totals { no_crew, planned, stopped, unknown } = self;
        println!("  {name:<52} {no_crew:>4} with a k, {planned:>4} planned, {stopped:>3} stopped, {unknown} too large for the second solver");
    }
}

pub fn run(report: &mut Report) {
    println!("files for the sailings that can't be crewed:");
    KINDS.iter().enumerate().for_each(|(number, kind)| every_k(report, kind, number));
    every_plan(report);
    families().iter().enumerate().for_each(|(number, family)| one_family(report, family, 1985 + number as u64));
    most_columns(report);
}

/// The numbers of rows of a kind: every one for the first, some for the others, whose trials have more work.
fn row_counts(number: usize) -> Vec<usize> {
    if number == 0 {
        (2..=64).collect()
    } else {
        (2..=24).chain([31, 32, 33, 47, 48, 62, 63, 64]).collect()
    }
}

/// A file of a kind for each number of rows and every k: the answer has that k, unless the trials were stopped before.
fn every_k(report: &mut Report, kind: &Kind, number: usize) {
    let (mut random, mut totals) = (Random::new(1975 + number as u64), Totals::default());
    for rows in row_counts(number) {
        for k in 1..=rows {
            let columns = (kind.make)(&mut random, rows, k);
            let case = Case::new(&columns);
            let answer = case.accepted(report, LIMIT, rows + random.within(0, 3)).0;
            report.group("sailings that can't be crewed: the k that the file was made for");
            let reached = if answer.outcome == STOPPED { answer.row as usize <= k } else { answer.row as usize == k };
            report.holds(reached && answer.outcome != PLAN_EXISTS, || format!("{answer:?}, made for {k}, {}", hex(&case.file)));
            totals.count(&case, &answer);
        }
    }
    totals.print(kind.name);
}

/// Files with a plan: a plan exists, unless the trials were stopped.
fn every_plan(report: &mut Report) {
    let (mut random, mut totals) = (Random::new(1980), Totals::default());
    for rows in 1..=64 {
        for _ in 0..PLANNED {
            let columns = planned(&mut random, rows);
            let case = Case::new(&columns);
            let answer = case.accepted(report, LIMIT, rows + random.within(0, 3)).0;
            report.group("sailings that can't be crewed: a plan exists where one was put into the file");
            report.holds(answer.outcome != NO_CREW, || format!("{answer:?}, {}", hex(&case.file)));
            totals.count(&case, &answer);
        }
    }
    totals.print("with a plan");
}

fn one_family(report: &mut Report, family: &Family, seed: u64) {
    let (mut random, mut totals) = (Random::new(seed), Totals::default());
    for _ in 0..family.files {
        let whole = (family.make)(&mut random);
        let columns = thinned(&mut random, whole);
        let case = Case::new(&columns);
        let answer = case.accepted(report, family.limit, columns.rows as usize + random.within(0, 3)).0;
        totals.count(&case, &answer);
    }
    totals.print(family.name);
}

/// Takes row k out of all bodies; one that has no other gets the next row, counted round.
fn uncover(columns: &mut Columns, k: usize) {
    let next = (k % columns.rows as usize) as u8 + 1;
    for body in &mut columns.bodies {
        body.retain(|&row| row as usize != k);
        if body.is_empty() {
            body.push(next);
        }
    }
}

/// Files of 190 to 192 columns, and of 64 rows or few; each as it was made, without a column on the last row, and without one on the row in
/// the middle either.
fn most_columns(report: &mut Report) {
    let (mut random, mut totals) = (Random::new(192), Totals::default());
    for rows in [2, 3, 10, 33, 63, 64] {
        for count in [190, 191, MOST_COLUMNS, MOST_COLUMNS, MOST_COLUMNS] {
            let mut columns = generate::ferry_of(&mut random, rows, count + 1, 5.min(rows), 20);
            // One column less than was made, which may be one of the plan's.
            columns.bodies.pop();
            columns.costs.pop();
            for k in [None, Some(rows), Some(rows / 2)] {
                k.into_iter().for_each(|k| uncover(&mut columns, k));
                let case = Case::new(&columns);
                let answer = case.accepted(report, 300, rows).0;
                totals.count(&case, &answer);
            }
        }
    }
    totals.print("190 to 192 duties");
}
