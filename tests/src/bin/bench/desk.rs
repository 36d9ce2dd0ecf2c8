//! The time of one step of the running plan (02, P7), against that of a full plan check of the same file.

use std::hint::black_box;

use spp_tests::desk::{Desk, Way};
use spp_tests::engine;
use spp_tests::files::Columns;
use spp_tests::generate_desk;
use spp_tests::goal::Goal;
use spp_tests::random::Random;

use crate::measure::{self, keep};
use crate::runs::Runs;

const REPEATS: usize = 31;
/// Calls in one run. Every second step takes out the column that the former put in.
const CALLS: usize = 3000;

/// A desk over a file, to be stepped.
struct Task<'a> {
    file: &'a [u8],
    columns: usize,
    desk: Desk,
}

impl Task<'_> {
    fn new(file: &[u8], columns: usize) -> Task<'_> {
        let mut desk = Desk { marks: [0; 256], covered: [0; 64], off: 0, total: 0 };
        engine::desk_empty(file, &mut desk);
        Task { file, columns, desk }
    }

    /// The file is tested, and nothing changes: the columns are not in.
    fn test(&mut self) {
        for call in 0..CALLS {
            let column = call / 2 * 37 % self.columns + 1;
            keep(engine::desk_step(Way::Remove, black_box(self.file), column as u32, &mut self.desk));
        }
    }

    /// Columns from all over the file, in and out.
    fn step(&mut self) {
        for call in 0..CALLS {
            let (way, column) = (Way::BOTH[call % 2], call / 2 * 37 % self.columns + 1);
            keep(engine::desk_step(way, black_box(self.file), column as u32, &mut self.desk));
        }
    }
}

fn check(file: &[u8], offered: &[u16]) {
    for _ in 0..CALLS {
        keep(engine::check(black_box(file), black_box(offered)));
    }
}

/// A plan of the file.
fn plan(file: &[u8]) -> Vec<u16> {
    let mut plan = [0; 64];
    let answer = engine::search(Goal::Sum, file, 1_000_000, &mut plan);
    plan[..answer.columns as usize].to_vec()
}

/// The runs on one file, in seconds: a step, the check of a plan and that of all columns, and what of each goes into testing the file.
struct Measured {
    columns: Columns,
    in_plan: usize,
    step: Runs,
    checks: [Runs; 2],
    step_test: Runs,
    check_test: Runs,
}

/// A check of a column out of range is refused by 12 after the file's tests.
fn measured(columns: Columns) -> Measured {
    let (file, count) = (columns.file(), columns.costs.len());
    eprintln!("bench: the running plan, {count} duties, {} entries", columns.entries());
    let (offered, every) = (plan(&file), (1..=count as u16).collect::<Vec<u16>>());
    let beyond = [count as u16 + 1];
    let (mut tested, mut stepped) = (Task::new(&file, count), Task::new(&file, count));
    let [step_test, step, check_test, few, all] = measure::each_in_turn(
        REPEATS,
        [
            &mut || tested.test(),
            &mut || stepped.step(),
            &mut || check(&file, &beyond),
            &mut || check(&file, &offered),
            &mut || check(&file, &every),
        ],
    );
    Measured { columns, in_plan: offered.len(), step, checks: [few, all], step_test, check_test }
}

impl Measured {
    /// What stands in front of each line: the sailings of a duty, the duties, the entries, and the duties of a plan.
    fn front(&self) -> String {
        let Columns { bodies, costs, .. } = &self.columns;
        format!("| {} | {} | {} | {} |", bodies[0].len(), costs.len(), self.columns.entries(), self.in_plan)
    }

    fn line(&self) {
        let [few, all] = &self.checks;
        let times = [&self.step_test, &self.step, few, all].map(|runs| runs.times(1e6 / CALLS as f64).shown(2));
        let ratios = [few, all].map(|check| self.step.divided_by(check).shown(2));
        println!("{} {} | {} |", self.front(), times.join(" | "), ratios.join(" | "));
    }

    /// The checks less the time of testing the file.
    fn checks_alone(&self) -> [Runs; 2] {
        self.checks.each_ref().map(|check| check.less(&self.check_test))
    }

    /// The same less the time of testing the file.
    fn line_without_test(&self) {
        let [few, all] = self.checks_alone();
        let times = [&self.step.less(&self.step_test), &few, &all].map(|runs| runs.times(1e9 / CALLS as f64).shown(0));
        println!("{} {} |", self.front(), times.join(" | "));
    }

    /// The line of a file of one column with as many rows, which is tested in little time. The ratio is of the medians.
    fn line_of_one_column(&self) {
        let body = &self.columns.bodies[0];
        let file = Columns::new(64, vec![1000], vec![body.clone()]).file();
        let (mut tested, mut stepped) = (Task::new(&file, 1), Task::new(&file, 1));
        let [test, step] = measure::each_in_turn(REPEATS, [&mut || tested.test(), &mut || stepped.step()]);
        let alone = step.less(&test);
        let cells = [&test, &step, &alone].map(|runs| runs.times(1e9 / CALLS as f64).shown(0)).join(" | ");
        let [_, all] = self.checks_alone();
        println!("| {} | {cells} | {:.3} |", body.len(), alone.median() / all.median());
    }
}

/// The heads of a table with these columns behind those of each line's front.
fn heads(columns: &[&str]) {
    println!("| sailings of a duty | duties | entries | duties of a plan | {} |", columns.join(" | "));
    println!("|---|---|---|---|{}", "---|".repeat(columns.len()));
}

pub fn table() {
    println!("## The running plan on the desk\n");
    println!("64 sailings; {REPEATS} runs of {CALLS} calls by the engine, taken in turn. A step puts one duty in or takes it out. The full check is");
    println!("that of a plan's duties, and of all duties of the file. Testing the file is a step that takes out a duty that is not in.");
    println!("Ratios are of a step to a full check.\n");
    let makes = [generate_desk::single_rows, generate_desk::largest, generate_desk::all_rows];
    let all = makes.map(|make| measured(make(&mut Random::new(7))));
    heads(&["testing, µs", "step, µs", "check of a plan, µs", "of all, µs", "ratio", "of all"]);
    all.iter().for_each(Measured::line);
    println!("\nWithout the time of testing the file, for the check that of a check refused by 12. The time of the step itself is below the scatter:\n");
    heads(&["step, ns", "check of a plan, ns", "of all, ns"]);
    all.iter().for_each(Measured::line_without_test);
    println!("\nThe step itself, on files of one duty, where testing takes little; its ratio to the full check of all duties in the table before:\n");
    println!("| sailings of the duty | testing, ns | step, ns | step without testing, ns | ratio to the check of all |");
    println!("|---|---|---|---|---|");
    all.iter().for_each(Measured::line_of_one_column);
    println!();
}
