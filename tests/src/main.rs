//! Compares the engine's static library with (a), `spp_tests::plain`, and with the second solvers. Prints how many cases were compared; the
//! exit status is 1 if anything differs. `spp-tests stored` compares the stored values alone.

mod compare;
mod groups;
mod report;

use std::process::{Command, ExitCode};
use std::time::Instant;

use report::Report;

/// The word that makes the program run the deepest searches and trials and the largest table on a small stack.
const SMALL_STACK: &str = "small-stack";

/// The word for the stored values alone.
const STORED: &str = "stored";

fn status(passed: bool) -> ExitCode {
    if passed {
        ExitCode::SUCCESS
    } else {
        ExitCode::FAILURE
    }
}

/// Runs this program anew for the deepest searches and trials and the largest table.
fn small_stack(report: &mut Report) {
    report.group("the deepest searches and trials, and a table of 16 by 16, on a thread with a stack of 2 MiB");
    let program = std::env::current_exe().expect("the program's path is known");
    let run = Command::new(program).arg(SMALL_STACK).status();
    report.holds(run.is_ok_and(|status| status.success()), || {
        "a deepest search or trial or the table differs or needs a larger stack".into()
    });
}

fn on_small_stack() -> bool {
    groups::deep::on_small_stack() && groups::assign_worked::on_small_stack() && groups::uncrewed_worked::on_small_stack()
}

fn compare_all() -> bool {
    let start = Instant::now();
    let mut report = Report::new();
    println!("(a) is the plain implementation in tests/src/plain, the second solver is tests/src/second.rs, and for crews onto");
    println!("vessels tests/src/second_assign.rs, for sailings that can't be crewed tests/src/second_uncrewed.rs, for the");
    println!("running plan tests/src/second_desk.rs");
    groups::worked::run(&mut report);
    groups::worked_lists::run(&mut report);
    groups::earning_worked::run(&mut report);
    groups::editions::run(&mut report);
    groups::earning::run(&mut report);
    groups::stored::run(&mut report);
    groups::generated::run(&mut report);
    groups::limits::largest(&mut report);
    groups::lists::run(&mut report);
    groups::list_faults::run(&mut report);
    groups::worked_pairs::run(&mut report);
    groups::pairs::run(&mut report);
    groups::pair_faults::run(&mut report);
    groups::overlaps::run(&mut report);
    groups::damaged::run(&mut report);
    groups::rooms::run(&mut report);
    groups::deep::run(&mut report);
    groups::assign_worked::run(&mut report);
    groups::assign_generated::run(&mut report);
    groups::assign_faults::run(&mut report);
    groups::uncrewed_worked::run(&mut report);
    groups::uncrewed_generated::run(&mut report);
    groups::uncrewed_limits::run(&mut report);
    groups::uncrewed_faults::run(&mut report);
    groups::desk_worked::run(&mut report);
    groups::desk_walks::run(&mut report);
    groups::desk_files::run(&mut report);
    groups::desk_faults::run(&mut report);
    small_stack(&mut report);
    let passed = report.finish();
    println!("{:.1} seconds", start.elapsed().as_secs_f64());
    passed
}

fn compare_stored() -> bool {
    let mut report = Report::new();
    groups::stored::run(&mut report);
    report.finish()
}

fn main() -> ExitCode {
    let word = std::env::args().nth(1);
    let compare = match word.as_deref() {
        Some(SMALL_STACK) => return status(on_small_stack()),
        Some(STORED) => compare_stored,
        _ => compare_all,
    };
    // A large stack here, so that the need of the engine is a matter of its own test alone.
    let thread = std::thread::Builder::new().stack_size(256 << 20).spawn(compare).expect("a thread starts");
    status(thread.join().unwrap_or(false))
}
