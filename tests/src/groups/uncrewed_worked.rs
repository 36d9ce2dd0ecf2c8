//! Files for the sailings that can't be crewed (02, P6), with answers and duties that were worked out by hand; the samples; and the deepest
//! trials on a thread with a stack of 2 MiB.

use spp_tests::answers::{Uncrewed, NO_CREW, PLAN_EXISTS, STOPPED};
use spp_tests::edition::Edition;
use spp_tests::files::{self, columns, Columns};
use spp_tests::generate_uncrewed::MOST_COLUMNS;
use spp_tests::stored::{input, samples};
use spp_tests::{engine, plain};

use super::uncrewed_case::Case as File;
use super::worked::{one_duty, triangle, twice, two_or_one, LIMIT};
use crate::compare;
use crate::report::Report;

const STACK: usize = 2 << 20;

/// The node limit of the samples' trials.
const SAMPLE_LIMIT: u32 = 1000;

/// The node limit of the deepest trials.
const DEEP_LIMIT: u32 = 20_000;

/// A file with its stated answer and the columns shown.
struct Case {
    name: &'static str,
    columns: Columns,
    limit: u32,
    answer: Uncrewed,
    shown: Vec<u16>,
}

/// Rows 1 to `row` cannot be covered; these columns cover the rows below.
fn no_crew(name: &'static str, columns: Columns, limit: u32, row: u32, shown: &[u16]) -> Case {
    let answer = Uncrewed { refusal: 0, outcome: NO_CREW, row, columns: shown.len() as u32 };
    Case { name, columns, limit, answer, shown: shown.to_vec() }
}

fn plan_exists(name: &'static str, columns: Columns, limit: u32) -> Case {
    Case { name, columns, limit, answer: Uncrewed { outcome: PLAN_EXISTS, ..Uncrewed::default() }, shown: Vec::new() }
}

fn stopped(name: &'static str, columns: Columns, limit: u32, row: u32) -> Case {
    Case { name, columns, limit, answer: Uncrewed { outcome: STOPPED, row, ..Uncrewed::default() }, shown: Vec::new() }
}

/// A column for each row up to `last` of 64.
fn single_rows(last: u8) -> Columns {
    Columns::new(64, vec![3; last as usize], (1..=last).map(|row| vec![row]).collect())
}

/// One column of rows 1 to `last` of 64.
fn one_long(last: u8) -> Columns {
    Columns::new(64, vec![9], vec![(1..=last).collect()])
}

/// 192 columns of the one row.
fn many_copies() -> Columns {
    Columns::new(1, (1..=192).rev().collect(), vec![vec![1]; 192])
}

/// Row 2 has no column; row 3 has column 2 at this cost and a dear one. In trial 1 an extra column covers row 3 at cost 1.
fn beside_extra(cost: i32) -> Columns {
    columns(3, &[(&[1], 5), (&[3], cost), (&[3], 9)])
}

fn no_crew_cases() -> Vec<Case> {
    let case = |name, columns, row, shown| no_crew(name, columns, LIMIT, row, shown);
    let to_63: Vec<u16> = (1..=63).collect();
    vec![
        case("no duty on sailing 1", columns(2, &[(&[2], 3)]), 1, &[]),
        case("no duty on sailing 1 of 64", columns(64, &[(&[2, 64], 3)]), 1, &[]),
        case("no duty on sailing 2", columns(2, &[(&[1], 3)]), 2, &[1]),
        case("no duty on the last of 64", single_rows(63), 64, &to_63),
        case("one duty up to the last but one of 64", one_long(63), 64, &[1]),
        case("one duty on the first of 64", one_long(1), 2, &[1]),
        case("triangle", triangle(), 3, &[1]),
        case("two duties share a later sailing", columns(3, &[(&[1, 3], 5), (&[2, 3], 7)]), 2, &[1]),
        case("two duties share an earlier sailing", columns(3, &[(&[1, 2], 5), (&[1, 3], 7)]), 3, &[1]),
        case("an extra duty is cheaper than a duty above k", beside_extra(2), 2, &[1]),
        case("an extra duty at an equal price comes last", beside_extra(1), 2, &[1, 2]),
        case("a dear duty where the cheap one ends early", columns(4, &[(&[1, 3], 1), (&[1], 9), (&[2, 3], 9)]), 4, &[2, 3]),
    ]
}

fn plan_cases() -> Vec<Case> {
    let case = |name, columns| plan_exists(name, columns, LIMIT);
    vec![
        case("one duty", one_duty()),
        case("the same duty twice", twice()),
        case("two duties or one", two_or_one()),
        case("example 1", files::example_1()),
        case("example 2", files::example_2()),
        case("example 3", files::example_3()),
        case("example 4", files::example_4()),
        case("a duty for each of 64", single_rows(64)),
        case("one duty of all 64", one_long(64)),
        case("192 duties of one sailing", many_copies()),
        case("a duty that costs more than all extra ones", columns(3, &[(&[1, 2, 3], 1_000_000)])),
    ]
}

/// Rows 1 to 3 have the plans 1 3 at 18 and 2 at 7; row 4 has no column. Trial 1 ends best in its second node, by column 4 and the extra
/// columns of rows 2 and 4. Trials 2 and 3 meet plan 1 3 in their second node and plan 2 in their third, each with the extra column of row
/// 4.
fn kept_and_better() -> Columns {
    columns(4, &[(&[1], 15), (&[1, 2, 3], 7), (&[2, 3], 3), (&[1, 3], 3)])
}

/// The trials of the triangle: 1 and 2 find the plan of column 1 and the extra column of row 3 in the second node and end there; 3 ends
/// without a plan after three nodes.
fn limit_cases() -> Vec<Case> {
    vec![
        stopped("triangle, allowance 1", triangle(), 1, 1),
        stopped("triangle, allowance 2", triangle(), 2, 3),
        no_crew("triangle, allowance 3", triangle(), 3, 3, &[1]),
        no_crew("no duty on sailing 1, allowance 1", columns(2, &[(&[2], 3)]), 1, 1, &[]),
        no_crew("no duty on sailing 2, allowance 1", columns(2, &[(&[1], 3)]), 1, 2, &[1]),
        stopped("the kept plan is shown, allowance 1", kept_and_better(), 1, 1),
        no_crew("the kept plan is shown, allowance 2", kept_and_better(), 2, 4, &[1, 3]),
        no_crew("the kept plan is shown, allowance 3", kept_and_better(), 3, 4, &[2]),
        no_crew("the kept plan is shown, the usual allowance", kept_and_better(), LIMIT, 4, &[2]),
        plan_exists("the kept plan counts as covered, allowance 2", Columns { rows: 3, ..kept_and_better() }, 2),
        plan_exists("one duty, allowance 1", one_duty(), 1),
    ]
}

pub fn run(report: &mut Report) {
    for case in [no_crew_cases(), plan_cases(), limit_cases()].into_iter().flatten() {
        let Case { name, columns, limit, answer, shown } = case;
        let found = File::new(&columns).accepted(report, limit, columns.rows as usize);
        report.group("sailings that can't be crewed: stated values, small files and the largest");
        report.same(&found, &(answer, shown), || name.to_string());
    }
    samples(report);
}

/// Each sample; 1 for those of SPP2, 18 for those of too many columns.
fn samples(report: &mut Report) {
    let names = samples::names().unwrap_or_default();
    report.holds(!names.is_empty(), || "there are samples".into());
    for name in names {
        let file = samples::file(&name).unwrap_or_default();
        let columns = input::columns(&file);
        let refusal = if columns.as_ref().is_some_and(|columns| columns.edition == Edition::Two) { 1 } else { 18 };
        match columns.filter(|columns| columns.edition == Edition::One && columns.costs.len() <= MOST_COLUMNS) {
            Some(columns) => drop(File::new(&columns).accepted(report, SAMPLE_LIMIT, 64)),
            None => {
                report.group("sailings that can't be crewed: samples of SPP2 and of more than 192 duties");
                let found = compare::uncrewed(report, &file, SAMPLE_LIMIT, 64).0;
                report.same(&found.refusal, &refusal, || format!("samples/{name}"));
            }
        }
    }
}

/// The deepest trials on a small thread. A stack overflow ends the process, so this runs as one of its own.
pub fn on_small_stack() -> bool {
    let (file, mut wanted_shown) = (files::deepest_of_trials().file(), [0; 17]);
    let wanted = plain::uncrewed(&file, DEEP_LIMIT, &mut wanted_shown);
    let last = plain::trial(&file, 17, DEEP_LIMIT).expect("the file is accepted");
    let call = move || -> (Uncrewed, [u16; 17]) {
        let mut shown = [0; 17];
        (engine::uncrewed(&file, DEEP_LIMIT, &mut shown), shown)
    };
    let thread = std::thread::Builder::new().stack_size(STACK).spawn(call).expect("a thread starts");
    let found = thread.join().expect("the call ends");
    last.deepest >= 150 && found == (wanted, wanted_shown)
}
