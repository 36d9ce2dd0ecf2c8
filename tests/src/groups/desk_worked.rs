//! Steps of the running plan (02, P7) that were worked out by hand, and plans of the samples, in by single duties and out again.

use spp_tests::answers::{Reply, Step};
use spp_tests::desk::Way::{self, Add, Remove};
use spp_tests::edition::Edition;
use spp_tests::files::{columns, example_4};
use spp_tests::goal::Goal;
use spp_tests::plain;
use spp_tests::stored::{input, samples};

use super::desk_case::{Desks, File};
use super::worked::{one_duty, two_or_one};
use crate::report::Report;

const GROUP: &str = "running plan: stated values, small files and the samples";

/// A step with what it comes to: the answer, the counts of rows 1 and 2, the rows off and the total afterwards.
struct Case<'a> {
    file: &'a File,
    way: Way,
    column: u32,
    step: Step,
    covered: [u32; 2],
    off: u32,
    total: i32,
}

fn case(file: &File, way: Way, column: u32, covered: [u32; 2], off: u32, total: i32) -> Case<'_> {
    Case { file, way, column, step: Step { refusal: 0, changed: 1 }, covered, off, total }
}

fn idle(file: &File, way: Way, column: u32, covered: [u32; 2], off: u32, total: i32) -> Case<'_> {
    Case { step: Step { refusal: 0, changed: 0 }, ..case(file, way, column, covered, off, total) }
}

fn refused(file: &File, way: Way, column: u32, covered: [u32; 2], off: u32, total: i32) -> Case<'_> {
    Case { step: Step { refusal: 19, changed: 0 }, ..case(file, way, column, covered, off, total) }
}

fn no_plan() -> Reply {
    Reply { refusal: 0, is_plan: 0, price: 0 }
}

fn plan_at(price: i32) -> Reply {
    Reply { refusal: 0, is_plan: 1, price }
}

/// The cases one after another, from an empty desk over a file. The reply is a plan at the total where no row is off.
fn stated(report: &mut Report, name: &str, start: &File, cases: &[Case]) {
    let mut desks = Desks::over(report, start);
    for (place, case) in cases.iter().enumerate() {
        let Case { file, way, column, step, covered, off, total } = *case;
        let found = desks.step(report, way, file, column);
        let reply = desks.reply(report);
        report.group(GROUP);
        let what = || format!("{name}, step {}, {way} duty {column}", place + 1);
        report.same(&found, &step, what);
        let desk = desks.desk();
        report.same(&(&desk.covered[..2], desk.off, desk.total), &(&covered[..], off, total), what);
        report.same(&reply, &if off == 0 { plan_at(total) } else { no_plan() }, what);
    }
}

/// Column 1 has rows 1 and 2 at 9; columns 2 and 3 have one row each at 4.
fn one_file(report: &mut Report) {
    let file = File::new(two_or_one());
    let steps = [
        idle(&file, Remove, 2, [0, 0], 2, 0),
        case(&file, Add, 2, [1, 0], 1, 4),
        case(&file, Add, 3, [1, 1], 0, 8),
        idle(&file, Add, 3, [1, 1], 0, 8),
        refused(&file, Add, 4, [1, 1], 0, 8),
        case(&file, Add, 1, [2, 2], 2, 17),
        case(&file, Remove, 3, [2, 1], 1, 13),
        case(&file, Remove, 2, [1, 1], 0, 9),
        idle(&file, Remove, 2, [1, 1], 0, 9),
        refused(&file, Remove, 0, [1, 1], 0, 9),
        case(&file, Remove, 1, [0, 0], 2, 0),
        refused(&file, Remove, u32::MAX, [0, 0], 2, 0),
    ];
    stated(report, "two duties or one", &file, &steps);
}

/// The desk is made over a file of one row. Over the other two, row 2 has a count too, and the columns have other rows and costs.
fn other_files(report: &mut Report) {
    let (one, two) = (File::new(one_duty()), File::new(two_or_one()));
    let far = File::new(columns(2, &[(&[2], 1_000_000), (&[2], 7), (&[1, 2], 3)]));
    let below = u32::MAX;
    let steps = [
        case(&two, Add, 1, [1, 1], below, 9),
        idle(&one, Add, 1, [1, 1], below, 9),
        case(&one, Remove, 1, [0, 1], 0, 4),
        case(&two, Add, 2, [1, 1], below, 8),
        refused(&one, Remove, 2, [1, 1], below, 8),
        case(&far, Remove, 2, [1, 0], 0, 1),
        case(&far, Add, 1, [1, 1], below, 1_000_001),
        case(&two, Add, 3, [1, 2], 0, 1_000_005),
        case(&far, Remove, 3, [0, 1], 0, 1_000_002),
        case(&two, Remove, 1, [below, 0], 1, 999_993),
        case(&one, Add, 1, [0, 0], 1, 999_998),
        case(&far, Remove, 1, [0, below], 1, -2),
        case(&far, Add, 3, [1, 0], 0, 1),
        case(&one, Add, 1, [2, 0], 1, 6),
    ];
    stated(report, "three files", &one, &steps);
}

/// Column 1 has rows 1 and 2 at -9; column 2 has row 1 at 4 and column 3 row 2 at -4. The other files have row 1 at 5 and at -1,000,000.
fn earning(report: &mut Report) {
    let file = File::new(columns(2, &[(&[1, 2], -9), (&[1], 4), (&[2], -4)]).under(Edition::Two));
    let (one, far) = (File::new(one_duty()), File::new(columns(1, &[(&[1], -1_000_000)]).under(Edition::Two)));
    let steps = [
        case(&file, Add, 2, [1, 0], 1, 4),
        case(&file, Add, 3, [1, 1], 0, 0),
        case(&file, Add, 1, [2, 2], 2, -9),
        case(&file, Remove, 2, [1, 2], 1, -13),
        case(&file, Remove, 3, [1, 1], 0, -9),
        idle(&far, Add, 1, [1, 1], 0, -9),
        refused(&far, Remove, 2, [1, 1], 0, -9),
        case(&far, Remove, 1, [0, 1], 1, 999_991),
        case(&one, Add, 1, [1, 1], 0, 999_996),
        case(&file, Remove, 1, [0, 0], 2, 1_000_005),
        case(&far, Add, 1, [1, 0], 1, 5),
        case(&one, Remove, 1, [0, 0], 2, 0),
    ];
    stated(report, "duties that earn", &file, &steps);
}

/// The sequences of three columns.
const SEQUENCES: [[usize; 3]; 6] = [[0, 1, 2], [0, 2, 1], [1, 0, 2], [1, 2, 0], [2, 0, 1], [2, 1, 0]];

/// A step over the one file that the desk was made over, on the desk and on the list of columns in, with which the desk is compared.
fn drag(report: &mut Report, desks: &mut Desks, file: &File, way: Way, column: u16, columns: &mut Vec<u16>) -> (Step, Reply) {
    let step = desks.step(report, way, file, column.into());
    match way {
        Add => columns.push(column),
        Remove => columns.retain(|&other| other != column),
    }
    columns.sort_unstable();
    (step, desks.holds(report, file, columns))
}

/// The best plan of example 4 has three columns of two rows at 14 each, which go in and out in every sequence.
fn every_sequence(report: &mut Report) {
    let (file, plan) = (File::new(example_4()), [3, 6, 9]);
    let values = [(Add, 4, 14), (Add, 2, 28), (Add, 0, 42), (Remove, 2, 28), (Remove, 4, 14), (Remove, 6, 0)];
    for first in SEQUENCES {
        for second in SEQUENCES {
            let (mut desks, mut columns) = (Desks::over(report, &file), Vec::new());
            for (&place, (way, off, total)) in first.iter().chain(&second).zip(values) {
                let (step, reply) = drag(report, &mut desks, &file, way, plan[place], &mut columns);
                report.group(GROUP);
                let wanted = (1, if off == 0 { plan_at(total) } else { no_plan() }, off, total);
                let found = (step.changed, reply, desks.desk().off, desks.desk().total);
                let what = || format!("example 4, {way} duty {}, in by {first:?}, out by {second:?}", plan[place]);
                report.same(&found, &wanted, what);
            }
        }
    }
}

/// The plan that (a) finds for each sample, in and out.
fn sample_plans(report: &mut Report) {
    let mut planned = 0;
    for name in samples::names().unwrap_or_default() {
        let bytes = samples::file(&name).unwrap_or_default();
        let Some(columns) = input::columns(&bytes) else { continue };
        let (file, mut plan) = (File::new(columns), [0; 64]);
        let answer = plain::search(Goal::Sum, &bytes, 5000, &mut plan);
        let (mut desks, mut columns) = (Desks::over(report, &file), Vec::new());
        for way in [Add, Remove] {
            for &column in &plan[..answer.columns as usize] {
                drag(report, &mut desks, &file, way, column, &mut columns);
            }
            let reply = desks.reply(report);
            report.group(GROUP);
            let is_plan = answer.has_plan != 0 && way == Add;
            planned += is_plan as usize;
            let wanted = if is_plan { plan_at(answer.price as i32) } else { no_plan() };
            report.same(&(&bytes, reply), &(&file.bytes, wanted), || format!("samples/{name}"));
        }
    }
    report.holds(planned > 0, || "some samples have a plan".into());
}

pub fn run(report: &mut Report) {
    one_file(report);
    other_files(report);
    earning(report);
    every_sequence(report);
    sample_plans(report);
}
