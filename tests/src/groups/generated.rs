//! Generated files of both editions: every call against `plain`, both searches against the second solver, every plan shown against the plan
//! check, and floor plus reduced prices against the price of every plan. Small files are gone through by all choices of columns besides.

use spp_tests::answers::{Answer, STOPPED};
use spp_tests::edition::Edition;
use spp_tests::files::Columns;
use spp_tests::generate;
use spp_tests::generate_earning::in_edition;
use spp_tests::goal::Goal;
use spp_tests::random::Random;
use spp_tests::requests::Requests;
use spp_tests::second::{each_plan, least_of_choices, least_price, price, Least};

use super::case::Case;
use super::{editions, limits, prices};
use crate::compare::{self, Lists};
use crate::report::{hex, Report};

/// Sets of covered rows that the second solver may hold.
const MOST_SETS: usize = 60_000;

/// Up to this number of columns all choices are gone through.
const MOST_COLUMNS: usize = 12;

/// A family of generated files.
struct Family {
    name: &'static str,
    make: fn(&mut Random) -> Columns,
    /// Files of SPP1, and of SPP2.
    files: [usize; 2],
    /// The node limit of the searches.
    limit: u32,
    /// Trees up to this size are searched with every node limit.
    every_limit: u32,
    /// Up to this many plans are enumerated.
    plans: usize,
}

fn families() -> Vec<Family> {
    let family = |name, make, files, limit, every_limit, plans| Family { name, make, files, limit, every_limit, plans };
    vec![
        family("tiny", generate::tiny, [2000, 1500], 1_000_000, 1000, 1000),
        family("small", generate::small, [1500, 500], 20_000, 400, 1000),
        family("medium", generate::medium, [500, 100], 3000, 150, 300),
        family("ferry", generate::ferry, [400, 60], 1000, 60, 100),
        family("large ferry", generate::large_ferry, [80, 12], 1000, 60, 100),
        family("dense", generate::dense, [150, 30], 600, 20, 100),
        family("sparse", generate::sparse, [80, 10], 400, 20, 100),
    ]
}

/// What the run says of a goal's searches besides the counted cases.
#[derive(Default)]
struct Totals {
    stopped: usize,
    unknown: usize,
    nodes: u64,
}

pub fn run(report: &mut Report) {
    report.each_edition(|report, edition| {
        println!("generated files, {edition}:");
        for (seed, family) in (1974..).zip(&families()) {
            one_family(report, family, edition, Random::new(seed));
        }
    });
}

fn one_family(report: &mut Report, family: &Family, edition: Edition, mut random: Random) {
    let files = edition.of(family.files);
    let mut totals: Vec<(Goal, Totals)> = Goal::of(edition).iter().map(|&goal| (goal, Totals::default())).collect();
    for _ in 0..files {
        let made = (family.make)(&mut random);
        one_file(report, family, &in_edition(&mut random, edition, made), &mut random, &mut totals);
    }
    for (goal, Totals { stopped, unknown, nodes }) in totals {
        let name = family.name;
        println!(
            "  {name:<12} {goal:<12} {files:>5} files, {nodes:>6} nodes, {stopped} stopped, {unknown} too large for the second solver"
        );
    }
}

fn one_file(report: &mut Report, family: &Family, columns: &Columns, random: &mut Random, totals: &mut [(Goal, Totals)]) {
    let file = columns.file();
    file_and_lists(report, columns, &file);
    offered_lists(report, columns, &file, random);
    match columns.edition {
        Edition::One => reductions(report, columns, &file, family.plans),
        Edition::Two => editions::first_alone(report, &file, family.limit),
    }
    for (goal, totals) in totals {
        let case = Case { goal: *goal, columns, file: &file, requests: Requests::NONE };
        let answer = searches(report, &case, family.limit, totals);
        limits::every(report, &case, &answer, family.every_limit);
        totals.nodes += answer.nodes as u64;
    }
}

/// Reads the file back, and writes it from what was read by the writer of its edition.
pub fn file_and_lists(report: &mut Report, columns: &Columns, file: &[u8]) {
    let (n, t) = (columns.costs.len(), columns.entries());
    report.group("reader: answers and lists against (a)");
    let read = compare::read(report, file, [n + 2, n, t + 1]);
    report.group("writer: answers and buffers against (a), and the same bytes again");
    report.same(&read.0.edition, &(columns.edition as u32), || hex(file));
    let lists = Lists {
        edition: columns.edition,
        rows: read.0.rows as u16,
        costs: read.1.list()[..n].to_vec(),
        lengths: read.2.list()[..n].to_vec(),
        numbers: read.3.list()[..t].to_vec(),
    };
    let (written, out) = compare::write(report, &lists, file.len() + 3);
    report.same(&written.length, &(file.len() as u32), || hex(file));
    report.holds(&out.list()[..file.len()] == file, || format!("written again, {}", hex(file)));
}

/// Offers lists of columns to the plan check: of any columns, rising and not, and beyond the range.
fn offered_lists(report: &mut Report, columns: &Columns, file: &[u8], random: &mut Random) {
    report.group("plan check: answers against (a)");
    let n = columns.costs.len();
    compare::check(report, file, &[]);
    for _ in 0..4 {
        let percent = random.within(2, 60);
        let mut offered: Vec<u16> = (1..=n as u16).filter(|_| random.chance(percent)).collect();
        compare::check(report, file, &offered);
        let fault = [0, 1, n as u16, n as u16 + 1, 256, 257, 65_535][random.within(0, 6)];
        let place = random.within(0, offered.len());
        offered.insert(place, fault);
        compare::check(report, file, &offered);
    }
    let whole: Vec<u16> = (1..=n as u16).collect();
    compare::check(report, file, &whole);
    compare::check(report, file, &(1..=n as u16 + 1).collect::<Vec<u16>>());
}

/// Reduces, and holds floor plus reduced prices to the price of each plan.
fn reductions(report: &mut Report, columns: &Columns, file: &[u8], most_plans: usize) {
    let n = columns.costs.len();
    report.group("reducing: answers and lists against (a)");
    let (answer, reduced, _) = compare::reduce(report, file, [n + 1, columns.rows as usize + 2]);
    if columns.rows > 30 {
        return;
    }
    report.group("floor plus reduced prices equals price, for plans of generated files");
    each_plan(columns, most_plans, |plan| {
        let rest: i64 = plan.iter().map(|&column| reduced.list()[column as usize - 1] as i64).sum();
        report.same(&(answer.bound + rest), &price(columns, plan, Goal::Sum), || format!("plan {plan:?}, {}", hex(file)));
    });
}

/// Searches, and holds the answer to the second solver and the plan shown to the plan check.
fn searches(report: &mut Report, case: &Case, limit: u32, totals: &mut Totals) -> Answer {
    report.group_of(case.goal, "search: answers, node counts, root floors and plan lists against (a)");
    let (answer, plan) = case.search(report, limit, case.columns.rows as usize + 3);
    case.plan_shown(report, &answer, &plan);
    totals.stopped += (answer.outcome == STOPPED) as usize;
    let least = least_price(case.columns, case.goal, MOST_SETS);
    report.group_of(case.goal, "search: best price, none and root floor against the second solver");
    totals.unknown += (least == Least::Unknown) as usize;
    prices::compare(report, &answer, least, || hex(case.file));
    if case.columns.costs.len() <= MOST_COLUMNS {
        report.group_of(case.goal, "search: the second solver's price against all choices of duties");
        report.same(&least, &least_of_choices(case.columns, case.goal, case.requests), || hex(case.file));
    }
    answer
}
