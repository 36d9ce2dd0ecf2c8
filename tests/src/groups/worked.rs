//! The paper's examples 1 to 4 and 7, and 01's "Files to try", with the values that are stated there or, since P4, in 02; and small files that
//! show one rule of the search for the longest duty each.

use spp_tests::answers::{Answer, Shape, BEST, NONE, STOPPED};
use spp_tests::engine;
use spp_tests::files::{self, columns, Columns};
use spp_tests::goal::Goal;
use spp_tests::requests::Requests;
use spp_tests::second::least_price_with;

use super::prices;
use crate::compare;
use crate::report::Report;

pub const LIMIT: u32 = 1_000_000;

pub fn best(price: i64, bound: i64, nodes: u32, columns: u32) -> Answer {
    Answer { refusal: 0, outcome: BEST, has_plan: 1, columns, nodes, price, bound }
}

pub fn none(nodes: u32) -> Answer {
    Answer { outcome: NONE, nodes, ..Answer::default() }
}

pub fn stopped(bound: i64, nodes: u32) -> Answer {
    Answer { outcome: STOPPED, nodes, bound, ..Answer::default() }
}

pub fn stopped_with(price: i64, bound: i64, nodes: u32, columns: u32) -> Answer {
    Answer { outcome: STOPPED, has_plan: 1, columns, price, ..stopped(bound, nodes) }
}

pub fn one_duty() -> Columns {
    columns(1, &[(&[1], 5)])
}

pub fn twice() -> Columns {
    columns(1, &[(&[1], 5), (&[1], 5)])
}

fn uncovered() -> Columns {
    columns(2, &[(&[1], 3)])
}

pub fn two_or_one() -> Columns {
    columns(2, &[(&[1, 2], 9), (&[1], 4), (&[2], 4)])
}

pub fn triangle() -> Columns {
    columns(3, &[(&[1, 2], 1), (&[2, 3], 1), (&[1, 3], 1)])
}

/// A search with a stated answer and plan.
pub struct Search {
    pub goal: Goal,
    pub name: &'static str,
    pub columns: Columns,
    pub requests: Requests<'static>,
    pub limit: u32,
    pub answer: Answer,
    pub plan: &'static [u16],
}

/// A search without lists.
fn unasked(goal: Goal, name: &'static str, columns: Columns, limit: u32, answer: Answer, plan: &'static [u16]) -> Search {
    Search { goal, name, columns, requests: Requests::NONE, limit, answer, plan }
}

fn sum_searches() -> Vec<Search> {
    let case = |name, columns, limit, answer, plan| unasked(Goal::Sum, name, columns, limit, answer, plan);
    vec![
        case("one duty", one_duty(), LIMIT, best(5, 5, 1, 1), &[1]),
        case("the same duty twice", twice(), LIMIT, best(5, 5, 2, 1), &[1]),
        case("a sailing without a duty", uncovered(), LIMIT, none(1), &[]),
        case("two duties cheaper than one", two_or_one(), LIMIT, best(8, 8, 2, 2), &[2, 3]),
        case("triangle", triangle(), LIMIT, none(3), &[]),
        case("triangle, allowance 2", triangle(), 2, stopped(1, 2), &[]),
        case("example 1", files::example_1(), LIMIT, best(17, 17, 3, 3), &[1, 4, 7]),
        case("example 1, allowance 2", files::example_1(), 2, stopped(17, 2), &[]),
        case("example 2", files::example_2(), LIMIT, best(103, 103, 2, 2), &[3, 5]),
        case("example 3", files::example_3(), LIMIT, best(26, 18, 5, 4), &[3, 4, 5, 14]),
        case("example 4, allowance 6", files::example_4(), 6, best(42, 39, 2, 3), &[3, 6, 9]),
        case("example 4, allowance 5", files::example_4(), 5, best(42, 39, 2, 3), &[3, 6, 9]),
        case("example 4, allowance 3", files::example_4(), 3, best(42, 39, 2, 3), &[3, 6, 9]),
        case("example 4, allowance 1", files::example_4(), 1, stopped(39, 1), &[]),
        case("example 4", files::example_4(), LIMIT, best(42, 39, 2, 3), &[3, 6, 9]),
    ]
}

/// In the second node column 4 is forced at 7; the third is a plan at 5, by columns 2 and 5.
fn forced_dear() -> Columns {
    columns(3, &[(&[1, 3], 1), (&[1, 2], 4), (&[2, 3], 4), (&[2], 7), (&[3], 5)])
}

fn longest_searches() -> Vec<Search> {
    let case = |name, columns, limit, answer, plan| unasked(Goal::Longest, name, columns, limit, answer, plan);
    let open_row = columns(2, &[(&[1], 2), (&[1], 3), (&[2], 5), (&[2], 7)]);
    let taken_column = columns(2, &[(&[1], 9), (&[2], 2), (&[2], 3)]);
    let equal_floor = columns(3, &[(&[1, 3], 1), (&[1, 2], 4), (&[2, 3], 4), (&[2], 7), (&[3], 7), (&[3], 8)]);
    let penalised = columns(3, &[(&[1, 3], 1), (&[1, 2], 6), (&[2, 3], 4), (&[2], 5)]);
    let root_forced = columns(4, &[(&[4], 6), (&[1, 3], 1), (&[1, 2], 4), (&[2, 3], 4), (&[2], 9), (&[3], 8)]);
    let held_at_zero = columns(3, &[(&[1, 2], 2), (&[1], 1), (&[2, 3], 2), (&[3], 3)]);
    vec![
        case("example 7", files::example_7(), LIMIT, best(7, 6, 3, 3), &[2, 3, 7]),
        case("example 7, allowance 2", files::example_7(), 2, stopped(6, 2), &[]),
        case("an open sailing gives the floor", open_row, LIMIT, best(5, 5, 3, 2), &[1, 3]),
        case("a duty taken gives the floor", taken_column, LIMIT, best(9, 9, 2, 2), &[1, 2]),
        case("a dear duty is forced", forced_dear(), LIMIT, best(5, 4, 3, 2), &[2, 5]),
        case("a dear duty is forced, allowance 2", forced_dear(), 2, stopped_with(7, 4, 2, 2), &[1, 4]),
        case("a dear duty is forced, allowance 1", forced_dear(), 1, stopped(4, 1), &[]),
        case("a floor equal to the kept price ends a node", equal_floor, LIMIT, best(7, 4, 3, 2), &[1, 4]),
        case("the penalty shuts out the second branch", penalised, LIMIT, best(5, 4, 2, 2), &[1, 4]),
        case("a duty forced at the root gives the floor", root_forced, LIMIT, best(8, 6, 3, 3), &[1, 3, 6]),
        case("a reduced price below 0 counts as 0", held_at_zero, LIMIT, best(2, 2, 2, 2), &[2, 3]),
        case("triangle", triangle(), LIMIT, none(3), &[]),
        case("triangle, allowance 2", triangle(), 2, stopped(1, 2), &[]),
        case("one duty", one_duty(), LIMIT, best(5, 5, 1, 1), &[1]),
        case("the same duty twice", twice(), LIMIT, best(5, 5, 2, 1), &[1]),
        case("a sailing without a duty", uncovered(), LIMIT, none(1), &[]),
        case("two duties shorter than one", two_or_one(), LIMIT, best(4, 4, 2, 2), &[2, 3]),
    ]
}

/// A reduction with a stated bound, order and reduced costs.
struct Reduction {
    name: &'static str,
    columns: Columns,
    bound: i64,
    order: &'static [u8],
    reduced: &'static [i32],
}

fn reductions() -> Vec<Reduction> {
    let case = |name, columns, bound, order, reduced| Reduction { name, columns, bound, order, reduced };
    let second: &[i32] = &[0, 0, 0, 1, 0, 22, 15, 18, 0, 27, 27, 10];
    let third: &[i32] = &[1, 0, 0, 0, 0, 2, 5, 0, 6, 2, 8, 8, 13, 8, 6, 16, 13, 16, 19, 20];
    vec![
        case("example 1", files::example_1(), 17, &[1, 4, 2, 5], &[0, 1, 0, 0, 5, 1, 0, 3]),
        case("example 2", files::example_2(), 103, &[1, 4, 6, 5], second),
        case("example 3", files::example_3(), 18, &[6, 2, 3, 4, 8], third),
        case("example 4", files::example_4(), 39, &[1, 2, 5, 3, 6], &[2, 0, 0, 19, 0, 3, 0, 10, 0, 7]),
    ]
}

/// One column of all rows, cost 1.
fn one_column(rows: u16) -> Columns {
    Columns::new(rows, vec![1], vec![(1..=rows as u8).collect()])
}

/// 256 columns of the rows 1 to 16; the last one has row 17 too if `one_more`.
fn most_entries(one_more: bool) -> Columns {
    let mut bodies = vec![(1..=16).collect::<Vec<u8>>(); 256];
    if one_more {
        bodies[255].push(17);
    }
    Columns::new(17, vec![1; 256], bodies)
}

/// Files at the limits, with the reader's stated refusal.
fn limits() -> Vec<(&'static str, Columns, u32)> {
    let many = |count| Columns::new(1, vec![1; count], vec![vec![1]; count]);
    vec![
        ("price 1,000,000", columns(1, &[(&[1], 1_000_000)]), 0),
        ("price 1,000,001", columns(1, &[(&[1], 1_000_001)]), 4),
        ("price 0", columns(1, &[(&[1], 0)]), 4),
        ("m 64", one_column(64), 0),
        ("m 65", one_column(65), 2),
        ("m 0", columns(0, &[(&[1], 1)]), 2),
        ("n 256", many(256), 0),
        ("n 257", many(257), 2),
        ("n 0", columns(1, &[]), 2),
        ("t 4,096", most_entries(false), 0),
        ("t 4,097", most_entries(true), 6),
        ("no sailing in a duty", columns(1, &[(&[], 1)]), 5),
    ]
}

/// The search's stated answer and plan, and the second solver's price.
pub fn stated_search(report: &mut Report, case: &Search) {
    let Search { goal, name, columns, requests, limit, answer, plan } = case;
    let found = compare::search_with(report, *goal, &columns.file(), *limit, *requests, columns.rows as usize);
    let what = || format!("{name} ({goal}), {requests:?}");
    report.same(&found, &(*answer, plan.to_vec()), what);
    let least = least_price_with(columns, *goal, *requests, 10_000);
    prices::compare(report, answer, least, || format!("second solver, {}", what()));
}

fn stated_reduction(report: &mut Report, case: &Reduction) {
    let rooms = [case.columns.costs.len(), case.columns.rows as usize];
    let (answer, reduced, order) = compare::reduce(report, &case.columns.file(), rooms);
    report.same(&answer.bound, &case.bound, || case.name.to_string());
    report.same(&&order.list()[..answer.used as usize], &case.order, || case.name.to_string());
    report.same(&reduced.list(), &case.reduced, || case.name.to_string());
}

pub fn run(report: &mut Report) {
    report.group("stated values: the paper's examples, 01's files to try, a file for each rule of the longest duty");
    sum_searches().iter().chain(&longest_searches()).for_each(|case| stated_search(report, case));
    reductions().iter().for_each(|case| stated_reduction(report, case));
    for (name, columns, refusal) in limits() {
        let found = compare::read(report, &columns.file(), [256, 256, 4096]);
        report.same(&found.0.refusal, &refusal, || name.to_string());
        compare::all_calls(report, &columns.file(), LIMIT);
    }
    program_example(report);
}

/// The 17 bytes that 01 gives for the program.
fn program_example(report: &mut Report) {
    let file = [0x53, 0x50, 0x50, 0x31, 1, 0, 1, 0, 5, 0, 0, 0, 0x10, 0, 1, 0, 1];
    let (mut costs, mut lengths, mut numbers, mut plan) = ([0; 1], [0; 1], [0; 1], [0; 1]);
    let shape = engine::read(&file, &mut costs, &mut lengths, &mut numbers);
    report.same(&shape, &Shape { refusal: 0, rows: 1, columns: 1, entries: 1, edition: 1 }, || "the program's file".into());
    report.same(&(costs, lengths, numbers), &([5], [1], [1]), || "the program's file".into());
    let answer = engine::search(Goal::Sum, &file, LIMIT, &mut plan);
    report.same(&(answer, plan), &(best(5, 5, 1, 1), [1]), || "the program's file".into());
}
