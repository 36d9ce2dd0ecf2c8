//! Node limits: every one from 1 to one above the tree's size, and those at and beyond 01's range.

use spp_tests::answers::{Answer, STOPPED};
use spp_tests::edition::Edition;
use spp_tests::files::Columns;
use spp_tests::goal::Goal;

use super::case::Case;
use crate::compare;
use crate::report::Report;

const GROUP: &str = "allowances from 1 to the tree's size, 0, 1,000,000 and 1,000,001";
const GROUP_WITH_LISTS: &str = "lists: allowances from 1 to the tree's size, 0, 1,000,000 and 1,000,001";
const GROUP_WITH_PAIRS: &str = "pairs: allowances from 1 to the tree's size, 0, 1,000,000 and 1,000,001";

fn group(report: &mut Report, case: &Case) {
    case.group(report, GROUP, GROUP_WITH_LISTS, GROUP_WITH_PAIRS);
}

/// All node limits of a tree whose answer is given, where it has at most `most` nodes; else some of them.
pub fn every(report: &mut Report, case: &Case, answer: &Answer, most: u32) {
    let room = case.columns.rows as usize;
    group(report, case);
    for limit in [0, 1_000_001, u32::MAX] {
        let found = case.search(report, limit, room).0;
        report.same(&found.refusal, &11, || format!("allowance {limit}, {}", case.text()));
    }
    if answer.outcome == STOPPED {
        return some_of(report, case, answer, &[1, 2, 10, answer.nodes / 2, answer.nodes - 1]);
    }
    let whole = case.search(report, 1_000_000, room).0;
    report.same(&whole, answer, || case.text());
    if answer.nodes > most {
        return some_of(report, case, answer, &[1, 2, answer.nodes - 1, answer.nodes, answer.nodes + 1]);
    }
    let all: Vec<u32> = (1..=answer.nodes + 1).collect();
    some_of(report, case, answer, &all);
}

/// Some limits of a tree whose answer is given: stopped exactly where the limit is below the answer's nodes.
fn some_of(report: &mut Report, case: &Case, answer: &Answer, limits: &[u32]) {
    for &limit in limits {
        let (found, plan) = case.search(report, limit, case.columns.rows as usize);
        report.same(&(found.outcome == STOPPED), &(limit < answer.nodes), || format!("allowance {limit}, {}", case.text()));
        case.plan_shown(report, &found, &plan);
        case.struck_by_hand(report, limit);
        group(report, case);
    }
}

/// 15 rows and a column for each two of them, so that no plan exists and the tree has more than 1,000,000 nodes.
fn all_pairs() -> Columns {
    let pairs = (1..=15u8).flat_map(|low| (low + 1..=15).map(move |high| vec![low, high]));
    let bodies: Vec<Vec<u8>> = pairs.collect();
    Columns::new(15, vec![1; bodies.len()], bodies)
}

/// A tree that uses up the largest node limit.
pub fn largest(report: &mut Report) {
    report.each_edition(largest_of);
}

fn largest_of(report: &mut Report, edition: Edition) {
    let file = all_pairs().under(edition).file();
    for &goal in Goal::of(edition) {
        report.group_of(goal, GROUP);
        let answer = compare::search(report, goal, &file, 1_000_000, 15).0;
        report.same(&(answer.outcome, answer.nodes), &(STOPPED, 1_000_000), || "all pairs of 15 rows".into());
    }
}
