//! Searches with lists of agreed and absent columns (02, P2), some of them in both (02, P9), with answers that were worked out apart from
//! engine and tests. Example 4 has three plans: 3 6 9 at 42 (longest duty 14), 2 5 10 at 46 (22) and 5 7 8 at 49 (24).

use spp_tests::answers::Answer;
use spp_tests::files::{self, columns, Columns};
use spp_tests::goal::Goal::{self, Longest, Sum};
use spp_tests::requests::Requests;

use super::worked::{best, none, stated_search, stopped, stopped_with};
use super::worked::{one_duty, triangle, twice, two_or_one, Search, LIMIT};
use crate::report::Report;

type Numbers = &'static [u16];

const ALL: Numbers = &[1, 2, 3, 4, 5, 6, 7, 8, 9, 10];

/// The triangle, and a dear column of all its rows.
fn covered_triangle() -> Columns {
    columns(3, &[(&[1, 2], 1), (&[2, 3], 1), (&[1, 3], 1), (&[1, 2, 3], 9)])
}

/// Two columns for each of two rows.
fn two_each() -> Columns {
    columns(2, &[(&[1], 9), (&[1], 1), (&[2], 2), (&[2], 3)])
}

/// A search of example 4.
fn fourth(goal: Goal, agreed: Numbers, absent: Numbers, limit: u32, answer: Answer, plan: Numbers) -> Search {
    let requests = Requests { agreed, absent, pairs: &[] };
    Search { goal, name: "example 4", columns: files::example_4(), requests, limit, answer, plan }
}

/// What the lists leave of example 4, by the least sum.
fn fourth_by_sum() -> Vec<Search> {
    let case = |agreed, absent, limit, answer, plan| fourth(Sum, agreed, absent, limit, answer, plan);
    vec![
        case(&[], &[], LIMIT, best(42, 39, 2, 3), &[3, 6, 9]),
        case(&[5], &[], LIMIT, best(46, 41, 4, 3), &[2, 5, 10]),
        case(&[5], &[], 3, stopped_with(49, 41, 3, 3), &[5, 7, 8]),
        case(&[5], &[], 2, stopped_with(49, 41, 2, 3), &[5, 7, 8]),
        case(&[5], &[], 1, stopped(41, 1), &[]),
        case(&[7], &[], LIMIT, best(49, 49, 2, 3), &[5, 7, 8]),
        case(&[5, 10], &[], LIMIT, best(46, 46, 2, 3), &[2, 5, 10]),
        case(&[], &[6], LIMIT, best(46, 39, 4, 3), &[2, 5, 10]),
        case(&[], &[3], LIMIT, best(46, 41, 4, 3), &[2, 5, 10]),
        case(&[3], &[], LIMIT, best(42, 42, 1, 3), &[3, 6, 9]),
        case(&[2], &[], LIMIT, best(46, 46, 1, 3), &[2, 5, 10]),
        case(&[3, 6, 9], &[], 1, best(42, 42, 1, 3), &[3, 6, 9]),
        case(&[5, 7, 8], &[], LIMIT, best(49, 49, 1, 3), &[5, 7, 8]),
        case(&[], &[1, 2, 4, 5, 7, 8, 10], LIMIT, best(42, 42, 1, 3), &[3, 6, 9]),
    ]
}

/// The same by the longest duty.
fn fourth_by_longest() -> Vec<Search> {
    let case = |agreed, absent, limit, answer, plan| fourth(Longest, agreed, absent, limit, answer, plan);
    vec![
        case(&[5], &[], LIMIT, best(22, 18, 4, 3), &[2, 5, 10]),
        case(&[5], &[], 3, stopped(18, 3), &[]),
        case(&[7], &[], LIMIT, best(24, 24, 2, 3), &[5, 7, 8]),
        case(&[5, 10], &[], LIMIT, best(22, 18, 3, 3), &[2, 5, 10]),
        case(&[], &[6], LIMIT, best(22, 18, 5, 3), &[2, 5, 10]),
        case(&[3], &[], LIMIT, best(14, 14, 1, 3), &[3, 6, 9]),
        case(&[2], &[], LIMIT, best(22, 22, 1, 3), &[2, 5, 10]),
        case(&[5, 7, 8], &[], 1, best(24, 24, 1, 3), &[5, 7, 8]),
    ]
}

/// Columns of example 4 that are agreed and absent, by the least sum: the answers are those without them in the agreed list. Without 3, 6
/// and 9 column 5 is forced at 17; rows 4, 3 and 5 reduce by 7, 17 and 5, and the branch with 2 is a plan. 3 and 6 share a row with 5, so
/// with 5 taken they are out, absent or not.
fn fourth_struck_by_sum() -> Vec<Search> {
    let case = |agreed, absent, limit, answer, plan| fourth(Sum, agreed, absent, limit, answer, plan);
    vec![
        case(&[6], &[6], LIMIT, best(46, 39, 4, 3), &[2, 5, 10]),
        case(&[6], &[6], 1, stopped(39, 1), &[]),
        case(&[3, 6, 9], &[3, 6, 9], LIMIT, best(46, 46, 2, 3), &[2, 5, 10]),
        case(&[3, 6, 9], &[3, 6, 9], 1, stopped(46, 1), &[]),
        case(&[3, 5], &[3], LIMIT, best(46, 41, 4, 3), &[2, 5, 10]),
        case(&[3, 5, 6], &[3, 6], 3, stopped_with(49, 41, 3, 3), &[5, 7, 8]),
        case(&[3, 5], &[5], LIMIT, best(42, 42, 1, 3), &[3, 6, 9]),
        case(ALL, &[1, 2, 4, 5, 7, 8, 10], 1, best(42, 42, 1, 3), &[3, 6, 9]),
        case(&[5, 6, 7, 8], &[6], LIMIT, best(49, 49, 1, 3), &[5, 7, 8]),
    ]
}

/// The same by the longest duty. Without 3, 6 and 9 row 3 has 22 as its least, and the branch with 2 is a plan.
fn fourth_struck_by_longest() -> Vec<Search> {
    let case = |agreed, absent, limit, answer, plan| fourth(Longest, agreed, absent, limit, answer, plan);
    vec![
        case(&[6], &[6], LIMIT, best(22, 18, 5, 3), &[2, 5, 10]),
        case(&[6], &[6], 1, stopped(18, 1), &[]),
        case(&[3, 6, 9], &[3, 6, 9], LIMIT, best(22, 22, 2, 3), &[2, 5, 10]),
        case(&[3, 6, 9], &[3, 6, 9], 1, stopped(22, 1), &[]),
        case(&[3, 5], &[3], LIMIT, best(22, 18, 4, 3), &[2, 5, 10]),
        case(&[3, 5, 6], &[3, 6], 3, stopped(18, 3), &[]),
        case(&[3, 5], &[5], LIMIT, best(14, 14, 1, 3), &[3, 6, 9]),
        case(ALL, &[1, 2, 4, 5, 7, 8, 10], 1, best(14, 14, 1, 3), &[3, 6, 9]),
        case(&[5, 6, 7, 8], &[6], LIMIT, best(24, 24, 1, 3), &[5, 7, 8]),
    ]
}

/// Dead roots of example 4: agreed columns share row 1 (3 and 5), or a row is left without a free column. After 6 and 10 row 1 has none,
/// after 9 without 6 row 6, after 3 without 6 row 2, after 3 and 6 without 9 row 3, and after 5 and 8 without 7 row 5.
fn fourth_dead(goal: Goal) -> Vec<Search> {
    let case = |agreed, absent, limit| fourth(goal, agreed, absent, limit, none(1), &[]);
    vec![
        case(&[3, 5], &[], LIMIT),
        case(&[3, 5], &[], 1),
        case(&[3, 5, 6], &[6], LIMIT),
        case(&[3, 6], &[6], LIMIT),
        case(&[3, 6, 9], &[9], LIMIT),
        case(&[5, 7, 8], &[7], LIMIT),
        case(ALL, &[1], LIMIT),
        case(&[6, 10], &[], LIMIT),
        case(&[9], &[6], LIMIT),
        case(&[], &[3, 5], LIMIT),
        case(ALL, &[], LIMIT),
        case(&[], ALL, LIMIT),
        case(ALL, ALL, 1),
    ]
}

fn small_files() -> Vec<Search> {
    let case = |goal, name, columns, agreed, absent, answer, plan| {
        let requests = Requests { agreed, absent, pairs: &[] };
        Search { goal, name, columns, requests, limit: LIMIT, answer, plan }
    };
    vec![
        case(Sum, "the only duty agreed", one_duty(), &[1], &[], best(5, 5, 1, 1), &[1]),
        case(Longest, "the only duty agreed", one_duty(), &[1], &[], best(5, 5, 1, 1), &[1]),
        case(Sum, "the only duty absent", one_duty(), &[], &[1], none(1), &[]),
        case(Sum, "the dear duty agreed", two_or_one(), &[1], &[], best(9, 9, 1, 1), &[1]),
        case(Longest, "the dear duty agreed", two_or_one(), &[1], &[], best(9, 9, 1, 1), &[1]),
        case(Sum, "one of two agreed", two_or_one(), &[3], &[], best(8, 8, 1, 2), &[2, 3]),
        case(Longest, "one of two agreed", two_or_one(), &[3], &[], best(4, 4, 1, 2), &[2, 3]),
        case(Sum, "one of two absent", two_or_one(), &[], &[2], best(9, 9, 1, 1), &[1]),
        case(Sum, "all of a sailing absent", two_or_one(), &[], &[1, 2], none(1), &[]),
        case(Sum, "the second copy agreed", twice(), &[2], &[], best(5, 5, 1, 1), &[2]),
        case(Sum, "the first copy absent", twice(), &[], &[1], best(5, 5, 1, 1), &[2]),
        case(Sum, "both copies agreed", twice(), &[1, 2], &[], none(1), &[]),
        case(Longest, "the first copy absent", twice(), &[], &[1], best(5, 5, 1, 1), &[2]),
        case(Sum, "one side of the triangle agreed", triangle(), &[1], &[], none(1), &[]),
        case(Sum, "one side of the triangle absent", triangle(), &[], &[1], none(1), &[]),
        case(Sum, "the floor counts an agreed duty", two_each(), &[1], &[], best(11, 11, 2, 2), &[1, 3]),
        case(Longest, "an agreed duty gives the floor", two_each(), &[1], &[], best(9, 9, 2, 2), &[1, 3]),
        case(Longest, "an open sailing gives the floor", two_each(), &[2], &[], best(2, 2, 2, 2), &[2, 3]),
        case(Longest, "an absent duty does not count", two_each(), &[2], &[3], best(3, 3, 1, 2), &[2, 4]),
        case(Sum, "the only duty in both lists", one_duty(), &[1], &[1], none(1), &[]),
        case(Sum, "both copies agreed, the first absent", twice(), &[1, 2], &[1], best(5, 5, 1, 1), &[2]),
        case(Longest, "both copies agreed, the second absent", twice(), &[1, 2], &[2], best(5, 5, 1, 1), &[1]),
        case(Sum, "both copies in both lists", twice(), &[1, 2], &[1, 2], none(1), &[]),
        case(Sum, "the floor counts no struck duty", two_each(), &[1], &[1], best(3, 3, 2, 2), &[2, 3]),
        case(Longest, "the floor counts no struck duty", two_each(), &[1], &[1], best(2, 2, 2, 2), &[2, 3]),
        case(Sum, "none with more nodes than one", covered_triangle(), &[4], &[4], none(3), &[]),
        case(Longest, "none with more nodes than one", covered_triangle(), &[4], &[4], none(3), &[]),
        case(Sum, "a side of the triangle left", covered_triangle(), &[1, 4], &[4], none(1), &[]),
        case(Sum, "the whole of it left", covered_triangle(), &[1, 4], &[1], best(9, 9, 1, 1), &[4]),
    ]
}

pub fn run(report: &mut Report) {
    report.group("lists: stated values, example 4 and small files");
    let dead = Goal::BOTH.map(fourth_dead).into_iter().flatten();
    let answered = [fourth_by_sum(), fourth_by_longest(), fourth_struck_by_sum(), fourth_struck_by_longest(), small_files()];
    answered.into_iter().flatten().chain(dead).for_each(|case| stated_search(report, &case));
}
