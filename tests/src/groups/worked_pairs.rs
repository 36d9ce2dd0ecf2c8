//! Searches with pairs of columns (02, P8). The answers of small files were worked out by hand from the text, node by node: each rule of
//! the pairs decides some of them, and so does doing forcing and pairs again. For example 4 the plans and prices were; it has three plans:
//! 3 6 9 at 42 (longest duty 14), 2 5 10 at 46 (22) and 5 7 8 at 49 (24).

use spp_tests::answers::Answer;
use spp_tests::files::{self, columns, Columns};
use spp_tests::goal::Goal::{self, Longest, Sum};
use spp_tests::requests::Requests;

use super::worked::{best, none, one_duty, stated_search, stopped, stopped_with, Search, LIMIT};
use crate::compare;
use crate::report::Report;

type Numbers = &'static [u16];

fn search(
    name: &'static str,
    goal: Goal,
    columns: Columns,
    requests: Requests<'static>,
    answer: Answer,
    plan: Numbers,
) -> Search {
    Search { goal, name, columns, requests, limit: LIMIT, answer, plan }
}

fn pairs(pairs: Numbers) -> Requests<'static> {
    Requests { pairs, ..Requests::NONE }
}

/// Two columns for each of two rows. The root reduces to 3 by the sum, and has 2 for the longest duty; both branch on column 1.
fn two_each() -> Columns {
    columns(2, &[(&[1], 1), (&[1], 9), (&[2], 2), (&[2], 3)])
}

/// Two columns for each of three rows.
fn three_each() -> Columns {
    columns(3, &[(&[1], 1), (&[1], 9), (&[2], 1), (&[2], 9), (&[3], 1), (&[3], 9)])
}

/// Two columns of one row.
fn one_of_two() -> Columns {
    columns(1, &[(&[1], 5), (&[1], 7)])
}

/// One column for row 1, two for row 2.
fn forced_first() -> Columns {
    columns(2, &[(&[1], 1), (&[2], 1), (&[2], 5)])
}

/// The first is taken and the second free: node 2 takes column 1, then 4, which is 1 above the floor, and is a plan. The floor plus the
/// penalty ends the other branch.
fn second_taken() -> Vec<Search> {
    let agreed = |pairs| Requests { agreed: &[1], absent: &[], pairs };
    vec![
        search("a second is taken", Sum, two_each(), pairs(&[1, 4]), best(4, 3, 2, 2), &[1, 4]),
        search("a second is taken", Longest, two_each(), pairs(&[1, 4]), best(3, 2, 2, 2), &[1, 4]),
        search("the same pair twice", Sum, two_each(), pairs(&[1, 4, 1, 4]), best(4, 3, 2, 2), &[1, 4]),
        search("an agreed first", Sum, two_each(), agreed(&[1, 4]), best(4, 4, 1, 2), &[1, 4]),
        search("an agreed first", Longest, two_each(), agreed(&[1, 4]), best(3, 3, 1, 2), &[1, 4]),
        search("forcing takes the first", Sum, forced_first(), pairs(&[1, 3]), best(6, 6, 1, 2), &[1, 3]),
        search("forcing takes the first", Longest, forced_first(), pairs(&[1, 3]), best(5, 5, 1, 2), &[1, 3]),
        // Node 2 takes 1 and then 3, and is a plan; without the pairs it branches.
        search("a ring", Sum, two_each(), pairs(&[1, 3, 3, 1]), best(3, 3, 2, 2), &[1, 3]),
        search("a ring", Longest, two_each(), pairs(&[1, 3, 3, 1]), best(2, 2, 2, 2), &[1, 3]),
        // Node 2 takes 3, which leaves 4 neither free nor taken.
        search("two seconds that share a sailing", Sum, two_each(), pairs(&[1, 3, 1, 4]), best(11, 3, 4, 2), &[2, 3]),
        search("two seconds that share a sailing, an agreed first", Sum, two_each(), agreed(&[1, 3, 1, 4]), none(1), &[]),
    ]
}

/// The first is taken and the second neither free nor taken. With pair 1 2 node 2, which takes column 1, is dead; node 3 has column 2
/// forced at 8 above the floor and branches on column 3; node 4 is a plan.
fn second_out() -> Vec<Search> {
    let beside = Requests { agreed: &[1], absent: &[3], pairs: &[1, 3] };
    vec![
        search("the second shares the first's sailing", Sum, two_each(), pairs(&[1, 2]), best(11, 3, 4, 2), &[2, 3]),
        search("the second shares the first's sailing", Longest, two_each(), pairs(&[1, 2]), best(9, 2, 4, 2), &[2, 3]),
        // Node 2 is dead; node 3 has 2 forced, and the other pair takes 4.
        search("dead, then forced and taken", Sum, two_each(), pairs(&[1, 2, 2, 4]), best(12, 3, 3, 2), &[2, 4]),
        // The root has column 1 taken and 4 forced, so no sailing is open, but it is no plan.
        search("an agreed first, its second absent", Sum, two_each(), beside, none(1), &[]),
        search("an agreed first, its second absent", Longest, two_each(), beside, none(1), &[]),
        // Nodes 2 and 3 cover the sailing with one column each, and the other one is neither free nor taken.
        search("a ring of two that share a sailing", Sum, one_of_two(), pairs(&[1, 2, 2, 1]), none(3), &[]),
        search("a ring of two that share a sailing", Longest, one_of_two(), pairs(&[1, 2, 2, 1]), none(3), &[]),
        search("of two that share a sailing one needs the other", Sum, one_of_two(), pairs(&[1, 2]), best(7, 5, 3, 1), &[2]),
        search("the dear one needs the cheap one", Sum, one_of_two(), pairs(&[2, 1]), best(5, 5, 2, 1), &[1]),
    ]
}

/// The first is free and the second neither free nor taken. With 4 absent column 3 is forced and nothing else; with pair 1 4 column 1
/// stops being free, and forcing done again takes column 2: the root is a plan.
fn first_left() -> Vec<Search> {
    let absent = |absent, pairs| Requests { agreed: &[], absent, pairs };
    vec![
        search("a second is absent", Sum, two_each(), absent(&[4], &[1, 4]), best(11, 11, 1, 2), &[2, 3]),
        search("a second is absent", Longest, two_each(), absent(&[4], &[1, 4]), best(9, 9, 1, 2), &[2, 3]),
        search("a ring, one of it absent", Sum, two_each(), absent(&[3], &[1, 3, 3, 1]), best(12, 12, 1, 2), &[2, 4]),
        // Forcing done again finds no column for row 1.
        search("both of a sailing need an absent one", Sum, two_each(), absent(&[4], &[1, 4, 2, 4]), none(1), &[]),
        search("both of a sailing need an absent one", Longest, two_each(), absent(&[4], &[1, 4, 2, 4]), none(1), &[]),
    ]
}

/// Columns of pairs that are agreed and absent (02, P9). One that is struck is neither free nor taken. As a second, its first stops being
/// free, or makes the node dead where it is taken; as a first it asks nothing.
fn struck() -> Vec<Search> {
    let asked = |agreed, absent, pairs| Requests { agreed, absent, pairs };
    let case = |name, goal, requests, answer, plan| search(name, goal, two_each(), requests, answer, plan);
    let (second, first) = (asked(&[4], &[4], &[1, 4]), asked(&[1], &[1], &[1, 4]));
    let (first_left, second_left) = (asked(&[1, 4], &[4], &[1, 4]), asked(&[1, 4], &[1], &[1, 4]));
    vec![
        // 1 stops being free, and 2 and 3 are forced.
        case("a second is struck", Sum, second, best(11, 11, 1, 2), &[2, 3]),
        case("a second is struck", Longest, second, best(9, 9, 1, 2), &[2, 3]),
        // 2 is forced, and the root branches on 3.
        case("a first is struck", Sum, first, best(11, 11, 2, 2), &[2, 3]),
        case("a first is struck", Longest, first, best(9, 9, 2, 2), &[2, 3]),
        // 1 is taken and 4 is out.
        case("a second is struck, its first left", Sum, first_left, none(1), &[]),
        case("a second is struck, its first left", Longest, first_left, none(1), &[]),
        // 4 is taken and 2 forced.
        case("a first is struck, its second left", Sum, second_left, best(12, 12, 1, 2), &[2, 4]),
        case("a first is struck, its second left", Longest, second_left, best(9, 9, 1, 2), &[2, 4]),
        case("one of a ring is struck", Sum, asked(&[3], &[3], &[1, 3, 3, 1]), best(12, 12, 1, 2), &[2, 4]),
        case("one of a ring is struck, the other left", Sum, asked(&[1, 3], &[3], &[1, 3, 3, 1]), none(1), &[]),
        case("a ring is struck", Sum, asked(&[1, 3], &[1, 3], &[1, 3, 3, 1]), best(12, 12, 1, 2), &[2, 4]),
        case("a ring is struck", Longest, asked(&[1, 3], &[1, 3], &[1, 3, 3, 1]), best(9, 9, 1, 2), &[2, 4]),
    ]
}

/// Pairs gone through again. Columns 1, 4 and 6 are a chain with its last pair at the front. Node 2 takes 1; the pairs take 4, and again
/// 6: a plan at 1 + 9 + 9. Node 3 has 2 forced, node 4 takes 3, node 5 takes 5: a plan at 9 + 1 + 1.
fn done_again() -> Vec<Search> {
    let chain = pairs(&[4, 6, 1, 4]);
    let case = |goal, limit, answer, plan| Search {
        limit,
        ..search("a chain against its sequence", goal, three_each(), chain, answer, plan)
    };
    let absent = |pairs| Requests { agreed: &[], absent: &[6], pairs };
    vec![
        case(Sum, LIMIT, best(11, 3, 5, 3), &[2, 3, 5]),
        case(Sum, 4, stopped_with(19, 3, 4, 3), &[1, 4, 6]),
        case(Sum, 2, stopped_with(19, 3, 2, 3), &[1, 4, 6]),
        case(Sum, 1, stopped(3, 1), &[]),
        // The other branch has 9 with column 2, which is no better.
        case(Longest, LIMIT, best(9, 1, 2, 3), &[1, 4, 6]),
        case(Longest, 1, stopped(1, 1), &[]),
        // 5 is forced, 3 and 4 stop being free by the last two pairs, and row 2 has none.
        search("a sailing is left without a duty", Sum, three_each(), absent(&[1, 4, 3, 6, 4, 6]), none(1), &[]),
        // 5 is forced and 4 stops being free; again, 3 is forced and 1 stops being free; again, 2 is forced.
        search("its end absent", Sum, three_each(), absent(&[1, 4, 4, 6]), best(11, 11, 1, 3), &[2, 3, 5]),
        search("its end absent", Longest, three_each(), absent(&[1, 4, 4, 6]), best(9, 9, 1, 3), &[2, 3, 5]),
    ]
}

/// A list that lasts as long as the program.
fn lasting(numbers: impl Iterator<Item = u16>) -> Numbers {
    numbers.collect::<Vec<u16>>().leak()
}

/// Two columns for each of 64 rows, the odd ones at 1 and the even ones at 3.
fn two_for_each_row() -> Columns {
    let bodies = (0..128).map(|column| vec![column / 2 + 1]).collect();
    Columns::new(64, [1, 3].repeat(64), bodies)
}

/// Four columns for each of 64 rows, columns 1 to 128 at 1 and the others at 2.
fn four_for_each_row() -> Columns {
    let bodies = (0..256).map(|column| vec![(column % 64) as u8 + 1]).collect();
    Columns::new(64, (0..256).map(|column| 1 + column / 128).collect(), bodies)
}

/// Roots at which each repetition does one step of a chain, and which are plans then.
///
/// In the first file each even column needs the next. With column 2 agreed and the last pair at the front, the pairs take one even column
/// each time. With column 128 absent and the first pair at the front, column 127 is forced; then one even column stops being free each time,
/// and the odd one beside it is forced.
///
/// In the second file each of columns 1 to 128 needs the next. With 129 absent, one of them stops being free each time, from 128 down to 1.
/// With 194 to 256 absent too, rows 2 to 64 are left 130 to 192, and row 1 is left 193.
fn long_chains() -> Vec<Search> {
    let even = || (1..=64).map(|row| 2 * row);
    let (all_even, all_odd, others) = (lasting(even()), lasting(even().map(|column| column - 1)), lasting(130..=193));
    let needs_next = |column: u16, step: u16| [column, column + step];
    let backwards = lasting(even().rev().skip(1).flat_map(|column| needs_next(column, 2)));
    let forwards = lasting(even().take(63).flat_map(|column| needs_next(column, 2)));
    let most = lasting((1..=128).flat_map(|column| needs_next(column, 1)));
    let taking = Requests { agreed: &[2], absent: &[], pairs: backwards };
    let leaving = Requests { agreed: &[], absent: &[128], pairs: forwards };
    let leaving_most = Requests { agreed: &[], absent: lasting([129].into_iter().chain(194..=256)), pairs: most };
    let case =
        |name, goal, columns, requests, price, plan| search(name, goal, columns, requests, best(price, price, 1, 64), plan);
    vec![
        case("63 taken one by one", Sum, two_for_each_row(), taking, 192, all_even),
        case("63 taken one by one", Longest, two_for_each_row(), taking, 3, all_even),
        case("63 left one by one", Sum, two_for_each_row(), leaving, 64, all_odd),
        case("63 left one by one", Longest, two_for_each_row(), leaving, 1, all_odd),
        case("128 left one by one", Sum, four_for_each_row(), leaving_most, 128, others),
        case("128 left one by one", Longest, four_for_each_row(), leaving_most, 2, others),
    ]
}

/// Example 4. Pair 3 5 excludes 3 6 9; 5 7 excludes 2 5 10, and 5 2 excludes 5 7 8.
fn fourth() -> Vec<Search> {
    let case = |goal, numbers, answer, plan| search("example 4", goal, files::example_4(), pairs(numbers), answer, plan);
    vec![
        case(Sum, &[3, 6, 6, 9, 9, 3], best(42, 39, 2, 3), &[3, 6, 9]),
        case(Sum, &[3, 5], best(46, 39, 5, 3), &[2, 5, 10]),
        case(Longest, &[3, 5], best(22, 14, 4, 3), &[2, 5, 10]),
        case(Sum, &[3, 5, 5, 7], best(49, 39, 3, 3), &[5, 7, 8]),
        case(Longest, &[3, 5, 5, 7], best(24, 14, 6, 3), &[5, 7, 8]),
        case(Sum, &[3, 5, 5, 7, 5, 2], none(3), &[]),
        case(Longest, &[3, 5, 5, 7, 5, 2], none(5), &[]),
    ]
}

/// A file of one column has no pair.
fn refused(report: &mut Report) {
    let file = one_duty().file();
    for (list, refusal) in [(&[1, 1][..], 20), (&[1, 2], 20), (&[2, 1], 20), (&[1], 21), (&[0], 21), (&[0, 1, 1], 21)] {
        for goal in Goal::BOTH {
            let found = compare::search_with(report, goal, &file, LIMIT, Requests { pairs: list, ..Requests::NONE }, 1).0;
            report.same(&found, &Answer { refusal, ..Answer::default() }, || format!("one duty, pairs {list:?}"));
        }
    }
}

pub fn run(report: &mut Report) {
    report.group("pairs: stated values, small files and example 4");
    let groups = [second_taken(), second_out(), first_left(), struck(), done_again(), long_chains(), fourth()];
    groups.iter().flatten().for_each(|case| stated_search(report, case));
    refused(report);
}
