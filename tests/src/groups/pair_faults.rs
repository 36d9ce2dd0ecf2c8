//! The refusals of the pairs of columns (02, P8), with stated numbers: lists of lengths about the largest, a fault at each place of a
//! list, other faults beside them, which come first, and beside columns that are agreed and absent (02, P9).

use spp_tests::edition::Edition;
use spp_tests::generate_pairs::MOST_PAIRS;
use spp_tests::goal::Goal;
use spp_tests::requests::Requests;

use super::case::Case;
use super::list_faults::some_files;
use crate::compare;
use crate::report::{hex, Report};

/// A search that is not refused may end here.
const LIMIT: u32 = 20;

const GROUP: &str = "pairs: refusals 21 and 20, and those that come before them";

pub fn run(report: &mut Report) {
    report.each_edition(run_edition);
}

fn run_edition(report: &mut Report, edition: Edition) {
    for columns in some_files(edition) {
        let file = columns.file();
        for &goal in Goal::of(edition) {
            let case = Case { goal, columns: &columns, file: &file, requests: Requests::NONE };
            report.group_of(goal, GROUP);
            legal_lists(report, &case);
            lengths(report, &case);
            each_place(report, &case);
        }
    }
}

/// The search with these pairs has the stated refusal, or none for 0.
fn refuses(report: &mut Report, case: &Case, pairs: &[u16], wanted: u32) {
    let case = Case { requests: Requests { pairs, ..Requests::NONE }, ..*case };
    let found = case.search(report, LIMIT, case.columns.rows as usize).0;
    report.same(&found.refusal, &wanted, || case.text());
}

/// So many numbers: the columns in turn, and again from the first on. Two that follow each other differ if there are two columns.
fn in_turn(case: &Case, numbers: usize) -> Vec<u16> {
    let count = case.columns.costs.len();
    (0..numbers).map(|place| (place % count) as u16 + 1).collect()
}

/// Lists without a fault: none, the last column first, one pair as often as may be, and as many as may be. A file of one column has
/// no pair.
fn legal_lists(report: &mut Report, case: &Case) {
    let count = case.columns.costs.len() as u16;
    refuses(report, case, &[], 0);
    if count > 1 {
        let last_first = in_turn(case, 2 * MOST_PAIRS).into_iter().map(|number| count + 1 - number).collect();
        for list in [vec![1, count], vec![count, 1], [1, count].repeat(MOST_PAIRS), in_turn(case, 2 * MOST_PAIRS), last_first] {
            refuses(report, case, &list, 0);
        }
    }
}

/// Odd lengths and lengths above the largest, some of which are small again in 8 or 16 bits. A fault in a pair comes after.
fn lengths(report: &mut Report, case: &Case) {
    let count = case.columns.costs.len() as u16;
    for length in [1, 3, 5, 127, 129, 253, 255, 257, 258, 259, 260, 320, 511, 512, 514, 65_535, 65_536, 65_538, 65_792, 70_000] {
        let list = in_turn(case, length);
        let mut faulty = list.clone();
        faulty[length / 2] = count + 1;
        for pairs in [list, faulty, vec![1; length], vec![0; length]] {
            refuses(report, case, &pairs, 21);
            if length < 300 {
                earlier_refusals(report, case, &pairs);
                beside_overlaps(report, case, &pairs, 21);
            }
        }
    }
    for length in [2, 4, 2 * MOST_PAIRS - 2, 2 * MOST_PAIRS] {
        refuses(report, case, &vec![1; length], 20);
        refuses(report, case, &vec![0; length], 20);
    }
}

/// A list without a fault with one number replaced, at each place: by 0, by numbers above the range, by the other number of the pair.
fn each_place(report: &mut Report, case: &Case) {
    let count = case.columns.costs.len() as u16;
    for pairs in [1, 2, 5, MOST_PAIRS] {
        let list = in_turn(case, 2 * pairs);
        for place in 0..list.len() {
            for number in [0, count + 1, 257, 65_535, 256 + list[place], list[place ^ 1]] {
                let mut faulty = list.clone();
                faulty[place] = number;
                refuses(report, case, &faulty, 20);
            }
        }
        let mut faulty = list.clone();
        faulty[2 * pairs - 1] = count + 1;
        earlier_refusals(report, case, &faulty);
        beside_overlaps(report, case, &faulty, 20);
    }
}

/// Faulty pairs beside a damaged file, a short plan list, a node limit out of range, or a faulty list of agreed or absent columns.
fn earlier_refusals(report: &mut Report, case: &Case, pairs: &[u16]) {
    let (file, rows, above) = (case.file, case.columns.rows as usize, [case.columns.costs.len() as u16 + 1]);
    let asked = |agreed, absent| Requests { agreed, absent, pairs };
    let none = asked(&[], &[]);
    for refusal in 1..=9 {
        let damaged = case.columns.damaged(refusal);
        let found = compare::search_with(report, case.goal, &damaged, LIMIT, none, 64).0;
        report.same(&found.refusal, &refusal, || hex(&damaged));
    }
    let faults = [
        (none, LIMIT, rows - 1, 10),
        (asked(&[0], &[0]), 0, rows - 1, 10),
        (none, 0, rows, 11),
        (none, 1_000_001, rows, 11),
        (asked(&above, &[0]), 0, rows, 11),
        (asked(&[0], &[]), LIMIT, rows, 14),
        (asked(&above, &above), LIMIT, rows, 14),
        (asked(&[], &above), LIMIT, rows, 15),
        (asked(&[1], &[0]), LIMIT, rows, 15),
    ];
    for (requests, limit, room, wanted) in faults {
        let found = compare::search_with(report, case.goal, file, limit, requests, room).0;
        report.same(&found.refusal, &wanted, || format!("{requests:?}, {}", hex(file)));
    }
}

/// Faulty pairs beside lists of which a column stands in both: these are refused as they are lent, before the pairs, or not at all.
fn beside_overlaps(report: &mut Report, case: &Case, pairs: &[u16], refusal: u32) {
    let (count, rows) = (case.columns.costs.len() as u16, case.columns.rows as usize);
    let (all, above): (Vec<u16>, _) = ((1..=count).collect(), count + 1);
    let lists: [(&[u16], &[u16], u32); 9] = [
        (&[1], &[1], refusal),
        (&[count], &[count], refusal),
        (&all, &all, refusal),
        (&[2, 1], &[1], 14),
        (&[1, 1], &[1], 14),
        (&[0, 1], &[0], 14),
        (&[1, above], &[above], 14),
        (&[1], &[1, 1], 15),
        (&[1], &[1, above], 15),
    ];
    for (agreed, absent, wanted) in lists {
        let case = Case { requests: Requests { agreed, absent, pairs }, ..*case };
        let found = case.search(report, LIMIT, rows).0;
        report.same(&found.refusal, &wanted, || case.text());
    }
}
