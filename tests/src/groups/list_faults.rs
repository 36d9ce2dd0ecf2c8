//! The refusals of the lists of agreed and absent columns (02, P2), with stated numbers: a fault at each place of a list, both lists
//! faulty, faults that striking the absent columns would remove (02, P9), and other faults beside them, which come first.

use spp_tests::edition::Edition;
use spp_tests::files::{self, columns, Columns};
use spp_tests::generate;
use spp_tests::generate_earning::in_edition;
use spp_tests::goal::Goal;
use spp_tests::random::Random;
use spp_tests::requests::Requests;

use super::case::Case;
use crate::compare;
use crate::report::{hex, Report};

/// A search that is not refused may end here.
const LIMIT: u32 = 20;

const GROUP: &str = "lists: refusals 14 and 15, and those that come before them";

/// Files of an edition; of SPP2 the small ones alone.
pub fn some_files(edition: Edition) -> Vec<Columns> {
    let mut random = Random::new(14);
    let mut files = vec![columns(1, &[(&[1], 5)]), columns(2, &[(&[1], 3)]), files::example_1(), files::example_4()];
    files.extend((0..6).map(|_| generate::small(&mut random)));
    files.push(generate::ferry_of(&mut random, 64, 255, 9, 10));
    files.push(generate::ferry_of(&mut random, 64, 256, 9, 10));
    files.truncate(edition.of([files.len(), 7]));
    files.into_iter().map(|columns| in_edition(&mut random, edition, columns)).collect()
}

pub fn run(report: &mut Report) {
    report.each_edition(run_edition);
}

fn run_edition(report: &mut Report, edition: Edition) {
    for columns in some_files(edition) {
        let file = columns.file();
        for &goal in Goal::of(edition) {
            let case = Case { goal, columns: &columns, file: &file, requests: Requests::NONE };
            report.group_of(goal, GROUP);
            legal_lists(report, &case);
            each_place(report, &case);
            long_lists(report, &case);
            overlapping(report, &case);
        }
    }
}

/// The search with these lists has the stated refusal, or none for 0.
fn refuses(report: &mut Report, case: &Case, agreed: &[u16], absent: &[u16], wanted: u32) {
    let case = Case { requests: Requests { agreed, absent, pairs: &[] }, ..*case };
    let found = case.search(report, LIMIT, case.columns.rows as usize).0;
    report.same(&found.refusal, &wanted, || case.text());
}

/// Lists without a fault, up to all columns in both.
fn legal_lists(report: &mut Report, case: &Case) {
    let count = case.columns.costs.len() as u16;
    let all: Vec<u16> = (1..=count).collect();
    for list in [&[][..], &[1], &[count], &all[..all.len() - 1], &all[1..], &all] {
        for other in [&[][..], &[count], &all] {
            refuses(report, case, list, other, 0);
            refuses(report, case, other, list, 0);
        }
    }
}

/// A rising list with one number replaced, at each place: by 0, by numbers above the range, by the number before it and by one below that.
fn each_place(report: &mut Report, case: &Case) {
    let count = case.columns.costs.len() as u16;
    for step in [1, 2, 7] {
        let list: Vec<u16> = (1..=count).step_by(step).collect();
        for place in 0..list.len() {
            let mut faults = vec![0, count + 1, 65_535, 256 + list[place]];
            if place > 0 {
                faults.extend([list[place - 1], list[place - 1] - 1]);
            }
            for number in faults {
                let mut faulty = list.clone();
                faulty[place] = number;
                one_fault(report, case, &list, &faulty);
                struck_fault(report, case, &faulty, place);
            }
        }
    }
}

/// A faulty list as either of the two, as both, and beside each refusal that comes before.
fn one_fault(report: &mut Report, case: &Case, list: &[u16], faulty: &[u16]) {
    refuses(report, case, faulty, &[], 14);
    refuses(report, case, faulty, list, 14);
    refuses(report, case, faulty, faulty, 14);
    refuses(report, case, &[], faulty, 15);
    refuses(report, case, list, faulty, 15);
    for (agreed, absent) in [(faulty, &[][..]), (&[][..], faulty), (faulty, faulty)] {
        earlier_refusals(report, case, Requests { agreed, absent, pairs: &[] });
    }
}

/// The faulty number of an agreed list absent too, the number before it, and both of them: without these the list may be faultless.
fn struck_fault(report: &mut Report, case: &Case, faulty: &[u16], place: usize) {
    refuses(report, case, faulty, &faulty[place..=place], 14);
    if place > 0 {
        let before = faulty[place - 1];
        refuses(report, case, faulty, &[before], 14);
        refuses(report, case, faulty, &[before.min(faulty[place]), before.max(faulty[place])], 14);
    }
}

/// Agreed lists that fall, repeat a number or leave the range, with what is wrong absent too; and the other way round.
fn overlapping(report: &mut Report, case: &Case) {
    let above = case.columns.costs.len() as u16 + 1;
    let faults: [(&[u16], &[u16]); 12] = [
        (&[3, 2], &[2]),
        (&[3, 2], &[3]),
        (&[3, 2], &[2, 3]),
        (&[2, 1, 3], &[1]),
        (&[2, 2], &[2]),
        (&[1, 1], &[1]),
        (&[0], &[0]),
        (&[0, 1], &[0]),
        (&[0, 1], &[0, 1]),
        (&[above], &[above]),
        (&[1, above], &[above]),
        (&[1, above], &[1, above]),
    ];
    for (faulty, list) in faults {
        refuses(report, case, faulty, list, 14);
        earlier_refusals(report, case, Requests { agreed: faulty, absent: list, pairs: &[] });
    }
    for absent in [&[1, 1][..], &[2, 1], &[1, 0], &[0, 1], &[1, above]] {
        refuses(report, case, &[1], absent, 15);
    }
}

/// Faulty lists beside a damaged file, a short plan list or a node limit out of range.
fn earlier_refusals(report: &mut Report, case: &Case, requests: Requests) {
    let (file, rows) = (case.file, case.columns.rows as usize);
    let longer = [file, &[1]].concat();
    let mut row_0 = file.to_vec();
    row_0[file.len() - 1] = 0;
    let faults = [
        (&file[..7], 0, 0, 1),
        (&longer, 0, 0, 8),
        (&row_0, LIMIT, rows, 9),
        (file, LIMIT, rows - 1, 10),
        (file, 0, rows - 1, 10),
        (file, 0, rows, 11),
        (file, 1_000_001, rows, 11),
    ];
    for (file, limit, room, wanted) in faults {
        let found = compare::search_with(report, case.goal, file, limit, requests, room).0;
        report.same(&found.refusal, &wanted, || format!("{requests:?}, {}", hex(file)));
    }
}

/// Lists of more numbers than there are columns, which cannot rise within the range.
fn long_lists(report: &mut Report, case: &Case) {
    let count = case.columns.costs.len();
    let lists = [
        (1..=count as u16 + 1).collect::<Vec<u16>>(),
        (0..=count as u16).collect(),
        (1..=count as u16).chain([count as u16]).collect(),
        vec![1; 2 * count],
        (1..=count as u16).chain(1..=count as u16).collect(),
        (1..=u16::MAX).collect(),
        vec![1; 70_000],
    ];
    for list in lists.iter().filter(|list| list.len() > count) {
        refuses(report, case, list, &[], 14);
        refuses(report, case, &[], list, 15);
        refuses(report, case, list, list, 14);
    }
}
