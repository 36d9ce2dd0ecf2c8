//! A file that is within P6's limits, and what holds of the engine's answer for it.

use spp_tests::answers::{Uncrewed, NO_CREW, PLAN_EXISTS, STOPPED};
use spp_tests::files::Columns;
use spp_tests::second_uncrewed::{by_all, covers, furthest};

use crate::compare;
use crate::report::{hex, Report};

/// Sets of covered rows that the second solver may meet.
const MOST_SETS: usize = 100_000;

/// Up to so many columns all sets of columns are gone through.
const FEW_COLUMNS: usize = 10;

/// An accepted file, and how many rows from 1 on can be covered.
pub struct Case<'a> {
    pub columns: &'a Columns,
    pub file: Vec<u8>,
    /// By the second solver; none where the file is too large for it.
    pub furthest: Option<usize>,
    /// By all sets of columns; none where there are many columns.
    by_all: Option<usize>,
}

impl Case<'_> {
    pub fn new(columns: &Columns) -> Case<'_> {
        let by_all = (columns.bodies.len() <= FEW_COLUMNS).then(|| by_all(columns));
        Case { columns, file: columns.file(), furthest: furthest(columns, MOST_SETS), by_all }
    }

    fn rows(&self) -> usize {
        self.columns.rows as usize
    }

    /// The outcome and the row where rows 1 to `furthest` can be covered and no more.
    fn wanted(&self, furthest: usize) -> (u32, u32) {
        if furthest == self.rows() {
            (PLAN_EXISTS, 0)
        } else {
            (NO_CREW, furthest as u32 + 1)
        }
    }

    /// The engine's answer and the columns shown, against (a), against the second solver and, for few columns, against all sets of columns.
    pub fn accepted(&self, report: &mut Report, limit: u32, room: usize) -> (Uncrewed, Vec<u16>) {
        report.group("sailings that can't be crewed: answers and all lent lists against (a)");
        let (answer, shown) = compare::uncrewed(report, &self.file, limit, room);
        report.same(&answer.refusal, &0, || hex(&self.file));
        if let Some(furthest) = self.furthest {
            report.group("sailings that can't be crewed: k, a plan and stopped against the second solver");
            self.outcome(report, &answer, furthest);
        }
        if let Some(furthest) = self.by_all {
            report.group("sailings that can't be crewed: k, a plan and stopped against all sets of duties");
            self.outcome(report, &answer, furthest);
        }
        self.shown(report, &answer, &shown);
        (answer, shown)
    }

    /// Where the trials were not stopped, the answer is the one wanted. Where they were at k, rows 1 to k - 1 can be covered.
    fn outcome(&self, report: &mut Report, answer: &Uncrewed, furthest: usize) {
        let what = || format!("{answer:?}, covered at most up to {furthest}, {}", hex(&self.file));
        if answer.outcome == STOPPED {
            let most = self.rows().min(furthest + 1);
            report.holds((1..=most).contains(&(answer.row as usize)), what);
        } else {
            report.same(&(answer.outcome, answer.row), &self.wanted(furthest), what);
        }
    }

    /// Columns shown are in range and rise, share no row, and cover each row below k; there are none for k = 1. Other answers show none.
    fn shown(&self, report: &mut Report, answer: &Uncrewed, shown: &[u16]) {
        let what = || format!("{answer:?}, shown {shown:?}, {}", hex(&self.file));
        report.group("sailings that can't be crewed: duties shown share no sailing and cover each of 1 to k - 1");
        if answer.outcome != NO_CREW || answer.row <= 1 {
            report.same(&(answer.columns, shown.len()), &(0, 0), what);
        } else {
            report.holds(covers(self.columns, shown, answer.row as usize - 1), what);
        }
    }
}
