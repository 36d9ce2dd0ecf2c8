//! A file that is searched for a goal, with or without lists, and what holds of a plan that the search shows.

use spp_tests::answers::Answer;
use spp_tests::files::Columns;
use spp_tests::goal::Goal;
use spp_tests::requests::Requests;
use spp_tests::second::price;

use crate::compare;
use crate::report::{hex, Report};

#[derive(Clone, Copy)]
pub struct Case<'a> {
    pub goal: Goal,
    pub columns: &'a Columns,
    /// The bytes of the columns' file.
    pub file: &'a [u8],
    pub requests: Requests<'a>,
}

impl Case<'_> {
    /// The search by the engine and by (a), with so many places for the plan: the answer and the plan shown.
    pub fn search(&self, report: &mut Report, limit: u32, room: usize) -> (Answer, Vec<u16>) {
        compare::search_with(report, self.goal, self.file, limit, self.requests, room)
    }

    /// Starts or resumes the goal's group of searches without lists, of those with agreed and absent columns, or of those with pairs.
    pub fn group(&self, report: &mut Report, without: &'static str, with: &'static str, with_pairs: &'static str) {
        let of_lists = if self.requests.pairs.is_empty() { with } else { with_pairs };
        report.group_of(self.goal, if self.requests.is_none() { without } else { of_lists });
    }

    /// The case as text, for a printed difference.
    pub fn text(&self) -> String {
        format!("{:?}, {}", self.requests, hex(self.file))
    }

    /// Where a column is agreed and absent (02, P9): the engine answers, and fills in the plan list, as it does with the agreed list less
    /// the absent columns. The lists are accepted.
    pub fn struck_by_hand(&self, report: &mut Report, limit: u32) {
        let Requests { agreed, absent, .. } = self.requests;
        let left: Vec<u16> = agreed.iter().copied().filter(|column| !absent.contains(column)).collect();
        if left.len() < agreed.len() {
            report.group_of(
                self.goal,
                "overlaps: the engine's answers and plan lists, and those with the agreed list struck by hand",
            );
            let struck = Requests { agreed: &left, ..self.requests };
            compare::alike(report, self.goal, self.file, limit, [self.requests, struck], self.columns.rows as usize + 2);
        }
    }

    /// A plan shown is one at the price given, by the engine's plan check, by (a)'s, and by the columns as they were made; and it holds
    /// every agreed column that is not absent and no absent one, and obeys the pairs.
    pub fn plan_shown(&self, report: &mut Report, answer: &Answer, plan: &[u16]) {
        let Case { goal, columns, file, requests } = *self;
        if answer.has_plan == 0 {
            return;
        }
        self.group(
            report,
            "plans shown pass the plan check and have the price given",
            "lists: plans shown pass the plan check, have the price given, hold every agreed duty not absent and no absent one",
            "pairs: plans shown pass the plan check, have the price given and are as asked",
        );
        let checked = compare::check(report, file, plan);
        let (sum, wanted) = (price(columns, plan, Goal::Sum), price(columns, plan, goal));
        let what = || format!("{plan:?}, {}", self.text());
        report.same(&(checked.is_plan, checked.price, answer.price), &(1, sum, wanted), what);
        let mut covered: Vec<u8> = plan.iter().flat_map(|&column| columns.bodies[column as usize - 1].clone()).collect();
        covered.sort_unstable();
        let every_row: Vec<u8> = (1..=columns.rows as u8).collect();
        report.same(&(covered, requests.are_met_by(plan)), &(every_row, true), what);
    }
}
