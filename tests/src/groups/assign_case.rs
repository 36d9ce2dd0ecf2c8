//! A table of crews against vessels that is within P5's limits, and what holds of the engine's answer for it.

use spp_tests::answers::{Assigned, BEST, NONE};
use spp_tests::second_assign::{self, Found};
use spp_tests::table::Table;

use crate::compare;
use crate::report::Report;

/// Up to so many vessels all assignments are gone through.
const FEW_VESSELS: usize = 6;

/// The engine's answer in the second solver's form: the vessels of the crews, where there is an assignment.
fn found(table: &Table, answer: Assigned, list: &[u8]) -> Found {
    (answer.outcome == BEST).then(|| (answer.total, list[..table.crews].to_vec()))
}

/// The engine's answer against (a), against the second solver and, for few vessels, against all assignments.
pub fn accepted(report: &mut Report, table: &Table, room: usize) -> Found {
    report.group("crews onto vessels: answers and all lent lists against (a)");
    let (answer, list) = compare::assign(report, table, room);
    let found = found(table, answer, list.list());
    let what = || table.text();
    let outcome = if found.is_some() { BEST } else { NONE };
    report.same(&(answer.refusal, answer.outcome), &(0, outcome), what);
    report.group("crews onto vessels: totals, vessels and none against the second solver");
    report.same(&found, &second_assign::first_of_least(table), what);
    if table.vessels <= FEW_VESSELS {
        report.group("crews onto vessels: totals, vessels and none against all assignments");
        report.same(&found, &second_assign::by_all(table), what);
    }
    shown(report, table, &found);
    found
}

/// Vessels shown are in range, one for each crew, none twice, over open pairings, and at the total given.
fn shown(report: &mut Report, table: &Table, found: &Found) {
    let Some((total, vessels)) = found else { return };
    report.group("crews onto vessels: what is shown is an assignment over open pairings at the total given");
    let are_numbers = vessels.iter().all(|&vessel| (1..=table.vessels).contains(&(vessel as usize)));
    report.holds(are_numbers, || format!("{vessels:?}, {}", table.text()));
    if !are_numbers {
        return;
    }
    let mut apart = vessels.clone();
    apart.sort_unstable();
    apart.dedup();
    let are_open = vessels.iter().enumerate().all(|(crew, &vessel)| table.cost(crew, vessel as usize - 1) > 0);
    let sum = second_assign::total(table, vessels);
    report.same(&(apart.len(), are_open, sum), &(table.crews, true, *total), || format!("{vessels:?}, {}", table.text()));
}
