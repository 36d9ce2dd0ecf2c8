//! An answer of the search against the second solver's price.

use spp_tests::answers::{Answer, BEST, STOPPED};
use spp_tests::second::Least;

use crate::report::Report;

/// Where the second solver knows the least price: best has it, none means that there is no plan, and a stopped search has it between
/// its root floor and the price of its plan.
pub fn compare(report: &mut Report, answer: &Answer, least: Least, what: impl FnOnce() -> String) {
    match least {
        Least::Unknown => {}
        Least::Price(least) if answer.outcome == STOPPED => {
            let between = answer.bound <= least && (answer.has_plan == 0 || least <= answer.price);
            report.holds(between, || format!("{answer:?}, cheapest price {least}, {}", what()));
        }
        _ if answer.outcome == STOPPED => report.holds(answer.has_plan == 0, || format!("{answer:?}, no plan, {}", what())),
        _ => {
            let found = if answer.outcome == BEST { Least::Price(answer.price) } else { Least::NoPlan };
            let is_ordered = answer.bound <= answer.price;
            report.same(&(found, is_ordered), &(least, true), what);
        }
    }
}
