//! SPP2 files (02, P10): the largest ones, and files of each kind of prices, with small node limits and against the second solver.

use spp_tests::answers::{Answer, STOPPED};
use spp_tests::edition::Edition::Two;
use spp_tests::generate;
use spp_tests::generate_earning::{extremes, of_kind, KINDS};
use spp_tests::goal::Goal;
use spp_tests::random::Random;
use spp_tests::requests::Requests;
use spp_tests::second::least_price;

use super::case::Case;
use super::editions::first_alone;
use super::{generated, prices};
use crate::compare;
use crate::report::{hex, Report};

/// Sets of covered rows that the second solver may hold.
const MOST_SETS: usize = 20_000;

/// The largest files with small node limits, all calls, and the second solver.
fn largest(report: &mut Report) {
    for columns in extremes(&mut Random::new(10)) {
        let file = columns.file();
        let case = Case { goal: Goal::Sum, columns: &columns, file: &file, requests: Requests::NONE };
        let least = least_price(&columns, Goal::Sum, MOST_SETS);
        for limit in [1, 2, 3, 4, 50, 600] {
            report.group("the largest files and floors: all calls, allowances 1 to 600, the second solver");
            let (answer, plan) = case.search(report, limit, 64);
            prices::compare(report, &answer, least, || hex(&file));
            case.plan_shown(report, &answer, &plan);
        }
        report.group("the largest files and floors: all calls, allowances 1 to 600, the second solver");
        compare::all_calls(report, &file, 1);
        generated::file_and_lists(report, &columns, &file);
        first_alone(report, &file, 1);
    }
}

/// What the searches of SPP2 files came to.
#[derive(Default)]
struct Totals {
    below: usize,
    zero: usize,
    above: usize,
    stopped_below: usize,
    kept_below: usize,
}

/// Files of each kind of costs: prices below 0, at 0 and above, and stopped answers with floors and kept plans below 0, must occur.
fn each_kind(report: &mut Report) {
    let (mut random, mut totals) = (Random::new(1010), Totals::default());
    for kind in &KINDS {
        for _ in 0..40 {
            let made = generate::small(&mut random);
            let columns = of_kind(&mut random, kind, &made);
            let file = columns.file();
            let case = Case { goal: Goal::Sum, columns: &columns, file: &file, requests: Requests::NONE };
            let least = least_price(&columns, Goal::Sum, MOST_SETS);
            for limit in [1, 2, 3, 4, 6, 9, 20_000] {
                report.group("each kind of prices: small allowances, the second solver");
                let (answer, plan) = case.search(report, limit, columns.rows as usize);
                prices::compare(report, &answer, least, || format!("{}, {}", kind.name, hex(&file)));
                case.plan_shown(report, &answer, &plan);
                totals.count(&answer);
            }
        }
    }
    totals.finish(report);
}

impl Totals {
    fn count(&mut self, answer: &Answer) {
        let (is_plan, is_stopped) = (answer.has_plan == 1, answer.outcome == STOPPED);
        self.below += (is_plan && !is_stopped && answer.price < 0) as usize;
        self.zero += (is_plan && !is_stopped && answer.price == 0) as usize;
        self.above += (is_plan && !is_stopped && answer.price > 0) as usize;
        self.stopped_below += (is_stopped && answer.bound < 0) as usize;
        self.kept_below += (is_stopped && is_plan && answer.price < 0) as usize;
    }

    fn finish(&self, report: &mut Report) {
        let Totals { below, zero, above, stopped_below, kept_below } = *self;
        println!("SPP2 files of each kind: best below 0 {below} times, at 0 {zero}, above {above}; stopped with a floor below 0 {stopped_below}");
        println!("  times, with a kept plan below 0 {kept_below} times");
        report.group("each kind of prices: best below 0, at 0 and above, and stopped answers below 0 occur");
        for number in [below, zero, above, stopped_below, kept_below] {
            report.holds(number >= 20, || format!("{number}, at least 20 of each"));
        }
    }
}

pub fn run(report: &mut Report) {
    report.of_edition(Two, |report| {
        largest(report);
        each_kind(report);
    });
}
