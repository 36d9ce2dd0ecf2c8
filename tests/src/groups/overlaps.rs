//! Columns that are agreed and absent (02, P9) for generated files, without pairs and with them: both searches against `plain`, against the
//! second solver, against all plans where they are few and all choices of columns where these are few, and against the engine's own answers
//! with the agreed list struck by hand. Each kind of overlap and each kind of answer must occur.

use spp_tests::answers::{Answer, BEST, NONE};
use spp_tests::edition::Edition;
use spp_tests::files::Columns;
use spp_tests::generate;
use spp_tests::generate_earning::in_edition;
use spp_tests::generate_overlaps::{any_lists, lists_of_plan, lists_with_pairs, Kind, Left, Overlap};
use spp_tests::goal::Goal;
use spp_tests::random::Random;
use spp_tests::requests::Requests;
use spp_tests::second::{least_of_choices, least_price_with, price, Least};

use super::case::Case;
use super::lists::{known_plans, least_of, Plans};
use super::worked::{best, none};
use super::{limits, prices};
use crate::report::Report;

/// Sets of covered rows that the second solver may hold.
const MOST_SETS: usize = 8000;

/// Up to this number of columns all choices are gone through.
const MOST_COLUMNS: usize = 10;

/// Node limits beside the family's own.
const SMALL_LIMITS: [u32; 3] = [1, 2, 6];

/// A family of generated files.
struct Family {
    make: fn(&mut Random) -> Columns,
    /// Files of SPP1, and of SPP2.
    files: [usize; 2],
    /// The node limit of the searches.
    limit: u32,
    /// Trees up to this size are searched with every node limit.
    every_limit: u32,
}

fn families() -> Vec<Family> {
    let family = |make, files, limit, every_limit| Family { make, files, limit, every_limit };
    vec![
        family(generate::tiny, [300, 150], 1_000_000, 1000),
        family(generate::small, [150, 50], 20_000, 60),
        family(generate::medium, [30, 8], 1000, 20),
        family(generate::ferry, [12, 3], 400, 6),
        family(generate::large_ferry, [2, 1], 200, 4),
        family(generate::dense, [6, 2], 200, 4),
        family(generate::sparse, [2, 1], 150, 3),
    ]
}

/// The kinds of answer.
const ANSWERS: [&str; 5] = ["best", "none with 1 node", "none with more nodes", "stopped without a plan", "stopped with a plan"];

/// How many answers there are of each kind.
#[derive(Clone, Copy, Default)]
struct Answers {
    best: usize,
    none_at_the_root: usize,
    none_later: usize,
    stopped: usize,
    stopped_with_a_plan: usize,
}

impl Answers {
    fn count(&mut self, answer: &Answer) {
        let place = match (answer.outcome, answer.nodes, answer.has_plan) {
            (BEST, ..) => &mut self.best,
            (NONE, 1, _) => &mut self.none_at_the_root,
            (NONE, ..) => &mut self.none_later,
            (_, _, 0) => &mut self.stopped,
            _ => &mut self.stopped_with_a_plan,
        };
        *place += 1;
    }

    /// In the sequence of `ANSWERS`.
    fn each(&self) -> [usize; 5] {
        [self.best, self.none_at_the_root, self.none_later, self.stopped, self.stopped_with_a_plan]
    }
}

/// The answers for each kind of overlap.
type Totals = [Answers; Kind::ALL.len()];

pub fn run(report: &mut Report) {
    report.each_edition(|report, edition| {
        println!("duties that are agreed and absent, {edition}:");
        one_edition(report, edition);
    });
}

fn one_edition(report: &mut Report, edition: Edition) {
    let mut totals = [Totals::default(); 2];
    for (seed, family) in (9009..).zip(&families()) {
        let mut random = Random::new(seed);
        for _ in 0..edition.of(family.files) {
            let made = (family.make)(&mut random);
            one_file(report, family, in_edition(&mut random, edition, made), &mut random, &mut totals);
        }
    }
    for (&goal, totals) in Goal::of(edition).iter().zip(&totals) {
        each_kind_is_met(report, goal, totals);
    }
}

/// Each kind of overlap gives best but for those whose root is dead, which give none with 1 node; and each kind of answer occurs.
fn each_kind_is_met(report: &mut Report, goal: Goal, totals: &Totals) {
    report.group_of(goal, "overlaps: each kind of overlap and of answer is met");
    for (kind, answers) in Kind::ALL.into_iter().zip(totals) {
        let wanted = if kind.is_dead() { answers.none_at_the_root } else { answers.best };
        report.holds(wanted > 0, || format!("never with the answer wanted: {}", kind.text()));
    }
    for (answer, what) in ANSWERS.into_iter().enumerate() {
        let count: usize = totals.iter().map(|answers| answers.each()[answer]).sum();
        println!("  {goal:<12} {count:>6} {what}");
        report.holds(count > 0, || format!("never: {what}"));
    }
}

fn one_file(report: &mut Report, family: &Family, columns: Columns, random: &mut Random, totals: &mut [Totals; 2]) {
    let file = columns.file();
    let plans = known_plans(&columns, &file, family.limit);
    let mut drawn = any_lists(random, &columns);
    drawn.extend(lists_with_pairs(random, &columns));
    let cheapest = plans.plans.iter().min_by_key(|plan| price(&columns, plan, Goal::Sum));
    drawn.extend(cheapest.map_or(Vec::new(), |plan| lists_of_plan(random, &columns, plan)));
    for overlap in &drawn {
        for (&goal, totals) in Goal::of(columns.edition).iter().zip(totals.iter_mut()) {
            let Overlap { agreed, absent, pairs, .. } = overlap;
            let case = Case { goal, columns: &columns, file: &file, requests: Requests { agreed, absent, pairs } };
            one_overlap(report, family, &case, &plans, overlap, &mut totals[overlap.kind as usize]);
        }
    }
}

/// Searches with the lists within small limits and within the family's own. The last answer is held to what is known of it beforehand, to
/// the second solver and to every node limit.
fn one_overlap(report: &mut Report, family: &Family, case: &Case, plans: &Plans, overlap: &Overlap, answers: &mut Answers) {
    let is_in_both = |column| overlap.absent.contains(column);
    report.group_of(case.goal, "overlaps: what is known of the lists and of their answers beforehand");
    report.holds(overlap.agreed.iter().any(is_in_both), || format!("no overlap, {}", case.text()));
    for limit in SMALL_LIMITS {
        answers.count(&one_search(report, case, limit).0);
    }
    let (answer, plan) = one_search(report, case, family.limit);
    answers.count(&answer);
    known_beforehand(report, case, &overlap.left, (answer, plan));
    second_solver(report, case, plans, &answer);
    limits::every(report, case, &answer, family.every_limit);
}

fn one_search(report: &mut Report, case: &Case, limit: u32) -> (Answer, Vec<u16>) {
    report.group_of(case.goal, "overlaps: answers, node counts, root floors and all lent lists against (a)");
    let (answer, plan) = case.search(report, limit, case.columns.rows as usize + 3);
    case.plan_shown(report, &answer, &plan);
    case.struck_by_hand(report, limit);
    (answer, plan)
}

/// A dead root has none with 1 node, and where the columns left are a plan the root is that plan.
fn known_beforehand(report: &mut Report, case: &Case, left: &Left, found: (Answer, Vec<u16>)) {
    report.group_of(case.goal, "overlaps: what is known of the lists and of their answers beforehand");
    match left {
        Left::Search => {}
        Left::Dead => report.same(&found, &(none(1), vec![]), || case.text()),
        Left::Plan(plan) => {
            let price = price(case.columns, plan, case.goal);
            report.same(&found, &(best(price, price, 1, plan.len() as u32), plan.clone()), || case.text());
        }
    }
}

fn second_solver(report: &mut Report, case: &Case, plans: &Plans, answer: &Answer) {
    let Case { goal, columns, requests, .. } = *case;
    let least = least_price_with(columns, goal, requests, MOST_SETS);
    report.group_of(goal, "overlaps: best price, none and root floor against the second solver");
    prices::compare(report, answer, least, || case.text());
    report.group_of(goal, "overlaps: the second solver's price against all plans of the file and all choices of duties");
    if plans.are_all && least != Least::Unknown {
        report.same(&least, &least_of(plans, case), || case.text());
    }
    if columns.costs.len() <= MOST_COLUMNS {
        report.same(&least, &least_of_choices(columns, goal, requests), || case.text());
    }
}
