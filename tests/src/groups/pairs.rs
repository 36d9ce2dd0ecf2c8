//! Pairs of columns (02, P8) for generated files: both searches against `plain`, against the second solver over the plans that obey the
//! pairs, against all such plans where they are few, and against all choices of columns where these are few. Some lists are drawn from a
//! plan, so that it obeys them or does not. Files of SPP2 are searched for the sum alone.

use spp_tests::answers::{Answer, NONE, STOPPED};
use spp_tests::edition::Edition;
use spp_tests::files::{self, Columns};
use spp_tests::generate_earning::in_edition;
use spp_tests::generate_pairs::{self as draw, MOST_PAIRS};
use spp_tests::goal::Goal;
use spp_tests::plain::Uses;
use spp_tests::random::Random;
use spp_tests::requests::Requests;
use spp_tests::second::{least_of_choices, least_price_with, Least};
use spp_tests::{generate, plain};

use super::case::Case;
use super::lists::{known_plans, least_of, some, Plans};
use super::{limits, prices};
use crate::report::Report;

/// Sets of covered rows that the second solver may hold.
const MOST_SETS: usize = 8000;

/// Up to this number of columns all choices are gone through.
const MOST_COLUMNS: usize = 12;

/// A family of generated files.
struct Family {
    name: &'static str,
    make: fn(&mut Random) -> Columns,
    /// Files of SPP1, and of SPP2.
    files: [usize; 2],
    /// The node limit of the searches.
    limit: u32,
    /// Trees up to this size are searched with every node limit.
    every_limit: u32,
}

fn families() -> Vec<Family> {
    let family = |name, make, files, limit, every_limit| Family { name, make, files, limit, every_limit };
    vec![
        family("tiny", generate::tiny, [600, 300], 1_000_000, 1000),
        family("small", generate::small, [250, 80], 20_000, 100),
        family("medium", generate::medium, [24, 6], 2000, 20),
        family("ferry", generate::ferry, [8, 2], 400, 6),
        family("large ferry", generate::large_ferry, [2, 1], 300, 4),
        family("dense", generate::dense, [4, 1], 200, 3),
        family("sparse", generate::sparse, [2, 1], 150, 3),
    ]
}

/// What the run says besides the counted cases.
#[derive(Default)]
struct Totals {
    lists: usize,
    best: usize,
    none: usize,
    stopped: usize,
    unknown: usize,
    /// Answers that differ from those without pairs in outcome or price.
    changed: usize,
    /// What the pairs did, for each goal.
    uses: [Uses; 2],
}

/// Lists of each kind.
struct Lists {
    agreed: Vec<u16>,
    absent: Vec<u16>,
    pairs: Vec<u16>,
}

fn unlisted(pairs: Vec<u16>) -> Lists {
    Lists { agreed: vec![], absent: vec![], pairs }
}

pub fn run(report: &mut Report) {
    report.each_edition(|report, edition| {
        println!("pairs of duties, {edition}:");
        one_edition(report, edition);
    });
}

fn one_edition(report: &mut Report, edition: Edition) {
    let mut uses = [Uses::default(); 2];
    let mut changed = 0;
    for (seed, family) in (8008..).zip(&families()) {
        let totals = one_family(report, family, edition, Random::new(seed));
        uses.iter_mut().zip(totals.uses).for_each(|(all, some)| add(all, &some));
        changed += totals.changed;
    }
    largest(report, edition);
    for (&goal, uses) in Goal::of(edition).iter().zip(uses) {
        each_case_is_met(report, goal, &uses);
    }
    println!("  {changed} answers differ in outcome or price from those without pairs");
    report.group("pairs: answers that differ from those without pairs occur");
    report.holds(changed > 0, || "no pair changes an answer".into());
}

fn one_family(report: &mut Report, family: &Family, edition: Edition, mut random: Random) -> Totals {
    let (name, files, mut totals) = (family.name, edition.of(family.files), Totals::default());
    for _ in 0..files {
        let made = (family.make)(&mut random);
        one_file(report, family, &in_edition(&mut random, edition, made), &mut random, &mut totals);
    }
    let Totals { lists, best, none, stopped, unknown, .. } = totals;
    print!("  {name:<12} {files:>5} files, {lists:>5} lists, {best:>5} best, {none:>5} none, {stopped} stopped, ");
    println!("{unknown} too large for the second solver");
    totals
}

fn counts(uses: &Uses) -> [(&'static str, u64); 7] {
    let Uses { taken, dead, left, forced_again, dead_by_forcing, changed_again, dead_again } = *uses;
    [
        ("a second is taken", taken),
        ("a second is neither free nor taken, and the node dead", dead),
        ("a first stops being free", left),
        ("forcing done again takes a duty", forced_again),
        ("forcing done again finds the node dead", dead_by_forcing),
        ("the pairs gone through again change something", changed_again),
        ("the pairs gone through again find the node dead", dead_again),
    ]
}

fn add(all: &mut Uses, some: &Uses) {
    all.taken += some.taken;
    all.dead += some.dead;
    all.left += some.left;
    all.forced_again += some.forced_again;
    all.dead_by_forcing += some.dead_by_forcing;
    all.changed_again += some.changed_again;
    all.dead_again += some.dead_again;
}

/// Each rule of the pairs, and doing forcing and pairs again, is met in (a)'s walks.
fn each_case_is_met(report: &mut Report, goal: Goal, uses: &Uses) {
    report.group_of(goal, "pairs: each rule is met, and what is done again changes something");
    for (what, count) in counts(uses) {
        println!("  {goal:<12} {count:>9} times {what}");
        report.holds(count > 0, || format!("never: {what}"));
    }
}

fn one_file(report: &mut Report, family: &Family, columns: &Columns, random: &mut Random, totals: &mut Totals) {
    let file = columns.file();
    if columns.costs.len() < 2 {
        return;
    }
    let plans = known_plans(columns, &file, family.limit);
    let mut drawn = any_lists(random, columns);
    drawn.extend(lists_beside(random, columns));
    if !plans.plans.is_empty() {
        let plan = &plans.plans[random.within(0, plans.plans.len() - 1)];
        drawn.extend(lists_of_plan(random, columns, plan));
    }
    drawn.retain(|lists| !lists.pairs.is_empty());
    let unpaired = Goal::BOTH.map(|goal| plain::search(goal, &file, family.limit, &mut [0; 64]));
    for lists in &drawn {
        totals.lists += 1;
        for (&goal, unpaired) in Goal::of(columns.edition).iter().zip(&unpaired) {
            let requests = Requests { agreed: &lists.agreed, absent: &lists.absent, pairs: &lists.pairs };
            let case = Case { goal, columns, file: &file, requests };
            let answer = one_search(report, family, &case, &plans, totals);
            let is_other = (answer.outcome, answer.price) != (unpaired.outcome, unpaired.price);
            totals.changed += (is_other && lists.agreed.is_empty() && lists.absent.is_empty()) as usize;
        }
    }
}

/// Pairs of any columns: one, few and many, chains, rings, one column that needs others or is needed by them, a pair twice, and columns
/// that share a row or do not.
fn any_lists(random: &mut Random, columns: &Columns) -> Vec<Lists> {
    let count = columns.costs.len();
    let one = draw::any(random, count, 1);
    let few = draw::any(random, count, (count / 3).clamp(2, 6));
    let many = draw::any(random, count, MOST_PAIRS);
    let number = random.within(3, 8);
    let some = draw::different(random, count, number);
    let number = random.within(2, 5);
    let round = draw::different(random, count, number);
    let sharing = draw::by_sharing(random, columns, 2, true);
    let apart = draw::by_sharing(random, columns, 4, false);
    vec![
        unlisted([&one[..], &one].concat()),
        unlisted([&few[..], &one, &few].concat()),
        unlisted(one),
        unlisted(few),
        unlisted(many),
        unlisted(draw::chain(&some)),
        unlisted(draw::chain_backwards(&some)),
        unlisted(draw::ring(&round)),
        unlisted(draw::needing(some[0], &some[1..])),
        unlisted(draw::needed(some[0], &some[1..])),
        unlisted(sharing),
        unlisted(apart),
    ]
}

/// Pairs beside agreed and absent columns: the first or the second of a pair is one of these, and the ends of a chain.
fn lists_beside(random: &mut Random, columns: &Columns) -> Vec<Lists> {
    let count = columns.costs.len();
    let apart = draw::by_sharing(random, columns, 1, false);
    let any = draw::any(random, count, 1);
    let pair = if apart.is_empty() { any } else { apart };
    let [first, second] = [vec![pair[0]], vec![pair[1]]];
    let number = random.within(3, 6);
    let some = draw::different(random, count, number);
    let (front, end) = (vec![some[0]], vec![some[some.len() - 1]]);
    let (chain, backwards) = (draw::chain(&some), draw::chain_backwards(&some));
    vec![
        Lists { agreed: first.clone(), absent: vec![], pairs: pair.clone() },
        Lists { agreed: vec![], absent: second.clone(), pairs: pair.clone() },
        Lists { agreed: second.clone(), absent: vec![], pairs: pair.clone() },
        Lists { agreed: first, absent: second, pairs: pair },
        Lists { agreed: front.clone(), absent: vec![], pairs: chain.clone() },
        Lists { agreed: front.clone(), absent: vec![], pairs: backwards.clone() },
        Lists { agreed: vec![], absent: end.clone(), pairs: chain },
        Lists { agreed: vec![], absent: end.clone(), pairs: backwards.clone() },
        Lists { agreed: front, absent: end, pairs: backwards },
    ]
}

/// Pairs drawn from a plan: those that it obeys, alone and with parts of it agreed and others absent, and those that it does not.
fn lists_of_plan(random: &mut Random, columns: &Columns, plan: &[u16]) -> Vec<Lists> {
    let count = columns.costs.len();
    let others: Vec<u16> = (1..=count as u16).filter(|column| !plan.contains(column)).collect();
    let obeyed = draw::obeyed(random, count, plan, MOST_PAIRS);
    let (agreed, absent) = (some(random, plan.iter().copied(), 30), some(random, others.iter().copied(), 20));
    let mut lists = vec![
        unlisted(draw::ring(plan)),
        unlisted(draw::chain_backwards(plan)),
        unlisted(draw::needed(plan[0], &others)),
        unlisted(obeyed.clone()),
        Lists { agreed, absent, pairs: obeyed },
    ];
    if !others.is_empty() {
        let (first, second) = (plan[random.within(0, plan.len() - 1)], others[random.within(0, others.len() - 1)]);
        lists.push(unlisted(vec![first, second]));
        lists.push(Lists { agreed: vec![first], absent: vec![], pairs: vec![first, second] });
        lists.push(Lists { agreed: vec![], absent: vec![second], pairs: draw::needing(first, &[second]) });
    }
    lists
}

/// Searches with the lists, and holds the answer to the second solver, to the enumerated plans, to all choices and to every node limit.
fn one_search(report: &mut Report, family: &Family, case: &Case, plans: &Plans, totals: &mut Totals) -> Answer {
    let Case { goal, columns, file, requests } = *case;
    report.group_of(goal, "pairs: answers, node counts, root floors and all lent lists against (a)");
    let (answer, plan) = case.search(report, family.limit, columns.rows as usize + 3);
    let tree = plain::tree_with(goal, file, family.limit, requests).expect("the file is accepted");
    add(&mut totals.uses[(goal == Goal::Longest) as usize], &tree.uses);
    case.plan_shown(report, &answer, &plan);
    let least = least_price_with(columns, goal, requests, MOST_SETS);
    report.group_of(goal, "pairs: best price, none and root floor against the second solver");
    prices::compare(report, &answer, least, || case.text());
    report.group_of(goal, "pairs: the second solver's price against all plans of the file and all choices of duties");
    if plans.are_all && least != Least::Unknown {
        report.same(&least, &least_of(plans, case), || case.text());
    }
    if columns.costs.len() <= MOST_COLUMNS {
        report.same(&least, &least_of_choices(columns, goal, requests), || case.text());
    }
    match answer.outcome {
        STOPPED => totals.stopped += 1,
        NONE => totals.none += 1,
        _ => totals.best += 1,
    }
    totals.unknown += (least == Least::Unknown) as usize;
    limits::every(report, case, &answer, family.every_limit);
    answer
}

/// 64 rows and 256 columns with 128 pairs: any, a ring, and a chain in both sequences. The last file has 4,096 entries.
fn largest(report: &mut Report, edition: Edition) {
    let mut random = Random::new(128);
    let mut largest: Vec<Columns> = (0..6).map(|_| generate::large_ferry(&mut random)).collect();
    largest.push(files::largest());
    for columns in largest {
        let columns = in_edition(&mut random, edition, columns);
        let file = columns.file();
        let [round, row] = [MOST_PAIRS, MOST_PAIRS + 1].map(|number| draw::different(&mut random, 256, number));
        let any = draw::any(&mut random, 256, MOST_PAIRS);
        for pairs in [any, draw::ring(&round), draw::chain(&row), draw::chain_backwards(&row)] {
            for &goal in Goal::of(edition) {
                let case = Case { goal, columns: &columns, file: &file, requests: Requests { pairs: &pairs, ..Requests::NONE } };
                most_pairs(report, &case);
            }
        }
    }
}

fn most_pairs(report: &mut Report, case: &Case) {
    for limit in [1, 2, 100, 1000] {
        report.group_of(case.goal, "pairs: 64 sailings, 256 duties, 128 pairs");
        let (answer, plan) = case.search(report, limit, 64);
        report.same(&(answer.refusal, case.requests.pairs.len()), &(0, 2 * MOST_PAIRS), || case.text());
        case.plan_shown(report, &answer, &plan);
    }
}
