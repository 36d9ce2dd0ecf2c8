//! Lists of agreed and absent columns (02, P2) for generated files: both searches against `plain`, against the second solver over the plans
//! that hold every agreed column that is not absent and no absent one, and against all such plans where they are few. Half of the lists are
//! drawn from a plan. Lists that overlap are among them; `overlaps` has more of these. Files of SPP2 are searched for the sum alone.

use spp_tests::answers::{NONE, STOPPED};
use spp_tests::edition::Edition;
use spp_tests::files::Columns;
use spp_tests::generate_earning::in_edition;
use spp_tests::goal::Goal;
use spp_tests::random::Random;
use spp_tests::requests::Requests;
use spp_tests::second::{each_plan, least_price_with, price, Least};
use spp_tests::{generate, plain};

use super::case::Case;
use super::{limits, prices};
use crate::report::Report;

/// Sets of covered rows that the second solver may hold.
const MOST_SETS: usize = 60_000;

/// Plans that are enumerated.
const MOST_PLANS: usize = 200;

/// Above this number of rows no plans are enumerated.
const MOST_ROWS: u16 = 30;

/// A family of generated files.
struct Family {
    name: &'static str,
    make: fn(&mut Random) -> Columns,
    /// Files of SPP1, and of SPP2.
    files: [usize; 2],
    /// The node limit of the searches.
    limit: u32,
    /// Trees up to this size are searched with every node limit.
    every_limit: u32,
}

fn families() -> Vec<Family> {
    let family = |name, make, files, limit, every_limit| Family { name, make, files, limit, every_limit };
    vec![
        family("tiny", generate::tiny, [600, 300], 1_000_000, 1000),
        family("small", generate::small, [400, 100], 20_000, 100),
        family("medium", generate::medium, [120, 16], 3000, 40),
        family("ferry", generate::ferry, [60, 8], 1000, 10),
        family("large ferry", generate::large_ferry, [8, 1], 500, 4),
        family("dense", generate::dense, [40, 6], 600, 6),
        family("sparse", generate::sparse, [8, 1], 300, 4),
    ]
}

/// What the run says besides the counted cases.
#[derive(Default)]
struct Totals {
    best: usize,
    none: usize,
    stopped: usize,
    unknown: usize,
}

/// The plans of a file: some of them, or all.
pub struct Plans {
    pub plans: Vec<Vec<u16>>,
    pub are_all: bool,
}

/// A column list of each kind.
struct Lists {
    agreed: Vec<u16>,
    absent: Vec<u16>,
}

pub fn run(report: &mut Report) {
    report.each_edition(|report, edition| {
        println!("lists of agreed and absent duties, {edition}:");
        for (seed, family) in (2002..).zip(&families()) {
            one_family(report, family, edition, Random::new(seed));
        }
    });
}

fn one_family(report: &mut Report, family: &Family, edition: Edition, mut random: Random) {
    let (name, files, mut totals) = (family.name, edition.of(family.files), Totals::default());
    for _ in 0..files {
        let made = (family.make)(&mut random);
        one_file(report, family, in_edition(&mut random, edition, made), &mut random, &mut totals);
    }
    let Totals { best, none, stopped, unknown } = totals;
    println!(
        "  {name:<12} {files:>5} files, {best:>5} best, {none:>5} none, {stopped} stopped, {unknown} too large for the second solver"
    );
}

fn one_file(report: &mut Report, family: &Family, columns: Columns, random: &mut Random, totals: &mut Totals) {
    let file = columns.file();
    let plans = known_plans(&columns, &file, family.limit);
    let count = columns.costs.len() as u16;
    let mut drawn = any_lists(random, &columns);
    if !plans.plans.is_empty() {
        let plan = &plans.plans[random.within(0, plans.plans.len() - 1)];
        drawn.extend(lists_of_plan(random, plan, count));
    }
    drawn.retain(|lists| !lists.agreed.is_empty() || !lists.absent.is_empty());
    for Lists { agreed, absent } in &drawn {
        for &goal in Goal::of(columns.edition) {
            let case = Case { goal, columns: &columns, file: &file, requests: Requests { agreed, absent, pairs: &[] } };
            one_search(report, family, &case, &plans, totals);
        }
    }
}

/// Plans by enumeration; for a larger file the one that (a) finds, if it does.
pub fn known_plans(columns: &Columns, file: &[u8], limit: u32) -> Plans {
    let mut plans = Vec::new();
    if columns.rows <= MOST_ROWS {
        let count = each_plan(columns, MOST_PLANS, |plan| {
            plans.push(plan.to_vec());
            plans.last_mut().expect("a plan was put in").sort_unstable();
        });
        return Plans { plans, are_all: count < MOST_PLANS };
    }
    let goal = if columns.edition == Edition::One { Goal::Longest } else { Goal::Sum };
    let tree = plain::tree(goal, file, limit).expect("the file is accepted");
    if tree.answer.has_plan == 1 {
        plans.push(tree.plan);
    }
    Plans { plans, are_all: false }
}

/// Some of the columns, each with the given chance.
pub fn some(random: &mut Random, columns: impl Iterator<Item = u16>, percent: usize) -> Vec<u16> {
    columns.filter(|_| random.chance(percent)).collect()
}

/// Lists of any columns: few and many, one, all, and two agreed ones that share a row.
fn any_lists(random: &mut Random, columns: &Columns) -> Vec<Lists> {
    let count = columns.costs.len() as u16;
    let all: Vec<u16> = (1..=count).collect();
    let one = vec![random.within(1, count as usize) as u16];
    let shares = |other: &u16| {
        let body = &columns.bodies[*other as usize - 1];
        *other != one[0] && columns.bodies[one[0] as usize - 1].iter().any(|row| body.contains(row))
    };
    let mut two: Vec<u16> = all.iter().copied().filter(shares).take(1).chain(one.clone()).collect();
    two.sort_unstable();
    let (few, many) = (random.within(1, 12), random.within(5, 60));
    vec![
        Lists { agreed: one.clone(), absent: vec![] },
        Lists { agreed: vec![], absent: one.clone() },
        Lists { agreed: one.clone(), absent: one },
        Lists { agreed: vec![count], absent: vec![1] },
        Lists { agreed: vec![1], absent: vec![count] },
        Lists { agreed: two, absent: vec![] },
        Lists { agreed: some(random, 1..=count, few), absent: some(random, 1..=count, many) },
        Lists { agreed: some(random, 1..=count, many), absent: some(random, 1..=count, few) },
        Lists { agreed: vec![], absent: some(random, 1..=count, many) },
        Lists { agreed: all.clone(), absent: vec![] },
        Lists { agreed: vec![], absent: all.clone() },
        Lists { agreed: all.clone(), absent: all },
    ]
}

/// Lists drawn from a plan: parts of it agreed with others absent, all of it, and one of its columns absent.
fn lists_of_plan(random: &mut Random, plan: &[u16], count: u16) -> Vec<Lists> {
    let others = || (1..=count).filter(|column| !plan.contains(column));
    let mut part = |agreed, absent| {
        let agreed = some(random, plan.iter().copied(), agreed);
        Lists { agreed, absent: some(random, others(), absent) }
    };
    let mut lists = vec![part(30, 10), part(50, 50), part(80, 20), part(20, 90), part(50, 0)];
    let out = plan[random.within(0, plan.len() - 1)];
    let rest: Vec<u16> = plan.iter().copied().filter(|&column| column != out).collect();
    lists.extend([
        Lists { agreed: plan.to_vec(), absent: vec![] },
        Lists { agreed: plan.to_vec(), absent: others().collect() },
        Lists { agreed: vec![], absent: others().collect() },
        Lists { agreed: rest.clone(), absent: vec![out] },
        Lists { agreed: rest, absent: vec![] },
        Lists { agreed: plan.to_vec(), absent: vec![out] },
        Lists { agreed: vec![], absent: vec![out] },
    ]);
    lists
}

/// Searches with the lists, and holds the answer to the second solver, to the enumerated plans and to every node limit.
fn one_search(report: &mut Report, family: &Family, case: &Case, plans: &Plans, totals: &mut Totals) {
    let Case { goal, columns, requests, .. } = *case;
    report.group_of(goal, "lists: answers, node counts, root floors and all lent lists against (a)");
    let (answer, plan) = case.search(report, family.limit, columns.rows as usize + 3);
    case.plan_shown(report, &answer, &plan);
    let least = least_price_with(columns, goal, requests, MOST_SETS);
    report.group_of(goal, "lists: best price, none and root floor against the second solver");
    prices::compare(report, &answer, least, || case.text());
    if plans.are_all {
        report.group_of(goal, "lists: the second solver's price against all plans of the file");
        report.same(&least, &least_of(plans, case), || case.text());
    }
    match answer.outcome {
        STOPPED => totals.stopped += 1,
        NONE => totals.none += 1,
        _ => totals.best += 1,
    }
    totals.unknown += (least == Least::Unknown) as usize;
    limits::every(report, case, &answer, family.every_limit);
}

/// The least price of those of all plans that the lists allow.
pub fn least_of(plans: &Plans, case: &Case) -> Least {
    let allowed = plans.plans.iter().filter(|plan| case.requests.are_met_by(plan));
    allowed.map(|plan| price(case.columns, plan, case.goal)).min().map_or(Least::NoPlan, Least::Price)
}
