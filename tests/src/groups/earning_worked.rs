//! SPP2 files (02, P10) with answers that were worked out by hand from the text, node by node on the raised prices; and the reader's refusals
//! at the limits of both editions.

use spp_tests::answers::Answer;
use spp_tests::edition::Edition::{self, One, Two};
use spp_tests::files::{columns, Columns};
use spp_tests::generate_earning::largest_floor;
use spp_tests::goal::Goal;
use spp_tests::requests::Requests;

use super::worked::{best, none, stated_search, stopped, Search, LIMIT};
use crate::compare;
use crate::report::Report;

type Numbers = &'static [u16];

/// The least cost of SPP2.
const LEAST: i32 = -1_000_000;

fn earning(rows: u16, pairs: &[(&[u8], i32)]) -> Columns {
    columns(rows, pairs).under(Two)
}

fn search(name: &'static str, columns: Columns, limit: u32, answer: Answer, plan: Numbers) -> Search {
    Search { goal: Goal::Sum, name, columns, requests: Requests::NONE, limit, answer, plan }
}

/// Both rows in one column, and each in one.
fn two_or_one(both: i32, one: i32, other: i32) -> Columns {
    earning(2, &[(&[1, 2], both), (&[1], one), (&[2], other)])
}

fn triangle(cost: i32) -> Columns {
    earning(3, &[(&[1, 2], cost), (&[2, 3], cost), (&[1, 3], cost)])
}

/// Files of one or two sailings, with prices below 0, at 0 and at the boundaries. A duty of one sailing at -1,000,000 has the raised price 0.
/// With -9, -4, -4 the root reduces by 999,996 and 999,995, with -7, -4, -4 by 999,996 twice, and with 0, 5, -5 by 999,995 and 1,000,005; then
/// duty 1 has the least C / s.
fn small_files() -> Vec<Search> {
    vec![
        search("one duty that earns", earning(1, &[(&[1], -5)]), LIMIT, best(-5, -5, 1, 1), &[1]),
        search("one duty at 0", earning(1, &[(&[1], 0)]), LIMIT, best(0, 0, 1, 1), &[1]),
        search("one duty at -1,000,000", earning(1, &[(&[1], LEAST)]), 1, best(-1_000_000, -1_000_000, 1, 1), &[1]),
        search("one duty at 1,000,000", earning(1, &[(&[1], 1_000_000)]), 1, best(1_000_000, 1_000_000, 1, 1), &[1]),
        search("the same duty twice", earning(1, &[(&[1], -5), (&[1], -5)]), LIMIT, best(-5, -5, 2, 1), &[1]),
        search(
            "twice at the raised price 0",
            earning(1, &[(&[1], LEAST), (&[1], LEAST)]),
            LIMIT,
            best(-1_000_000, -1_000_000, 2, 1),
            &[1],
        ),
        search("the second is cheaper", earning(1, &[(&[1], 0), (&[1], -1)]), LIMIT, best(-1, -1, 2, 1), &[2]),
        search("a sailing without a duty", earning(2, &[(&[1], -3)]), LIMIT, none(1), &[]),
        search("one duty cheaper than two", two_or_one(-9, -4, -4), LIMIT, best(-9, -9, 2, 1), &[1]),
        search("two duties cheaper than one", two_or_one(-7, -4, -4), LIMIT, best(-8, -8, 2, 2), &[2, 3]),
        search("equal at 0", two_or_one(0, 5, -5), LIMIT, best(0, 0, 2, 1), &[1]),
        search("two duties at -1,000,000", two_or_one(LEAST, LEAST, LEAST), LIMIT, best(-2_000_000, -2_000_000, 2, 2), &[2, 3]),
    ]
}

/// The triangle reduces by one row, and its floor is the raised price of one duty less 3,000,000. The 33 rows of two duties each reduce by
/// 33,000,000 or 31,000,000 each, and 64,000,000 are taken off.
fn stopped_searches() -> Vec<Search> {
    let cheapest = Columns { costs: vec![LEAST; 66], ..largest_floor() };
    vec![
        search("triangle that earns", triangle(-1), LIMIT, none(3), &[]),
        search("triangle that earns, allowance 2", triangle(-1), 2, stopped(-1_000_001, 2), &[]),
        search("triangle at -1,000,000, allowance 1", triangle(LEAST), 1, stopped(-2_000_000, 1), &[]),
        search("triangle at 1,000,000, allowance 2", triangle(1_000_000), 2, stopped(0, 2), &[]),
        search("one duty cheaper than two, allowance 1", two_or_one(-9, -4, -4), 1, stopped(-9, 1), &[]),
        search("the largest floor", largest_floor(), 1, stopped(1_025_000_000, 1), &[]),
        search("the same at -1,000,000", cheapest, 1, stopped(959_000_000, 1), &[]),
    ]
}

/// Duties of one sailing: with 1, 9, 2 and 3 for the prices and 1,000,000 less for SPP2, the trees are those of SPP1. See `worked_lists` and
/// `worked_pairs`.
fn with_lists() -> Vec<Search> {
    let two_each = || earning(2, &[(&[1], -999_999), (&[1], -999_991), (&[2], -999_998), (&[2], -999_997)]);
    let case = |name, agreed, absent, pairs, answer, plan| {
        let requests = Requests { agreed, absent, pairs };
        Search { requests, ..search(name, two_each(), LIMIT, answer, plan) }
    };
    let at = |price: i64, bound: i64, nodes| best(price - 2_000_000, bound - 2_000_000, nodes, 2);
    vec![
        case("the floor counts an agreed duty", &[2], &[], &[], at(11, 11, 2), &[2, 3]),
        case("the cheapest duty absent", &[], &[1], &[], at(11, 11, 2), &[2, 3]),
        case("an agreed duty absent", &[1], &[1], &[], at(11, 11, 2), &[2, 3]),
        case("all of a sailing absent", &[], &[1, 2], &[], none(1), &[]),
        case("both of a sailing agreed", &[1, 2], &[], &[], none(1), &[]),
        case("a second is taken", &[], &[], &[1, 4], at(4, 3, 2), &[1, 4]),
        case("the second shares the first's sailing", &[], &[], &[1, 2], at(11, 3, 4), &[2, 3]),
        case("an agreed first", &[1], &[], &[1, 4], at(4, 4, 1), &[1, 4]),
        case("an agreed first, the second absent", &[1], &[4], &[1, 4], none(1), &[]),
    ]
}

/// Costs of one column with the reader's refusal by edition.
const COSTS: [(i32, [u32; 2]); 10] = [
    (1, [0, 0]),
    (1_000_000, [0, 0]),
    (1_000_001, [4, 4]),
    (i32::MAX, [4, 4]),
    (0, [4, 0]),
    (-1, [4, 0]),
    (-999_999, [4, 0]),
    (LEAST, [4, 0]),
    (-1_000_001, [4, 4]),
    (i32::MIN, [4, 4]),
];

/// The reader gives the price and the edition; the plan check and the desk take the price as it is.
fn read_costs(report: &mut Report, edition: Edition) {
    for (cost, refusals) in COSTS {
        let (refusal, file) = (edition.of(refusals), columns(1, &[(&[1], cost)]).under(edition).file());
        let (shape, costs, ..) = compare::read(report, &file, [1, 1, 1]);
        let what = || format!("{edition}, price {cost}");
        report.same(&(shape.refusal, shape.edition), &(refusal, if refusal == 0 { edition as u32 } else { 0 }), what);
        let checked = compare::check(report, &file, &[1]);
        if refusal == 0 {
            report.same(&(costs.list(), checked.is_plan, checked.price), &(&[cost][..], 1, cost as i64), what);
        }
        compare::all_calls(report, &file, LIMIT);
    }
}

/// 256 duties of 64 sailings have 16,384 entries, so the largest files have 64 of 64 or 256 of 16; a price that is out of range is seen first.
fn too_many_entries(report: &mut Report, edition: Edition) {
    for (cost, refusals) in [(1_000_000, [6, 6]), (LEAST, [4, 6])] {
        let bodies = vec![(1..=64).collect::<Vec<u8>>(); 256];
        let file = Columns::new(64, vec![cost; 256], bodies).under(edition).file();
        let (shape, ..) = compare::read(report, &file, [256, 256, 4096]);
        report.same(&shape.refusal, &edition.of(refusals), || format!("{edition}, 256 duties of 64 sailings at {cost}"));
        compare::all_calls(report, &file, LIMIT);
    }
}

pub fn run(report: &mut Report) {
    report.of_edition(Two, |report| {
        report.group("stated values: small files, the largest floor, lists");
        let all = [small_files(), stopped_searches(), with_lists()];
        all.iter().flatten().for_each(|case| stated_search(report, case));
    });
    for edition in [One, Two] {
        report.of_edition(edition, |report| {
            report.group("stated values: prices at the limits of the edition");
            read_costs(report, edition);
            report.group("stated values: 256 duties of 64 sailings");
            too_many_entries(report, edition);
        });
    }
}
