//! The two editions of the duty file (02, P10) against each other: the calls that take SPP1 alone, the same columns under both marks, both
//! writers on the same lists, and trees that are equal but for what is added to each sailing.

use spp_tests::answers::{Answer, Reduced, Uncrewed, NONE, STOPPED};
use spp_tests::edition::Edition::{self, One, Two};
use spp_tests::files::{self, columns, Columns};
use spp_tests::generate_earning::in_edition;
use spp_tests::goal::Goal;
use spp_tests::random::Random;
use spp_tests::requests::Requests;
use spp_tests::{engine, generate, generate_pairs};

use super::damaged::COSTS;
use super::generated;
use super::rooms::lists_of;
use crate::compare::{self, Lists};
use crate::report::{hex, Report};

/// Lists that are refused in a file of some columns, one of each kind.
const FAULTY: Requests = Requests { agreed: &[2, 1], absent: &[0], pairs: &[1] };

/// The calls that take SPP1 alone give 1 for a file that does not begin so, before every other fault, and leave the lists.
pub fn first_alone(report: &mut Report, file: &[u8], limit: u32) {
    report.group("reducing, longest duty and sailings that can't be crewed take SPP1 alone: 1 before all other faults");
    let unasked = Requests::NONE;
    for (room, limit, requests) in [(256, limit, unasked), (0, limit, unasked), (0, 0, FAULTY), (64, limit, FAULTY)] {
        let what = || format!("allowance {limit}, room {room}, {}", hex(file));
        let reduced = compare::reduce(report, file, [room, room]).0;
        report.same(&reduced, &Reduced { refusal: 1, ..Reduced::default() }, what);
        let longest = compare::search_with(report, Goal::Longest, file, limit, requests, room).0;
        report.same(&longest, &Answer { refusal: 1, ..Answer::default() }, what);
        let uncrewed = compare::uncrewed(report, file, limit, room).0;
        report.same(&uncrewed, &Uncrewed { refusal: 1, ..Uncrewed::default() }, what);
    }
}

/// SPP2 files with a fault of each number, cut at each length, and with each byte but the mark's set to some values.
fn damaged(report: &mut Report) {
    for columns in [columns(3, &[(&[1, 2], -1), (&[2, 3], 0), (&[1, 3], 1)]), files::example_4()].map(|made| made.under(Two)) {
        let file = columns.file();
        (1..=9).for_each(|fault| first_alone(report, &columns.damaged(fault), 5));
        (0..file.len()).for_each(|length| first_alone(report, &file[..length], 5));
        for place in 4..file.len() {
            for value in [0, 255, file[place].wrapping_add(1)] {
                let mut damaged = file.clone();
                damaged[place] = value;
                first_alone(report, &damaged, 5);
            }
        }
    }
}

/// Files that begin with neither mark: 1 by every call.
fn other_marks(report: &mut Report) {
    report.group("files that begin with neither SPP1 nor SPP2: 1 by every call");
    for mark in [b"SPP0", b"SPP3", b"SPP\0", b"SPP\xb2", b"SPPS", b"spp2", b"Spp1", b"SPQ2", b"TPP1", b"S2P2", b"1PPS"] {
        let mut file = files::example_4().under(Two).file();
        file[..4].copy_from_slice(mark);
        let read = compare::read(report, &file, [256, 256, 4096]).0;
        let checked = compare::check(report, &file, &[0]);
        report.same(&(read.refusal, checked.refusal), &(1, 1), || hex(&file));
        let answer = compare::search_with(report, Goal::Sum, &file, 0, FAULTY, 0).0;
        report.same(&answer, &Answer { refusal: 1, ..Answer::default() }, || hex(&file));
        compare::all_calls(report, &file, 10);
    }
}

/// What the searches of two files come to, less the node counts and the root floors: refusal, outcome and price.
fn outcome(answer: &Answer) -> (u32, u32, i64) {
    (answer.refusal, answer.outcome, answer.price)
}

/// Columns at costs that both editions take, under both marks: reader, plan check and search agree but for the edition, the floor and the
/// nodes.
fn both_marks(report: &mut Report, columns: &Columns, limit: u32) {
    let both = Edition::BOTH.map(|edition| columns.under(edition));
    let files = both.each_ref().map(Columns::file);
    let (n, t, m) = (columns.costs.len(), columns.entries(), columns.rows as usize);
    report.group("the same file under both marks: lists read, plan checks, best and none");
    let [one, two] = files.each_ref().map(|file| compare::read(report, file, [n, n, t]));
    report.same(&(one.0.edition, two.0.edition), &(1, 2), || hex(&files[0]));
    report.same(&(one.1.list(), one.2.list(), one.3.list()), &(two.1.list(), two.2.list(), two.3.list()), || hex(&files[0]));
    let [first, second] = files.each_ref().map(|file| compare::search(report, Goal::Sum, file, limit, m));
    if first.0.outcome != STOPPED && second.0.outcome != STOPPED {
        report.same(&outcome(&first.0), &outcome(&second.0), || hex(&files[0]));
    }
    for plan in [&first.1, &second.1] {
        let [one, two] = files.each_ref().map(|file| compare::check(report, file, plan));
        report.same(&one, &two, || format!("{plan:?}, {}", hex(&files[0])));
    }
}

/// The same lists by both writers, read back: the bytes that the writer of the edition read gives are the file's, and a cost outside SPP1 is
/// refused by its writer alone.
fn both_writers(report: &mut Report, columns: &Columns) {
    let files = Edition::BOTH.map(|edition| columns.under(edition).file());
    for (edition, file) in Edition::BOTH.into_iter().zip(&files) {
        let lists = Lists { edition, ..lists_of(columns) };
        let fits = edition == Two || columns.costs.iter().all(|&cost| cost >= 1);
        report.group("both writers on the same lists: the file of the writer's edition, or 4");
        let (written, out) = compare::write(report, &lists, file.len());
        let wanted = if fits { (0, file.len() as u32) } else { (4, 0) };
        report.same(&(written.refusal, written.length), &wanted, || hex(file));
        report.same(&(out.list() == &file[..]), &fits, || hex(file));
        if fits {
            generated::file_and_lists(report, &columns.under(edition), file);
        }
    }
}

/// Each cost at the limits of the editions, in each column of a file that has no other fault: by the edition's writer and all calls.
fn cost_limits(report: &mut Report) {
    report.group("prices at the limits of both editions, in each duty, by the writer and all calls");
    for edition in Edition::BOTH {
        let columns = files::example_4().under(edition);
        for place in 0..columns.costs.len() {
            for cost in COSTS {
                let mut other = columns.clone();
                other.costs[place] = cost;
                let fits = if edition == One { 1 } else { -1_000_000 } <= cost && cost <= 1_000_000;
                let wanted = if fits { 0 } else { 4 };
                let file = other.file();
                let written = compare::write(report, &lists_of(&other), file.len()).0;
                let read = compare::read(report, &file, [10, 10, 40]).0;
                report.same(&(written.refusal, read.refusal), &(wanted, wanted), || hex(&file));
                compare::all_calls(report, &file, 10);
            }
        }
    }
}

/// Columns of one row at 1 to 1,000,000, and of two rows at 1,000,000. With 1,000,000 less for each row they are columns of SPP2 whose raised
/// costs are these, so that the trees are equal.
fn liftable(random: &mut Random) -> Columns {
    let rows = random.within(2, 9);
    let mut bodies: Vec<Vec<u8>> = (1..=rows as u8).map(|row| vec![row]).collect();
    for _ in 0..random.within(2, 30) {
        let mut body = vec![random.within(1, rows) as u8, random.within(1, rows) as u8];
        body.sort_unstable();
        body.dedup();
        bodies.push(body);
    }
    let most = [3, 1_000_000][random.within(0, 1)];
    let cost = |body: &Vec<u8>, random: &mut Random| match body.len() {
        1 => 1_000_000 - random.within(0, most - 1) as i32 * random.within(0, 1) as i32,
        _ => 1_000_000,
    };
    let costs = bodies.iter().map(|body| cost(body, random)).collect();
    Columns::new(rows as u16, costs, bodies)
}

fn lowered(columns: &Columns) -> Columns {
    let costs = columns.costs.iter().zip(&columns.bodies).map(|(cost, body)| cost - 1_000_000 * body.len() as i32);
    Columns { edition: Two, costs: costs.collect(), ..columns.clone() }
}

/// The engine's answers for SPP1 columns and for the same at 1,000,000 less for each row: equal nodes, plans and outcomes, and a price and a
/// floor that differ by 1,000,000 for each sailing.
fn equal_trees(report: &mut Report, random: &mut Random) {
    let first = liftable(random);
    let (files, n, m) = ([first.file(), lowered(&first).file()], first.costs.len(), first.rows as usize);
    let some = |random: &mut Random| (1..=n as u16).filter(|_| random.chance(10)).collect::<Vec<u16>>();
    let (agreed, absent, pairs) = (some(random), some(random), generate_pairs::any(random, n, 4));
    report.group("equal trees: duties of SPP1, and of SPP2 at 1,000,000 less for each sailing");
    for requests in [Requests::NONE, Requests { agreed: &agreed[..agreed.len().min(1)], absent: &absent, pairs: &pairs }] {
        for limit in [1, 2, 3, 5, 1_000_000] {
            let [(one, plan), (two, other)] = files.each_ref().map(|file| {
                let mut plan = vec![0; m];
                (engine::search_with(Goal::Sum, file, limit, requests, &mut plan), plan)
            });
            let off = 1_000_000 * m as i64;
            let price = one.price - if one.has_plan == 1 { off } else { 0 };
            let bound = one.bound - if one.outcome == NONE { 0 } else { off };
            let what = || format!("allowance {limit}, {requests:?}, {}", hex(&files[1]));
            report.same(&(two, other), &(Answer { price, bound, ..one }, plan), what);
        }
    }
}

pub fn run(report: &mut Report) {
    report.of_edition(Two, damaged);
    let mut random = Random::new(2010);
    for make in [generate::tiny, generate::small, generate::medium, generate::ferry] {
        for _ in 0..60 {
            let columns = make(&mut random);
            both_marks(report, &columns, 2000);
            both_writers(report, &columns);
            both_writers(report, &in_edition(&mut random, Two, columns));
        }
    }
    other_marks(report);
    cost_limits(report);
    (0..400).for_each(|_| equal_trees(report, &mut random));
}
