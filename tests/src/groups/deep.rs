//! The files with the longest paths, with some node limits, without lists and with 128 pairs; and the deepest searches on a thread with a
//! stack of 2 MiB.

use spp_tests::answers::{Answer, STOPPED};
use spp_tests::edition::Edition;
use spp_tests::files::{self, Columns};
use spp_tests::generate_pairs::{self, MOST_PAIRS};
use spp_tests::goal::Goal;
use spp_tests::requests::Requests;
use spp_tests::{engine, plain};

use crate::compare;
use crate::report::{hex, Report};

const STACK: usize = 2 << 20;

const LIMIT: u32 = 20_000;

fn deep_files() -> [(&'static str, Columns); 4] {
    [
        ("equal prices", files::deepest()),
        ("differing prices", files::deepest_at_differing_costs()),
        ("with plans", files::deep_with_plans()),
        ("SPP2", files::deepest_at_differing_costs().under(Edition::Two)),
    ]
}

/// A file and its pairs.
struct Deep {
    name: String,
    columns: Columns,
    /// The longest path has at least so many nodes.
    path: u32,
    pairs: Vec<u16>,
}

/// Each file without pairs and with one pair as often as may be, and one of them with a chain, which makes the paths shorter.
fn all() -> Vec<Deep> {
    let deep = |what: &str, name, columns, path, pairs| Deep { name: format!("{name}{what}"), columns, path, pairs };
    let with_pairs = |(name, columns): (&'static str, Columns)| {
        let pair = [255, 256].repeat(MOST_PAIRS);
        [deep("", name, columns.clone(), 200, vec![]), deep(", one pair", name, columns, 200, pair)]
    };
    let chain = generate_pairs::chain(&(1..=256).collect::<Vec<u16>>());
    let chained = deep(", a chain", "equal prices", files::deepest(), 100, chain);
    deep_files().into_iter().flat_map(with_pairs).chain([chained]).collect()
}

/// Those that the search for a goal takes.
fn all_of(goal: Goal) -> Vec<Deep> {
    all().into_iter().filter(|deep| Goal::of(deep.columns.edition).contains(&goal)).collect()
}

pub fn run(report: &mut Report) {
    println!("files with the longest paths:");
    for goal in Goal::BOTH {
        report.group_of(goal, "files with the longest paths");
        all_of(goal).iter().for_each(|deep| one_file(report, goal, deep));
    }
}

fn one_file(report: &mut Report, goal: Goal, deep: &Deep) {
    let Deep { name, columns, path, pairs } = deep;
    let (file, requests) = (columns.file(), Requests { pairs, ..Requests::NONE });
    let tree = plain::tree_with(goal, &file, LIMIT, requests).expect("the file is accepted");
    println!("  {name:<27} {goal:<12} {} nodes, longest path {}", tree.answer.nodes, tree.deepest);
    report.holds(tree.deepest >= *path, || format!("a path of {path} nodes, {name}, {}", hex(&file)));
    let answer = compare::search_with(report, goal, &file, LIMIT, requests, 17).0;
    let step = if pairs.is_empty() { 29 } else { 400 };
    for limit in (1..=answer.nodes.min(600)).step_by(step) {
        let found = compare::search_with(report, goal, &file, limit, requests, 17).0;
        report.same(&(found.outcome == STOPPED), &(limit < answer.nodes), || format!("allowance {limit}, {name}"));
    }
}

/// The deepest searches on a small thread. A stack overflow ends the process, so this runs as one of its own.
pub fn on_small_stack() -> bool {
    Goal::BOTH.iter().all(|&goal| all_of(goal).into_iter().all(|deep| fits_small_stack(goal, deep)))
}

fn fits_small_stack(goal: Goal, deep: Deep) -> bool {
    let Deep { columns, pairs, .. } = deep;
    let file = columns.file();
    let asked = Requests { pairs: &pairs, ..Requests::NONE };
    let wanted = plain::tree_with(goal, &file, LIMIT, asked).expect("the file is accepted");
    let search = move || -> (Answer, [u16; 17]) {
        let (mut plan, requests) = ([0; 17], Requests { pairs: &pairs, ..Requests::NONE });
        (engine::search_with(goal, &file, LIMIT, requests, &mut plan), plan)
    };
    let thread = std::thread::Builder::new().stack_size(STACK).spawn(search).expect("a thread starts");
    let (answer, plan) = thread.join().expect("the search ends");
    answer == wanted.answer && plan[..answer.columns as usize] == wanted.plan
}
