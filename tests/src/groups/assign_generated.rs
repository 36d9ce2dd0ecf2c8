//! Generated tables of crews against vessels (02, P5): each kind in every size, each table with two fillings of the places outside the
//! crews and vessels given, which must give the same answer.

use spp_tests::generate_table::{Kind, KINDS};
use spp_tests::random::Random;
use spp_tests::table::MOST;

use super::assign_case;
use crate::report::Report;

/// Tables of each kind and size, by the number of vessels.
fn count(vessels: usize) -> usize {
    match vessels {
        1..=6 => 24,
        7..=12 => 8,
        _ => 4,
    }
}

/// What the run says of a kind besides the counted cases.
#[derive(Default)]
struct Totals {
    best: usize,
    none: usize,
}

pub fn run(report: &mut Report) {
    println!("tables of crews against vessels, 1 to 16 vessels:");
    for (number, kind) in KINDS.iter().enumerate() {
        let mut random = Random::new(1955 + number as u64);
        let mut totals = Totals::default();
        for vessels in 1..=MOST {
            for crews in 1..=vessels {
                (0..count(vessels)).for_each(|_| one_table(report, kind, &mut random, (crews, vessels), &mut totals));
            }
        }
        let Totals { best, none } = totals;
        println!("  {:<37} {best:>5} with an assignment, {none:>4} without", kind.name);
    }
}

/// A table with rubbish outside, and with one number outside: the same answer. Some answer lists are longer than the crews.
fn one_table(report: &mut Report, kind: &Kind, random: &mut Random, size: (usize, usize), totals: &mut Totals) {
    let table = (kind.make)(random, size.0, size.1);
    let room = size.0 + random.within(0, 3);
    let found = assign_case::accepted(report, &table.with_outside(|| rubbish(random)), room);
    let same = [0, 1, 1_000_001, u32::MAX][random.within(0, 3)];
    let other = assign_case::accepted(report, &table.with_outside(|| same), room);
    report.group("crews onto vessels: two fillings of the places outside, the same answer");
    report.same(&other, &found, || format!("outside {same} or rubbish, {}", table.text()));
    totals.best += found.is_some() as usize;
    totals.none += found.is_none() as usize;
}

/// Legal costs, 0 and costs above the range.
fn rubbish(random: &mut Random) -> u32 {
    let any = random.number() as u32;
    [0, 1, random.within(1, 1_000_000) as u32, 1_000_001, u32::MAX, any][random.within(0, 5)]
}
