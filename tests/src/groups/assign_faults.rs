//! The refusals of crews onto vessels (02, P5), with stated numbers: counts out of range, a cost out of range at each place, short answer
//! lists, and several faults at once, which show the sequence 16, 17, 10. A cost outside the crews and vessels given is no fault.

use spp_tests::generate_table;
use spp_tests::random::Random;
use spp_tests::table::{Table, MOST};

use super::assign_case;
use crate::compare;
use crate::report::Report;

/// Sizes in and at the range. Most have few vessels, so that a call that is not refused is short.
const SIZES: [(usize, usize); 9] = [(1, 1), (1, 3), (2, 2), (3, 5), (6, 6), (2, 11), (11, 12), (15, 16), (16, 16)];

/// Costs above the range.
const DEAR: [u32; 3] = [1_000_001, 1 << 31, u32::MAX];

pub fn run(report: &mut Report) {
    let mut random = Random::new(17);
    counts(report, &mut random);
    for (crews, vessels) in SIZES {
        let table = generate_table::dense(&mut random, crews, vessels);
        each_place(report, &table);
        rooms(report, &table);
        several(report, &table);
    }
}

/// The call has the stated refusal; for 0 it has none, and its answer is held to (a) and the second solver.
fn refuses(report: &mut Report, table: &Table, room: usize, wanted: u32) {
    if wanted == 0 {
        assign_case::accepted(report, table, room);
        return;
    }
    report.group("crews onto vessels: refusals 16, 17 and 10, each alone and several at once");
    let found = compare::assign(report, table, room).0;
    report.same(&found.refusal, &wanted, || format!("room {room}, {}", table.text()));
}

/// Numbers of crews or vessels in range, beside it, far beyond it, and equal to 5 in their lowest 8, 16 or 32 bits.
const COUNTS: [usize; 16] = [0, 1, 2, 5, 12, 15, 16, 17, 18, 32, 255, 256, 256 + 5, 65_536 + 5, (1 << 32) + 5, usize::MAX];

/// Every two of these numbers, with room for any answer.
fn counts(report: &mut Report, random: &mut Random) {
    let table = generate_table::dense(random, MOST, MOST);
    for crews in COUNTS {
        for vessels in COUNTS {
            let is_table = (1..=16).contains(&crews) && (crews..=16).contains(&vessels);
            let table = Table { crews, vessels, ..table.clone() };
            refuses(report, &table, 300, if is_table { 0 } else { 16 });
        }
    }
}

/// A cost out of range at each place, which counts inside alone; outside it leaves the answer as it is. The largest cost and a closed
/// pairing are no fault.
fn each_place(report: &mut Report, table: &Table) {
    let found = assign_case::accepted(report, table, table.crews);
    for place in 0..MOST * MOST {
        for cost in DEAR {
            let damaged = table.with(place, cost);
            if table.is_inside(place) {
                refuses(report, &damaged, table.crews, 17);
            } else {
                let other = assign_case::accepted(report, &damaged, table.crews);
                report.group("crews onto vessels: a cost out of range outside, the same answer");
                report.same(&other, &found, || format!("{cost} at place {place}, {}", table.text()));
            }
        }
        if table.is_inside(place) && table.vessels <= 12 {
            refuses(report, &table.with(place, 1_000_000), table.crews, 0);
            refuses(report, &table.with(place, 0), table.crews, 0);
        }
    }
}

/// Answer lists of each length up to two above the crews, and long ones.
fn rooms(report: &mut Report, table: &Table) {
    for room in (0..=table.crews + 2).chain([100, 255, 256, 257, 70_000]) {
        refuses(report, table, room, if room < table.crews { 10 } else { 0 });
    }
}

/// A fault of the size, a cost out of range inside and a short answer list, every choice of them: the first in the sequence shows.
fn several(report: &mut Report, table: &Table) {
    let Table { crews, vessels, .. } = *table;
    let sizes =
        [(crews, vessels), (0, vessels), (0, 0), (crews, crews - 1), (17, vessels), (crews, 17), (17, 17), (usize::MAX, 16)];
    let last = MOST * (crews - 1) + vessels - 1;
    for (crews, vessels) in sizes {
        for (place, cost) in [(0, 1), (0, DEAR[0]), (last, DEAR[2])] {
            for room in [0, table.crews - 1, table.crews, table.crews + 1] {
                let damaged = Table { crews, vessels, ..table.with(place, cost) };
                let faults = [((crews, vessels) != sizes[0], 16), (cost > 1_000_000, 17), (room < table.crews, 10)];
                let wanted = faults.iter().find(|fault| fault.0).map_or(0, |fault| fault.1);
                refuses(report, &damaged, room, wanted);
            }
        }
    }
    outside_and_short(report, table);
}

/// A cost out of range outside does not come before a short answer list.
fn outside_and_short(report: &mut Report, table: &Table) {
    for cost in DEAR {
        refuses(report, &table.with_outside(|| cost), table.crews - 1, 10);
    }
}
