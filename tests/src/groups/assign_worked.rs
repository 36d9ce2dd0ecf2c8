//! The paper's examples 5 and 6 and other tables of crews against vessels (02, P5), with stated totals and vessels; and the largest table
//! on a thread with a stack of 2 MiB.

use spp_tests::answers::{Assigned, BEST};
use spp_tests::engine;
use spp_tests::table::{example_5, example_6, table, Table};

use super::assign_case;
use crate::report::Report;

const STACK: usize = 2 << 20;

/// A table with its stated total and vessels, or none.
struct Case {
    name: &'static str,
    table: Table,
    stated: Option<(u64, &'static [u8])>,
}

const RISING: &[u8] = &[1, 2, 3, 4, 5, 6, 7, 8, 9, 10, 11, 12, 13, 14, 15, 16];
const FALLING: &[u8] = &[16, 15, 14, 13, 12, 11, 10, 9, 8, 7, 6, 5, 4, 3, 2, 1];

/// 16 by 16, all at the largest cost.
fn dearest() -> Table {
    Table::new(16, 16, |_, _| 1_000_000)
}

/// 16 by 16 with one open pairing a crew, the last vessel for the first crew.
fn falling() -> Table {
    Table::new(16, 16, |crew, vessel| if crew + vessel == 15 { crew as u32 + 1 } else { 0 })
}

fn square_cases() -> Vec<Case> {
    let case = |name, table, total, vessels| Case { name, table, stated: Some((total, vessels)) };
    vec![
        case("example 5", example_5(), 21, &[1, 5, 3, 2, 4]),
        case("one crew, one vessel", table(&[[7]]), 7, &[1]),
        case("one crew at the largest price", table(&[[1_000_000]]), 1_000_000, &[1]),
        case("a tie", table(&[[1, 2], [2, 3]]), 4, &[1, 2]),
        case("a tie of three crews", table(&[[5, 1, 1], [1, 5, 1], [1, 1, 5]]), 3, &[2, 3, 1]),
        case("a tie with the first vessel dear for crew 1", table(&[[9, 1, 1], [1, 1, 1], [1, 1, 1]]), 3, &[2, 1, 3]),
        case("cheapest first would cost more", table(&[[1, 2], [1, 100]]), 3, &[2, 1]),
        case("a closed pairing is not free of charge", table(&[[0, 9], [9, 0]]), 18, &[2, 1]),
        case("closed pairings force a dear one", table(&[[1, 0], [1, 1_000_000]]), 1_000_001, &[1, 2]),
        case("closed pairings leave one assignment", table(&[[1, 1, 0], [1, 0, 0], [0, 1, 900]]), 902, &[2, 1, 3]),
        case("one open pairing a crew", falling(), 136, FALLING),
        case("all prices 1,000,000", dearest(), 16_000_000, RISING),
    ]
}

fn wide_cases() -> Vec<Case> {
    let case = |name, table, total, vessels| Case { name, table, stated: Some((total, vessels)) };
    let last_of_16 = Table::new(1, 16, |_, vessel| if vessel == 15 { 2 } else { 3 });
    let last_two = Table::new(2, 16, |_, vessel| if vessel < 14 { 2 } else { 1 });
    vec![
        case("example 6", example_6(), 109, &[4, 1, 2, 3]),
        case("one crew, three vessels", table(&[[3, 2, 4]]), 2, &[2]),
        case("one crew, a tie", table(&[[3, 2, 2]]), 2, &[2]),
        case("one crew, one open pairing", table(&[[0, 0, 8]]), 8, &[3]),
        case("one crew, the last of 16 vessels", last_of_16, 2, &[16]),
        case("two crews, the last two of 16 vessels", last_two, 2, &[15, 16]),
        case("two crews, three vessels, a tie", table(&[[2, 2, 2], [2, 2, 2]]), 4, &[1, 2]),
        case("a vessel left to the other crew", table(&[[1, 2, 9], [1, 9, 9]]), 3, &[2, 1]),
        case("each crew on its cheapest vessel", table(&[[4, 1, 2], [1, 1, 4]]), 2, &[2, 1]),
    ]
}

fn none_cases() -> Vec<Case> {
    let case = |name, table| Case { name, table, stated: None };
    let last_two_on_one = Table::new(16, 16, |crew, vessel| (vessel == crew.min(14)) as u32);
    vec![
        case("one closed pairing", table(&[[0]])),
        case("two crews on one vessel", table(&[[5, 0], [6, 0]])),
        case("a crew without an open pairing", table(&[[1, 1, 1], [0, 0, 0]])),
        case("three crews on two vessels", table(&[[1, 2, 0, 0], [3, 0, 0, 0], [0, 4, 0, 0]])),
        case("16 crews on 15 vessels", last_two_on_one),
        case("nothing open", Table::new(16, 16, |_, _| 0)),
    ]
}

/// The tables of crates/assign/proofs/Cases.antt besides the paper's examples, with what the checker computes there.
fn computed_cases() -> Vec<Case> {
    let (equal, shut) = (table(&[[5, 4, 1], [5, 4, 1_000_001]]), table(&[[7, 0], [7, 0]]));
    vec![
        Case { name: "equal", table: Table { vessels: 2, ..equal.clone() }, stated: Some((9, &[1, 2])) },
        Case { name: "equal, one crew", table: Table { crews: 1, ..equal }, stated: Some((1, &[3])) },
        Case { name: "shut", table: shut.clone(), stated: None },
        Case { name: "shut, one crew", table: Table { crews: 1, ..shut }, stated: Some((7, &[1])) },
        Case { name: "dear", table: table(&[[1, 1_000_000], [3, 0]]), stated: Some((1_000_003, &[2, 1])) },
    ]
}

pub fn run(report: &mut Report) {
    let cases = [square_cases(), wide_cases(), none_cases(), computed_cases()];
    for Case { name, table, stated } in cases.into_iter().flatten() {
        let found = assign_case::accepted(report, &table, table.crews);
        report.group("crews onto vessels: stated values, the paper's examples 5 and 6 and others");
        let stated = stated.map(|(total, vessels)| (total, vessels.to_vec()));
        report.same(&found, &stated, || name.to_string());
    }
}

/// A table of 16 by 16 on a small thread. A stack overflow ends the process, so this runs as one of its own.
pub fn on_small_stack() -> bool {
    let call = || -> (Assigned, [u8; 16]) {
        let mut answer = [0; 16];
        (engine::assign(16, 16, &dearest().costs, &mut answer), answer)
    };
    let thread = std::thread::Builder::new().stack_size(STACK).spawn(call).expect("a thread starts");
    let (answer, vessels) = thread.join().expect("the call ends");
    answer == Assigned { refusal: 0, outcome: BEST, total: 16_000_000 } && vessels == RISING
}
