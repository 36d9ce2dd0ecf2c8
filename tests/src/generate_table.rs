//! Generated tables of crews against vessels, within the limits of 02, P5. Each kind makes a table of the size given; the same seed makes
//! the same tables.

use crate::random::Random;
use crate::table::Table;

/// A way to make tables of a size.
pub struct Kind {
    pub name: &'static str,
    pub make: fn(&mut Random, usize, usize) -> Table,
}

pub const KINDS: [Kind; 9] = [
    Kind { name: "all prices equal", make: all_equal },
    Kind { name: "one cheap vessel wanted by all", make: one_cheap },
    Kind { name: "prices that differ in the last digit", make: last_digit },
    Kind { name: "prices 1 to 3", make: three_costs },
    Kind { name: "one open pairing a crew", make: one_open },
    Kind { name: "dense", make: dense },
    Kind { name: "sparse, with an assignment", make: sparse },
    Kind { name: "sparse, any", make: any_sparse },
    Kind { name: "no assignment", make: infeasible },
];

fn any_cost(random: &mut Random) -> u32 {
    random.within(1, 1_000_000) as u32
}

/// A vessel of its own for each crew.
fn planted(random: &mut Random, crews: usize, vessels: usize) -> Vec<usize> {
    let mut all: Vec<usize> = (0..vessels).collect();
    for last in (1..vessels).rev() {
        all.swap(last, random.within(0, last));
    }
    all.truncate(crews);
    all
}

/// Every assignment has the same total.
pub fn all_equal(random: &mut Random, crews: usize, vessels: usize) -> Table {
    let cost = [1, 1_000_000, any_cost(random)][random.within(0, 2)];
    Table::new(crews, vessels, |_, _| cost)
}

/// One vessel costs little for every crew, the others much.
pub fn one_cheap(random: &mut Random, crews: usize, vessels: usize) -> Table {
    let cheap = random.within(0, vessels - 1);
    Table::new(crews, vessels, |_, vessel| {
        if vessel == cheap {
            random.within(1, 9) as u32
        } else {
            random.within(999_000, 1_000_000) as u32
        }
    })
}

pub fn last_digit(random: &mut Random, crews: usize, vessels: usize) -> Table {
    let base = 10 * random.within(1, 99_999);
    Table::new(crews, vessels, |_, _| (base + random.within(0, 9)) as u32)
}

/// Many assignments of equal total, most pairings open.
pub fn three_costs(random: &mut Random, crews: usize, vessels: usize) -> Table {
    let closed = random.within(0, 30);
    Table::new(crews, vessels, |_, _| if random.chance(closed) { 0 } else { random.within(1, 3) as u32 })
}

/// There is one assignment and no other.
pub fn one_open(random: &mut Random, crews: usize, vessels: usize) -> Table {
    let planted = planted(random, crews, vessels);
    Table::new(crews, vessels, |crew, vessel| if planted[crew] == vessel { any_cost(random) } else { 0 })
}

/// Every pairing is open.
pub fn dense(random: &mut Random, crews: usize, vessels: usize) -> Table {
    let most = [20, 1000, 1_000_000][random.within(0, 2)];
    Table::new(crews, vessels, |_, _| random.within(1, most) as u32)
}

/// An assignment, and other open pairings.
pub fn sparse(random: &mut Random, crews: usize, vessels: usize) -> Table {
    let planted = planted(random, crews, vessels);
    let (open, most) = (random.within(5, 40), [9, 1_000_000][random.within(0, 1)]);
    Table::new(
        crews,
        vessels,
        |crew, vessel| {
            if planted[crew] == vessel || random.chance(open) {
                random.within(1, most) as u32
            } else {
                0
            }
        },
    )
}

/// Open pairings anywhere; some tables have no assignment.
pub fn any_sparse(random: &mut Random, crews: usize, vessels: usize) -> Table {
    let open = random.within(15, 60);
    Table::new(crews, vessels, |_, _| if random.chance(open) { any_cost(random) } else { 0 })
}

/// Some crews have open pairings with one vessel fewer than they are; all other pairings are open.
pub fn infeasible(random: &mut Random, crews: usize, vessels: usize) -> Table {
    let few = random.within(1, crews);
    let bound = planted(random, few, crews);
    let left = planted(random, few - 1, vessels);
    Table::new(crews, vessels, |crew, vessel| if bound.contains(&crew) && !left.contains(&vessel) { 0 } else { any_cost(random) })
}
