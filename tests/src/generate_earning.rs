//! SPP2 files with duties that earn (02, P10): columns as they were made for SPP1, at costs of one kind. The same seed makes the same.

use crate::edition::Edition;
use crate::files::{self, Columns};
use crate::random::Random;

const MOST: i32 = 1_000_000;

/// A way to draw the cost of a column from its number of rows.
pub struct Kind {
    pub name: &'static str,
    cost: fn(&mut Random, i32) -> i32,
}

pub static KINDS: [Kind; 10] = [
    Kind { name: "all earn", cost: |random, _| -within(random, 1, MOST) },
    Kind { name: "mixed", cost: |random, _| within(random, -MOST, MOST) },
    Kind { name: "near 0", cost: |random, _| within(random, -2, 2) },
    Kind { name: "all 0", cost: |_, _| 0 },
    Kind { name: "boundaries", cost: |random, _| [-MOST, -1, 0, 1, MOST][random.within(0, 4)] },
    Kind { name: "all -1,000,000", cost: |_, _| -MOST },
    Kind { name: "all 1,000,000", cost: |_, _| MOST },
    Kind { name: "some carry mail", cost: mail },
    Kind { name: "by the sailing", cost: |random, rows| -100 * rows - within(random, 0, 9) },
    Kind { name: "as in SPP1", cost: |random, _| within(random, 1, MOST) },
];

/// The kind of a name.
pub fn kind(name: &str) -> &'static Kind {
    KINDS.iter().find(|kind| kind.name == name).expect("the kind is listed")
}

fn within(random: &mut Random, least: i32, most: i32) -> i32 {
    least + random.within(0, (most - least) as usize) as i32
}

/// A crew's cost; a third of the columns bring in more.
fn mail(random: &mut Random, rows: i32) -> i32 {
    let crew = 100 + 40 * rows + within(random, 0, 60);
    crew - if random.chance(33) { within(random, 1, 1200) } else { 0 }
}

/// The columns for SPP2, at costs of a kind.
pub fn of_kind(random: &mut Random, kind: &Kind, columns: &Columns) -> Columns {
    let costs = columns.bodies.iter().map(|body| (kind.cost)(random, body.len() as i32)).collect();
    Columns { edition: Edition::Two, costs, ..columns.clone() }
}

/// Columns for a file of an edition: as they were made for SPP1, or at costs of any kind for SPP2.
pub fn in_edition(random: &mut Random, edition: Edition, columns: Columns) -> Columns {
    match edition {
        Edition::One => columns,
        Edition::Two => {
            let kind = &KINDS[random.within(0, KINDS.len() - 1)];
            of_kind(random, kind, &columns)
        }
    }
}

/// 64 columns of all 64 rows.
fn all_rows() -> Columns {
    Columns::new(64, vec![1; 64], vec![(1..=64).collect(); 64])
}

/// 64 rows in parts of 1, 2, 4 to 64 rows that follow each other, each part twice.
fn mixed_sizes() -> Columns {
    let parts = |size: u8| (0..64 / size).map(move |part| (part * size + 1..=(part + 1) * size).collect::<Vec<u8>>());
    let bodies: Vec<Vec<u8>> = (0..14).flat_map(|power| parts(1 << (power % 7))).collect();
    Columns::new(64, vec![1; bodies.len()], bodies)
}

/// Each of rows 1 to 33 has two columns, and all of these cover rows 34 to 64: no plan. At costs of 1,000,000 no raised floor of a file
/// without a plan is larger: 33 times 33,000,000.
pub fn largest_floor() -> Columns {
    let body = |row: u8| [row].into_iter().chain(34..=64).collect::<Vec<u8>>();
    let bodies: Vec<Vec<u8>> = (1..=33).flat_map(|row| [body(row), body(row)]).collect();
    Columns { edition: Edition::Two, ..Columns::new(64, vec![MOST; bodies.len()], bodies) }
}

/// The files with the most entries and the largest raised costs, and one without a plan whose raised floor is the largest; each at costs of
/// 1,000,000, of -1,000,000, at the boundaries and mixed.
pub fn extremes(random: &mut Random) -> Vec<Columns> {
    let mut made = Vec::new();
    for columns in [all_rows(), files::largest(), files::deepest(), mixed_sizes(), largest_floor()] {
        for name in ["all 1,000,000", "all -1,000,000", "boundaries", "mixed"] {
            made.push(of_kind(random, kind(name), &columns));
        }
    }
    made
}
