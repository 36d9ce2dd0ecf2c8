//! Generated files for the sailings that can't be crewed (02, P6), within its limits. Each kind makes a file of a number of rows whose rows
//! 1 to k - 1 can be covered and whose rows 1 to k cannot, for a given k; the same seed makes the same file.

use crate::files::Columns;
use crate::generate::{body, ferry_of, finish, planted, shuffle};
use crate::random::Random;

/// The most columns of a file.
pub const MOST_COLUMNS: usize = 192;

/// The most entries of a file together with the extra columns.
pub const MOST_ENTRIES: usize = 4096;

/// A way to make files of a number of rows for a k. There are at least two rows.
pub struct Kind {
    pub name: &'static str,
    pub make: fn(&mut Random, usize, usize) -> Columns,
}

pub const KINDS: [Kind; 3] = [
    Kind { name: "no duty on sailing k", make: hole },
    Kind { name: "each duty on k shares a sailing with each on another", make: shared },
    Kind { name: "duties of two sailings on an odd number", make: odd },
];

/// Bodies of some rows anywhere.
fn some_bodies(random: &mut Random, rows: usize) -> Vec<Vec<u8>> {
    let (count, percent) = (random.within(0, rows.min(40)), random.within(3, 30));
    (0..count).map(|_| body(random, rows, percent)).collect()
}

/// Bodies that cover all rows, each row once.
fn plan(random: &mut Random, rows: usize) -> Vec<Vec<u8>> {
    let parts = random.within(1, rows);
    planted(random, rows, parts)
}

fn made(random: &mut Random, rows: usize, mut bodies: Vec<Vec<u8>>) -> Columns {
    bodies.retain(|body| !body.is_empty());
    shuffle(random, &mut bodies);
    finish(random, rows, bodies)
}

/// A file with a plan.
pub fn planned(random: &mut Random, rows: usize) -> Columns {
    let bodies = [plan(random, rows), some_bodies(random, rows)].concat();
    made(random, rows, bodies)
}

/// No column covers row k, and some cover each other row once.
pub fn hole(random: &mut Random, rows: usize, k: usize) -> Columns {
    let mut bodies = [plan(random, rows), some_bodies(random, rows)].concat();
    bodies.iter_mut().for_each(|body| body.retain(|&row| row as usize != k));
    made(random, rows, bodies)
}

/// A column on row k and one on a lower row always share a third row, and none covers both. Without a third or a lower row, no column
/// covers row k.
pub fn shared(random: &mut Random, rows: usize, k: usize) -> Columns {
    if rows < 3 || k == 1 {
        return hole(random, rows, k);
    }
    let lower = random.within(1, k - 1);
    let third = loop {
        let row = random.within(1, rows);
        if row != lower && row != k {
            break row;
        }
    };
    let (lower, third, k) = (lower as u8, third as u8, k as u8);
    // The plan's column on the third row gives it to that on the lower row.
    let mut bodies = plan(random, rows);
    bodies.iter_mut().for_each(|body| body.retain(|&row| row != third && row != k));
    let mut others = some_bodies(random, rows);
    others.push(vec![k]);
    for body in &mut others {
        if body.contains(&lower) {
            body.retain(|&row| row != k);
        }
    }
    bodies.extend(others);
    for body in &mut bodies {
        if (body.contains(&lower) || body.contains(&k)) && !body.contains(&third) {
            body.push(third);
            body.sort_unstable();
        }
    }
    made(random, rows, bodies)
}

/// The rows up to k, less row 1 where k is even, are odd in number, and each column on them covers two of them. Row 1 has a column of its
/// own where it is left out, and the rows above k have any.
pub fn odd(random: &mut Random, rows: usize, k: usize) -> Columns {
    let first = 1 + (k + 1) % 2;
    if k < first + 2 {
        return hole(random, rows, k);
    }
    let mut bodies: Vec<Vec<u8>> = (first..k).map(|row| vec![row as u8, row as u8 + 1]).collect();
    for _ in 0..random.within(0, 6) {
        let row = random.within(first, k - 2);
        bodies.push(vec![row as u8, random.within(row + 2, k) as u8]);
    }
    bodies.extend((first > 1).then(|| vec![1]));
    if k < rows {
        let above = some_bodies(random, rows - k);
        bodies.extend(above.into_iter().map(|body| body.into_iter().map(|row| row + k as u8).collect()));
    }
    made(random, rows, bodies)
}

/// A ferry file of 64 rows and 192 columns, of which some cover rows 1 to 63 once each and two end with row 64. Some have no plan.
pub fn ferry_to_last(random: &mut Random) -> Columns {
    let (longest, left_out) = (random.within(5, 12), random.within(10, 35));
    let mut bodies = ferry_of(random, 63, MOST_COLUMNS - 2, longest, left_out).bodies;
    for _ in 0..2 {
        let start = random.within(65 - longest, 63);
        bodies.push((start..=64).filter(|&row| row == 64 || !random.chance(left_out)).map(|row| row as u8).collect());
    }
    made(random, 64, bodies)
}

/// The columns less some of them, at most 192, and with the extra columns at most 4,096 entries.
pub fn thinned(random: &mut Random, columns: Columns) -> Columns {
    let percent = [60, 85, 95, 100][random.within(0, 3)];
    let Columns { rows, costs, bodies, .. } = columns;
    let mut room = MOST_ENTRIES - (rows as usize - 1);
    let mut kept = Columns::new(rows, Vec::new(), Vec::new());
    for (cost, body) in costs.into_iter().zip(bodies) {
        let is_kept = kept.costs.is_empty() || random.chance(percent);
        if is_kept && body.len() <= room && kept.costs.len() < MOST_COLUMNS {
            room -= body.len();
            kept.costs.push(cost);
            kept.bodies.push(body);
        }
    }
    kept
}

/// The columns, and one row more that none of them covers.
pub fn with_row(columns: Columns) -> Columns {
    Columns { rows: columns.rows + 1, ..columns }
}
