//! Generated files for the running plan (02, P7), with many plans, and desks of any numbers. The same seed makes the same.

use crate::desk::Desk;
use crate::files::Columns;
use crate::generate::{finish, shuffle};
use crate::random::Random;

/// All rows in a random sequence, dealt to columns as evenly as can be: one plan.
fn dealt(random: &mut Random, rows: usize, parts: usize) -> Vec<Vec<u8>> {
    let mut left: Vec<u8> = (1..=rows as u8).collect();
    let mut bodies = vec![Vec::new(); parts];
    for place in 0..rows {
        bodies[place % parts].push(left.swap_remove(random.within(0, left.len() - 1)));
    }
    bodies.iter_mut().for_each(|body| body.sort_unstable());
    bodies
}

/// Some plans of so many columns each, and no other columns. There are no more parts than rows.
pub fn plans(random: &mut Random, rows: usize, parts: usize, count: usize) -> Columns {
    let mut bodies: Vec<Vec<u8>> = (0..count).flat_map(|_| dealt(random, rows, parts)).collect();
    shuffle(random, &mut bodies);
    finish(random, rows, bodies)
}

/// 64 rows, 256 columns of 16 rows each, 64 plans: as large as a file may be.
pub fn largest(random: &mut Random) -> Columns {
    plans(random, 64, 4, 64)
}

/// 64 rows and 256 columns of one row each.
pub fn single_rows(random: &mut Random) -> Columns {
    plans(random, 64, 64, 4)
}

/// 64 columns of all 64 rows.
pub fn all_rows(random: &mut Random) -> Columns {
    plans(random, 64, 1, 64)
}

/// 1 to 3 rows and 1 to 256 columns.
pub fn few_rows(random: &mut Random) -> Columns {
    let rows = random.within(1, 3);
    let parts = random.within(1, rows);
    let count = random.within(1, 256 / parts);
    plans(random, rows, parts, count)
}

/// One of these numbers, or any.
fn one_of<const COUNT: usize>(random: &mut Random, numbers: [u32; COUNT]) -> u32 {
    match random.within(0, COUNT) {
        place if place < COUNT => numbers[place],
        _ => random.number() as u32,
    }
}

/// A number of times, or of rows.
fn any_count(random: &mut Random) -> u32 {
    one_of(random, [0, 1, 1, 2, 3, 64, 1 << 31, u32::MAX - 1, u32::MAX])
}

/// Totals from which a step may wrap are among them.
fn any_total(random: &mut Random) -> i32 {
    let far = [i32::MIN, i32::MIN + 500_000, -1, 0, 1, i32::MAX - 500_000, i32::MAX];
    one_of(random, far.map(|total| total as u32)) as i32
}

/// A desk of any numbers.
pub fn any_desk(random: &mut Random) -> Desk {
    let mut mark = || one_of(random, [0, 0, 0, 1, 2, 128, 255]) as u8;
    let marks = std::array::from_fn(|_| mark());
    let covered = std::array::from_fn(|_| any_count(random));
    Desk { marks, covered, off: any_count(random), total: any_total(random) }
}
