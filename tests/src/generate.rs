//! Generated files. Each family makes columns within 01's limits; the same seed makes the same columns.

use crate::files::Columns;
use crate::random::Random;

const MOST_ENTRIES: usize = 4096;

/// Costs of one style for a number of columns.
fn costs(random: &mut Random, bodies: &[Vec<u8>]) -> Vec<i32> {
    let style = random.within(0, 6);
    let same = random.within(1, 1_000_000) as i32;
    let of_body = |body: &Vec<u8>, random: &mut Random| match style {
        0 => 1,
        1 => same,
        2 => random.within(1, 3) as i32,
        3 => random.within(1, 20) as i32,
        4 => random.within(1, 1_000_000) as i32,
        5 => (10 * body.len() + random.within(1, 10)) as i32,
        _ => (100 + 40 * body.len() + random.within(0, 60)) as i32,
    };
    bodies.iter().map(|body| of_body(body, random)).collect()
}

/// A random set of rows in which each row is with the given chance; never empty.
pub(crate) fn body(random: &mut Random, rows: usize, percent: usize) -> Vec<u8> {
    let mut body: Vec<u8> = (1..=rows as u8).filter(|_| random.chance(percent)).collect();
    if body.is_empty() {
        body.push(random.within(1, rows) as u8);
    }
    body
}

/// A part of the rows as one duty of a ferry: sailings that follow each other, some of them left out.
fn ferry_body(random: &mut Random, rows: usize, longest: usize, left_out: usize) -> Vec<u8> {
    let start = random.within(1, rows);
    let end = rows.min(start + random.within(1, longest) - 1);
    (start..=end).filter(|row| *row == start || !random.chance(left_out)).map(|row| row as u8).collect()
}

/// A random plan: each row goes to one of a number of columns.
pub(crate) fn planted(random: &mut Random, rows: usize, parts: usize) -> Vec<Vec<u8>> {
    let mut bodies = vec![Vec::new(); parts];
    for row in 1..=rows {
        bodies[random.within(0, parts - 1)].push(row as u8);
    }
    bodies.retain(|body| !body.is_empty());
    bodies
}

/// A plan of duties that follow each other, as long as `longest` rows.
fn ferry_planted(random: &mut Random, rows: usize, longest: usize) -> Vec<Vec<u8>> {
    let mut bodies = Vec::new();
    let mut row = 1;
    while row <= rows {
        let end = rows.min(row + random.within(1, longest) - 1);
        bodies.push((row..=end).map(|row| row as u8).collect());
        row = end + 1;
    }
    bodies
}

/// Puts the bodies into a random sequence.
pub(crate) fn shuffle(random: &mut Random, bodies: &mut [Vec<u8>]) {
    for last in (1..bodies.len()).rev() {
        bodies.swap(last, random.within(0, last));
    }
}

/// Makes some columns copies of others.
fn copy_some(random: &mut Random, bodies: &mut [Vec<u8>], percent: usize) {
    for column in 1..bodies.len() {
        if random.chance(percent) {
            bodies[column] = bodies[random.within(0, column - 1)].clone();
        }
    }
}

/// Takes one row out of all bodies that have others.
fn uncover(random: &mut Random, bodies: &mut [Vec<u8>], rows: usize) {
    let row = random.within(1, rows) as u8;
    for body in bodies {
        if body.len() > 1 {
            body.retain(|other| *other != row);
        }
    }
}

/// Columns of these bodies, cut to the most columns and entries that a file may have.
pub(crate) fn finish(random: &mut Random, rows: usize, mut bodies: Vec<Vec<u8>>) -> Columns {
    bodies.truncate(256);
    let mut room = MOST_ENTRIES;
    bodies.retain(|body| {
        let fits = body.len() <= room;
        room -= if fits { body.len() } else { 0 };
        fits
    });
    let costs = costs(random, &bodies);
    Columns::new(rows as u16, costs, bodies)
}

/// Up to 6 rows and 10 columns, any bodies.
pub fn tiny(random: &mut Random) -> Columns {
    let rows = random.within(1, 6);
    let percent = random.within(15, 70);
    let count = random.within(1, 10);
    let bodies = (0..count).map(|_| body(random, rows, percent)).collect();
    finish(random, rows, bodies)
}

/// Up to 14 rows and 40 columns, most with a plan, some with copies of columns or an uncovered row.
pub fn small(random: &mut Random) -> Columns {
    let rows = random.within(3, 14);
    let percent = random.within(10, 50);
    let count = random.within(2, 36);
    let parts = random.within(1, 4);
    let mut bodies = planted(random, rows, parts);
    bodies.extend((0..count).map(|_| body(random, rows, percent)));
    shuffle(random, &mut bodies);
    if random.chance(25) {
        copy_some(random, &mut bodies, 40);
    }
    if random.chance(5) {
        uncover(random, &mut bodies, rows);
    }
    finish(random, rows, bodies)
}

/// 12 to 30 rows, up to 100 columns, sparse.
pub fn medium(random: &mut Random) -> Columns {
    let rows = random.within(12, 30);
    let count = random.within(20, 90);
    let percent = random.within(6, 22);
    let parts = random.within(3, 9);
    let mut bodies = planted(random, rows, parts);
    bodies.extend((0..count).map(|_| body(random, rows, percent)));
    shuffle(random, &mut bodies);
    if random.chance(15) {
        copy_some(random, &mut bodies, 25);
    }
    if random.chance(3) {
        uncover(random, &mut bodies, rows);
    }
    finish(random, rows, bodies)
}

/// 20 to 64 rows, up to 256 columns of sailings that follow each other.
pub fn ferry(random: &mut Random) -> Columns {
    let rows = random.within(20, 64);
    let count = random.within(40, 256);
    let longest = random.within(2, 9);
    let left_out = random.within(0, 30);
    ferry_of(random, rows, count, longest, left_out)
}

/// 64 rows and 256 columns of sailings that follow each other, up to 12 in one duty: the largest ferry files.
pub fn large_ferry(random: &mut Random) -> Columns {
    let longest = random.within(5, 12);
    let left_out = random.within(10, 35);
    ferry_of(random, 64, 256, longest, left_out)
}

/// A ferry file of given size. One plan is in it.
pub fn ferry_of(random: &mut Random, rows: usize, count: usize, longest: usize, left_out: usize) -> Columns {
    let mut bodies = ferry_planted(random, rows, longest);
    bodies.truncate(count);
    while bodies.len() < count {
        bodies.push(ferry_body(random, rows, longest, left_out));
    }
    shuffle(random, &mut bodies);
    finish(random, rows, bodies)
}

/// Dense: columns of about half of the rows or more, up to 4,096 entries.
pub fn dense(random: &mut Random) -> Columns {
    let rows = random.within(4, 64);
    let percent = random.within(40, 95);
    let count = random.within(4, 256);
    let mut bodies: Vec<Vec<u8>> = (0..count).map(|_| body(random, rows, percent)).collect();
    if random.chance(50) {
        // Beside some columns, the column of all other rows: many plans of two columns.
        for column in (1..count).step_by(2) {
            let former = &bodies[column - 1];
            let other: Vec<u8> = (1..=rows as u8).filter(|row| !former.contains(row)).collect();
            if !other.is_empty() {
                bodies[column] = other;
            }
        }
    }
    finish(random, rows, bodies)
}

/// 40 to 64 rows, up to 256 columns of one to four rows anywhere.
pub fn sparse(random: &mut Random) -> Columns {
    let rows = random.within(40, 64);
    let count = random.within(100, 256);
    let mut bodies = planted(random, rows, rows / 2);
    while bodies.len() < count {
        let size = random.within(1, 4);
        let mut body: Vec<u8> = (0..size).map(|_| random.within(1, rows) as u8).collect();
        body.sort_unstable();
        body.dedup();
        bodies.push(body);
    }
    shuffle(random, &mut bodies);
    finish(random, rows, bodies)
}
