//! Lists of pairs of columns (02, P8), each as the first and the second column of each pair in turn.

use crate::files::Columns;
use crate::random::Random;

/// The most pairs of a list.
pub const MOST_PAIRS: usize = 128;

/// Two columns of `count`, which is above 1, that differ.
fn two(random: &mut Random, count: usize) -> [u16; 2] {
    let first = random.within(1, count);
    let second = (first - 1 + random.within(1, count - 1)) % count + 1;
    [first as u16, second as u16]
}

/// Any pairs of `count` columns.
pub fn any(random: &mut Random, count: usize, pairs: usize) -> Vec<u16> {
    (0..pairs).flat_map(|_| two(random, count)).collect()
}

/// Columns that differ, `number` of them or all.
pub fn different(random: &mut Random, count: usize, number: usize) -> Vec<u16> {
    let mut columns: Vec<u16> = (1..=count as u16).collect();
    for place in 0..number.min(count) {
        columns.swap(place, random.within(place, count - 1));
    }
    columns.truncate(number);
    columns
}

/// Each column needs the next.
pub fn chain(columns: &[u16]) -> Vec<u16> {
    columns.windows(2).take(MOST_PAIRS).flatten().copied().collect()
}

/// The same with the last pair at the front.
pub fn chain_backwards(columns: &[u16]) -> Vec<u16> {
    columns.windows(2).take(MOST_PAIRS).rev().flatten().copied().collect()
}

/// Each column needs the next, and the last one the first.
pub fn ring(columns: &[u16]) -> Vec<u16> {
    let mut pairs = chain(columns);
    if columns.len() > 1 && columns.len() <= MOST_PAIRS {
        pairs.extend([columns[columns.len() - 1], columns[0]]);
    }
    pairs
}

/// One column needs each of the others.
pub fn needing(first: u16, others: &[u16]) -> Vec<u16> {
    others.iter().take(MOST_PAIRS).flat_map(|&other| [first, other]).collect()
}

/// Each of the others needs one column.
pub fn needed(second: u16, others: &[u16]) -> Vec<u16> {
    others.iter().take(MOST_PAIRS).flat_map(|&other| [other, second]).collect()
}

/// Whether two columns share a row.
pub fn share(columns: &Columns, pair: &[u16]) -> bool {
    let [first, second] = [pair[0], pair[1]].map(|number| &columns.bodies[number as usize - 1]);
    first.iter().any(|row| second.contains(row))
}

/// Pairs of columns that share a row, or of columns that share none, up to a number; fewer where such pairs are rare.
pub fn by_sharing(random: &mut Random, columns: &Columns, pairs: usize, sharing: bool) -> Vec<u16> {
    let mut list = Vec::new();
    for _ in 0..20 * pairs {
        let pair = two(random, columns.costs.len());
        if list.len() < 2 * pairs && share(columns, &pair) == sharing {
            list.extend(pair);
        }
    }
    list
}

/// Any pairs that a plan obeys: where the first is in the plan, so is the second.
pub fn obeyed(random: &mut Random, count: usize, plan: &[u16], pairs: usize) -> Vec<u16> {
    let mut list = Vec::new();
    for _ in 0..4 * pairs {
        let [first, mut second] = two(random, count);
        if plan.contains(&first) {
            second = plan[random.within(0, plan.len() - 1)];
        }
        if list.len() < 2 * pairs && first != second {
            list.extend([first, second]);
        }
    }
    list
}
