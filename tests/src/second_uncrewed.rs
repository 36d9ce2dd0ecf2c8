//! A second solver for the sailings that can't be crewed (02, P6). It knows no trials and no extra columns: it takes columns that share no
//! row, each time one for the lowest row that is not covered yet, goes back where there is none, and keeps how many rows from 1 on were
//! covered at most. It reads no file: it takes the columns as they were made. Small files can also be gone through by all sets of columns.

use std::collections::HashSet;

use crate::files::Columns;

/// The rows of a column as a set: bit i stands for row i + 1.
fn row_set(body: &[u8]) -> u64 {
    body.iter().fold(0, |set, &row| set | 1 << (row - 1))
}

/// How many rows from 1 on a set holds, up to its first gap.
fn covered_from_1(set: u64) -> usize {
    set.trailing_ones() as usize
}

/// A walk over the sets of rows that can be covered in this way.
struct Walk {
    /// The columns that cover each row, as sets.
    by_row: Vec<Vec<u64>>,
    /// The sets that were met.
    met: HashSet<u64>,
    most: usize,
    furthest: usize,
}

impl Walk {
    /// Goes on from a set of covered rows; false where more sets were met than may be.
    fn go_on(&mut self, covered: u64) -> bool {
        let reached = covered_from_1(covered);
        self.furthest = self.furthest.max(reached);
        if self.furthest == self.by_row.len() {
            return true;
        }
        for place in 0..self.by_row[reached].len() {
            let set = self.by_row[reached][place];
            if covered & set != 0 || !self.met.insert(covered | set) {
                continue;
            }
            if self.met.len() > self.most || !self.go_on(covered | set) {
                return false;
            }
            if self.furthest == self.by_row.len() {
                return true;
            }
        }
        true
    }
}

/// The largest k such that columns that share no row cover each of rows 1 to k, 0 where nothing covers row 1; none where more than `most`
/// sets of covered rows are met.
pub fn furthest(columns: &Columns, most: usize) -> Option<usize> {
    let sets: Vec<u64> = columns.bodies.iter().map(|body| row_set(body)).collect();
    let of_row = |row: u16| sets.iter().copied().filter(|set| set >> row & 1 == 1).collect();
    let mut walk = Walk { by_row: (0..columns.rows).map(of_row).collect(), met: HashSet::new(), most, furthest: 0 };
    walk.go_on(0).then_some(walk.furthest)
}

/// The same by all sets of columns, for files of few columns.
pub fn by_all(columns: &Columns) -> usize {
    let mut furthest = 0;
    for chosen in 0u32..1 << columns.bodies.len() {
        let (mut covered, mut apart) = (0, true);
        for (column, body) in columns.bodies.iter().enumerate() {
            if chosen >> column & 1 == 1 {
                apart &= covered & row_set(body) == 0;
                covered |= row_set(body);
            }
        }
        if apart {
            furthest = furthest.max(covered_from_1(covered));
        }
    }
    furthest
}

/// Whether columns, numbered from 1, are in range and rise, no two of them share a row, and they cover each of rows 1 to `last`.
pub fn covers(columns: &Columns, shown: &[u16], last: usize) -> bool {
    let count = columns.bodies.len();
    let in_range = shown.iter().all(|&column| (1..=count).contains(&(column as usize)));
    if !in_range || shown.windows(2).any(|pair| pair[0] >= pair[1]) {
        return false;
    }
    let mut times = [0; 64];
    for &column in shown {
        columns.bodies[column as usize - 1].iter().for_each(|&row| times[row as usize - 1] += 1);
    }
    times.iter().all(|&times| times <= 1) && times[..last].iter().all(|&times| times == 1)
}
