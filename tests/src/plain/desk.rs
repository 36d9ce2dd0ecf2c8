//! The running plan on the desk (02, P7), by counting everything anew after each step: from the desk at the start and the list of all steps
//! that changed something, or, for steps over one file, from the columns that are in.

use super::file::{parse, Duties};
use crate::answers::{Reply, Step};
use crate::desk::{Desk, Way, MOST_COLUMNS, MOST_ROWS};

/// A step that changed something: the column, and its rows and cost in the file of that step.
struct Change {
    way: Way,
    column: usize,
    rows: Vec<u8>,
    cost: i32,
}

impl Change {
    /// What the step adds to each of its counts.
    fn sign(&self) -> i64 {
        match self.way {
            Way::Add => 1,
            Way::Remove => -1,
        }
    }
}

/// A desk that is counted anew. It keeps how it started and what changed since.
pub struct Recount {
    start: Desk,
    changes: Vec<Change>,
}

/// The row numbers of a column, which is numbered from 1.
fn rows_of(duties: &Duties, column: usize) -> &[u8] {
    let start: usize = duties.lengths[..column - 1].iter().map(|&length| length as usize).sum();
    &duties.numbers[start..start + duties.lengths[column - 1] as usize]
}

/// How many rows are covered exactly once, of all places for rows.
fn covered_once(covered: &[u32; MOST_ROWS]) -> i64 {
    covered.iter().filter(|&&times| times == 1).count() as i64
}

impl Recount {
    pub fn new(start: Desk) -> Recount {
        Recount { start, changes: Vec::new() }
    }

    /// The desk starts anew, empty; gives the refusal.
    pub fn empty(&mut self, file: &[u8]) -> u32 {
        match parse(file) {
            Ok(duties) => {
                let (marks, covered) = ([0; MOST_COLUMNS], [0; MOST_ROWS]);
                *self = Recount::new(Desk { marks, covered, off: duties.rows as u32, total: 0 });
                0
            }
            Err(refusal) => refusal,
        }
    }

    pub fn step(&mut self, way: Way, file: &[u8], column: u32) -> Step {
        let duties = match parse(file) {
            Ok(duties) => duties,
            Err(refusal) => return Step { refusal, changed: 0 },
        };
        let column = column as usize;
        if column == 0 || column > duties.columns() {
            return Step { refusal: 19, changed: 0 };
        }
        if self.is_in(column) == (way == Way::Add) {
            return Step { refusal: 0, changed: 0 };
        }
        self.changes.push(Change { way, column, rows: rows_of(&duties, column).to_vec(), cost: duties.costs[column - 1] });
        Step { refusal: 0, changed: 1 }
    }

    /// Whether a column, which is numbered from 1, is in: by its last change, or as at the start.
    fn is_in(&self, column: usize) -> bool {
        let last = self.changes.iter().rfind(|change| change.column == column);
        last.map_or(self.start.marks[column - 1] != 0, |change| change.way == Way::Add)
    }

    /// The marks as at the start, but for the columns that were changed.
    fn marks(&self) -> [u8; MOST_COLUMNS] {
        let mut marks = self.start.marks;
        self.changes.iter().for_each(|change| marks[change.column - 1] = (change.way == Way::Add) as u8);
        marks
    }

    /// How often each row is covered: as at the start, and once more or less for each change on it.
    fn covered(&self) -> [u32; MOST_ROWS] {
        let mut more = [0; MOST_ROWS];
        for change in &self.changes {
            change.rows.iter().for_each(|&row| more[row as usize - 1] += change.sign());
        }
        std::array::from_fn(|row| (self.start.covered[row] as i64 + more[row]) as u32)
    }

    /// All numbers of the desk. A change moves each count by one, so the rows off fall as the rows covered exactly once rise.
    pub fn desk(&self) -> Desk {
        let covered = self.covered();
        let off = self.start.off as i64 + covered_once(&self.start.covered) - covered_once(&covered);
        let costs: i64 = self.changes.iter().map(|change| change.sign() * change.cost as i64).sum();
        Desk { marks: self.marks(), covered, off: off as u32, total: (self.start.total as i64 + costs) as i32 }
    }

    pub fn reply(&self) -> Reply {
        let Desk { off, total, .. } = self.desk();
        match off {
            0 => Reply { refusal: 0, is_plan: 1, price: total },
            _ => Reply::default(),
        }
    }
}

/// The desk over an accepted file that has these columns in, counted from them alone. They are in range, each once.
pub fn counted(file: &[u8], columns: &[u16]) -> Result<Desk, u32> {
    let duties = parse(file)?;
    let mut desk = Desk { marks: [0; MOST_COLUMNS], covered: [0; MOST_ROWS], off: 0, total: 0 };
    for &column in columns {
        desk.marks[column as usize - 1] = 1;
        desk.total += duties.costs[column as usize - 1];
        rows_of(&duties, column as usize).iter().for_each(|&row| desk.covered[row as usize - 1] += 1);
    }
    desk.off = desk.covered[..duties.rows].iter().filter(|&&times| times != 1).count() as u32;
    Ok(desk)
}
