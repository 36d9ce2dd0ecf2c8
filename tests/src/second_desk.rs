//! A second implementation of the running plan (02, P7). It keeps the numbers and changes them at each step by the rows and the cost of its
//! column, as wide numbers that are brought back into 32 bits. It reads no file: it takes the columns as they were made, and the refusal of
//! the fault that was put into their file, 0 for none.

use crate::answers::{Reply, Step};
use crate::desk::{Desk, Way, MOST_COLUMNS, MOST_ROWS};
use crate::files::Columns;

const WORD: i128 = 1 << 32;

/// A desk as wide numbers.
pub struct Running {
    marks: Vec<u8>,
    covered: Vec<i128>,
    off: i128,
    total: i128,
}

/// A number brought into 0 to 2^32 - 1.
fn wrapped(number: i128) -> i128 {
    number.rem_euclid(WORD)
}

/// A number brought into -2^31 to 2^31 - 1.
fn wrapped_signed(number: i128) -> i128 {
    (number + WORD / 2).rem_euclid(WORD) - WORD / 2
}

impl Running {
    pub fn new(desk: &Desk) -> Running {
        Running {
            marks: desk.marks.to_vec(),
            covered: desk.covered.iter().map(|&times| times.into()).collect(),
            off: desk.off.into(),
            total: desk.total.into(),
        }
    }

    /// Makes the desk empty, unless the file has a fault; gives the refusal.
    pub fn empty(&mut self, columns: &Columns, fault: u32) -> u32 {
        if fault == 0 {
            self.marks = vec![0; MOST_COLUMNS];
            self.covered = vec![0; MOST_ROWS];
            self.off = columns.rows.into();
            self.total = 0;
        }
        fault
    }

    pub fn step(&mut self, way: Way, columns: &Columns, fault: u32, column: u32) -> Step {
        if fault > 0 {
            return Step { refusal: fault, changed: 0 };
        }
        let place = (column as usize).wrapping_sub(1);
        let (Some(body), Some(&cost)) = (columns.bodies.get(place), columns.costs.get(place)) else {
            return Step { refusal: 19, changed: 0 };
        };
        let more = match (way, self.marks[place]) {
            (Way::Add, 0) => 1,
            (Way::Remove, 1..) => -1,
            _ => return Step::default(),
        };
        body.iter().for_each(|&row| self.move_row(row as usize - 1, more));
        self.total = wrapped_signed(self.total + more * cost as i128);
        self.marks[place] = (more > 0).into();
        Step { refusal: 0, changed: 1 }
    }

    /// Moves the count of a row, counted from 0, by one. A row that leaves 1 is off from then on, and one that reaches 1 no longer.
    fn move_row(&mut self, row: usize, more: i128) {
        let former = self.covered[row];
        self.covered[row] = wrapped(former + more);
        self.off = wrapped(self.off + (former == 1) as i128 - (self.covered[row] == 1) as i128);
    }

    pub fn reply(&self) -> Reply {
        if self.off > 0 {
            return Reply { refusal: 0, is_plan: 0, price: 0 };
        }
        Reply { refusal: 0, is_plan: 1, price: self.total.try_into().expect("the total is within 32 bits") }
    }

    /// The numbers in 32 bits.
    pub fn desk(&self) -> Desk {
        let word = |number: i128| u32::try_from(number).expect("a number is within 32 bits");
        Desk {
            marks: std::array::from_fn(|place| self.marks[place]),
            covered: std::array::from_fn(|row| word(self.covered[row])),
            off: word(self.off),
            total: self.total.try_into().expect("the total is within 32 bits"),
        }
    }
}
