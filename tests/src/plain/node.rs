//! A node of the tree, and forcing.

use super::matrix::Matrix;
use crate::goal::Goal;

/// A column's mark.
pub const OUT: u8 = 0;
pub const FREE: u8 = 1;
pub const TAKEN: u8 = 2;

#[derive(Clone, Copy)]
pub struct Node {
    /// Present costs.
    pub costs: [u32; 256],
    /// Which columns are free and which taken.
    pub marks: [u8; 256],
    /// Which rows are open.
    pub open: [bool; 64],
    /// The lower bound.
    pub bound: u64,
}

/// What forcing comes to.
#[derive(PartialEq)]
pub enum Forced {
    Dead,
    Plan,
    Open,
}

impl Node {
    /// All rows open, all columns free at their costs, bound 0.
    pub fn root(matrix: &Matrix) -> Node {
        let mut node = Node { costs: [0; 256], marks: [OUT; 256], open: [false; 64], bound: 0 };
        node.open[..matrix.rows].fill(true);
        node.marks[..matrix.costs.len()].fill(FREE);
        node.costs[..matrix.costs.len()].copy_from_slice(&matrix.costs);
        node
    }

    /// Takes a column: the bound counts it as the goal does, its rows close, and no column on these is free any more.
    pub fn take(&mut self, matrix: &Matrix, goal: Goal, column: usize) {
        self.bound = goal.bound_with(matrix, self, column);
        for &row in matrix.rows_of(column) {
            self.open[row as usize] = false;
            for &other in matrix.columns_of(row as usize) {
                if self.marks[other as usize] == FREE {
                    self.marks[other as usize] = OUT;
                }
            }
        }
        self.marks[column] = TAKEN;
    }

    /// Takes the single free column of the lowest row that has just one, until no row has just one.
    pub fn force(&mut self, matrix: &Matrix, goal: Goal) -> Forced {
        loop {
            let mut single = None;
            let mut plan = true;
            for row in 0..matrix.rows {
                if !self.open[row] {
                    continue;
                }
                plan = false;
                match self.few_free(matrix, row) {
                    (0, _) => return Forced::Dead,
                    (1, column) if single.is_none() => single = Some(column),
                    _ => {}
                }
            }
            match single {
                Some(column) => self.take(matrix, goal, column),
                None if plan => return Forced::Plan,
                None => return Forced::Open,
            }
        }
    }

    /// The number of free columns of a row, counted up to 2, and the first of them.
    fn few_free(&self, matrix: &Matrix, row: usize) -> (u32, usize) {
        let (mut count, mut first) = (0, 0);
        for &column in matrix.columns_of(row) {
            if self.marks[column as usize] == FREE {
                count += 1;
                if count == 2 {
                    break;
                }
                first = column as usize;
            }
        }
        (count, first)
    }

    /// The taken columns, rising, numbered from 1.
    pub fn taken(&self) -> Vec<u16> {
        (0..256).filter(|&column| self.marks[column] == TAKEN).map(|column| column as u16 + 1).collect()
    }
}
