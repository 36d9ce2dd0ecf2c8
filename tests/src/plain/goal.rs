//! What differs by the goal: the files that are taken, a node's lower bound with one more column taken, and reducing.

use super::file::{parse, parse_first, Duties};
use super::matrix::Matrix;
use super::node::{Node, FREE};
use crate::goal::Goal;

impl Goal {
    /// Reads a file: of either edition for the sum, of SPP1 for the longest duty.
    pub(super) fn parse(self, file: &[u8]) -> Result<Duties, u32> {
        match self {
            Goal::Sum => parse(file),
            Goal::Longest => parse_first(file),
        }
    }

    /// The bound (01: floor) of a node with a free column taken.
    pub(super) fn bound_with(self, matrix: &Matrix, node: &Node, column: usize) -> u64 {
        match self {
            Goal::Sum => node.bound + node.costs[column] as u64,
            Goal::Longest => node.bound.max(matrix.costs[column] as u64),
        }
    }

    /// Reduces a node that is neither dead nor a plan.
    pub(super) fn reduce(self, matrix: &Matrix, node: &mut Node) {
        match self {
            Goal::Sum => node.reduce(matrix, |_| {}),
            Goal::Longest => node.raise(matrix),
        }
    }
}

impl Node {
    /// 02, P1: raises the bound, which counts the taken columns already, to the largest, over the open rows, of the least cost in the file
    /// of a free column. It never falls along a path. Present costs are then those of the file less the bound, or 0 where that is negative.
    fn raise(&mut self, matrix: &Matrix) {
        for row in 0..matrix.rows {
            if self.open[row] {
                self.bound = self.bound.max(self.least_in_file(matrix, row) as u64);
            }
        }
        for (cost, &in_file) in self.costs.iter_mut().zip(&matrix.costs) {
            *cost = in_file.saturating_sub(self.bound as u32);
        }
    }

    /// The least cost in the file of a free column of a row that has one.
    fn least_in_file(&self, matrix: &Matrix, row: usize) -> u32 {
        let mut least = u32::MAX;
        for &column in matrix.columns_of(row) {
            if self.marks[column as usize] == FREE {
                least = least.min(matrix.costs[column as usize]);
            }
        }
        least
    }
}
