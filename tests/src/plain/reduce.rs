//! Reducing: the candidates, the five criteria, and the public call.

use super::file::parse_first;
use super::matrix::Matrix;
use super::node::{Node, FREE};
use crate::answers::Reduced;

/// 01's criteria in turn, the smallest first: free columns, those at the least cost, the least cost (02, P4), the smallest number of rows
/// of a column at the least cost, the row.
type Candidate = (u32, u32, u32, u32, usize);

impl Node {
    /// The row as a candidate, if it is one. The row is open.
    fn candidate(&self, matrix: &Matrix, row: usize) -> Option<Candidate> {
        let (mut free, mut at_least, mut least, mut size) = (0, 0, u32::MAX, 0);
        for &column in matrix.columns_of(row) {
            let column = column as usize;
            if self.marks[column] != FREE {
                continue;
            }
            free += 1;
            let cost = self.costs[column];
            if cost < least {
                (least, at_least, size) = (cost, 1, matrix.size_of(column));
            } else if cost == least {
                at_least += 1;
                size = size.min(matrix.size_of(column));
            }
        }
        (free > 0 && least > 0).then_some((free, at_least, least, size, row))
    }

    /// The candidate that comes first by the criteria.
    fn first_candidate(&self, matrix: &Matrix) -> Option<Candidate> {
        let mut first: Option<Candidate> = None;
        for row in 0..matrix.rows {
            if !self.open[row] {
                continue;
            }
            if let Some(candidate) = self.candidate(matrix, row) {
                if first.is_none_or(|former| candidate < former) {
                    first = Some(candidate);
                }
            }
        }
        first
    }

    /// Reduces until there is no candidate; `used` is called with each row used.
    pub fn reduce(&mut self, matrix: &Matrix, mut used: impl FnMut(usize)) {
        while let Some((_, _, least, _, row)) = self.first_candidate(matrix) {
            self.bound += least as u64;
            for &column in matrix.columns_of(row) {
                if self.marks[column as usize] == FREE {
                    self.costs[column as usize] -= least;
                }
            }
            used(row);
        }
    }
}

/// The reducing call.
pub fn reduce(file: &[u8], reduced: &mut [i32], order: &mut [u8]) -> Reduced {
    let duties = match parse_first(file) {
        Ok(duties) => duties,
        Err(refusal) => return Reduced { refusal, ..Reduced::default() },
    };
    let columns = duties.columns();
    if reduced.len() < columns || order.len() < duties.rows {
        return Reduced { refusal: 10, ..Reduced::default() };
    }
    let matrix = Matrix::new(&duties);
    let mut node = Node::root(&matrix);
    let mut used = 0;
    node.reduce(&matrix, |row| {
        order[used] = row as u8 + 1;
        used += 1;
    });
    reduced.iter_mut().zip(&node.costs[..columns]).for_each(|(place, &cost)| *place = cost as i32);
    Reduced { refusal: 0, used: used as u32, bound: node.bound as i64 }
}
