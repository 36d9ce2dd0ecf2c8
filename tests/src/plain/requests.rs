//! The lists of 02, P2 and P8: their refusals; and what the root does with those of P2, by P9.

use super::file::{rising, Duties};
use super::matrix::Matrix;
use super::node::{Node, FREE, OUT};
use super::pairs;
use crate::goal::Goal;
use crate::requests::Requests;

/// The refusal of the lists as they are lent, if there is one: 14 for the agreed one, 15 for the absent one, then those of the pairs.
pub fn refusal(requests: Requests, duties: &Duties) -> Option<u32> {
    let is_faulty = |list: &[u16]| !rising(list.iter().map(|&column| column as usize), duties.columns());
    if is_faulty(requests.agreed) {
        return Some(14);
    }
    if is_faulty(requests.absent) {
        return Some(15);
    }
    pairs::refusal(requests.pairs, duties.columns())
}

impl Node {
    /// The absent columns are struck from the agreed list and stop being free, then the agreed ones left are taken in list sequence. False
    /// if one of these is not free at its turn: the root is dead.
    pub fn grant(&mut self, matrix: &Matrix, goal: Goal, requests: Requests) -> bool {
        let mut agreed = requests.agreed.to_vec();
        agreed.retain(|column| !requests.absent.contains(column));
        for &column in requests.absent {
            self.marks[column as usize - 1] = OUT;
        }
        for column in agreed {
            let column = column as usize - 1;
            if self.marks[column] != FREE {
                return false;
            }
            self.take(matrix, goal, column);
        }
        true
    }
}
