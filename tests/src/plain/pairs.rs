//! Pairs of columns (02, P8): their refusals, and what a node does with them after forcing.

use super::matrix::Matrix;
use super::node::{Forced, Node, FREE, OUT, TAKEN};
use crate::goal::Goal;

/// The most numbers of a list: 128 pairs.
const MOST_NUMBERS: usize = 256;

/// The refusal of a list for a file with so many columns, if there is one: 21 for the list's length, then 20 for a pair.
pub fn refusal(pairs: &[u16], columns: usize) -> Option<u32> {
    if pairs.len() % 2 == 1 || pairs.len() > MOST_NUMBERS {
        return Some(21);
    }
    let is_column = |number: u16| (1..=columns).contains(&(number as usize));
    let is_faulty = |pair: &[u16]| !is_column(pair[0]) || !is_column(pair[1]) || pair[0] == pair[1];
    pairs.chunks_exact(2).any(is_faulty).then_some(20)
}

/// How often a walk met each case of the pairs.
#[derive(Clone, Copy, Debug, Default)]
pub struct Uses {
    /// The first taken, the second free: the second was taken.
    pub taken: u64,
    /// The first taken, the second neither free nor taken: the node was dead.
    pub dead: u64,
    /// The first free, the second neither free nor taken: the first stopped being free.
    pub left: u64,
    /// Forcing done again took a column.
    pub forced_again: u64,
    /// Forcing done again found the node dead.
    pub dead_by_forcing: u64,
    /// The pairs gone through again changed something.
    pub changed_again: u64,
    /// The pairs gone through again found the node dead.
    pub dead_again: u64,
}

/// What going through the pairs comes to.
#[derive(PartialEq)]
enum Passed {
    Dead,
    Changed,
    Same,
}

impl Node {
    /// Goes through the pairs once, in list sequence.
    fn pass(&mut self, matrix: &Matrix, goal: Goal, pairs: &[u16], uses: &mut Uses) -> Passed {
        let mut passed = Passed::Same;
        for pair in pairs.chunks_exact(2) {
            let (first, second) = (pair[0] as usize - 1, pair[1] as usize - 1);
            match (self.marks[first], self.marks[second]) {
                (TAKEN, FREE) => {
                    self.take(matrix, goal, second);
                    uses.taken += 1;
                    passed = Passed::Changed;
                }
                (TAKEN, OUT) => {
                    uses.dead += 1;
                    return Passed::Dead;
                }
                (FREE, OUT) => {
                    self.marks[first] = OUT;
                    uses.left += 1;
                    passed = Passed::Changed;
                }
                _ => {}
            }
        }
        passed
    }

    /// Forcing, then the pairs, and both again while the pairs change something.
    pub fn settle(&mut self, matrix: &Matrix, goal: Goal, pairs: &[u16], uses: &mut Uses) -> Forced {
        let mut forced = self.force(matrix, goal);
        if pairs.is_empty() {
            return forced;
        }
        let mut is_again = false;
        while forced != Forced::Dead {
            let passed = self.pass(matrix, goal, pairs, uses);
            uses.changed_again += (is_again && passed == Passed::Changed) as u64;
            uses.dead_again += (is_again && passed == Passed::Dead) as u64;
            match passed {
                Passed::Dead => return Forced::Dead,
                Passed::Same => return forced,
                Passed::Changed => is_again = true,
            }
            let open = self.open;
            forced = self.force(matrix, goal);
            uses.forced_again += (self.open != open) as u64;
            uses.dead_by_forcing += (forced == Forced::Dead) as u64;
        }
        forced
    }
}
