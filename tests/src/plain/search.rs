//! The tree: the choice of a row and a column, the branches, the node limit, and the public calls.

use std::cmp::Reverse;

use super::file::Duties;
use super::matrix::Matrix;
use super::node::{Forced, Node, FREE, OUT};
use super::pairs::Uses;
use super::requests;
use crate::answers::{Answer, BEST, NONE, STOPPED};
use crate::goal::Goal;
use crate::requests::Requests;

pub(super) const MOST_NODES: u32 = 1_000_000;

/// Stands for a penalty larger than any number; costs are at most 65,000,000.
const ABOVE_ANY: u32 = u32::MAX;

/// 01's criteria for the row in turn, the smallest first: free columns at cost 0, the largest penalty, free columns, the row.
type Preference = (u32, Reverse<u32>, u32, usize);

/// What a node branches on.
struct Branching {
    column: usize,
    /// Added to the bound in the test of the branch without the column.
    penalty: u32,
}

impl Node {
    fn preference(&self, matrix: &Matrix, row: usize) -> Preference {
        let (mut zeros, mut penalty, mut free) = (0, ABOVE_ANY, 0);
        for &column in matrix.columns_of(row) {
            if self.marks[column as usize] != FREE {
                continue;
            }
            free += 1;
            match self.costs[column as usize] {
                0 => zeros += 1,
                cost => penalty = penalty.min(cost),
            }
        }
        (zeros, Reverse(penalty), free, row)
    }

    fn is_zero(&self, column: usize) -> bool {
        self.marks[column] == FREE && self.costs[column] == 0
    }

    /// C: how many free columns at cost 0 share a row with the column, itself included.
    fn sharing(&self, matrix: &Matrix, column: usize) -> u32 {
        let mut seen = [false; 256];
        let mut count = 0;
        for &row in matrix.rows_of(column) {
            for &other in matrix.columns_of(row as usize) {
                let other = other as usize;
                if !seen[other] && self.is_zero(other) {
                    seen[other] = true;
                    count += 1;
                }
            }
        }
        count
    }

    /// The row and the column to branch on. Some row is open, and each open row has a free column at cost 0.
    fn choose(&self, matrix: &Matrix) -> Branching {
        let open = (0..matrix.rows).filter(|&row| self.open[row]);
        let (zeros, Reverse(penalty), _, row) =
            open.map(|row| self.preference(matrix, row)).min().expect("a node that branches has an open row");
        let mut chosen: Option<(u32, u32, usize)> = None;
        for &column in matrix.columns_of(row) {
            let column = column as usize;
            if !self.is_zero(column) {
                continue;
            }
            let (shared, size) = (self.sharing(matrix, column), matrix.size_of(column));
            if chosen.is_none_or(|(c, s, _)| shared * s < c * size) {
                chosen = Some((shared, size, column));
            }
        }
        let (_, _, column) = chosen.expect("each open row has a free column at cost 0");
        Branching { column, penalty: if zeros == 1 { penalty } else { 0 } }
    }
}

/// A walk over the tree.
struct Walk<'a> {
    matrix: &'a Matrix,
    goal: Goal,
    requests: Requests<'a>,
    limit: u32,
    nodes: u32,
    stopped: bool,
    root_bound: u64,
    kept: Option<(u64, Node)>,
    depth: u32,
    deepest: u32,
    uses: Uses,
}

impl Walk<'_> {
    /// Whether a kept plan is as cheap as this bound.
    fn ends(&self, bound: u64) -> bool {
        self.kept.as_ref().is_some_and(|kept| bound >= kept.0)
    }

    /// Enters a node and all below it.
    fn enter(&mut self, node: Node) {
        if self.nodes == self.limit {
            self.stopped = true;
            return;
        }
        self.nodes += 1;
        self.depth += 1;
        self.deepest = self.deepest.max(self.depth);
        self.visit(node);
        self.depth -= 1;
    }

    fn visit(&mut self, mut node: Node) {
        let is_root = self.nodes == 1;
        if is_root && !node.grant(self.matrix, self.goal, self.requests) {
            return;
        }
        let forced = node.settle(self.matrix, self.goal, self.requests.pairs, &mut self.uses);
        if forced == Forced::Open {
            self.goal.reduce(self.matrix, &mut node);
        }
        if is_root {
            self.root_bound = node.bound;
        }
        match forced {
            Forced::Dead => {}
            Forced::Plan if self.ends(node.bound) => {}
            Forced::Plan => self.kept = Some((node.bound, node)),
            Forced::Open if self.ends(node.bound) => {}
            Forced::Open => self.branch(node),
        }
    }

    /// Both branches: first the one that takes the column, then the one without it.
    fn branch(&mut self, mut node: Node) {
        let Branching { column, penalty } = node.choose(self.matrix);
        let mut with = node;
        with.take(self.matrix, self.goal, column);
        self.enter(with);
        if self.stopped || self.ends(node.bound + penalty as u64) {
            return;
        }
        node.marks[column] = OUT;
        self.enter(node);
    }

    /// The answer, with what was added for the rows of a plan taken off its price and the root's bound.
    fn answer(&self, added: i64) -> Answer {
        let mut answer = Answer { nodes: self.nodes, ..Answer::default() };
        answer.outcome = match self.kept {
            _ if self.stopped => STOPPED,
            Some(_) => BEST,
            None => NONE,
        };
        if answer.outcome != NONE {
            answer.bound = self.root_bound as i64 - added;
        }
        if let Some((price, node)) = &self.kept {
            answer.has_plan = 1;
            answer.price = *price as i64 - added;
            answer.columns = node.taken().len() as u32;
        }
        answer
    }
}

/// What is said of the tree besides the answer.
pub struct Tree {
    pub answer: Answer,
    pub plan: Vec<u16>,
    /// The number of nodes on the longest path entered, the root included.
    pub deepest: u32,
    /// What the pairs did in it.
    pub uses: Uses,
}

/// Walks the tree of the file's columns.
pub(super) fn walk(duties: &Duties, goal: Goal, requests: Requests, limit: u32) -> Tree {
    let matrix = &Matrix::new(duties);
    let (nodes, stopped, root_bound, kept, depth, deepest, uses) = (0, false, 0, None, 0, 0, Uses::default());
    let mut walk = Walk { matrix, goal, requests, limit, nodes, stopped, root_bound, kept, depth, deepest, uses };
    walk.enter(Node::root(matrix));
    let plan = walk.kept.as_ref().map_or(Vec::new(), |(_, node)| node.taken());
    Tree { answer: walk.answer(duties.added(duties.rows)), plan, deepest: walk.deepest, uses: walk.uses }
}

/// Walks the tree of an accepted file with a node limit in range.
pub fn tree(goal: Goal, file: &[u8], limit: u32) -> Result<Tree, u32> {
    tree_with(goal, file, limit, Requests::NONE)
}

/// The same with lists that are accepted.
pub fn tree_with(goal: Goal, file: &[u8], limit: u32, requests: Requests) -> Result<Tree, u32> {
    goal.parse(file).map(|duties| walk(&duties, goal, requests, limit))
}

/// The search without lists.
pub fn search(goal: Goal, file: &[u8], limit: u32, plan: &mut [u16]) -> Answer {
    search_with(goal, file, limit, Requests::NONE, plan)
}

/// The search with lists.
pub fn search_with(goal: Goal, file: &[u8], limit: u32, requests: Requests, plan: &mut [u16]) -> Answer {
    let refused = |refusal| Answer { refusal, ..Answer::default() };
    let duties = match goal.parse(file) {
        Ok(duties) => duties,
        Err(refusal) => return refused(refusal),
    };
    if plan.len() < duties.rows {
        return refused(10);
    }
    if !(1..=MOST_NODES).contains(&limit) {
        return refused(11);
    }
    if let Some(refusal) = requests::refusal(requests, &duties) {
        return refused(refusal);
    }
    let tree = walk(&duties, goal, requests, limit);
    plan[..tree.plan.len()].copy_from_slice(&tree.plan);
    tree.answer
}
