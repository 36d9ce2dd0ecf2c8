//! A second solver. It tries sets of covered rows instead of branching on columns: a table gives the least price, by the goal, for each set
//! that can be reached by covering the lowest open row again and again. With pairs of columns, sets of rows count apart where other
//! columns that stand in a pair were chosen for them, and the pairs are looked at once all rows are covered. It reads no file: it takes the
//! columns as they were made.

use std::collections::HashMap;
use std::hash::Hash;

use crate::files::Columns;
use crate::goal::Goal;
use crate::requests::Requests;

/// The rows of each column as a set: bit i stands for row i + 1.
fn row_sets(columns: &Columns) -> Vec<u64> {
    columns.bodies.iter().map(|body| body.iter().fold(0, |set, &row| set | 1 << (row - 1))).collect()
}

fn all_rows(rows: u16) -> u64 {
    u64::MAX >> (64 - rows)
}

/// The columns that the lists leave, counted from 0: no absent one, and none that shares a row with another one that is asked for. Asked
/// for is an agreed column that is not absent. So a row of such a column is left that column alone, and any set of the columns left that
/// covers each row holds all of these. Of two that share a row neither is left, and nothing covers that row.
fn left_by(requests: Requests, sets: &[u64]) -> Vec<usize> {
    let stands_in = |list: &[u16], column: usize| list.contains(&(column as u16 + 1));
    let is_asked_for = |column: usize| stands_in(requests.agreed, column) && !stands_in(requests.absent, column);
    let asked_for: Vec<usize> = (0..sets.len()).filter(|&column| is_asked_for(column)).collect();
    let is_apart = |column: usize, other: usize| column == other || sets[column] & sets[other] == 0;
    let is_left = |&column: &usize| !stands_in(requests.absent, column) && asked_for.iter().all(|&other| is_apart(column, other));
    (0..sets.len()).filter(is_left).collect()
}

/// Of these columns, those whose lowest row is each row.
fn by_lowest_row(sets: &[u64], columns: &[usize], rows: u16) -> Vec<Vec<usize>> {
    let mut lists = vec![Vec::new(); rows as usize];
    for &column in columns {
        lists[sets[column].trailing_zeros() as usize].push(column);
    }
    lists
}

/// What the table comes to.
#[derive(Clone, Copy, Debug, PartialEq)]
pub enum Least {
    Price(i64),
    NoPlan,
    /// More sets than the table may hold.
    Unknown,
}

/// The price of some columns and one more.
fn with(goal: Goal, price: i64, cost: i32) -> i64 {
    match goal {
        Goal::Sum => price + cost as i64,
        Goal::Longest => price.max(cost as i64),
    }
}

/// The price of a plan, whose columns are numbered from 1.
pub fn price(columns: &Columns, plan: &[u16], goal: Goal) -> i64 {
    plan.iter().fold(0, |price, &column| with(goal, price, columns.costs[column as usize - 1]))
}

/// The least price of a plan, by a table of at most `most` sets of covered rows.
pub fn least_price(columns: &Columns, goal: Goal, most: usize) -> Least {
    least_price_with(columns, goal, Requests::NONE, most)
}

/// A set of columns: bit j % 64 of word j / 64 stands for column j + 1.
type Chosen = [u64; 4];

fn is_chosen(chosen: &Chosen, number: u16) -> bool {
    let column = number as usize - 1;
    chosen[column / 64] >> (column % 64) & 1 == 1
}

/// The same, of the plans that hold every agreed column that is not absent and no absent one, and obey the pairs. The numbers of all lists
/// are in range.
pub fn least_price_with(columns: &Columns, goal: Goal, requests: Requests, most: usize) -> Least {
    let pairs = requests.pairs;
    if pairs.is_empty() {
        return least_remembering(columns, goal, requests, most, (), |(), _| (), |()| true);
    }
    let mut in_pairs: Chosen = [0; 4];
    pairs.iter().for_each(|&number| in_pairs[(number as usize - 1) / 64] |= 1 << ((number as usize - 1) % 64));
    let with = |mut chosen: Chosen, column: usize| {
        chosen[column / 64] |= in_pairs[column / 64] & 1 << (column % 64);
        chosen
    };
    let obeys = |chosen: &Chosen| pairs.chunks_exact(2).all(|pair| !is_chosen(chosen, pair[0]) || is_chosen(chosen, pair[1]));
    least_remembering(columns, goal, requests, most, [0; 4], with, obeys)
}

/// The least price by a table that remembers something of the columns chosen for a set: `start` for none, and what `with` makes of it with
/// one more column. Of the full sets, those count of which `obeys` holds.
fn least_remembering<M: Copy + Eq + Hash>(
    columns: &Columns,
    goal: Goal,
    requests: Requests,
    most: usize,
    start: M,
    with_column: impl Fn(M, usize) -> M,
    obeys: impl Fn(&M) -> bool,
) -> Least {
    let sets = row_sets(columns);
    let starters = by_lowest_row(&sets, &left_by(requests, &sets), columns.rows);
    let rows = columns.rows as usize;
    // The sets whose lowest open row is each row; the last place is for all rows covered.
    let mut tables: Vec<HashMap<(u64, M), i64>> = vec![HashMap::new(); rows + 1];
    tables[0].insert((0, start), 0);
    let mut size = 0;
    for row in 0..rows {
        let table = std::mem::take(&mut tables[row]);
        size += table.len();
        for ((covered, memory), price) in table {
            for &column in &starters[row] {
                if covered & sets[column] != 0 {
                    continue;
                }
                let next = covered | sets[column];
                let next_price = with(goal, price, columns.costs[column]);
                let key = (next, with_column(memory, column));
                let least = tables[next.trailing_ones() as usize].entry(key).or_insert(next_price);
                *least = next_price.min(*least);
            }
        }
        if size + tables.iter().map(HashMap::len).sum::<usize>() > most {
            return Least::Unknown;
        }
    }
    let full = tables[rows].iter().filter(|((_, memory), _)| obeys(memory));
    full.map(|(_, &price)| price).min().map_or(Least::NoPlan, Least::Price)
}

/// The same by going through all choices of columns. There are at most 20 columns.
pub fn least_of_choices(columns: &Columns, goal: Goal, requests: Requests) -> Least {
    let (sets, all) = (row_sets(columns), all_rows(columns.rows));
    let numbers = |choice: u32| (0..sets.len()).filter(move |column| choice >> column & 1 == 1).map(|column| column as u16 + 1);
    let covers_once = |choice: u32| {
        let add = |covered: u64, number: u16| {
            let set = sets[number as usize - 1];
            (covered & set == 0).then_some(covered | set)
        };
        numbers(choice).try_fold(0, add) == Some(all)
    };
    let plans = (0..1 << sets.len()).filter(|&choice| covers_once(choice)).map(|choice| numbers(choice).collect::<Vec<u16>>());
    let allowed = plans.filter(|plan| requests.are_met_by(plan));
    allowed.map(|plan| price(columns, &plan, goal)).min().map_or(Least::NoPlan, Least::Price)
}

/// Calls `each` with every plan (columns numbered from 1, not sorted), up to `most` plans.
pub fn each_plan(columns: &Columns, most: usize, mut each: impl FnMut(&[u16])) -> usize {
    let sets = row_sets(columns);
    let every: Vec<usize> = (0..sets.len()).collect();
    let starters = by_lowest_row(&sets, &every, columns.rows);
    let all = all_rows(columns.rows);
    let mut count = 0;
    // Partial plans still to be extended.
    let mut open = vec![(0u64, Vec::<u16>::new())];
    while let Some((covered, plan)) = open.pop() {
        if covered == all {
            each(&plan);
            count += 1;
            if count == most {
                break;
            }
            continue;
        }
        for &column in &starters[covered.trailing_ones() as usize] {
            if covered & sets[column] == 0 {
                let mut longer = plan.clone();
                longer.push(column as u16 + 1);
                open.push((covered | sets[column], longer));
            }
        }
    }
    count
}
