//! A second solver for crews onto vessels (02, P5). It starts from any assignment and cancels negative cycles until there is none, on
//! weights that hold the total and behind it the vessel numbers read crew by crew, so that the least weight is that of the answer. It knows
//! no refusal: the tables are within P5's limits. Small tables can also be gone through assignment by assignment.

use crate::table::Table;

/// The total and the vessels of the answer, counted from 1; none where there is no assignment.
pub type Found = Option<(u64, Vec<u8>)>;

/// The vessel numbers of an assignment are the digits of a number to this base, the first crew's the highest of 16.
const BASE: i128 = 17;

/// Crews with a vessel each, counted from 0. Behind those of the table stand crews for the vessels left, whose pairings weigh nothing.
struct Square<'a> {
    table: &'a Table,
    vessel_of: Vec<usize>,
}

impl Square<'_> {
    /// The weight of a pairing, none where it is closed.
    fn weight(&self, crew: usize, vessel: usize) -> Option<i128> {
        if crew >= self.table.crews {
            return Some(0);
        }
        let digit = (vessel as i128 + 1) * BASE.pow(15 - crew as u32);
        let cost = self.table.cost(crew, vessel) as i128;
        (cost > 0).then_some(cost * BASE.pow(16) + digit)
    }

    /// For each two crews, what the first one's weight changes by if it takes the second one's vessel.
    fn changes(&self) -> Vec<(usize, usize, i128)> {
        let count = self.vessel_of.len();
        let change = |first: usize, second: usize| {
            let (taken, left) = (self.weight(first, self.vessel_of[second])?, self.weight(first, self.vessel_of[first])?);
            (first != second).then_some((first, second, taken - left))
        };
        (0..count).flat_map(|first| (0..count).filter_map(move |second| change(first, second))).collect()
    }

    /// Crews of which each takes the next one's vessel, and the last the first one's, at less weight; by Bellman and Ford's method.
    fn negative_cycle(&self) -> Option<Vec<usize>> {
        let (changes, count) = (self.changes(), self.vessel_of.len());
        let (mut length, mut before) = (vec![0; count], vec![0; count]);
        let mut last = None;
        for _ in 0..count {
            last = None;
            for &(first, second, change) in &changes {
                if length[first] + change < length[second] {
                    length[second] = length[first] + change;
                    before[second] = first;
                    last = Some(second);
                }
            }
            last?;
        }
        // As many steps back as there are crews end on the cycle.
        let start = (0..count).fold(last?, |crew, _| before[crew]);
        let mut cycle = vec![start];
        while before[cycle[cycle.len() - 1]] != start {
            cycle.push(before[cycle[cycle.len() - 1]]);
        }
        cycle.reverse();
        Some(cycle)
    }

    /// Gives each crew of a cycle the next one's vessel.
    fn cancel(&mut self, cycle: &[usize]) {
        let first = self.vessel_of[cycle[0]];
        for pair in cycle.windows(2) {
            self.vessel_of[pair[0]] = self.vessel_of[pair[1]];
        }
        self.vessel_of[cycle[cycle.len() - 1]] = first;
    }
}

/// Finds a vessel for a crew, if need be by moving crews that have one. Vessels that were tried are marked.
fn place(table: &Table, crew: usize, crew_on: &mut [Option<usize>], tried: &mut [bool]) -> bool {
    for vessel in 0..table.vessels {
        if table.cost(crew, vessel) == 0 || std::mem::replace(&mut tried[vessel], true) {
            continue;
        }
        if crew_on[vessel].is_none_or(|other| place(table, other, crew_on, tried)) {
            crew_on[vessel] = Some(crew);
            return true;
        }
    }
    false
}

/// Any assignment, with a crew of no weight on each vessel left.
fn any(table: &Table) -> Option<Square<'_>> {
    let mut crew_on = vec![None; table.vessels];
    for crew in 0..table.crews {
        if !place(table, crew, &mut crew_on, &mut vec![false; table.vessels]) {
            return None;
        }
    }
    let mut vessel_of = vec![0; table.vessels];
    let mut next = table.crews;
    for (vessel, crew) in crew_on.into_iter().enumerate() {
        vessel_of[crew.unwrap_or(next)] = vessel;
        next += crew.is_none() as usize;
    }
    Some(Square { table, vessel_of })
}

/// The sum of the costs of an assignment, whose vessels are counted from 1.
pub fn total(table: &Table, vessels: &[u8]) -> u64 {
    vessels.iter().enumerate().map(|(crew, &vessel)| table.cost(crew, vessel as usize - 1) as u64).sum()
}

/// The answer by cancelling negative cycles.
pub fn first_of_least(table: &Table) -> Found {
    let mut square = any(table)?;
    while let Some(cycle) = square.negative_cycle() {
        square.cancel(&cycle);
    }
    let vessels: Vec<u8> = square.vessel_of[..table.crews].iter().map(|&vessel| vessel as u8 + 1).collect();
    Some((total(table, &vessels), vessels))
}

/// The answer by going through all assignments in sequence, for small tables.
pub fn by_all(table: &Table) -> Found {
    let mut found = None;
    extend(table, &mut Vec::new(), &mut found);
    found
}

/// Goes through the assignments that begin with these vessels, and keeps the first of least total.
fn extend(table: &Table, vessels: &mut Vec<u8>, found: &mut Found) {
    let crew = vessels.len();
    if crew == table.crews {
        let sum = total(table, vessels);
        if found.as_ref().is_none_or(|(least, _)| sum < *least) {
            *found = Some((sum, vessels.clone()));
        }
        return;
    }
    for vessel in 1..=table.vessels as u8 {
        if table.cost(crew, vessel as usize - 1) > 0 && !vessels.contains(&vessel) {
            vessels.push(vessel);
            extend(table, vessels, found);
            vessels.pop();
        }
    }
}
