//! Crews onto vessels (02, P5). The least total is found by shortest augmenting paths with potentials, one path for each crew. The
//! assignment shown is found by fixing crew by crew the lowest vessel that keeps the least total.

use std::ops::Range;

use crate::answers::{Assigned, BEST, NONE};
use crate::table::Costs;

/// Crews that have no vessel yet, and the vessels that are left for them, rising.
struct Rest<'a> {
    costs: &'a Costs,
    crews: Range<usize>,
    vessels: Vec<usize>,
}

/// A matching of some crews, and potentials: no open pairing of these crews costs less than its crew's and its vessel's potential together,
/// and a matched one costs just that. Crews and vessels are counted within the rest.
struct Matching {
    of_crew: Vec<i64>,
    of_vessel: Vec<i64>,
    /// The crew that is matched with each vessel.
    crew_on: Vec<Option<usize>>,
}

/// Shortest paths from a crew to the vessels.
struct Paths {
    length: Vec<Option<i64>>,
    /// The vessel before each on its path, none where the crew itself is before it.
    before: Vec<Option<usize>>,
    /// The vessels whose length is final, and the last of them, which no crew is on.
    done: Vec<bool>,
    end: usize,
}

impl Rest<'_> {
    /// The cost of a pairing, none where it is closed.
    fn cost(&self, crew: usize, vessel: usize) -> Option<i64> {
        let cost = self.costs[16 * (self.crews.start + crew) + self.vessels[vessel]];
        (cost > 0).then_some(cost as i64)
    }

    /// Offers the vessels that are not done a path by the crew, which is reached at this length by way of a vessel.
    fn extend(&self, matching: &Matching, paths: &mut Paths, crew: usize, reached: i64, by: Option<usize>) {
        for vessel in 0..self.vessels.len() {
            let Some(cost) = self.cost(crew, vessel) else { continue };
            let length = reached + cost - matching.of_crew[crew] - matching.of_vessel[vessel];
            if !paths.done[vessel] && paths.length[vessel].is_none_or(|former| length < former) {
                paths.length[vessel] = Some(length);
                paths.before[vessel] = by;
            }
        }
    }

    /// Shortest paths from a crew up to the nearest vessel that no crew is on, if there is one.
    fn paths_from(&self, matching: &Matching, start: usize) -> Option<Paths> {
        let count = self.vessels.len();
        let mut paths = Paths { length: vec![None; count], before: vec![None; count], done: vec![false; count], end: 0 };
        self.extend(matching, &mut paths, start, 0, None);
        loop {
            let open = (0..count).filter(|&vessel| !paths.done[vessel]);
            let (length, vessel) = open.filter_map(|vessel| Some((paths.length[vessel]?, vessel))).min()?;
            paths.done[vessel] = true;
            let Some(crew) = matching.crew_on[vessel] else {
                paths.end = vessel;
                return Some(paths);
            };
            self.extend(matching, &mut paths, crew, length, Some(vessel));
        }
    }

    /// The least total over the rest, none where there is no assignment.
    fn least_total(&self) -> Option<u64> {
        let (crews, vessels) = (self.crews.len(), self.vessels.len());
        let mut matching = Matching { of_crew: vec![0; crews], of_vessel: vec![0; vessels], crew_on: vec![None; vessels] };
        for crew in 0..crews {
            let paths = self.paths_from(&matching, crew)?;
            matching.raise(&paths, crew);
            matching.augment(&paths, crew);
        }
        let costs = (0..vessels).filter_map(|vessel| self.cost(matching.crew_on[vessel]?, vessel));
        Some(costs.sum::<i64>() as u64)
    }

    /// What is left once the first crew has this vessel.
    fn without(&self, vessel: usize) -> Rest<'_> {
        let vessels = self.vessels.iter().copied().filter(|&other| other != vessel).collect();
        Rest { costs: self.costs, crews: self.crews.start + 1..self.crews.end, vessels }
    }

    /// The vessels of the first assignment at the least total, counted from 1.
    fn first_at(self, total: u64, shown: &mut Vec<u8>) {
        if self.crews.is_empty() {
            return;
        }
        for (place, &vessel) in self.vessels.iter().enumerate() {
            let Some(cost) = self.cost(0, place) else { continue };
            let rest = self.without(vessel);
            if let Some(other) = rest.least_total().filter(|other| cost as u64 + other == total) {
                shown.push(vessel as u8 + 1);
                return rest.first_at(other, shown);
            }
        }
    }
}

impl Matching {
    /// Changes the potentials by the paths from a crew, so that the path to the end costs just what they come to.
    fn raise(&mut self, paths: &Paths, start: usize) {
        let whole = paths.length[paths.end].unwrap_or(0);
        self.of_crew[start] += whole;
        for vessel in 0..self.crew_on.len() {
            let (Some(length), true) = (paths.length[vessel], paths.done[vessel]) else { continue };
            self.of_vessel[vessel] -= whole - length;
            if let Some(crew) = self.crew_on[vessel] {
                self.of_crew[crew] += whole - length;
            }
        }
    }

    /// Moves each crew on the path to the next vessel, and the starting crew to the first.
    fn augment(&mut self, paths: &Paths, start: usize) {
        let mut vessel = paths.end;
        while let Some(before) = paths.before[vessel] {
            self.crew_on[vessel] = self.crew_on[before];
            vessel = before;
        }
        self.crew_on[vessel] = Some(start);
    }
}

/// The refusal, 0 for none.
fn refusal(crews: usize, vessels: usize, costs: &Costs, places: usize) -> u32 {
    if crews == 0 || crews > 16 || vessels > 16 || crews > vessels {
        return 16;
    }
    if (0..crews).any(|crew| costs[16 * crew..16 * crew + vessels].iter().any(|&cost| cost > 1_000_000)) {
        return 17;
    }
    if places < crews {
        return 10;
    }
    0
}

/// The call.
pub fn assign(crews: usize, vessels: usize, costs: &Costs, answer: &mut [u8]) -> Assigned {
    let refusal = refusal(crews, vessels, costs, answer.len());
    if refusal > 0 {
        return Assigned { refusal, ..Assigned::default() };
    }
    let all = Rest { costs, crews: 0..crews, vessels: (0..vessels).collect() };
    let Some(total) = all.least_total() else {
        return Assigned { outcome: NONE, ..Assigned::default() };
    };
    let mut shown = Vec::new();
    all.first_at(total, &mut shown);
    answer[..crews].copy_from_slice(&shown);
    Assigned { refusal: 0, outcome: BEST, total }
}
