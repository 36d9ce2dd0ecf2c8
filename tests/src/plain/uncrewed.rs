//! Which sailings can't be crewed (02, P6), by trials.

use super::file::{parse_first, Duties, MOST_ENTRIES};
use super::search::{walk, Tree, MOST_NODES};
use crate::answers::{Uncrewed, NONE, NO_CREW, PLAN_EXISTS, STOPPED};
use crate::goal::Goal;
use crate::requests::Requests;

/// The most columns of a file that is tried.
const MOST_TRIAL_COLUMNS: usize = 192;

/// The columns of the file, and behind them one of cost 1 for each row above `row`, rising.
fn with_extra(duties: &Duties, row: usize) -> Duties {
    let Duties { edition, rows, ref costs, ref lengths, ref numbers } = *duties;
    let mut trial = Duties { edition, rows, costs: costs.clone(), lengths: lengths.clone(), numbers: numbers.clone() };
    for above in row + 1..=rows {
        trial.costs.push(1);
        trial.lengths.push(1);
        trial.numbers.push(above as u8);
    }
    trial
}

/// The trial of a row.
fn tried(duties: &Duties, row: usize, limit: u32) -> Tree {
    walk(&with_extra(duties, row), Goal::Sum, Requests::NONE, limit)
}

/// The trial of a row of an accepted file, with a node limit in range.
pub fn trial(file: &[u8], row: usize, limit: u32) -> Result<Tree, u32> {
    parse_first(file).map(|duties| tried(&duties, row, limit))
}

/// The refusal of an accepted file, 0 for none. Trial 1 has the most extra columns, one for each row but the first.
fn refusal(duties: &Duties, limit: u32, places: usize) -> u32 {
    if duties.columns() > MOST_TRIAL_COLUMNS {
        return 18;
    }
    if duties.numbers.len() + (duties.rows - 1) > MOST_ENTRIES {
        return 6;
    }
    if places < duties.rows {
        return 10;
    }
    if !(1..=MOST_NODES).contains(&limit) {
        return 11;
    }
    0
}

/// The trials from row 1 upwards: the answer, and the columns to show.
fn trials(duties: &Duties, limit: u32) -> (Uncrewed, Vec<u16>) {
    let mut covering = Vec::new();
    for row in 1..=duties.rows {
        let Tree { answer, mut plan, .. } = tried(duties, row, limit);
        let ended = Uncrewed { row: row as u32, ..Uncrewed::default() };
        if answer.outcome == NONE {
            return (Uncrewed { outcome: NO_CREW, columns: covering.len() as u32, ..ended }, covering);
        }
        if answer.has_plan == 0 {
            return (Uncrewed { outcome: STOPPED, ..ended }, Vec::new());
        }
        plan.retain(|&column| column as usize <= duties.columns());
        covering = plan;
    }
    (Uncrewed { outcome: PLAN_EXISTS, ..Uncrewed::default() }, Vec::new())
}

/// The call.
pub fn uncrewed(file: &[u8], limit: u32, shown: &mut [u16]) -> Uncrewed {
    let refused = |refusal| Uncrewed { refusal, ..Uncrewed::default() };
    let duties = match parse_first(file) {
        Ok(duties) => duties,
        Err(refusal) => return refused(refusal),
    };
    let refusal = refusal(&duties, limit, shown.len());
    if refusal > 0 {
        return refused(refusal);
    }
    let (answer, columns) = trials(&duties, limit);
    shown[..columns.len()].copy_from_slice(&columns);
    answer
}
