//! The duty file: reading it, writing it, and checking an offered plan.

use std::ops::RangeInclusive;

use crate::answers::{Checked, Shape, Written};
use crate::edition::Edition;

const MOST_ROWS: usize = 64;
const MOST_COLUMNS: usize = 256;
pub(super) const MOST_ENTRIES: usize = 4096;
const MOST_COST: i32 = 1_000_000;

/// What the sum search adds to a cost for each row (02, P10).
const ADDED: i64 = 1_000_000;

/// The contents of an accepted file.
pub struct Duties {
    pub edition: Edition,
    pub rows: usize,
    pub costs: Vec<i32>,
    pub lengths: Vec<u16>,
    pub numbers: Vec<u8>,
}

impl Duties {
    pub fn columns(&self) -> usize {
        self.costs.len()
    }

    /// What is added to the cost of a column of so many rows, and so to the price of columns that cover so many, each once.
    pub fn added(&self, rows: usize) -> i64 {
        match self.edition {
            Edition::One => 0,
            Edition::Two => ADDED * rows as i64,
        }
    }

    /// The costs that a search works on.
    pub fn raised_costs(&self) -> Vec<u32> {
        let raised = |(&cost, &length): (&i32, &u16)| (cost as i64 + self.added(length as usize)) as u32;
        self.costs.iter().zip(&self.lengths).map(raised).collect()
    }
}

fn two_bytes(file: &[u8], at: usize) -> usize {
    u16::from_le_bytes([file[at], file[at + 1]]) as usize
}

fn four_bytes(file: &[u8], at: usize) -> i32 {
    i32::from_le_bytes([file[at], file[at + 1], file[at + 2], file[at + 3]])
}

/// Whether the numbers rise and lie in 1 to `most`.
pub fn rising(numbers: impl Iterator<Item = usize>, most: usize) -> bool {
    let mut former = 0;
    for number in numbers {
        if number <= former || number > most {
            return false;
        }
        former = number;
    }
    true
}

/// The edition of a file that is long enough and begins with its bytes.
fn edition_of(file: &[u8]) -> Option<Edition> {
    Edition::BOTH.into_iter().find(|edition| file.len() >= 8 && &file[0..4] == edition.mark())
}

/// The costs that a file of an edition may have.
fn costs_of(edition: Edition) -> RangeInclusive<i32> {
    match edition {
        Edition::One => 1..=MOST_COST,
        Edition::Two => -MOST_COST..=MOST_COST,
    }
}

/// Reads an SPP1 file; any other has refusal 1, before all other faults.
pub fn parse_first(file: &[u8]) -> Result<Duties, u32> {
    match edition_of(file) {
        Some(Edition::One) => parse(file),
        _ => Err(1),
    }
}

/// Reads a file, or gives the refusal that 01's sequence of tests comes to.
pub fn parse(file: &[u8]) -> Result<Duties, u32> {
    let edition = edition_of(file).ok_or(1u32)?;
    let (rows, columns) = (two_bytes(file, 4), two_bytes(file, 6));
    if !(1..=MOST_ROWS).contains(&rows) || !(1..=MOST_COLUMNS).contains(&columns) {
        return Err(2);
    }
    let first_body = 8 + 8 * columns;
    if file.len() < first_body {
        return Err(3);
    }
    let (costs, lengths) = (Vec::with_capacity(columns), Vec::with_capacity(columns));
    let mut duties = Duties { edition, rows, costs, lengths, numbers: Vec::new() };
    let mut entries = 0;
    for column in 0..columns {
        let at = 8 + 8 * column;
        let (cost, start, length) = (four_bytes(file, at), two_bytes(file, at + 4), two_bytes(file, at + 6));
        if !costs_of(edition).contains(&cost) {
            return Err(4);
        }
        if !(1..=rows).contains(&length) {
            return Err(5);
        }
        if entries + length > MOST_ENTRIES {
            return Err(6);
        }
        if start != first_body + entries {
            return Err(7);
        }
        entries += length;
        duties.costs.push(cost);
        duties.lengths.push(length as u16);
    }
    if file.len() != first_body + entries {
        return Err(8);
    }
    duties.numbers.extend_from_slice(&file[first_body..]);
    if bodies_rise(&duties.lengths, &duties.numbers, rows) {
        Ok(duties)
    } else {
        Err(9)
    }
}

/// Whether the row numbers of each body rise and lie in 1 to `rows`.
fn bodies_rise(lengths: &[u16], numbers: &[u8], rows: usize) -> bool {
    let mut start = 0;
    for &length in lengths {
        let end = start + length as usize;
        if !rising(numbers[start..end].iter().map(|&row| row as usize), rows) {
            return false;
        }
        start = end;
    }
    true
}

/// The reader.
pub fn read(file: &[u8], costs: &mut [i32], lengths: &mut [u16], numbers: &mut [u8]) -> Shape {
    let duties = match parse(file) {
        Ok(duties) => duties,
        Err(refusal) => return Shape { refusal, ..Shape::default() },
    };
    let (columns, entries) = (duties.columns(), duties.numbers.len());
    if costs.len() < columns || lengths.len() < columns || numbers.len() < entries {
        return Shape { refusal: 10, ..Shape::default() };
    }
    costs[..columns].copy_from_slice(&duties.costs);
    lengths[..columns].copy_from_slice(&duties.lengths);
    numbers[..entries].copy_from_slice(&duties.numbers);
    let (rows, edition) = (duties.rows as u32, duties.edition as u32);
    Shape { refusal: 0, rows, columns: columns as u32, entries: entries as u32, edition }
}

/// A writer's refusal by 01's sequence of tests, 0 if there is none.
fn writing_refusal(edition: Edition, rows: usize, costs: &[i32], lengths: &[u16], numbers: &[u8], room: usize) -> u32 {
    let columns = costs.len();
    if !(1..=MOST_ROWS).contains(&rows) || !(1..=MOST_COLUMNS).contains(&columns) {
        return 2;
    }
    if lengths.len() != columns {
        return 13;
    }
    let mut entries = 0;
    for column in 0..columns {
        let length = lengths[column] as usize;
        if !costs_of(edition).contains(&costs[column]) {
            return 4;
        }
        if !(1..=rows).contains(&length) {
            return 5;
        }
        entries += length;
        if entries > MOST_ENTRIES {
            return 6;
        }
    }
    if numbers.len() != entries {
        return 13;
    }
    if !bodies_rise(lengths, numbers, rows) {
        return 9;
    }
    if room < 8 + 8 * columns + entries {
        return 10;
    }
    0
}

/// The writer of an edition.
pub fn write(edition: Edition, rows: u16, costs: &[i32], lengths: &[u16], numbers: &[u8], out: &mut [u8]) -> Written {
    let refusal = writing_refusal(edition, rows as usize, costs, lengths, numbers, out.len());
    if refusal != 0 {
        return Written { refusal, length: 0 };
    }
    let columns = costs.len();
    out[0..4].copy_from_slice(edition.mark());
    out[4..6].copy_from_slice(&rows.to_le_bytes());
    out[6..8].copy_from_slice(&(columns as u16).to_le_bytes());
    let mut start = 8 + 8 * columns;
    out[start..start + numbers.len()].copy_from_slice(numbers);
    for column in 0..columns {
        let at = 8 + 8 * column;
        out[at..at + 4].copy_from_slice(&costs[column].to_le_bytes());
        out[at + 4..at + 6].copy_from_slice(&(start as u16).to_le_bytes());
        out[at + 6..at + 8].copy_from_slice(&lengths[column].to_le_bytes());
        start += lengths[column] as usize;
    }
    Written { refusal: 0, length: start as u32 }
}

/// The plan check.
pub fn check(file: &[u8], offered: &[u16]) -> Checked {
    let duties = match parse(file) {
        Ok(duties) => duties,
        Err(refusal) => return Checked { refusal, ..Checked::default() },
    };
    if !rising(offered.iter().map(|&column| column as usize), duties.columns()) {
        return Checked { refusal: 12, ..Checked::default() };
    }
    let mut covered = [0u32; MOST_ROWS];
    let mut price = 0;
    let mut start = 0;
    for column in 0..duties.columns() {
        let end = start + duties.lengths[column] as usize;
        if offered.contains(&(column as u16 + 1)) {
            price += duties.costs[column] as i64;
            for &row in &duties.numbers[start..end] {
                covered[row as usize - 1] += 1;
            }
        }
        start = end;
    }
    match covered[..duties.rows].iter().position(|&count| count != 1) {
        Some(row) => Checked { row: row as u32 + 1, covered: covered[row], ..Checked::default() },
        None => Checked { is_plan: 1, price, ..Checked::default() },
    }
}
