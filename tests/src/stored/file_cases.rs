//! The output of crates/file_cases: each file of its input read and written back; then, made here and not read from the program, a small
//! file read into lists of some lengths, lists written into buffers, and plans offered.

use super::input::{self, Line};
use super::line::fields;
use crate::edition::Edition;
use crate::files::columns;
use crate::plain;

const INPUT: &str = "crates/file_cases/stdin";

/// What stands in a lent list before the call.
const BEFORE: u8 = 7;

fn refused(number: u32) -> String {
    format!(" refused {number}")
}

/// Reads a file of the input, and writes back what it holds by the writer of its edition.
fn read_and_written(line: &Line) -> String {
    let (mut costs, mut lengths, mut numbers) = ([0; 256], [0; 256], [0; 4096]);
    let shape = plain::read(&line.file, &mut costs, &mut lengths, &mut numbers);
    let name = line.words.concat();
    let Some(edition) = Edition::numbered(shape.edition) else {
        return format!("{name}{}\n", refused(shape.refusal));
    };
    let (n, t) = (shape.columns as usize, shape.entries as usize);
    let mut out = [0; 6152];
    let written = plain::write(edition, shape.rows as u16, &costs[..n], &lengths[..n], &numbers[..t], &mut out);
    let back = match written.refusal {
        0 if out[..written.length as usize] == line.file => ", written back the same".into(),
        0 => ", written back differently".into(),
        number => refused(number),
    };
    format!("{name} read {} {n} {t}{back}\n", shape.rows)
}

/// Reads {1, 2} at 3 and {1} at 4 into lists of so many places, and shows what the lists hold then.
fn read_into(rooms: [usize; 3]) -> String {
    let file = columns(2, &[(&[1, 2], 3), (&[1], 4)]).file();
    let (mut costs, mut lengths, mut numbers) = ([BEFORE as i32; 4], [BEFORE as u16; 4], [BEFORE; 4]);
    let shape = plain::read(&file, &mut costs[..rooms[0]], &mut lengths[..rooms[1]], &mut numbers[..rooms[2]]);
    let outcome = if shape.refusal == 0 { " read".into() } else { refused(shape.refusal) };
    let lists = [fields(&costs[..3]), fields(&lengths[..3]), fields(&numbers)].join(",");
    format!("lists of{}{outcome}; then{lists}\n", fields(&rooms))
}

/// Lists for the writer and a buffer's number of places: a name, the rows, costs, body lengths, row numbers, places.
type Lists = (&'static str, u16, &'static [i32], &'static [u16], &'static [u8], usize);

const WRITTEN: [Lists; 14] = [
    ("no rows", 0, &[3, 4], &[2, 1], &[1, 2, 1], 32),
    ("65 rows", 65, &[3, 4], &[2, 1], &[1, 2, 1], 32),
    ("no columns", 2, &[], &[], &[], 32),
    ("one length for two costs", 2, &[3, 4], &[2], &[1, 2, 1], 32),
    ("cost 0", 2, &[0, 4], &[2, 1], &[1, 2, 1], 32),
    ("cost 1000001", 2, &[3, 1_000_001], &[2, 1], &[1, 2, 1], 32),
    ("length 0", 2, &[3, 4], &[2, 0], &[1, 2, 1], 32),
    ("length above m", 2, &[3, 4], &[3, 1], &[1, 2, 1], 32),
    ("a row number too few", 2, &[3, 4], &[2, 1], &[1, 2], 32),
    ("rows not rising", 2, &[3, 4], &[2, 1], &[2, 2, 1], 32),
    ("cost and rows at fault", 2, &[3, 0], &[2, 1], &[2, 1, 1], 32),
    ("a place too few", 2, &[3, 4], &[2, 1], &[1, 2, 1], 26),
    ("exact room", 2, &[3, 4], &[2, 1], &[1, 2, 1], 27),
    ("more room", 2, &[3, 4], &[2, 1], &[1, 2, 1], 32),
];

/// Writes lists, and shows the buffer's first byte and those at the end of a file of 27 bytes.
fn written((name, rows, costs, lengths, numbers, places): Lists) -> String {
    let mut out = [BEFORE; 32];
    let written = plain::write(Edition::One, rows, costs, lengths, numbers, &mut out[..places]);
    let outcome = if written.refusal == 0 { format!(" written {}", written.length) } else { refused(written.refusal) };
    format!("write, {name}{outcome}; buffer{}\n", fields(&[out[0], out[26], out[27]]))
}

/// Offers columns of the file of 01 with {1, 2} at 9, {1} at 4 and {2} at 4.
fn offered(list: &[u16]) -> String {
    let checked = plain::check(&columns(2, &[(&[1, 2], 9), (&[1], 4), (&[2], 4)]).file(), list);
    let outcome = match (checked.refusal, checked.is_plan) {
        (0, 0) => format!(" row {} covered {}", checked.row, checked.covered),
        (0, _) => format!(" plan {}", checked.price),
        (number, _) => refused(number),
    };
    format!("offered{}:{outcome}\n", fields(list))
}

const OFFERED: [&[u16]; 11] = [&[2, 3], &[1], &[], &[3], &[1, 2], &[1, 3], &[1, 2, 3], &[2, 2], &[3, 2], &[0], &[4]];

pub fn remade() -> Result<String, String> {
    let files = input::lines(INPUT, 1)?;
    let mut text: String = files.iter().map(read_and_written).collect();
    text.extend([[2, 2, 3], [3, 4, 4], [1, 2, 3], [2, 1, 3], [2, 2, 2]].map(read_into));
    text.extend(WRITTEN.map(written));
    text.extend(OFFERED.map(offered));
    Ok(text)
}
