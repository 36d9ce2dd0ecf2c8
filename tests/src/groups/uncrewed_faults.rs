//! The refusals of 02, P6, with stated numbers: too many columns, too many entries with the extra columns, short lists, node limits out of
//! range, and several faults at once, which show the sequence 1 to 9, 18, 6, 10, 11.

use spp_tests::answers::Uncrewed;
use spp_tests::files::{self, columns, Columns};
use spp_tests::generate;
use spp_tests::generate_uncrewed::{self, planned, MOST_COLUMNS, MOST_ENTRIES};
use spp_tests::plain;
use spp_tests::random::Random;

use super::uncrewed_case::Case;
use crate::compare;
use crate::report::{hex, Report};

const GROUP: &str =
    "sailings that can't be crewed: refusals 18, 6, 10 and 11 and those of the file, each alone and several at once";

/// A trial that is not refused may end here.
const LIMIT: u32 = 30;

/// Numbers of rows at which 192 columns can have as many entries as are refused.
const MANY_ROWS: [usize; 7] = [22, 23, 31, 32, 48, 63, 64];

pub fn run(report: &mut Report) {
    column_counts(report);
    entry_counts(report);
    some_files().iter().for_each(|columns| rooms(report, columns));
    MANY_ROWS.iter().for_each(|&rows| several(report, rows));
    damaged_beside_others(report);
}

/// The call has the stated refusal, and no other field is set; for 0 it has none, and its answer is held to (a) and the second solver.
fn refuses(report: &mut Report, columns: &Columns, limit: u32, room: usize, wanted: u32) {
    if wanted == 0 {
        Case::new(columns).accepted(report, limit, room);
    } else {
        file_refuses(report, &columns.file(), limit, room, wanted);
    }
}

/// The same for a file that may be damaged, and a refusal.
fn file_refuses(report: &mut Report, file: &[u8], limit: u32, room: usize, wanted: u32) {
    report.group(GROUP);
    let found = compare::uncrewed(report, file, limit, room).0;
    report.same(&found, &Uncrewed { refusal: wanted, ..Uncrewed::default() }, || {
        format!("allowance {limit}, room {room}, {}", hex(file))
    });
}

/// Columns of so many entries in all, of as equal lengths as can be, each of rows that follow each other, counted round.
fn of_entries(rows: usize, count: usize, entries: usize) -> Columns {
    let body = |column: usize| {
        let length = entries / count + (column < entries % count) as usize;
        let mut body: Vec<u8> = (0..length).map(|place| ((column * 7 + place) % rows) as u8 + 1).collect();
        body.sort_unstable();
        body
    };
    let costs = (0..count as i32).map(|column| 1 + column * 37 % 101).collect();
    Columns::new(rows as u16, costs, (0..count).map(body).collect())
}

/// Numbers of columns about 192 and up to 256, on one row, on two and on 64.
fn column_counts(report: &mut Report) {
    for rows in [1, 2, 64] {
        for count in [1, 2, 63, 64, 65, 128, 191, 192, 193, 194, 255, 256] {
            let one_each = of_entries(rows, count, count);
            refuses(report, &one_each, LIMIT, rows, if count > MOST_COLUMNS { 18 } else { 0 });
        }
    }
}

/// The most entries that the extra columns leave room for, one more, and the most of a file; with 192 columns and with few.
fn entry_counts(report: &mut Report) {
    for rows in MANY_ROWS {
        let left = MOST_ENTRIES - (rows - 1);
        for count in [MOST_COLUMNS, MOST_ENTRIES.div_ceil(rows)] {
            refuses(report, &of_entries(rows, count, left - 1), LIMIT, rows, 0);
            refuses(report, &of_entries(rows, count, left), LIMIT, rows, 0);
            for entries in [left + 1, left + 2, MOST_ENTRIES] {
                refuses(report, &of_entries(rows, count, entries.min(MOST_ENTRIES)), LIMIT, rows, 6);
            }
        }
    }
}

fn some_files() -> Vec<Columns> {
    let mut random = Random::new(18);
    let mut files = vec![
        columns(1, &[(&[1], 5)]),
        columns(2, &[(&[1], 3)]),
        columns(2, &[(&[2], 3)]),
        files::example_1(),
        files::example_4(),
        of_entries(64, 192, 192),
    ];
    files.extend([1, 2, 7, 30, 64].map(|rows| planned(&mut random, rows)));
    files.extend([2, 7, 30, 64].map(|rows| generate_uncrewed::hole(&mut random, rows, rows)));
    files.extend([3, 7, 30, 64].map(|rows| generate_uncrewed::shared(&mut random, rows, rows / 2 + 1)));
    files.push(generate::ferry_of(&mut random, 64, 192, 6, 20));
    files
}

/// Lists of each length up to two above the rows, and long ones; with node limits in range and beyond it.
fn rooms(report: &mut Report, columns: &Columns) {
    let rows = columns.rows as usize;
    for room in (0..=rows + 2).chain([100, 255, 256, 257, 70_000]) {
        let short = room < rows;
        refuses(report, columns, LIMIT, room, if short { 10 } else { 0 });
        for limit in [0, 1_000_001, u32::MAX] {
            refuses(report, columns, limit, room, if short { 10 } else { 11 });
        }
    }
}

/// A fault of the file, too many columns, too many entries, a short list and a node limit out of range, every choice of them: the first in
/// the sequence shows.
fn several(report: &mut Report, rows: usize) {
    let left = MOST_ENTRIES - (rows - 1);
    for fault in [0, 1, 2, 3, 4, 5, 7, 8, 9] {
        for (count, entries) in [(192, left), (193, left), (192, left + 1), (193, left + 1), (192, 4096), (256, 4096)] {
            let columns = of_entries(rows, count, entries);
            for room in [rows, rows - 1, 0] {
                for limit in [LIMIT, 0, 1_000_001] {
                    let faults =
                        [(fault > 0, fault), (count > 192, 18), (entries > left, 6), (room < rows, 10), (limit != LIMIT, 11)];
                    match faults.iter().find(|fault| fault.0) {
                        Some(first) => file_refuses(report, &columns.damaged(fault), limit, room, first.1),
                        None => refuses(report, &columns, limit, room, 0),
                    }
                }
            }
        }
    }
    file_entries(report, rows);
}

/// The entries of the file alone are too many: that comes before too many columns.
fn file_entries(report: &mut Report, rows: usize) {
    for count in [192, 193, 256] {
        let columns = of_entries(rows, count, MOST_ENTRIES + 1);
        for (room, limit) in [(rows, LIMIT), (0, LIMIT), (rows, 0), (0, 0)] {
            file_refuses(report, &columns.file(), limit, room, 6);
        }
    }
}

/// A file with each byte set to some values and each truncation, with a short list and a node limit out of range: the file's refusal, or
/// 10.
fn damaged_beside_others(report: &mut Report) {
    for columns in [files::example_4(), columns(3, &[(&[1, 2], 1), (&[2, 3], 1), (&[1, 3], 1)])] {
        let file = columns.file();
        for place in 0..file.len() {
            short_and_bad_limit(report, &file[..place]);
            for value in [0, 1, 2, 16, 65, 255, file[place].wrapping_add(1), file[place].wrapping_sub(1)] {
                let mut damaged = file.clone();
                damaged[place] = value;
                short_and_bad_limit(report, &damaged);
            }
        }
        short_and_bad_limit(report, &[&file[..], &[1]].concat());
    }
}

/// The refusal is that of (a)'s reducing with room for any file, which takes SPP1 alone too, or 10 where it accepts the file.
fn short_and_bad_limit(report: &mut Report, file: &[u8]) {
    let of_file = plain::reduce(file, &mut [0; 256], &mut [0; 64]).refusal;
    file_refuses(report, file, 0, 0, if of_file > 0 { of_file } else { 10 });
}
