//! Damaged files of both editions: each byte set to several values, each truncation, one byte more, and several faults at once.

use spp_tests::edition::Edition;
use spp_tests::files::{self, columns, Columns};
use spp_tests::generate;
use spp_tests::generate_earning::in_edition;
use spp_tests::random::Random;

use crate::compare;
use crate::report::Report;

/// Costs at the limits of both editions and beyond.
pub const COSTS: [i32; 10] = [0, 1, 1_000_000, 1_000_001, -1, -999_999, -1_000_000, -1_000_001, i32::MIN, i32::MAX];

/// A damaged file may be accepted; then this many nodes are enough to compare.
const LIMIT: u32 = 40;

fn small_files(edition: Edition) -> Vec<Columns> {
    let mut random = Random::new(9);
    let made = vec![
        columns(1, &[(&[1], 5)]),
        columns(3, &[(&[1, 2], 1), (&[2, 3], 1), (&[1, 3], 1)]),
        files::example_1(),
        files::example_4(),
        generate::ferry_of(&mut random, 12, 14, 4, 20),
        generate::ferry_of(&mut random, 64, 20, 9, 10),
    ];
    made.into_iter().map(|columns| in_edition(&mut random, edition, columns)).collect()
}

pub fn run(report: &mut Report) {
    report.each_edition(|report, edition| {
        report.group("damaged files: each byte, each truncation, one byte more, several faults");
        for columns in small_files(edition) {
            let file = columns.file();
            each_byte(report, &file);
            each_length(report, &file);
        }
        several_faults(report, edition);
        largest_file(report, edition);
    });
}

fn each_byte(report: &mut Report, file: &[u8]) {
    for place in 0..file.len() {
        let byte = file[place];
        let mut values = vec![0, 1, 2, 15, 16, 64, 65, 127, 128, 255, byte.wrapping_add(1), byte.wrapping_sub(1), byte ^ 32];
        values.sort_unstable();
        values.dedup();
        for value in values {
            let mut damaged = file.to_vec();
            damaged[place] = value;
            compare::all_calls(report, &damaged, LIMIT);
        }
    }
}

fn each_length(report: &mut Report, file: &[u8]) {
    for length in 0..file.len() {
        compare::all_calls(report, &file[..length], LIMIT);
    }
    for more in [0, 1, 255] {
        let mut longer = file.to_vec();
        longer.push(more);
        compare::all_calls(report, &longer, LIMIT);
    }
}

/// Sets two to four numbers of the header, the contents and the bodies, so that the sequence of the tests shows.
fn several_faults(report: &mut Report, edition: Edition) {
    let mut random = Random::new(21);
    let files: Vec<Vec<u8>> = small_files(edition).iter().map(Columns::file).collect();
    for _ in 0..edition.of([12_000, 4000]) {
        let mut damaged = files[random.within(1, files.len() - 1)].clone();
        for _ in 0..random.within(2, 4) {
            one_fault(&mut random, &mut damaged);
        }
        compare::all_calls(report, &damaged, LIMIT);
    }
}

fn one_fault(random: &mut Random, file: &mut Vec<u8>) {
    let set = |file: &mut Vec<u8>, at: usize, bytes: &[u8]| {
        if at + bytes.len() <= file.len() {
            file[at..at + bytes.len()].copy_from_slice(bytes);
        }
    };
    let columns = if file.len() < 8 { 1 } else { file[6] as usize };
    let entry = 8 + 8 * random.within(0, columns);
    let body = random.within(8 + 8 * columns, (8 + 8 * columns).max(file.len()));
    match random.within(0, 9) {
        0 => set(file, random.within(0, 3), &[[b's', b'1', b'2', b'3'][random.within(0, 3)]]),
        1 => set(file, 4, &[[0u16, 1, 64, 65, 256][random.within(0, 4)].to_le_bytes()].concat()),
        2 => set(file, 6, &[[0u16, 1, 256, 257, 1024][random.within(0, 4)].to_le_bytes()].concat()),
        3 => set(file, entry, &COSTS[random.within(0, COSTS.len() - 1)].to_le_bytes()),
        4 => set(file, entry + 4, &[random.within(0, 255) as u8]),
        5 => set(file, entry + 6, &[[0u16, 1, 64, 65, 4096][random.within(0, 4)].to_le_bytes()].concat()),
        6 | 7 => set(file, body, &[[0, 1, 3, 64, 65, 255][random.within(0, 5)]]),
        8 => file.truncate(random.within(0, file.len())),
        _ => file.push(random.within(0, 65) as u8),
    }
}

/// The largest file that 01 accepts, 6,152 bytes: each byte and each truncation by the reader, some by all calls; of SPP2 every seventh.
fn largest_file(report: &mut Report, edition: Edition) {
    let file = files::deepest().under(edition).file();
    report.same(&file.len(), &6152, || "the largest file".into());
    for place in (0..file.len()).step_by(edition.of([1, 7])) {
        for value in [file[place].wrapping_add(1), 0, 255] {
            let mut damaged = file.clone();
            damaged[place] = value;
            if place % 17 == 0 {
                compare::all_calls(report, &damaged, 3);
            } else {
                compare::read(report, &damaged, [256, 256, 4096]);
            }
        }
        compare::read(report, &file[..place], [256, 256, 4096]);
    }
    let mut longer = file.clone();
    longer.push(1);
    compare::all_calls(report, &longer, 3);
}
