//! The refusals of the running plan (02, P7), with stated numbers: those of the file, then 19 for a column number out of range; and with a
//! refusal the desk stays as it was.

use spp_tests::answers::Step;
use spp_tests::desk::Way;
use spp_tests::edition::Edition;
use spp_tests::files::{self, columns, Columns};
use spp_tests::generate_desk::{any_desk, few_rows, largest};
use spp_tests::generate_earning::in_edition;
use spp_tests::random::Random;

use super::desk_case::{Desks, File};
use super::desk_walks::OUT_OF_RANGE;
use crate::compare::differences;
use crate::report::{hex, Report};

const GROUP: &str = "running plan: refusals of the file, then 19, with the desk as it was";

fn some_files(random: &mut Random, edition: Edition) -> Vec<Columns> {
    let mut files = vec![columns(1, &[(&[1], 5)]), files::example_1(), files::example_4(), largest(random)];
    files.extend((0..4).map(|_| few_rows(random)));
    files.into_iter().map(|columns| in_edition(random, edition, columns)).collect()
}

/// All numbers up to 300, and numbers that are in range in their lowest 8, 16 or 31 bits.
fn column_numbers() -> Vec<u32> {
    (0..=300).chain([512, 513, 65_538, (1 << 24) + 1, 1 << 31]).chain(OUT_OF_RANGE).collect()
}

/// The step has the stated refusal and leaves the desk as it was; for 0 it is not refused.
fn refuses(report: &mut Report, desks: &mut Desks, way: Way, file: &File, column: u32, wanted: u32) {
    let before = *desks.desk();
    let found = desks.step(report, way, file, column);
    report.group(GROUP);
    let what = || format!("{way} duty {column}, {}", hex(&file.bytes));
    if wanted == 0 {
        report.same(&found.refusal, &0, what);
    } else {
        let differing = differences(desks.desk(), &before);
        report.same(&(found, differing), &(Step { refusal: wanted, changed: 0 }, Vec::new()), what);
    }
}

/// Every column number, on the file as it was made: 19 where it is out of range.
fn in_and_out_of_range(report: &mut Report, random: &mut Random, file: &File) {
    for column in column_numbers() {
        for way in Way::BOTH {
            let mut desks = Desks::new(any_desk(random));
            refuses(report, &mut desks, way, file, column, if (1..=file.count()).contains(&column) { 0 } else { 19 });
        }
    }
}

/// A fault of the file with column numbers in range and out of range: the fault shows, and an empty desk is not made.
fn faults(report: &mut Report, random: &mut Random, columns: &Columns) {
    for fault in 1..=9 {
        let file = File::damaged(columns.clone(), fault);
        for column in [1, file.count(), file.count() + 1].into_iter().chain(OUT_OF_RANGE) {
            for way in Way::BOTH {
                let mut desks = Desks::new(any_desk(random));
                refuses(report, &mut desks, way, &file, column, fault);
            }
        }
        let start = any_desk(random);
        let mut desks = Desks::new(start);
        let found = desks.empty(report, &file);
        report.group(GROUP);
        let what = || format!("empty desk, {}", hex(&file.bytes));
        report.same(&(found, differences(desks.desk(), &start)), &(fault, Vec::new()), what);
    }
}

pub fn run(report: &mut Report) {
    let mut random = Random::new(19);
    report.each_edition(|report, edition| {
        for columns in some_files(&mut random, edition) {
            faults(report, &mut random, &columns);
            in_and_out_of_range(report, &mut random, &File::new(columns));
        }
    });
}
