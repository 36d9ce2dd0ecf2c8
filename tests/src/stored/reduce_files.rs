//! The output of crates/reduce_files, which has no input: the paper's examples, two larger files by a rule, and example 1 with lists of
//! other lengths. The files are made here and not read from the program.

use super::line::fields;
use crate::files::{self, Columns};
use crate::plain;

/// A larger file by the program's rule: column j, counted from 0, costs 100 + 7919 j mod 997 and covers at most 2 + j mod 5 rows, each
/// 1 + j mod 7 above the former. Its first row is 1 + stride j, counted around the rows.
fn grown(rows: usize, columns: usize, stride: usize) -> Columns {
    let cost = |column: usize| (100 + column * 7919 % 997) as i32;
    let body = |column: usize| {
        let first = column * stride % rows + 1;
        (first..=rows).step_by(1 + column % 7).take(2 + column % 5).map(|row| row as u8).collect()
    };
    Columns::new(rows as u16, (0..columns).map(cost).collect(), (0..columns).map(body).collect())
}

/// A file reduced into lists of so many places.
fn reduced(file: &[u8], columns: usize, rows: usize) -> String {
    let (mut costs, mut order) = (vec![0; columns], vec![0; rows]);
    let answer = plain::reduce(file, &mut costs, &mut order);
    if answer.refusal != 0 {
        return format!(" refused {}", answer.refusal);
    }
    let order = &order[..answer.used as usize];
    format!(" bound {} by rows{}; costs{}", answer.bound, fields(order), fields(&costs))
}

pub fn remade() -> Result<String, String> {
    let whole = |columns: Columns| reduced(&columns.file(), columns.costs.len(), columns.rows as usize);
    let first = files::example_1().file();
    let lines = [
        ("example 1", whole(files::example_1())),
        ("example 2", whole(files::example_2())),
        ("example 3", whole(files::example_3())),
        ("example 4", whole(files::example_4())),
        ("64 by 256", whole(grown(64, 256, 11))),
        ("40 by 120", whole(grown(40, 120, 7))),
        ("example 1, one cost too few", reduced(&first, 7, 5)),
        ("example 1, one row too few", reduced(&first, 8, 4)),
        ("example 1, longer lists", reduced(&first, 10, 6)),
        ("no file", reduced(&[], 1, 1)),
    ];
    Ok(lines.iter().map(|(name, text)| format!("{name}:{text}\n")).collect())
}
