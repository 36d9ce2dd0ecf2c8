//! What the repository stores against what `spp_tests::stored` works out anew: the outputs of the gate's programs, the tables of the rules
//! and the lines of the samples. In a difference, what is found is stored and what is wanted is worked out; the program `remake` prints it.
//! The samples are searched besides, for the goals whose search takes them.

use spp_tests::files::{self, Columns};
use spp_tests::goal::Goal;
use spp_tests::requests::Requests;
use spp_tests::second::{least_price, least_price_with, Least};
use spp_tests::stored::samples::List;
use spp_tests::stored::search_files::{self, Search};
use spp_tests::stored::tables::{self, Place, Question};
use spp_tests::stored::{input, samples, text, Program, PROGRAMS};

use super::prices;
use crate::compare;
use crate::report::Report;

/// Sets of covered rows that the second solver may hold.
const MOST_SETS: usize = 1_000_000;

/// The node limit of the samples' searches.
const SAMPLE_LIMIT: u32 = 20_000;

pub fn run(report: &mut Report) {
    report.group("stored outputs of the gate's programs, line by line against (a)");
    PROGRAMS.iter().for_each(|program| output(report, program));
    report.group("tables of the rules: stored values against (a), (a) against the engine");
    for table in given(report, tables::tables()).unwrap_or_default() {
        table.places.iter().for_each(|place| table_place(report, table.file, place));
    }
    report.group("samples: what is stated of them against (a), their bytes in the gate's input");
    let searches = given(report, search_files::searches()).unwrap_or_default();
    samples::LISTS.iter().for_each(|list| sample_lines(report, list));
    sample_files(report, &searches);
    sample_searches(report);
    report.group("stored prices against the second solver");
    second_solver(report, &searches);
}

/// What could be read and worked out. A fault is a difference.
fn given<T>(report: &mut Report, result: Result<T, String>) -> Option<T> {
    match result {
        Ok(value) => Some(value),
        Err(fault) => {
            report.holds(false, || fault);
            None
        }
    }
}

fn output(report: &mut Report, program: &Program) {
    let name = program.output();
    let texts = text(&name).and_then(|stored| Ok((stored, program.remade()?)));
    let Some((stored, remade)) = given(report, texts) else { return };
    report.holds(!stored.is_empty(), || format!("{name}: is empty"));
    let (mut stored, mut remade) = (stored.split_inclusive('\n'), remade.split_inclusive('\n'));
    for number in 1.. {
        match (stored.next(), remade.next()) {
            (None, None) => return,
            (stored, remade) => line(report, &format!("{name}, line {number}"), stored, remade),
        }
    }
}

/// A stored line and the one worked out; none where a text has ended. Shown are both from the first word on that differs.
fn line(report: &mut Report, place: &str, stored: Option<&str>, remade: Option<&str>) {
    let words = |line: Option<&str>| line.map_or(Vec::new(), |line| line.split(' ').map(String::from).collect());
    let (stored, remade) = (words(stored), words(remade));
    let equal = stored.iter().zip(&remade).take_while(|(stored, remade)| stored == remade).count();
    let rest = |words: &[String]| words[equal..].join(" ");
    report.same(&rest(&stored), &rest(&remade), || format!("{place}, from word {} on", equal + 1));
}

/// The paper's example of a name.
fn example(name: &str) -> Option<Columns> {
    match name {
        "example1" => Some(files::example_1()),
        "example2" => Some(files::example_2()),
        "example3" => Some(files::example_3()),
        "example4" => Some(files::example_4()),
        "example7" => Some(files::example_7()),
        _ => None,
    }
}

fn table_place(report: &mut Report, file: &str, place: &Place) {
    let Place { name, columns, line, .. } = place;
    report.same(&place.stored, &place.remade(), || format!("{file}, line {line}, {name}"));
    let (bytes, rows) = (columns.file(), columns.rows as usize);
    if let Some(example) = example(name) {
        report.same(&bytes, &example.file(), || format!("{file}: {name} and the paper's example"));
    }
    match &place.question {
        Question::Order => drop(compare::reduce(report, &bytes, [columns.costs.len(), rows])),
        Question::Search { goal, limit, agreed, absent, pairs } => {
            let requests = Requests { agreed, absent, pairs };
            let answer = compare::search_with(report, *goal, &bytes, *limit, requests, rows).0;
            let least = least_price_with(columns, *goal, requests, MOST_SETS);
            prices::compare(report, &answer, least, || format!("second solver, {name}, {requests:?}"));
        }
    }
}

/// Each sample has one line in each list of samples/, and each line is that of a sample.
fn sample_lines(report: &mut Report, list: &List) {
    let read = samples::names().and_then(|names| Ok((names, list.stored()?)));
    let Some((names, stored)) = given(report, read) else { return };
    for name in &names {
        let count = stored.iter().filter(|line| line.name == *name).count();
        report.same(&count, &1, || format!("{}: lines of {name}", list.file));
    }
    for line in &stored {
        if let Some(remade) = given(report, (list.remade)(&line.name)) {
            report.same(&line.text, &remade, || line.place.clone());
        }
    }
}

/// A sample that stands in the gate's input under its name is the same there, the examples are the paper's, and mail.spp is harbour.spp with
/// mail.
fn sample_files(report: &mut Report, searches: &[Search]) {
    let mut in_gate = 0;
    for name in given(report, samples::names()).unwrap_or_default() {
        let Some(file) = given(report, samples::file(&name)) else { continue };
        let front = name.trim_end_matches(".spp");
        for search in searches.iter().filter(|search| search.name == front) {
            report.same(&search.file, &file, || format!("{}: {front} and samples/{name}", search_files::INPUT));
            in_gate += 1;
        }
        if let Some(example) = example(front) {
            report.same(&file, &example.file(), || format!("samples/{name} and the paper's example"));
        }
    }
    report.holds(in_gate > 0, || format!("{}: has no sample", search_files::INPUT));
    if let Some((mail, file)) = given(report, samples::mail().and_then(|mail| Ok((mail, samples::file("mail.spp")?)))) {
        report.same(&file, &mail.file(), || "samples/mail.spp and samples/harbour.spp with mail".into());
    }
}

/// Each sample, searched for both goals; one of SPP2 has no price by the longest duty.
fn sample_searches(report: &mut Report) {
    for name in given(report, samples::names()).unwrap_or_default() {
        let Some(file) = given(report, samples::file(&name)) else { continue };
        for goal in Goal::BOTH {
            report.group_of(goal, "samples: searches against (a) and the second solver");
            let answer = compare::search(report, goal, &file, SAMPLE_LIMIT, 64).0;
            let columns = input::columns(&file).filter(|columns| Goal::of(columns.edition).contains(&goal));
            let least = columns.map_or(Least::Unknown, |columns| least_price(&columns, goal, MOST_SETS));
            prices::compare(report, &answer, least, || format!("samples/{name}"));
        }
    }
}

/// The searches of the gate's input that are not refused.
fn second_solver(report: &mut Report, searches: &[Search]) {
    let (mut accepted, mut known) = (0, 0);
    for search in searches.iter().filter(|search| search.answer.refusal == 0) {
        let Some(columns) = input::columns(&search.file) else { continue };
        let least = least_price(&columns, Goal::Sum, MOST_SETS);
        accepted += 1;
        known += (least != Least::Unknown) as usize;
        prices::compare(report, &search.answer, least, || format!("{}: {}", search_files::INPUT, search.name));
    }
    report.holds(known > 0, || format!("{}: no price is known to the second solver", search_files::INPUT));
    println!("stored searches: {known} of {accepted} prices known to the second solver");
}
