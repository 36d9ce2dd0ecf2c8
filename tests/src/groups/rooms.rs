//! Lent lists too short by one, exact and longer; and the writers' refusals.

use spp_tests::edition::Edition;
use spp_tests::files::{self, columns, Columns};
use spp_tests::generate;
use spp_tests::generate_earning::in_edition;
use spp_tests::goal::Goal;
use spp_tests::random::Random;

use super::damaged::COSTS;
use crate::compare::{self, Lists};
use crate::report::{hex, Report};

fn some_files(edition: Edition) -> Vec<Columns> {
    let mut random = Random::new(3);
    let mut files = vec![
        columns(1, &[(&[1], 5)]),
        columns(2, &[(&[1], 3)]),
        files::example_1(),
        files::example_2(),
        files::example_3(),
        files::example_4(),
        files::deepest(),
    ];
    files.extend((0..30).map(|_| generate::small(&mut random)));
    files.extend((0..10).map(|_| generate::ferry(&mut random)));
    files.into_iter().map(|columns| in_edition(&mut random, edition, columns)).collect()
}

/// Lengths about the one that is needed.
fn about(needed: usize) -> Vec<usize> {
    let mut rooms = vec![0, needed.saturating_sub(2), needed - 1, needed, needed + 1, needed + 40];
    rooms.dedup();
    rooms
}

pub fn run(report: &mut Report) {
    report.each_edition(|report, edition| {
        for columns in some_files(edition) {
            let file = columns.file();
            report.group("lists too short by one, exact and longer");
            reader(report, &columns, &file);
            reducing(report, &columns, &file);
            searches(report, &columns, &file);
            report.group("writer: refusals");
            writer(report, &columns, &file);
        }
        writer_faults(report, edition);
        offered_faults(report, edition);
    });
}

/// The refusal for a room: 10 where it is below what is needed.
fn refusal(room: usize, needed: usize) -> u32 {
    if room < needed {
        10
    } else {
        0
    }
}

fn reader(report: &mut Report, columns: &Columns, file: &[u8]) {
    let needed = [columns.costs.len(), columns.costs.len(), columns.entries()];
    for list in 0..3 {
        for room in about(needed[list]) {
            let mut rooms = needed;
            rooms[list] = room;
            let found = compare::read(report, file, rooms).0;
            report.same(&found.refusal, &refusal(room, needed[list]), || hex(file));
        }
    }
}

/// An SPP2 file comes before a short list.
fn reducing(report: &mut Report, columns: &Columns, file: &[u8]) {
    let (n, m) = (columns.costs.len(), columns.rows as usize);
    let wanted = |room, needed| columns.edition.of([refusal(room, needed), 1]);
    for room in about(n) {
        let found = compare::reduce(report, file, [room, m]).0;
        report.same(&found.refusal, &wanted(room, n), || hex(file));
    }
    for room in about(m) {
        let found = compare::reduce(report, file, [n, room]).0;
        report.same(&found.refusal, &wanted(room, m), || hex(file));
    }
}

fn searches(report: &mut Report, columns: &Columns, file: &[u8]) {
    let m = columns.rows as usize;
    for room in about(m) {
        for &goal in Goal::of(columns.edition) {
            let found = compare::search(report, goal, file, 500, room).0;
            report.same(&found.refusal, &refusal(room, m), || hex(file));
            // A short list comes before a node limit out of range.
            let found = compare::search(report, goal, file, 0, room).0;
            report.same(&found.refusal, &if room < m { 10 } else { 11 }, || hex(file));
        }
    }
}

pub fn lists_of(columns: &Columns) -> Lists {
    let Columns { edition, rows, ref costs, .. } = *columns;
    Lists { edition, rows, costs: costs.clone(), lengths: columns.lengths(), numbers: columns.numbers() }
}

fn writer(report: &mut Report, columns: &Columns, file: &[u8]) {
    let lists = lists_of(columns);
    for room in about(file.len()) {
        let found = compare::write(report, &lists, room).0;
        report.same(&found.refusal, &refusal(room, file.len()), || hex(file));
    }
    for rows in [0, 1, 64, 65, 256, 65_535] {
        compare::write(report, &Lists { rows, ..lists_of(columns) }, file.len());
    }
}

/// Random faults in the writer's lists, one to three at once.
fn writer_faults(report: &mut Report, edition: Edition) {
    report.group("writer: refusals");
    let mut random = Random::new(13);
    for _ in 0..edition.of([20_000, 8000]) {
        let made = generate::small(&mut random);
        let columns = in_edition(&mut random, edition, made);
        let mut lists = lists_of(&columns);
        for _ in 0..random.within(1, 3) {
            writer_fault(&mut random, &mut lists);
        }
        let room = 8 + 8 * lists.costs.len() + lists.numbers.len();
        let room = if random.chance(20) { room - 1 } else { room };
        compare::write(report, &lists, room);
    }
    // 4,097 entries; 257 columns; none.
    for (count, length) in [(257, 1), (256, 17), (0, 1)] {
        let numbers = (0..count).flat_map(|_| 1..=length as u8).collect();
        let lists = Lists { edition, rows: 17, costs: vec![9; count], lengths: vec![length; count], numbers };
        compare::write(report, &lists, 8000);
    }
}

fn writer_fault(random: &mut Random, lists: &mut Lists) {
    let column = random.within(0, lists.costs.len() - 1);
    match random.within(0, 10) {
        0 => lists.costs[column] = COSTS[random.within(0, COSTS.len() - 1)],
        1 if column < lists.lengths.len() => lists.lengths[column] = [0, 1, 65, 4096, 65_535][random.within(0, 4)],
        2 if column < lists.lengths.len() => lists.lengths[column] = lists.rows + random.within(0, 1) as u16,
        3 => lists.lengths.push(1),
        4 => drop(lists.lengths.pop()),
        5 => lists.numbers.push(1),
        6 => drop(lists.numbers.pop()),
        7 | 8 if !lists.numbers.is_empty() => {
            let place = random.within(0, lists.numbers.len() - 1);
            lists.numbers[place] = [0, 1, lists.rows as u8, lists.rows as u8 + 1, 255][random.within(0, 4)];
        }
        9 => lists.rows = [0, 1, lists.rows + 1, 64, 65][random.within(0, 4)],
        _ => lists.costs.push(5),
    }
}

/// Offered lists that are out of range or do not rise, with the stated refusal.
fn offered_faults(report: &mut Report, edition: Edition) {
    report.group("plan check: refusals");
    let file = files::example_4().under(edition).file();
    let faulty: [&[u16]; 8] = [&[0], &[11], &[3, 3], &[6, 3, 9], &[3, 6, 9, 9], &[3, 6, 65_535], &[0, 3, 6, 9], &[256 + 3]];
    for offered in faulty {
        let found = compare::check(report, &file, offered);
        report.same(&found.refusal, &12, || format!("{offered:?}"));
    }
    let long: Vec<u16> = (1..=300).collect();
    let found = compare::check(report, &file, &long);
    report.same(&found.refusal, &12, || "a list longer than n".into());
    let whole: Vec<u16> = (1..=10).collect();
    let found = compare::check(report, &file, &whole);
    report.same(&(found.refusal, found.is_plan, found.row, found.covered), &(0, 0, 1, 2), || "all columns".into());
    // A damaged file comes before a faulty list.
    let found = compare::check(report, &file[..file.len() - 1], &[0]);
    report.same(&found.refusal, &8, || "a damaged file and a faulty list".into());
}
