//! Random walks of a desk over one file each (02, P7): towards plans and away from them, with idle and refused steps. After every step the
//! desk and its reply are compared with a full count and the full plan check of the columns then in.

use std::collections::BTreeSet;

use spp_tests::answers::Step;
use spp_tests::desk::Way;
use spp_tests::edition::Edition;
use spp_tests::files::Columns;
use spp_tests::generate;
use spp_tests::generate_desk;
use spp_tests::generate_earning::in_edition;
use spp_tests::goal::Goal;
use spp_tests::plain;
use spp_tests::random::Random;
use spp_tests::requests::Requests;

use super::desk_case::{Desks, File};
use crate::report::{hex, Report};

/// Column numbers that no file has.
pub const OUT_OF_RANGE: [u32; 7] = [0, 257, 65_536, 65_537, (1 << 31) + 1, u32::MAX - 255, u32::MAX];

/// Plans of a file are looked for with so many columns agreed, one after another, and this node limit.
const TRIES: usize = 10;
const LIMIT: u32 = 200;

/// A kind of generated files, and the walks over them.
struct Kind {
    name: &'static str,
    make: fn(&mut Random) -> Columns,
    /// Files of SPP1, and of SPP2.
    files: [usize; 2],
    steps: usize,
}

fn kinds() -> Vec<Kind> {
    let kind = |name, make, files, steps| Kind { name, make, files, steps };
    vec![
        kind("tiny", generate::tiny, [300, 100], 200),
        kind("small", generate::small, [40, 12], 1000),
        kind("few sailings", generate_desk::few_rows, [20, 6], 1000),
        kind("ferry", generate::ferry, [6, 2], 3000),
        kind("dense", generate::dense, [6, 5], 3000),
        kind("the largest ferry files", generate::large_ferry, [3, 1], 4000),
        kind("256 duties of one sailing", generate_desk::single_rows, [3, 1], 4000),
        kind("64 duties of all sailings", generate_desk::all_rows, [3, 1], 2000),
        kind("the largest files", generate_desk::largest, [3, 1], 5000),
    ]
}

/// How often each came up in the walks of a kind.
#[derive(Default)]
struct Totals {
    changed: usize,
    idle: usize,
    refused: usize,
    /// Steps after which the columns in are a plan, and before which they were none; and the converse.
    met: usize,
    left: usize,
}

impl Totals {
    fn count(&mut self, step: &Step, was_plan: bool, is_plan: bool) {
        self.changed += (step.changed != 0) as usize;
        self.idle += (step.refusal == 0 && step.changed == 0) as usize;
        self.refused += (step.refusal != 0) as usize;
        self.met += (is_plan && !was_plan) as usize;
        self.left += (was_plan && !is_plan) as usize;
    }

    fn finish(&self, report: &mut Report, name: &'static str) {
        let Totals { changed, idle, refused, met, left } = *self;
        println!("  {name:<26} {changed:>6} changes, {idle:>5} idle, {refused:>5} refused; plans met {met:>4} times, left {left:>4} times");
        report.group("running plan over one file: plans are met and left, and idle and refused steps occur");
        for number in [changed, idle, refused, met, left] {
            report.holds(number >= 20, || format!("{name}: {number}, at least 20 of each"));
        }
    }
}

/// Plans of a file, some of them more than once.
fn some_plans(random: &mut Random, file: &File) -> Vec<BTreeSet<u16>> {
    let mut plans = Vec::new();
    for _ in 0..TRIES {
        let (agreed, mut plan) = ([random.within(1, file.count() as usize) as u16], [0; 64]);
        let requests = Requests { agreed: &agreed, ..Requests::NONE };
        let answer = plain::search_with(Goal::Sum, &file.bytes, LIMIT, requests, &mut plan);
        plans.extend((answer.has_plan != 0).then(|| plan[..answer.columns as usize].iter().copied().collect()));
    }
    plans
}

/// A walk over one file.
struct Walk {
    /// The file, and behind it the same with a fault of each refusal.
    files: Vec<File>,
    plans: Vec<BTreeSet<u16>>,
    /// The place of the plan that the walk goes towards.
    towards: usize,
    /// The columns in, kept here alone.
    columns: BTreeSet<u16>,
    random: Random,
}

impl Walk {
    fn new(columns: &Columns, mut random: Random) -> Walk {
        let files: Vec<File> = (0..=9).map(|fault| File::damaged(columns.clone(), fault)).collect();
        let plans = some_plans(&mut random, &files[0]);
        Walk { files, plans, towards: 0, columns: BTreeSet::new(), random }
    }

    fn any_column(&mut self) -> u16 {
        self.random.within(1, self.files[0].count() as usize) as u16
    }

    /// A column that is in and not in the plan that the walk goes towards, or the converse. Where there is none, the walk takes another
    /// plan, and the column is any.
    fn next_column(&mut self) -> u16 {
        let Some(plan) = self.plans.get(self.towards) else { return self.any_column() };
        let differing: Vec<u16> = plan.symmetric_difference(&self.columns).copied().collect();
        if differing.is_empty() {
            self.towards = self.random.within(0, self.plans.len() - 1);
            return self.any_column();
        }
        differing[self.random.within(0, differing.len() - 1)]
    }

    /// A number that no file has, or the one behind the file's last.
    fn out_of_range(&mut self) -> u32 {
        let place = self.random.within(0, OUT_OF_RANGE.len());
        OUT_OF_RANGE.get(place).copied().unwrap_or(self.files[0].count() + 1)
    }

    /// The next step, and the place of its file: most lead towards a plan, some anywhere, some change nothing, and some are refused.
    fn next_step(&mut self) -> (Way, usize, u32) {
        let (chance, any_way) = (self.random.within(1, 100), Way::BOTH[self.random.within(0, 1)]);
        let column = if chance <= 30 { self.any_column() } else { self.next_column() };
        match chance {
            1..=4 => (any_way, 0, self.out_of_range()),
            5..=7 => (any_way, self.random.within(1, 9), self.out_of_range()),
            8..=10 => (any_way, self.random.within(1, 9), column.into()),
            11..=20 => (any_way, 0, column.into()),
            _ if self.columns.contains(&column) => (Way::Remove, 0, column.into()),
            _ => (Way::Add, 0, column.into()),
        }
    }

    /// The answer that a step must have. A step that is not refused is made on the columns kept here.
    fn wanted(&mut self, way: Way, fault: usize, column: u32) -> Step {
        if fault > 0 {
            return Step { refusal: fault as u32, changed: 0 };
        }
        if column == 0 || column > self.files[0].count() {
            return Step { refusal: 19, changed: 0 };
        }
        let changed = match way {
            Way::Add => self.columns.insert(column as u16),
            Way::Remove => self.columns.remove(&(column as u16)),
        };
        Step { refusal: 0, changed: changed.into() }
    }

    fn step(&mut self, report: &mut Report, desks: &mut Desks) -> Step {
        let (way, fault, column) = self.next_step();
        let wanted = self.wanted(way, fault, column);
        let file = &self.files[fault];
        let found = desks.step(report, way, file, column);
        report.group("running plan over one file: stated answers of steps");
        report.same(&found, &wanted, || format!("{way} duty {column}, {}", hex(&file.bytes)));
        found
    }

    fn go(&mut self, report: &mut Report, steps: usize, totals: &mut Totals) {
        let mut desks = Desks::over(report, &self.files[0]);
        desks.holds(report, &self.files[0], &[]);
        let mut was_plan = false;
        for _ in 0..steps {
            let step = self.step(report, &mut desks);
            let columns: Vec<u16> = self.columns.iter().copied().collect();
            let is_plan = desks.holds(report, &self.files[0], &columns).is_plan != 0;
            totals.count(&step, was_plan, is_plan);
            was_plan = is_plan;
        }
    }
}

pub fn run(report: &mut Report) {
    report.each_edition(|report, edition| {
        println!("walks of the running plan over one file each, {edition}:");
        for (seed, kind) in (2026..).zip(&kinds()) {
            one_kind(report, kind, edition, Random::new(seed));
        }
    });
}

fn one_kind(report: &mut Report, kind: &Kind, edition: Edition, mut random: Random) {
    let mut totals = Totals::default();
    for _ in 0..edition.of(kind.files) {
        let made = (kind.make)(&mut random);
        let columns = in_edition(&mut random, edition, made);
        Walk::new(&columns, Random::new(random.number())).go(report, kind.steps, &mut totals);
    }
    totals.finish(report, kind.name);
}
