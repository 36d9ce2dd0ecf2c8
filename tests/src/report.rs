//! Counts what is compared, and prints differences.

use std::fmt::Debug;

use spp_tests::edition::Edition;
use spp_tests::goal::Goal;

/// Differences that are printed; further ones are only counted.
const MOST_PRINTED: usize = 20;

/// Cases that are counted together.
struct Group {
    name: &'static str,
    /// The goal, where each goal has a count of its own.
    goal: Option<Goal>,
    edition: Edition,
    cases: usize,
}

impl Group {
    fn title(&self) -> String {
        let title = self.goal.map_or(self.name.into(), |goal| format!("{} ({goal})", self.name));
        match self.edition {
            Edition::One => title,
            Edition::Two => format!("{}: {title}", self.edition),
        }
    }
}

pub struct Report {
    groups: Vec<Group>,
    current: usize,
    edition: Edition,
    differences: usize,
}

impl Report {
    pub fn new() -> Report {
        Report { groups: Vec::new(), current: 0, edition: Edition::One, differences: 0 }
    }

    /// Runs cases of each edition; each edition has counts of its own.
    pub fn each_edition(&mut self, mut cases: impl FnMut(&mut Report, Edition)) {
        Edition::BOTH.into_iter().for_each(|edition| self.of_edition(edition, |report| cases(report, edition)));
    }

    /// The same for one edition.
    pub fn of_edition(&mut self, edition: Edition, cases: impl FnOnce(&mut Report)) {
        let former = std::mem::replace(&mut self.edition, edition);
        cases(self);
        self.edition = former;
    }

    /// Starts or resumes a group; what is compared next counts there.
    pub fn group(&mut self, name: &'static str) {
        self.resume(name, None);
    }

    /// The same, for a goal.
    pub fn group_of(&mut self, goal: Goal, name: &'static str) {
        self.resume(name, Some(goal));
    }

    fn resume(&mut self, name: &'static str, goal: Option<Goal>) {
        let edition = self.edition;
        let place = self.groups.iter().position(|group| (group.name, group.goal, group.edition) == (name, goal, edition));
        self.current = place.unwrap_or(self.groups.len());
        if place.is_none() {
            self.groups.push(Group { name, goal, edition, cases: 0 });
        }
    }

    /// One case: the two values must be equal.
    pub fn same<T: PartialEq + Debug>(&mut self, found: &T, wanted: &T, what: impl FnOnce() -> String) {
        let group = &mut self.groups[self.current];
        group.cases += 1;
        if found == wanted {
            return;
        }
        self.differences += 1;
        if self.differences <= MOST_PRINTED {
            println!("DIFFERENCE in {}: {}\n  found  {}\n  wanted {}", group.title(), what(), shown(found), shown(wanted));
        }
    }

    /// One case: the condition must hold.
    pub fn holds(&mut self, condition: bool, what: impl FnOnce() -> String) {
        self.same(&condition, &true, what);
    }

    /// Prints the counts; true if nothing differs.
    pub fn finish(&self) -> bool {
        for group in &self.groups {
            println!("{:>9}  {}", group.cases, group.title());
        }
        let total: usize = self.groups.iter().map(|group| group.cases).sum();
        println!("{total:>9}  cases compared in total, {} differences", self.differences);
        self.differences == 0
    }
}

/// A value as text, cut where it is long.
fn shown(value: &impl Debug) -> String {
    let text = format!("{value:?}");
    let cut = text.get(..600).map(|front| format!("{front}.."));
    cut.unwrap_or(text)
}

/// A file as hexadecimal text, for a printed difference.
pub fn hex(file: &[u8]) -> String {
    let shown: String = file.iter().take(400).map(|byte| format!("{byte:02x}")).collect();
    format!("file of {} bytes {shown}{}", file.len(), if file.len() > 400 { ".." } else { "" })
}
