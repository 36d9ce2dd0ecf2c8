//! A desk that the engine, (a) and the second implementation keep at once (02, P7), and the files that it is stepped over.

use spp_tests::answers::{Reply, Step};
use spp_tests::desk::{Desk, Way};
use spp_tests::files::Columns;
use spp_tests::plain::{counted, Recount};
use spp_tests::second_desk::Running;

use crate::compare::{self, differences};
use crate::report::{hex, Report};

/// Columns, and the bytes of their file, into which a fault with this refusal was put, 0 for none.
pub struct File {
    pub columns: Columns,
    pub bytes: Vec<u8>,
    fault: u32,
}

impl File {
    pub fn new(columns: Columns) -> File {
        File::damaged(columns, 0)
    }

    pub fn damaged(columns: Columns, fault: u32) -> File {
        File { bytes: columns.damaged(fault), columns, fault }
    }

    /// The number of columns, which is the largest number of one.
    pub fn count(&self) -> u32 {
        self.columns.costs.len() as u32
    }
}

/// The same desk, three times.
pub struct Desks {
    engine: Desk,
    recount: Recount,
    running: Running,
}

impl Desks {
    /// A desk of any numbers.
    pub fn new(start: Desk) -> Desks {
        Desks { engine: start, recount: Recount::new(start), running: Running::new(&start) }
    }

    /// A desk that was made over a file without a fault. Before that it held a pattern.
    pub fn over(report: &mut Report, file: &File) -> Desks {
        let mut desks = Desks::new(Desk { marks: [7; 256], covered: [1; 64], off: 0, total: -9 });
        let refusal = desks.empty(report, file);
        report.same(&refusal, &0, || format!("a desk is made, {}", hex(&file.bytes)));
        desks
    }

    /// The engine's.
    pub fn desk(&self) -> &Desk {
        &self.engine
    }

    pub fn empty(&mut self, report: &mut Report, file: &File) -> u32 {
        report.group("running plan: empty desks, all places of the desk against (a) and the second implementation");
        let found = compare::desk_empty(report, &file.bytes, &mut self.engine, &mut self.recount);
        let wanted = self.running.empty(&file.columns, file.fault);
        let what = || format!("second implementation, empty desk, {}", hex(&file.bytes));
        report.same(&(found, self.differing()), &(wanted, Vec::new()), what);
        found
    }

    pub fn step(&mut self, report: &mut Report, way: Way, file: &File, column: u32) -> Step {
        report.group("running plan: steps, the answer and all places of the desk against (a)");
        let found = compare::desk_step(report, way, &file.bytes, column, &mut self.engine, &mut self.recount);
        report.group("running plan: steps, the answer and all places of the desk against the second implementation");
        let wanted = self.running.step(way, &file.columns, file.fault, column);
        let what = || format!("second implementation, {way} duty {column}, {}", hex(&file.bytes));
        report.same(&(found, self.differing()), &(wanted, Vec::new()), what);
        found
    }

    pub fn reply(&self, report: &mut Report) -> Reply {
        report.group("running plan: replies against (a) and the second implementation");
        let found = compare::desk_reply(report, &self.engine, &self.recount);
        let Desk { off, total, .. } = self.engine;
        report.same(&found, &self.running.reply(), || {
            format!("second implementation, reply with {off} sailings off, total {total}")
        });
        found
    }

    /// Where the engine's desk differs from the second implementation's.
    fn differing(&self) -> Vec<String> {
        differences(&self.engine, &self.running.desk())
    }

    /// The desk and its reply after steps over one file alone, against these columns, rising: a count of them, and the engine's and (a)'s
    /// full plan check.
    pub fn holds(&self, report: &mut Report, file: &File, columns: &[u16]) -> Reply {
        let reply = self.reply(report);
        report.group("running plan over one file: all places of the desk against a count of the duties in");
        let wanted = counted(&file.bytes, columns).expect("the file is accepted");
        let what = || format!("duties {columns:?} in, {}", hex(&file.bytes));
        report.same(&differences(&self.engine, &wanted), &Vec::new(), what);
        report.group("running plan over one file: replies against the full plan check of the duties in, the engine's and (a)'s");
        let checked = compare::check(report, &file.bytes, columns);
        report.same(&(reply.is_plan, reply.price as i64), &(checked.is_plan, checked.price), what);
        reply
    }
}
