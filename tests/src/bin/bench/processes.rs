//! Solves as processes of their own: the engine, which is this program again, and other solvers.

use std::fs;
use std::path::{Path, PathBuf};
use std::process::{Command, Stdio};

use spp_tests::engine;
use spp_tests::goal::Goal;

use crate::measure;
use crate::model::model;
use crate::nodes::Sample;
use crate::others::Solver;

/// The files of a folder.
const DUTIES: &str = "duties.spp";
const MODEL: &str = "model.lp";

/// The engine as a process: reads a file, searches, prints the price and the seconds of the call.
pub fn solve(name: &str) {
    let file = fs::read(name).expect("the file can be read");
    let mut plan = [0; 64];
    let (answer, seconds) = measure::call(|| engine::search(Goal::Sum, &file, 1_000_000, &mut plan));
    println!("{} {seconds}", answer.price);
}

/// Runs a process to its end, with its output in a file.
fn run(command: &str, words: &[String], output: &Path) {
    let output = fs::File::create(output).expect("a file for the output");
    let errors = output.try_clone().expect("a second handle");
    let status = Command::new(command).args(words).stdin(Stdio::null()).stdout(output).stderr(errors).status();
    status.expect("the process starts");
}

/// A folder of this process for models and answers; removed at the end.
pub struct Folder(PathBuf);

impl Folder {
    pub fn new() -> Folder {
        let path = std::env::temp_dir().join(format!("spp-bench-{}", std::process::id()));
        fs::create_dir_all(&path).expect("a temporary folder");
        Folder(path)
    }

    fn file(&self, name: &str) -> String {
        self.0.join(name).to_str().expect("the folder's path is text").to_string()
    }

    /// Writes a sample as a duty file and as a model.
    pub fn put(&self, sample: &Sample) {
        fs::write(self.file(DUTIES), &sample.file).expect("the duty file is written");
        fs::write(self.file(MODEL), model(&sample.columns)).expect("the model is written");
    }
}

impl Drop for Folder {
    fn drop(&mut self) {
        fs::remove_dir_all(&self.0).ok();
    }
}

/// A process of the engine: its price, the seconds of the call in it, and those of the whole process.
pub fn by_engine(folder: &Folder) -> (f64, f64, f64) {
    let program = std::env::current_exe().expect("the program's path is known");
    let program = program.to_str().expect("the program's path is text");
    let output = folder.0.join("engine.output");
    let seconds = measure::process(|| run(program, &["solve".to_string(), folder.file(DUTIES)], &output)).1;
    let text = fs::read_to_string(&output).expect("the engine's output");
    let numbers: Vec<f64> = text.split_whitespace().filter_map(|word| word.parse().ok()).collect();
    (numbers[0], numbers[1], seconds)
}

/// A process of another solver: its price, if it came to its end, and its seconds.
pub fn by_other(solver: &Solver, folder: &Folder) -> (Option<f64>, f64) {
    let answer = folder.file(&format!("{}.answer", solver.command));
    let words = (solver.words)(&folder.file(MODEL), &answer);
    let output = folder.0.join(format!("{}.output", solver.command));
    fs::remove_file(&answer).ok();
    let seconds = measure::process(|| run(solver.command, &words, &output)).1;
    (fs::read_to_string(&answer).ok().and_then(|text| (solver.price)(&text)), seconds)
}
