//! Processor times of repeated runs: other work on the machine counts less in them than in the time on the clock.

use std::hint::black_box;
use std::process::Command;

use crate::runs::Runs;

/// Takes a call's answer, so that the call is not left out.
pub fn keep<T>(answer: T) {
    black_box(answer);
}

/// Seconds and parts of a second, as the system's clocks give them.
#[repr(C)]
struct Time {
    seconds: i64,
    part: i64,
}

/// The system's account of used resources: user time, system time, and numbers that are not read here.
#[repr(C)]
struct Usage {
    user: Time,
    system: Time,
    others: [i64; 30],
}

/// The clock of the calling thread's processor time, by the system's number.
const THREAD_CLOCK: i32 = 3;
/// The account of all child processes that have ended, by the system's number.
const CHILDREN: i32 = -1;

extern "C" {
    fn clock_gettime(clock: i32, time: *mut Time) -> i32;
    fn getrusage(who: i32, usage: *mut Usage) -> i32;
}

/// Processor time of this thread up to now.
fn of_thread() -> f64 {
    let mut time = Time { seconds: 0, part: 0 };
    unsafe { clock_gettime(THREAD_CLOCK, &mut time) };
    time.seconds as f64 + time.part as f64 / 1e9
}

/// Processor time of all child processes up to now.
fn of_children() -> f64 {
    let zero = || Time { seconds: 0, part: 0 };
    let mut usage = Usage { user: zero(), system: zero(), others: [0; 30] };
    unsafe { getrusage(CHILDREN, &mut usage) };
    (usage.user.seconds + usage.system.seconds) as f64 + (usage.user.part + usage.system.part) as f64 / 1e6
}

/// What a run gives, and the seconds of processor time that it takes by a clock.
fn timed<T>(clock: fn() -> f64, run: impl FnOnce() -> T) -> (T, f64) {
    let start = clock();
    let given = run();
    (given, clock() - start)
}

/// What a call gives, and its seconds in this thread.
pub fn call<T>(run: impl FnOnce() -> T) -> (T, f64) {
    timed(of_thread, run)
}

/// What is given by running a child process to its end, and the child's seconds.
pub fn process<T>(run: impl FnOnce() -> T) -> (T, f64) {
    timed(of_children, run)
}

/// The seconds of some runs, each repeated `count` times in turn, so that all meet the same state of the machine. A first run of each is
/// not counted.
pub fn each_in_turn<const RUNS: usize>(count: usize, mut runs: [&mut dyn FnMut(); RUNS]) -> [Runs; RUNS] {
    runs.iter_mut().for_each(|run| run());
    let mut seconds = [(); RUNS].map(|_| Runs::default());
    for _ in 0..count {
        runs.iter_mut().zip(&mut seconds).for_each(|(run, seconds)| seconds.push(call(run).1));
    }
    seconds
}

/// The same for two runs.
pub fn in_turn(count: usize, mut first: impl FnMut(), mut second: impl FnMut()) -> (Runs, Runs) {
    let [first, second] = each_in_turn(count, [&mut first, &mut second]);
    (first, second)
}

/// The seconds of a run repeated `count` times. A first run is not counted.
pub fn repeated(count: usize, mut run: impl FnMut()) -> Runs {
    run();
    Runs::new((0..count).map(|_| call(&mut run).1).collect())
}

/// The first line that a command prints, if it runs.
pub fn first_line(command: &str, words: &[&str]) -> Option<String> {
    let output = Command::new(command).args(words).output().ok()?;
    String::from_utf8_lossy(&output.stdout).lines().next().map(str::to_string)
}
