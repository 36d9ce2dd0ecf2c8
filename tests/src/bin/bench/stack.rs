//! How much stack a call needs: it runs on a thread whose stack was filled with a pattern. The table is of the searches on the file with the
//! longest path.

use std::alloc::{alloc, dealloc, Layout};
use std::ffi::c_void;

use spp_tests::files::{self, Columns};
use spp_tests::generate_pairs::MOST_PAIRS;
use spp_tests::goal::Goal;
use spp_tests::requests::Requests;
use spp_tests::{engine, plain};

const SIZE: usize = 64 << 20;
const REPEATS: usize = 3;
const LIMIT: u32 = 1_000_000;
const PATTERN: u64 = 0xA5C3_96F0_1E2D_4B87;

/// Room for the system's thread attributes; 56 bytes on x86-64 Linux.
#[repr(C, align(16))]
struct Attributes([u64; 16]);

type Start = extern "C" fn(*mut c_void) -> *mut c_void;

extern "C" {
    fn pthread_attr_init(attributes: *mut Attributes) -> i32;
    fn pthread_attr_setstack(attributes: *mut Attributes, stack: *mut c_void, size: usize) -> i32;
    fn pthread_attr_destroy(attributes: *mut Attributes) -> i32;
    fn pthread_create(thread: *mut usize, attributes: *const Attributes, start: Start, argument: *mut c_void) -> i32;
    fn pthread_join(thread: usize, result: *mut *mut c_void) -> i32;
}

extern "C" fn nothing(_: *mut c_void) -> *mut c_void {
    std::ptr::null_mut()
}

/// What a thread searches.
struct Task {
    goal: Goal,
    file: Vec<u8>,
    pairs: Vec<u16>,
}

impl Task {
    fn requests(&self) -> Requests<'_> {
        Requests { pairs: &self.pairs, ..Requests::NONE }
    }
}

extern "C" fn search_by_engine(task: *mut c_void) -> *mut c_void {
    let (task, mut plan) = (unsafe { &*(task as *const Task) }, [0; 64]);
    engine::search_with(task.goal, &task.file, LIMIT, task.requests(), &mut plan);
    std::ptr::null_mut()
}

extern "C" fn search_by_plain(task: *mut c_void) -> *mut c_void {
    let (task, mut plan) = (unsafe { &*(task as *const Task) }, [0; 64]);
    plain::search_with(task.goal, &task.file, LIMIT, task.requests(), &mut plan);
    std::ptr::null_mut()
}

/// Bytes of stack that were written to by a thread with this start, which is given the task.
fn used<T>(start: Start, task: &T) -> usize {
    let layout = Layout::from_size_align(SIZE, 4096).expect("a layout in range");
    unsafe {
        let stack = alloc(layout) as *mut u64;
        assert!(!stack.is_null(), "no memory for the stack");
        let words = SIZE / 8;
        (0..words).for_each(|place| stack.add(place).write(PATTERN));
        let (mut attributes, mut thread) = (Attributes([0; 16]), 0);
        let mut failed = pthread_attr_init(&mut attributes);
        failed |= pthread_attr_setstack(&mut attributes, stack as *mut c_void, SIZE);
        failed |= pthread_create(&mut thread, &attributes, start, task as *const T as *mut c_void);
        assert!(failed == 0, "no thread on a stack of its own");
        pthread_join(thread, std::ptr::null_mut());
        pthread_attr_destroy(&mut attributes);
        let untouched = (0..words).take_while(|&place| stack.add(place).read_volatile() == PATTERN).count();
        dealloc(stack as *mut u8, layout);
        SIZE - untouched * 8
    }
}

/// The most stack of some runs beyond what an idle thread uses, and how far the runs differ.
fn most_used<T>(start: Start, task: &T) -> (usize, usize) {
    let runs = [0; REPEATS].map(|_| used(start, task) - used(nothing, task));
    let (least, most) = (runs.into_iter().min().unwrap_or(0), runs.into_iter().max().unwrap_or(0));
    (most, most - least)
}

/// Prints the stack of one call by the engine and by (a).
pub fn of_call<T>(by_engine: Start, by_plain: Start, task: &T) {
    let (engine, differ) = most_used(by_engine, task);
    let (base, base_differ) = most_used(by_plain, task);
    let [engine, base] = [engine, base].map(|bytes| bytes as f64 / 1024.0);
    let most = differ.max(base_differ);
    println!("\nThe most stack written to by one call, less what a thread uses that does nothing: {engine:.0} KiB by the engine, {base:.0} KiB");
    println!("by (a). The largest of {REPEATS} runs of each; the runs of one call differ by {most} bytes at most.\n");
}

/// Prints a line; gives how far its runs differ.
fn line(goal: Goal, name: &str, columns: &Columns, pairs: &[u16]) -> usize {
    let task = Task { goal, file: columns.file(), pairs: pairs.to_vec() };
    let depth = plain::tree_with(goal, &task.file, LIMIT, task.requests()).expect("the file is accepted").deepest;
    let (engine, differ) = most_used(search_by_engine, &task);
    let (base, base_differ) = most_used(search_by_plain, &task);
    let kib = |bytes: usize| bytes as f64 / 1024.0;
    println!("| {name} | {goal} | {depth} | {:.0} | {:.0} | {:.0} |", kib(engine), engine as f64 / depth as f64, kib(base));
    differ.max(base_differ)
}

pub fn table() {
    eprintln!("bench: stack on the longest path");
    println!("## Stack on the longest path\n");
    println!("The most stack written to by one search, less what a thread uses that does nothing.\n");
    println!("| file | goal | nodes on the longest path | engine, KiB | engine, bytes for each node on the path | (a), KiB |");
    println!("|---|---|---|---|---|---|");
    let files = [
        ("one duty", files::columns(1, &[(&[1], 5)]), vec![]),
        ("example 4", files::example_4(), vec![]),
        ("17 sailings, 256 duties of all sailings but one", files::deepest(), vec![]),
        ("the same with 128 pairs", files::deepest(), [255, 256].repeat(MOST_PAIRS)),
    ];
    let both = |(name, columns, pairs): &(&str, Columns, Vec<u16>)| Goal::BOTH.map(|goal| line(goal, name, columns, pairs));
    let most = files.iter().flat_map(both).max().unwrap_or(0);
    println!("\nThe largest of {REPEATS} runs of each; the runs of one search differ by {most} bytes at most.\n");
}
