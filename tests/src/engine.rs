//! The static library's calls on slices. Slices are never null and a `&mut` slice overlaps no other, which is what the library asks.

use crate::answers::{Answer, Assigned, Checked, Reduced, Reply, Shape, Step, Uncrewed, Written};
use crate::desk::{Desk, Way};
use crate::edition::Edition;
use crate::goal::Goal;
use crate::requests::Requests;
use crate::table::Costs;

extern "C" {
    fn spp_core_read(
        file: *const u8,
        file_count: usize,
        costs: *mut i32,
        cost_count: usize,
        lengths: *mut u16,
        length_count: usize,
        rows: *mut u8,
        row_count: usize,
    ) -> Shape;
    fn spp_core_write(
        rows: u16,
        costs: *const i32,
        cost_count: usize,
        lengths: *const u16,
        length_count: usize,
        row_numbers: *const u8,
        row_count: usize,
        out: *mut u8,
        out_count: usize,
    ) -> Written;
    fn spp_core_write2(
        rows: u16,
        costs: *const i32,
        cost_count: usize,
        lengths: *const u16,
        length_count: usize,
        row_numbers: *const u8,
        row_count: usize,
        out: *mut u8,
        out_count: usize,
    ) -> Written;
    fn spp_core_check(file: *const u8, file_count: usize, columns: *const u16, column_count: usize) -> Checked;
    fn spp_core_reduce(
        file: *const u8,
        file_count: usize,
        reduced: *mut i32,
        reduced_count: usize,
        order: *mut u8,
        order_count: usize,
    ) -> Reduced;
    fn spp_core_search(
        file: *const u8,
        file_count: usize,
        node_limit: u32,
        agreed: *const u16,
        agreed_count: usize,
        absent: *const u16,
        absent_count: usize,
        pairs: *const u16,
        pair_count: usize,
        plan: *mut u16,
        plan_count: usize,
    ) -> Answer;
    fn spp_core_longest(
        file: *const u8,
        file_count: usize,
        node_limit: u32,
        agreed: *const u16,
        agreed_count: usize,
        absent: *const u16,
        absent_count: usize,
        pairs: *const u16,
        pair_count: usize,
        plan: *mut u16,
        plan_count: usize,
    ) -> Answer;
    fn spp_core_assign(crews: usize, vessels: usize, table: *const u32, answer: *mut u8, answer_count: usize) -> Assigned;
    fn spp_core_uncrewed(file: *const u8, file_count: usize, node_limit: u32, shown: *mut u16, shown_count: usize) -> Uncrewed;
    fn spp_core_desk_empty(
        file: *const u8,
        file_count: usize,
        marks: *mut u8,
        covered: *mut u32,
        off: *mut u32,
        total: *mut i32,
    ) -> u32;
    fn spp_core_desk_add(
        file: *const u8,
        file_count: usize,
        column: u32,
        marks: *mut u8,
        covered: *mut u32,
        off: *mut u32,
        total: *mut i32,
    ) -> Step;
    fn spp_core_desk_remove(
        file: *const u8,
        file_count: usize,
        column: u32,
        marks: *mut u8,
        covered: *mut u32,
        off: *mut u32,
        total: *mut i32,
    ) -> Step;
    fn spp_core_desk_reply(off: u32, total: i32) -> Reply;
}

pub fn read(file: &[u8], costs: &mut [i32], lengths: &mut [u16], numbers: &mut [u8]) -> Shape {
    unsafe {
        spp_core_read(
            file.as_ptr(),
            file.len(),
            costs.as_mut_ptr(),
            costs.len(),
            lengths.as_mut_ptr(),
            lengths.len(),
            numbers.as_mut_ptr(),
            numbers.len(),
        )
    }
}

/// The writer of an edition.
pub fn write(edition: Edition, rows: u16, costs: &[i32], lengths: &[u16], numbers: &[u8], out: &mut [u8]) -> Written {
    let call = match edition {
        Edition::One => spp_core_write,
        Edition::Two => spp_core_write2,
    };
    unsafe {
        call(
            rows,
            costs.as_ptr(),
            costs.len(),
            lengths.as_ptr(),
            lengths.len(),
            numbers.as_ptr(),
            numbers.len(),
            out.as_mut_ptr(),
            out.len(),
        )
    }
}

pub fn check(file: &[u8], offered: &[u16]) -> Checked {
    unsafe { spp_core_check(file.as_ptr(), file.len(), offered.as_ptr(), offered.len()) }
}

pub fn reduce(file: &[u8], reduced: &mut [i32], order: &mut [u8]) -> Reduced {
    unsafe { spp_core_reduce(file.as_ptr(), file.len(), reduced.as_mut_ptr(), reduced.len(), order.as_mut_ptr(), order.len()) }
}

/// The search for a goal, with empty lists.
pub fn search(goal: Goal, file: &[u8], limit: u32, plan: &mut [u16]) -> Answer {
    search_with(goal, file, limit, Requests::NONE, plan)
}

pub fn search_with(goal: Goal, file: &[u8], limit: u32, requests: Requests, plan: &mut [u16]) -> Answer {
    let call = match goal {
        Goal::Sum => spp_core_search,
        Goal::Longest => spp_core_longest,
    };
    let Requests { agreed, absent, pairs } = requests;
    unsafe {
        call(
            file.as_ptr(),
            file.len(),
            limit,
            agreed.as_ptr(),
            agreed.len(),
            absent.as_ptr(),
            absent.len(),
            pairs.as_ptr(),
            pairs.len(),
            plan.as_mut_ptr(),
            plan.len(),
        )
    }
}

pub fn assign(crews: usize, vessels: usize, costs: &Costs, answer: &mut [u8]) -> Assigned {
    unsafe { spp_core_assign(crews, vessels, costs.as_ptr(), answer.as_mut_ptr(), answer.len()) }
}

pub fn uncrewed(file: &[u8], limit: u32, shown: &mut [u16]) -> Uncrewed {
    unsafe { spp_core_uncrewed(file.as_ptr(), file.len(), limit, shown.as_mut_ptr(), shown.len()) }
}

/// Makes an empty desk; gives the refusal.
pub fn desk_empty(file: &[u8], desk: &mut Desk) -> u32 {
    let Desk { marks, covered, off, total } = desk;
    unsafe { spp_core_desk_empty(file.as_ptr(), file.len(), marks.as_mut_ptr(), covered.as_mut_ptr(), off, total) }
}

pub fn desk_step(way: Way, file: &[u8], column: u32, desk: &mut Desk) -> Step {
    let call = match way {
        Way::Add => spp_core_desk_add,
        Way::Remove => spp_core_desk_remove,
    };
    let Desk { marks, covered, off, total } = desk;
    unsafe { call(file.as_ptr(), file.len(), column, marks.as_mut_ptr(), covered.as_mut_ptr(), off, total) }
}

pub fn desk_reply(off: u32, total: i32) -> Reply {
    unsafe { spp_core_desk_reply(off, total) }
}
