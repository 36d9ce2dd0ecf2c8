//! The answers of the calls, as in include/spp.h. Fields that a case does not use are 0.

/// Values of `Answer::outcome` and, but for `STOPPED`, of `Assigned::outcome`.
pub const BEST: u32 = 1;
pub const NONE: u32 = 2;
pub const STOPPED: u32 = 3;

/// Values of `Uncrewed::outcome`, with `STOPPED` as the third.
pub const NO_CREW: u32 = 1;
pub const PLAN_EXISTS: u32 = 2;

/// What the reader found.
#[repr(C)]
#[derive(Clone, Copy, Debug, Default, PartialEq, Eq)]
pub struct Shape {
    pub refusal: u32,
    pub rows: u32,
    pub columns: u32,
    pub entries: u32,
    /// 1 or 2; 0 with a refusal.
    pub edition: u32,
}

/// What the writer wrote.
#[repr(C)]
#[derive(Clone, Copy, Debug, Default, PartialEq, Eq)]
pub struct Written {
    pub refusal: u32,
    pub length: u32,
}

/// What the plan check found.
#[repr(C)]
#[derive(Clone, Copy, Debug, Default, PartialEq, Eq)]
pub struct Checked {
    pub refusal: u32,
    pub is_plan: u32,
    pub row: u32,
    pub covered: u32,
    pub price: i64,
}

/// What reducing gave.
#[repr(C)]
#[derive(Clone, Copy, Debug, Default, PartialEq, Eq)]
pub struct Reduced {
    pub refusal: u32,
    pub used: u32,
    pub bound: i64,
}

/// What a search answers.
#[repr(C)]
#[derive(Clone, Copy, Debug, Default, PartialEq, Eq)]
pub struct Answer {
    pub refusal: u32,
    pub outcome: u32,
    pub has_plan: u32,
    pub columns: u32,
    pub nodes: u32,
    pub price: i64,
    pub bound: i64,
}

/// What an assignment of crews to vessels answers.
#[repr(C)]
#[derive(Clone, Copy, Debug, Default, PartialEq, Eq)]
pub struct Assigned {
    pub refusal: u32,
    pub outcome: u32,
    pub total: u64,
}

/// Up to which row the rows cannot be covered.
#[repr(C)]
#[derive(Clone, Copy, Debug, Default, PartialEq, Eq)]
pub struct Uncrewed {
    pub refusal: u32,
    pub outcome: u32,
    pub row: u32,
    pub columns: u32,
}

/// What a step of a desk came to.
#[repr(C)]
#[derive(Clone, Copy, Debug, Default, PartialEq, Eq)]
pub struct Step {
    pub refusal: u32,
    pub changed: u32,
}

/// What a desk replies.
#[repr(C)]
#[derive(Clone, Copy, Debug, Default, PartialEq, Eq)]
pub struct Reply {
    pub refusal: u32,
    pub is_plan: u32,
    pub price: i32,
}
