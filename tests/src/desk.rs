//! The running plan on the desk (02, P7), as struct spp_desk of include/spp.h holds it, and what is done to it.

use std::fmt;

/// Places for columns and for rows.
pub const MOST_COLUMNS: usize = 256;
pub const MOST_ROWS: usize = 64;

/// The numbers of a desk. There is no gap between the fields, so that equal desks are equal byte for byte.
#[repr(C)]
#[derive(Clone, Copy, Debug, PartialEq, Eq)]
pub struct Desk {
    /// 0 for a column that is not in, any other value for one that is.
    pub marks: [u8; MOST_COLUMNS],
    /// How often each row is covered.
    pub covered: [u32; MOST_ROWS],
    /// How many rows are not covered exactly once.
    pub off: u32,
    pub total: i32,
}

/// The two kinds of a step.
#[derive(Clone, Copy, Debug, PartialEq, Eq)]
pub enum Way {
    Add,
    Remove,
}

impl Way {
    pub const BOTH: [Way; 2] = [Way::Add, Way::Remove];
}

impl fmt::Display for Way {
    fn fmt(&self, out: &mut fmt::Formatter) -> fmt::Result {
        out.pad(match self {
            Way::Add => "add",
            Way::Remove => "remove",
        })
    }
}
