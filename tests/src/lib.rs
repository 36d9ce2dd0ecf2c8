//! Tests and benchmarks of the engine's static library.
//!
//! `plain` is an implementation of the rules of 01 and of 02, P1, P2 and P5 to P10, tree and all, written from the papers. `second` finds
//! the least price by another method and shares no code with it; `second_assign` does so for crews onto vessels, `second_uncrewed` for the
//! sailings that can't be crewed, and `second_desk` for the running plan. `engine` calls the static library. `stored` works out what the
//! repository stores.

pub mod answers;
pub mod desk;
pub mod edition;
pub mod engine;
pub mod files;
pub mod generate;
pub mod generate_desk;
pub mod generate_earning;
pub mod generate_overlaps;
pub mod generate_pairs;
pub mod generate_table;
pub mod generate_uncrewed;
pub mod goal;
pub mod plain;
pub mod random;
pub mod requests;
pub mod second;
pub mod second_assign;
pub mod second_desk;
pub mod second_uncrewed;
pub mod stored;
pub mod table;
