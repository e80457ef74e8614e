//! An independent reading of `docs/RULES.md`, to compare the proved library with.
//!
//! Nothing here is shared with the project: it is plain Rust, with sums in `u128`, and follows the order of those rules.

pub mod answers;
pub mod bus;
pub mod carry;
pub mod delay;
pub mod dram;
pub mod file;
pub mod gen;
pub mod judge;
pub mod listing;
pub mod refusal;
pub mod salvage;
pub mod stops;
pub mod table;

#[cfg(test)]
mod figures;
