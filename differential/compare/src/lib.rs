//! The compiled library, held against the Rust and against document 01.

pub mod bad;
pub mod borders;
pub mod call;
pub mod combine;
pub mod demand3;
pub mod fuzz;
pub mod groups;
pub mod guarded;
pub mod list_rows;
pub mod look_up;
pub mod looks;
pub mod orders;
pub mod ours;
pub mod rows;
pub mod spelling;
