//! The oracle: the original Rust, unchanged, answering in the project's text formats.

pub mod alleles;
pub mod by_hand;
pub mod call;
pub mod cohort;
pub mod combine;
pub mod differences;
pub mod domain;
pub mod generate;
pub mod list;
pub mod record;
pub mod rng;
pub mod text;
