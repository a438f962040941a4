//! The Rust of gatk-haplotypecaller, compiled unchanged from its own place (see build.rs), with
//! the stand-ins under the names that it asks for. This crate holds none of the Rust's text.

extern crate stand_ins as gatk_common;
extern crate stand_ins as gatk_core;
extern crate stand_ins as statrs;

pub use stand_ins::{activity_profile, hc_joint_is_active, minimal_genotyping};

#[cfg(feature = "counters")]
pub mod counters;

include!(concat!(env!("OUT_DIR"), "/modules.rs"));
