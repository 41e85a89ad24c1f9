//! Reference model of the beam loss counter crate.
//!
//! "01" is the scope paper, "02" the change requests, "Manual" the Unilac-BLM
//! Programmer's Manual ver. 0.1. Where two speak, 02 decides, then 01. Of 02,
//! requests 1 to 5 are in.
#![forbid(unsafe_code)]

pub mod capture;
pub mod counter;
pub mod coverage;
pub mod gate;
pub mod generator;
pub mod lines;
pub mod loader;
pub mod map;
pub mod model;
pub mod numbers;
pub mod raw;
pub mod scan;
pub mod sums;
pub mod trace;
pub mod watchdog;

pub use model::{image, Crate};
