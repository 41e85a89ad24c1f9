//! What the library is timed against: the crate changed in place, and the conversion of captures and a sliding sum in plain
//! Rust.
#![forbid(unsafe_code)]

pub mod conversion;
pub mod inplace;
pub mod ring;
