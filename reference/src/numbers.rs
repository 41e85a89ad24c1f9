//! Sizes and refusal numbers, from 01 and the Manual.

pub const INPUTS: usize = 54;
pub const GATES: usize = 12;
pub const COUNTERS: usize = 128;
pub const OUTPUTS: usize = 6;
pub const DATASETS: usize = 32;
pub const DATASET_WORDS: usize = 512;
pub const MEMORY_WORDS: usize = 16_384;
pub const QUEUE_PLACES: usize = 16;

/// Levels of inputs 0 to 53 and of gates 0 to 11.
pub const INPUT_BITS: u64 = (1 << INPUTS) - 1;
pub const GATE_BITS: u16 = (1 << GATES) - 1;

// 01, Causes of refusal. A call that is not refused answers 0.
pub const ACCEPTED: u8 = 0;
pub const MEMORY_LENGTH: u8 = 1;
pub const NOT_IN_MAP: u8 = 2;
pub const READ_ONLY: u8 = 3;
pub const DATASET_ABOVE_31: u8 = 4;
pub const QUEUE_FULL: u8 = 5;
pub const BAD_LEVEL: u8 = 6;
pub const UNKNOWN_TAG: u8 = 7;
pub const WRONG_LENGTH: u8 = 8;
pub const CUT: u8 = 9;
pub const REPEAT_ZERO: u8 = 10;
pub const DOWNLOAD_LENGTH: u8 = 11;
// 02, CR 2.
pub const NOT_FRAMES: u8 = 12;
pub const NO_ROOM: u8 = 13;
// 02, CR 4.
pub const BAD_SUM: u8 = 14;
