//! The words that patch a counter.

/// The selection without a signal. 0 to 53 are the inputs, 55 to 63 the test signals.
pub const GROUND: u16 = 54;
/// The gate that never opens, as 12 to 14 do not. 0 to 11 are the gates.
pub const NO_GATE: u16 = 15;

extern "C" {
    fn mirvacula_input_word(up: u16, down: u16, gate: u16) -> u32;
    fn mirvacula_group_word(word: u16, counter: u16, group: u16) -> u32;
}

/// The word that patches a counter, for its input register, 0x1000 + its number. `None` where a selection is above 63 or the
/// gate above 15.
pub fn input_word(up: u16, down: u16, gate: u16) -> Option<u16> {
    u16::try_from(input_word_by_numbers(up, down, gate)).ok()
}

/// The word that puts a counter into a group, for its group register, 0x1600 + its number div 4. `word` is what stands there;
/// the groups of the other three counters stay. `None` where the counter is above 127 or the group above 15.
pub fn group_word(word: u16, counter: u16, group: u16) -> Option<u16> {
    u16::try_from(group_word_by_numbers(word, counter, group)).ok()
}

/// `mirvacula_input_word` itself: 0x10000 where there is no word.
#[doc(hidden)]
pub fn input_word_by_numbers(up: u16, down: u16, gate: u16) -> u32 {
    // SAFETY: the archive's function takes any three numbers and touches no memory.
    unsafe { mirvacula_input_word(up, down, gate) }
}

/// `mirvacula_group_word` itself: 0x10000 where there is no word.
#[doc(hidden)]
pub fn group_word_by_numbers(word: u16, counter: u16, group: u16) -> u32 {
    // SAFETY: as for the input word.
    unsafe { mirvacula_group_word(word, counter, group) }
}
