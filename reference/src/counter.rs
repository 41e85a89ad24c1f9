//! One up/down counter (01, Counters).

#[derive(Clone, Copy, Debug, PartialEq, Eq, Default)]
pub struct Counter {
    pub count: i32,
    pub positive: i32,
    pub negative: i32,
}

/// What one tick does to a count.
#[derive(Clone, Copy, Debug)]
pub struct Pulse {
    /// The selected gate's output rises and AUTORESET is set.
    pub clear: bool,
    /// The selected gate's output is high.
    pub open: bool,
    pub up: bool,
    pub down: bool,
}

impl Counter {
    pub fn step(&mut self, pulse: Pulse) {
        // 01, Counters: "a rise of that gate's output first clears the count"
        if pulse.clear {
            self.count = 0;
        }
        if pulse.open && pulse.up {
            self.count = self.count.wrapping_add(1);
        }
        if pulse.open && pulse.down {
            self.count = self.count.wrapping_sub(1);
        }
    }

    // 01, Counters: "count above the positive threshold", "Equal is neither"
    pub fn positive_overflow(&self) -> bool {
        self.count > self.positive
    }

    pub fn negative_overflow(&self) -> bool {
        self.count < self.negative
    }

    /// Four words of a dataset: positive low, high, negative low, high.
    pub fn load(&mut self, words: &[u16]) {
        self.positive = join(words[0], words[1]);
        self.negative = join(words[2], words[3]);
    }

    pub fn count_word(&self, part: usize) -> u16 {
        half(self.count, part)
    }

    pub fn threshold_word(&self, part: usize) -> u16 {
        let value = if part < 2 { self.positive } else { self.negative };
        half(value, part % 2)
    }
}

/// The fields of an input register.
// 01, Counters: "UP in bits 5-0, DOWN in 11-6, GATE in 15-12"
pub fn up_selection(register: u16) -> u16 {
    register & 0x3F
}

pub fn down_selection(register: u16) -> u16 {
    register >> 6 & 0x3F
}

pub fn gate_selection(register: u16) -> usize {
    usize::from(register >> 12)
}

fn join(low: u16, high: u16) -> i32 {
    i32::from_le_bytes([low.to_le_bytes()[0], low.to_le_bytes()[1], high.to_le_bytes()[0], high.to_le_bytes()[1]])
}

/// Part 0 is the low word, part 1 the high word.
fn half(value: i32, part: usize) -> u16 {
    let bytes = value.to_le_bytes();
    u16::from_le_bytes([bytes[2 * part], bytes[2 * part + 1]])
}

#[cfg(test)]
mod tests {
    use super::*;

    const UP: Pulse = Pulse { clear: false, open: true, up: true, down: false };
    const DOWN: Pulse = Pulse { clear: false, open: true, up: false, down: true };

    fn stepped(count: i32, pulse: Pulse) -> i32 {
        let mut counter = Counter { count, ..Counter::default() };
        counter.step(pulse);
        counter.count
    }

    #[test]
    fn the_count_wraps_at_both_ends() {
        assert_eq!(stepped(2_147_483_647, UP), -2_147_483_648);
        assert_eq!(stepped(-2_147_483_648, DOWN), 2_147_483_647);
    }

    #[test]
    fn both_rises_leave_the_count_also_at_the_ends() {
        let both = Pulse { down: true, ..UP };
        for count in [0, 7, i32::MAX, i32::MIN] {
            assert_eq!(stepped(count, both), count);
        }
    }

    #[test]
    fn clearing_comes_before_counting() {
        assert_eq!(stepped(40, Pulse { clear: true, ..UP }), 1);
        assert_eq!(stepped(40, Pulse { clear: true, ..DOWN }), -1);
    }

    #[test]
    fn threshold_five_is_clear_at_five_and_over_at_six() {
        let at = |count| Counter { count, positive: 5, negative: -5 };
        assert!(!at(5).positive_overflow() && at(6).positive_overflow());
        assert!(!at(-5).negative_overflow() && at(-6).negative_overflow());
    }

    #[test]
    fn words_are_joined_and_split_alike() {
        let mut counter = Counter::default();
        counter.load(&[0xFFFF, 0x7FFF, 0x0001, 0x8000]);
        assert_eq!((counter.positive, counter.negative), (i32::MAX, i32::MIN + 1));
        let words: Vec<u16> = (0..4).map(|part| counter.threshold_word(part)).collect();
        assert_eq!(words, [0xFFFF, 0x7FFF, 0x0001, 0x8000]);
    }

    #[test]
    fn power_up_register_is_ground_and_no_gate() {
        assert_eq!((up_selection(0xFDB6), down_selection(0xFDB6), gate_selection(0xFDB6)), (54, 54, 15));
    }
}
