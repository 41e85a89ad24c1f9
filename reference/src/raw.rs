//! The raw count of one input (02, CR 1).

#[derive(Clone, Copy, Debug, PartialEq, Eq, Default)]
pub struct RawCount(pub u32);

impl RawCount {
    // 02, CR 1: "a 32-bit count of its rises, wrapping"
    pub fn step(&mut self, rise: bool) {
        if rise {
            self.0 = self.0.wrapping_add(1);
        }
    }

    /// Part 0 is the low word, part 1 the high word.
    // 02, CR 1: "low word first"
    pub fn word(&self, part: usize) -> u16 {
        let bytes = self.0.to_le_bytes();
        u16::from_le_bytes([bytes[2 * part], bytes[2 * part + 1]])
    }
}

#[cfg(test)]
mod tests {
    use super::*;

    fn stepped(count: u32, rise: bool) -> u32 {
        let mut raw = RawCount(count);
        raw.step(rise);
        raw.0
    }

    #[test]
    fn the_raw_count_wraps_at_its_upper_end_only() {
        assert_eq!(stepped(4_294_967_295, true), 0);
        assert_eq!(stepped(4_294_967_295, false), 4_294_967_295);
        assert_eq!(stepped(2_147_483_647, true), 2_147_483_648);
        assert_eq!(stepped(65_535, true), 65_536);
    }

    #[test]
    fn the_low_word_is_part_0() {
        assert_eq!((RawCount(0x1234_5678).word(0), RawCount(0x1234_5678).word(1)), (0x5678, 0x1234));
    }
}
