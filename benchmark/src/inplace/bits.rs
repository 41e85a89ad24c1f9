//! Words with one bit for each input, gate or counter.

/// The numbers of the bits that are set, lowest first.
pub struct Ones(u64);

impl Iterator for Ones {
    type Item = usize;

    #[inline]
    fn next(&mut self) -> Option<usize> {
        if self.0 == 0 {
            return None;
        }
        let lowest = self.0.trailing_zeros() as usize;
        self.0 &= self.0 - 1;
        Some(lowest)
    }
}

#[inline]
pub fn ones(word: impl Into<u64>) -> Ones {
    Ones(word.into())
}

/// The set bits of a word over all counters.
#[inline]
pub fn counters_in(set: u128) -> impl Iterator<Item = usize> {
    ones(set as u64).chain(ones((set >> 64) as u64).map(|n| n + 64))
}
