//! A sliding sum in plain Rust.

use mirvacula::LARGEST_WINDOW;

/// The last samples of a window and their sum.
#[derive(Clone, Debug)]
pub struct Ring {
    words: Vec<i64>,
    window: usize,
    place: usize,
    sum: i64,
}

impl Ring {
    /// Clears the words of the window; `None` where the library refuses.
    pub fn start(words: Vec<i64>, window: usize) -> Option<Ring> {
        let mut ring = Ring { words, window, place: 0, sum: 0 };
        if ring.is_bad() {
            return None;
        }
        ring.words[..window].fill(0);
        Some(ring)
    }

    /// By the library's checks.
    fn is_bad(&self) -> bool {
        let Ring { words, window, place, .. } = self;
        *window == 0 || *window > LARGEST_WINDOW || words.len() < *window || place >= window
    }

    /// The sum with a sample; `None` where the library refuses. A call as the library's is one.
    #[inline(never)]
    pub fn sample(&mut self, sample: i32) -> Option<i64> {
        if self.is_bad() {
            return None;
        }
        let oldest = std::mem::replace(&mut self.words[self.place], sample.into());
        self.sum = self.sum.wrapping_add(sample.into()).wrapping_sub(oldest);
        self.place = if self.place + 1 == self.window { 0 } else { self.place + 1 };
        Some(self.sum)
    }

    pub fn words(&self) -> &[i64] {
        &self.words
    }
}
