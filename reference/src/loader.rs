//! Request queue and threshold loader (01, Threshold memory and loader).

use crate::numbers::{ACCEPTED, COUNTERS, DATASETS, DATASET_ABOVE_31, QUEUE_FULL, QUEUE_PLACES};
use std::collections::VecDeque;

#[derive(Clone, Copy, Debug, PartialEq, Eq)]
pub struct Request {
    pub dataset: u16,
    pub group: u16,
}

impl Request {
    /// Bits 7-0 dataset, 11-8 group, in 0x0A02 and in a tag alike
    /// (Manual, Tables 3.22 and 3.40).
    pub fn from_word(word: u16) -> Request {
        Request { dataset: word & 0xFF, group: word >> 8 & 0xF }
    }
}

#[derive(Clone, Copy, Debug, PartialEq, Eq)]
pub struct Work {
    pub request: Request,
    pub next: usize,
}

#[derive(Clone, Debug, PartialEq, Eq, Default)]
pub struct Loader {
    pub queue: VecDeque<Request>,
    pub work: Option<Work>,
    pub last_handled: usize,
}

impl Loader {
    // 01, Causes: "4 before 5"
    pub fn enqueue(&mut self, request: Request) -> u8 {
        if usize::from(request.dataset) >= DATASETS {
            return DATASET_ABOVE_31;
        }
        if self.queue.len() >= QUEUE_PLACES {
            return QUEUE_FULL;
        }
        self.queue.push_back(request);
        ACCEPTED
    }

    pub fn busy(&self) -> bool {
        self.work.is_some()
    }

    /// The counter handled in this tick and its request. Taking a request is
    /// a tick of its own.
    // 01: "an idle loader takes the oldest; a busy one handles the next
    // counter, 0 to 127, one a tick", "After 127 the loader is idle."
    pub fn step(&mut self) -> Option<(usize, Request)> {
        let Some(Work { request, next }) = self.work else {
            self.work = self.queue.pop_front().map(|request| Work { request, next: 0 });
            return None;
        };
        self.last_handled = next;
        self.work = (next + 1 < COUNTERS).then_some(Work { request, next: next + 1 });
        Some((next, request))
    }
}
