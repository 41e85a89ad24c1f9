//! The queue of reload requests and the threshold loader.

use reference::numbers::{ACCEPTED, COUNTERS, DATASETS, DATASET_ABOVE_31, QUEUE_FULL, QUEUE_PLACES};

#[derive(Clone, Copy, Default)]
pub struct Request {
    pub dataset: u16,
    pub group: u16,
}

#[derive(Default)]
pub struct Loader {
    /// A ring: the oldest request stands at `first`.
    queue: [Request; QUEUE_PLACES],
    first: usize,
    pub waiting: usize,
    pub busy: bool,
    request: Request,
    next: usize,
    /// The last counter handled.
    pub handled: u16,
}

impl Loader {
    /// A request by the low twelve bits of 0x0A02 or of a tag.
    pub fn enqueue(&mut self, word: u16) -> u8 {
        let request = Request { dataset: word & 0xFF, group: word >> 8 & 0xF };
        if usize::from(request.dataset) >= DATASETS {
            return DATASET_ABOVE_31;
        }
        if self.waiting == QUEUE_PLACES {
            return QUEUE_FULL;
        }
        self.queue[(self.first + self.waiting) % QUEUE_PLACES] = request;
        self.waiting += 1;
        ACCEPTED
    }

    /// One tick: a busy loader handles the next counter, an idle one takes the oldest request.
    #[inline]
    pub fn step(&mut self) -> Option<(usize, Request)> {
        if !self.busy {
            self.take();
            return None;
        }
        let n = self.next;
        self.handled = n as u16;
        self.next = n + 1;
        self.busy = n + 1 < COUNTERS;
        Some((n, self.request))
    }

    #[inline]
    fn take(&mut self) {
        if self.waiting == 0 {
            return;
        }
        self.request = self.queue[self.first];
        self.first = (self.first + 1) % QUEUE_PLACES;
        self.waiting -= 1;
        self.next = 0;
        self.busy = true;
    }
}
