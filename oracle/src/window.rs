//! One window by itself.

use crate::replay::ReceivingKeyCounterValidator;

/// A window with the numbers of document 01.
#[derive(Default)]
pub struct Window(ReceivingKeyCounterValidator);

impl Window {
    /// The verdict of the early look.
    pub fn look(&self, counter: u64) -> u8 {
        self.0
            .will_accept(counter)
            .map_or_else(|e| e.number(), |()| 0)
    }

    /// Commits a counter and gives the verdict, and how many counters it skipped: the counter less the old next one, or 0 where it was
    /// not ahead or was turned down.
    pub fn commit(&mut self, counter: u64) -> (u8, u64) {
        let next = self.next();
        let marked = self.0.mark_did_receive(counter);
        let verdict = marked.map_or_else(|e| e.number(), |()| 0);
        let skipped = match verdict {
            0 => counter.saturating_sub(next),
            _ => 0,
        };

        (verdict, skipped)
    }

    /// One past the highest committed counter.
    pub fn next(&self) -> u64 {
        self.0.next()
    }

    /// The number of set bits of the bitmap.
    pub fn ones(&self) -> u32 {
        self.0.ones()
    }
}
