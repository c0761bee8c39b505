//! What the driver reads of a window.

use super::ReceivingKeyCounterValidator;

impl ReceivingKeyCounterValidator {
    /// One past the highest committed counter.
    pub(crate) fn next(&self) -> u64 {
        self.next
    }

    /// The number of set bits of the bitmap.
    pub(crate) fn ones(&self) -> u32 {
        self.bitmap.iter().map(|word| word.count_ones()).sum()
    }
}
