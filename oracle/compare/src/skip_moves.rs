//! Skips asked for among the calls of a script.

use crate::maker::Maker;
use crate::random::Random;

/// What chooses where the skips of a script are asked for, apart from what chooses its calls.
pub(crate) struct SkipMoves {
    random: Random,
}

impl SkipMoves {
    /// The choices of a seed.
    pub(crate) fn new(seed: u64) -> Self {
        Self {
            random: Random::new(seed.rotate_left(32)),
        }
    }

    /// How often the skips are asked for after a line: always after an empty batch, often after another one, turned down or not, now and then
    /// after a creation, seldom after any other line.
    fn times_after(&mut self, line: &[u8]) -> usize {
        let words = line.split(|byte| *byte == b' ').count();
        let rate = if line.starts_with(b"recv") && words <= 4 {
            100
        } else if line.starts_with(b"recv") {
            45
        } else if line.starts_with(b"new") {
            25
        } else {
            1
        };

        match self.random.below(100) {
            at if at * 10 < rate => 2,
            at if at < rate => 1,
            _ => 0,
        }
    }
}

impl Maker {
    /// Asks for the skips, not at all, once or twice.
    pub(crate) fn skips_now_and_then(&mut self, line: &[u8]) {
        for _ in 0..self.skips.times_after(line) {
            self.ask_alone("skips");
        }
    }
}
