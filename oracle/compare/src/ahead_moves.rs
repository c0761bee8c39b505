//! Questions for the next local index, among the calls of a script.

use oracle::Call;

use crate::maker::{Maker, Script};
use crate::noise::{bent, padded};
use crate::random::Random;

/// Lines that cannot be read.
const ODD: [&str; 14] = [
    "ahead 1",
    "ahead 0",
    "ahead -",
    "ahead ahead",
    "ahead 4294967296",
    "ahead 256 1",
    "aheads",
    "ahea",
    "head",
    "Ahead",
    "AHEAD",
    "a head",
    "ahead1",
    "ahead,",
];

/// What chooses where a script asks for the next index, apart from what chooses its calls, so that these are the same with and without the
/// questions.
pub(crate) struct AheadMoves {
    random: Random,
    /// Whether a tunnel was asked for.
    begun: bool,
    /// The number of lines added.
    pub(crate) lines: usize,
}

impl AheadMoves {
    /// The choices of a seed.
    pub(crate) fn new(seed: u64) -> Self {
        Self {
            random: Random::new(seed.rotate_left(48) ^ 0x6168_6561_6421),
            begun: false,
            lines: 0,
        }
    }

    /// Whether a question comes before a call: often before one that may allocate an index, seldom before any other line.
    fn before(&mut self, call: Option<&Call>) -> bool {
        let rate = match call {
            Some(call) if call.may_allocate() => 40,
            _ => 1,
        };

        self.random.percent(rate)
    }

    /// Whether a question comes after a call: now and then after one that may allocate an index, a creation and whatever comes before the
    /// first one, seldom after any other line.
    fn after(&mut self, call: Option<&Call>) -> bool {
        let rate = match call {
            Some(call) if call.may_allocate() => 6,
            Some(Call::New { .. }) => 20,
            Some(Call::Resp { .. }) => 10,
            _ if !self.begun => 25,
            _ => 1,
        };
        self.begun |= matches!(call, Some(Call::New { .. }));

        self.random.percent(rate)
    }

    /// A question that mostly cannot be read.
    fn odd_line(&mut self) -> Vec<u8> {
        let random = &mut self.random;

        match random.below(10) {
            0..5 => random.pick(&ODD).as_bytes().to_vec(),
            5..8 => bent(random, b"ahead".to_vec()),
            _ => padded(random, b"ahead"),
        }
    }
}

impl Maker {
    /// Asks for the next index before a line, now and then.
    pub(crate) fn ahead_before(&mut self, line: &[u8]) {
        let call = oracle::read(line);

        if self.ahead.before(call.as_ref()) {
            self.ask_ahead();
        }
    }

    /// Asks for the next index after a line, now and then.
    pub(crate) fn ahead_after(&mut self, line: &[u8]) {
        let call = oracle::read(line);

        if self.ahead.after(call.as_ref()) {
            self.ask_ahead();
        }
    }

    /// Adds a question; in noise, often a line that cannot be read.
    pub(crate) fn ask_ahead(&mut self) {
        let line = match self.ahead.random.percent(self.profile.odd_datagrams) {
            true => self.ahead.odd_line(),
            false => b"ahead".to_vec(),
        };

        self.ahead.lines += 1;
        self.ask_alone(line);
    }
}

impl Script {
    /// The same script with the next index asked for just before every call that may allocate one.
    pub fn with_ahead(self) -> Self {
        let mut lines: Vec<Vec<u8>> = Vec::with_capacity(self.lines.len());
        let mut asked = false;

        for line in self.lines {
            let call = oracle::read(&line);
            if !asked && call.as_ref().is_some_and(Call::may_allocate) {
                lines.push(b"ahead".to_vec());
            }
            asked = call == Some(Call::Ahead);
            lines.push(line);
        }

        Self { lines }
    }
}
