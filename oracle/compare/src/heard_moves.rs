//! Questions when a session was last heard, among the calls of a script.

use oracle::{Call, View};

use crate::maker::Maker;
use crate::noise::{bent, padded, with_zeros, zeros};
use crate::random::Random;

/// Lines that cannot be read.
const ODD: [&str; 14] = [
    "heard",
    "heard 1 2",
    "heard 1 1",
    "heard 4294967296",
    "heard 18446744073709551616",
    "heard -1",
    "heard +1",
    "heard -",
    "heard x",
    "heard 0x1",
    "Heard 1",
    "hear 1",
    "heards 1",
    "heard1",
];

/// The most indices of sessions that are remembered.
const MOST_MET: usize = 12;

/// What chooses where a script asks when a session was last heard and of which one, apart from what chooses its calls, so that these are the
/// same with and without the questions.
pub(crate) struct HeardMoves {
    random: Random,
    /// Whether a tunnel was asked for.
    begun: bool,
    /// The number of lines added.
    pub(crate) lines: usize,
    /// The indices of sessions that were met last, some of them gone.
    met: Vec<u32>,
}

impl HeardMoves {
    /// The choices of a seed.
    pub(crate) fn new(seed: u64) -> Self {
        Self {
            random: Random::new(seed.rotate_left(16) ^ 0x6865_6172_6421),
            begun: false,
            lines: 0,
            met: Vec::new(),
        }
    }

    /// How many questions come after a call: always one after an empty batch, often one after another batch, now and then one after a handshake
    /// message, a waking, a creation and whatever comes before the first one, seldom one after any other line.
    fn times_after(&mut self, call: Option<&Call>, good: bool) -> usize {
        let rate = match call {
            Some(Call::Recv { messages, .. }) if messages.is_empty() => 100,
            Some(Call::Recv { .. }) => 45,
            Some(Call::Resp { .. } | Call::Hello { .. }) if good => 20,
            Some(Call::Wake { .. }) if good => 20,
            Some(Call::Resp { .. } | Call::Hello { .. } | Call::Wake { .. }) => 4,
            Some(Call::New { .. }) => 8,
            _ if !self.begun => 25,
            _ => 1,
        };
        self.begun |= matches!(call, Some(Call::New { .. }));

        match self.random.below(100) {
            at if at * 10 < rate => 2,
            at if at < rate => 1,
            _ => 0,
        }
    }

    /// Remembers the indices of the sessions that are there.
    fn remember(&mut self, view: &View) {
        for session in &view.sessions {
            self.met.retain(|index| *index != session.index);
            self.met.push(session.index);
        }
        let surplus = self.met.len().saturating_sub(MOST_MET);
        self.met.drain(..surplus);
    }

    /// An index to ask for after a call: mostly the call's own or a session's, else one that was met, one of the same slot or any.
    fn index(&mut self, call: Option<&Call>, view: Option<&View>) -> u32 {
        let random = &mut self.random;
        let any = random.next() as u32;
        let Some(view) = view else {
            return random.pick(&[0, 1, any]);
        };
        let indices: Vec<u32> = view.sessions.iter().map(|session| session.index).collect();
        let held = match indices[..] {
            [] => view.last_index,
            _ => random.pick(&indices),
        };
        let met = match self.met[..] {
            [] => held,
            _ => random.pick(&self.met),
        };
        let own = match call {
            Some(Call::Recv { index, .. }) => *index,
            Some(Call::Resp { receiver, .. }) => *receiver,
            Some(Call::Hello { .. }) => view.last_index,
            _ => met,
        };

        match random.below(20) {
            0..9 => own,
            9..13 => held,
            13..15 => random.pick(&[own, held]).wrapping_add(8),
            15 => random.pick(&[own.wrapping_sub(8), held ^ 0x100, held ^ 0x8000_0000]),
            16..19 => met,
            _ => random.pick(&[0, u32::MAX, view.last_index, any]),
        }
    }

    /// A question that mostly cannot be read.
    fn odd_line(&mut self, index: u32) -> Vec<u8> {
        let random = &mut self.random;
        let line = format!("heard {index}").into_bytes();

        match random.below(10) {
            0..5 => random.pick(&ODD).as_bytes().to_vec(),
            5..8 => bent(random, line),
            8 => padded(random, &line),
            _ => with_zeros(&zeros(random), &line),
        }
    }
}

impl Maker {
    /// Asks when a session was last heard, not at all, once or twice, after a line that was answered good or turned down; in noise, often in a
    /// line that cannot be read.
    pub(crate) fn heard_now_and_then(&mut self, line: &[u8], good: bool) {
        let call = oracle::read(line);
        let times = self.heard.times_after(call.as_ref(), good);
        let makes = matches!(call, Some(Call::Resp { .. } | Call::Hello { .. }));
        if times == 0 && !makes {
            return;
        }

        let view = self.view();
        if let Some(view) = &view {
            self.heard.remember(view);
        }
        for _ in 0..times {
            let index = self.heard.index(call.as_ref(), view.as_ref());
            let line = match self.heard.random.percent(self.profile.odd_datagrams) {
                true => self.heard.odd_line(index),
                false => format!("heard {index}").into_bytes(),
            };
            self.ask_heard(line);
        }
    }

    /// Asks when every session was last heard, and one that was met.
    pub(crate) fn all_heard(&mut self) {
        let sessions = self.view().map_or_else(Vec::new, |view| view.sessions);
        let indices = sessions.iter().map(|session| session.index);
        let met = self.heard.met.first().copied();

        for index in indices.chain(met) {
            self.ask_heard(format!("heard {index}"));
        }
    }

    /// Adds a question.
    fn ask_heard(&mut self, line: impl Into<Vec<u8>>) {
        self.heard.lines += 1;
        self.ask_alone(line);
    }
}
