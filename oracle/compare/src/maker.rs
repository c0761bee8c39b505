//! Makes one script from a seed, steered by the oracle's own answers.

use oracle::{Answer, Call, Driver, View, ViewSession};

use crate::ahead_moves::AheadMoves;
use crate::datagram_moves::Datagrams;
use crate::heard_moves::HeardMoves;
use crate::insertion::Insertion;
use crate::log_moves::LogMoves;
use crate::profiles::{self, Profile};
use crate::random::Random;
use crate::settle_moves::SettleMoves;
use crate::skip_moves::SkipMoves;

/// The lines of a script, each without its newline.
pub struct Script {
    pub lines: Vec<Vec<u8>>,
}

impl Script {
    /// Whether the first line is a `new`, so that what came before does not matter.
    pub fn begins_with_new(&self) -> bool {
        self.lines
            .first()
            .and_then(|line| oracle::read(line))
            .is_some_and(|call| matches!(call, Call::New { .. }))
    }
}

/// Makes the script of `seed`, of about `length` lines.
pub fn make_script(seed: u64, length: usize) -> Script {
    Maker::new(seed, length).whole(Maker::go_on)
}

/// A script under way, and the oracle that answers it.
pub(crate) struct Maker {
    pub(crate) random: Random,
    pub(crate) profile: Profile,
    pub(crate) driver: Driver,
    lines: Vec<Vec<u8>>,
    length: usize,
    peers: u32,
    pub(crate) datagrams: Datagrams,
    pub(crate) log: LogMoves,
    pub(crate) skips: SkipMoves,
    pub(crate) heard: HeardMoves,
    pub(crate) ahead: AheadMoves,
    pub(crate) settle: SettleMoves,
    /// The extra wakings, where a pair of scripts is made.
    pub(crate) insertion: Option<Insertion>,
}

impl Maker {
    /// A script without a line.
    pub(crate) fn new(seed: u64, length: usize) -> Self {
        let mut random = Random::new(seed);
        let peers = random.next() as u32;

        Self {
            random,
            profile: profiles::of_seed(seed),
            driver: Driver::new(),
            lines: Vec::with_capacity(length + 32),
            length,
            peers,
            datagrams: Datagrams::new(seed),
            log: LogMoves::new(seed),
            skips: SkipMoves::new(seed),
            heard: HeardMoves::new(seed),
            ahead: AheadMoves::new(seed),
            settle: SettleMoves::new(seed),
            insertion: None,
        }
    }

    /// The whole script, grown by `go_on`, which adds a few lines.
    pub(crate) fn whole(mut self, go_on: fn(&mut Self)) -> Script {
        self.begin();
        while !self.full() {
            go_on(&mut self);
        }
        self.end();

        Script { lines: self.lines }
    }

    /// Begins with `new`, or now and then with calls before it.
    fn begin(&mut self) {
        if self.random.percent(3) {
            for _ in 0..self.random.between(1, 4) {
                self.any_move();
            }
        }
        self.new_tunnel();
    }

    /// Adds a few lines: a plot, a single call, or a new tunnel once this one is expired.
    pub(crate) fn go_on(&mut self) {
        let expired = self.view().is_some_and(|view| view.expired);

        if expired && self.random.percent(25) {
            self.drain();
            self.new_tunnel();
        } else if self.random.percent(self.profile.plots) {
            self.any_plot();
        } else {
            self.any_move();
        }
    }

    /// Ends with all events, the deadline, the missing reports, the skips, when each session was last heard and the next index.
    pub(crate) fn end(&mut self) {
        self.drain();
        self.ask("next");
        self.all_missing();
        self.ask_alone("skips");
        self.all_heard();
        if self.insertion.is_none() {
            self.ask_ahead();
        }
    }

    /// Whether the script is as long as it should be, its datagrams, the log's lines and those that ask when a session was last heard or for the
    /// next index not counted.
    pub(crate) fn full(&self) -> bool {
        let beside = self.datagrams.lines + self.log.lines + self.heard.lines + self.ahead.lines;

        self.lines.len() - beside >= self.length
    }

    /// Adds a line, a waking now and then as a settling, now and then a question for the next index before it, a datagram, lines of the log, skips, a last heard time or the next
    /// index behind it, and gives the oracle's answer to the line, if it is good.
    pub(crate) fn ask(&mut self, line: impl Into<Vec<u8>>) -> Option<Answer> {
        let line = self.settling_now_and_then(line.into());
        let alone = self.insertion.is_none();
        if alone {
            self.ahead_before(&line);
        }
        let answer = self.ask_alone(line.clone());

        if alone {
            self.datagrams_now_and_then();
            self.log_now_and_then();
        }
        self.skips_now_and_then(&line);
        self.heard_now_and_then(&line, answer.is_some());
        if alone {
            self.ahead_after(&line);
        }
        answer
    }

    /// Adds a line with nothing but the extra wakings of a pair beside it.
    pub(crate) fn ask_alone(&mut self, line: impl Into<Vec<u8>>) -> Option<Answer> {
        match self.insertion.take() {
            Some(insertion) => self.ask_both(insertion, &line.into()),
            None => self.ask_driver(line),
        }
    }

    /// Adds a line as it is.
    pub(crate) fn ask_driver(&mut self, line: impl Into<Vec<u8>>) -> Option<Answer> {
        let line = line.into();
        let answer = self.driver.answer(&line).ok();

        self.lines.push(line);
        answer
    }

    /// Adds a call, then mostly the deadline, some of the events, and a look at the greatest time.
    pub(crate) fn say(&mut self, line: impl Into<Vec<u8>>) -> Option<Answer> {
        let answer = self.ask(line);

        if self.random.percent(self.profile.events) {
            self.drain();
        }
        if self.random.percent(80) {
            self.ask("next");
        }
        if self.random.percent(12) {
            self.probe_clock();
        }

        answer
    }

    /// Looks at the greatest time and just before it, which changes nothing.
    fn probe_clock(&mut self) {
        let Some(view) = self.view() else {
            return;
        };
        let before = view.greatest.saturating_sub(1);

        for time in [view.greatest, before] {
            self.ask(format!("look {} 0 {time}", view.last_index));
        }
    }

    /// Takes events until there is none; where none is queued, mostly asks for none.
    pub(crate) fn drain(&mut self) {
        let has_events = self.view().is_some_and(|view| view.has_events);
        if !has_events && self.random.percent(90) {
            return;
        }

        for _ in 0..18 {
            match self.ask("event") {
                Some(Answer::None) | None => return,
                Some(_) => {}
            }
        }
    }

    /// Asks for the missing report of every session.
    pub(crate) fn all_missing(&mut self) {
        let sessions = self.view().map_or_else(Vec::new, |view| view.sessions);

        for session in sessions {
            self.ask(format!("missing {}", session.index));
        }
    }

    /// What can be seen of the tunnel, if there is one.
    pub(crate) fn view(&self) -> Option<View> {
        self.driver.view()
    }

    /// The greatest time given so far.
    pub(crate) fn greatest(&self) -> u64 {
        self.view().map_or(0, |view| view.greatest)
    }

    /// A session that is there, mostly the current or the latest one.
    pub(crate) fn session(&mut self) -> Option<ViewSession> {
        let mut view = self.view()?;
        let choice = self.random.below(10);
        let last = view.sessions.len().checked_sub(1)?;

        let at = match choice {
            0..4 => view
                .sessions
                .iter()
                .position(|session| Some(session.index) == view.current),
            4..7 => (0..=last).max_by_key(|at| view.sessions[*at].id),
            _ => None,
        };
        let at = at.unwrap_or_else(|| self.random.below(last as u64 + 1) as usize);

        Some(view.sessions.swap_remove(at))
    }

    /// A peer's index that was not used before.
    pub(crate) fn fresh_peer(&mut self) -> u32 {
        self.peers = self.peers.wrapping_add(1);
        self.peers
    }
}
