//! Settlings among the calls of a script, and scripts that are mostly about them.

use oracle::Answer;

use crate::maker::{Maker, Script};
use crate::moves::REKEY;
use crate::random::Random;
use crate::times::{MAX_JITTER, Pace, SECOND, TIME_LIMIT};

/// How often a waking becomes a settling, in percent.
const SELDOM: u64 = 15;
/// The same in scripts that are mostly about settlings.
const OFTEN: u64 = 60;
/// How often the next few lines of a pair are mostly about settlings, in percent.
const PAIRS: u64 = 20;

/// Lines that cannot be read.
const ODD: [&str; 12] = [
    "settle",
    "settle 0",
    "settle 0 0 0",
    "settle 0 0 -",
    "settle 18446744073709551616 0",
    "settle 0 18446744073709551616",
    "settle -1 0",
    "settle 0 x",
    "settle0 0",
    "settl 0 0",
    "settles 0 0",
    "Settle 0 0",
];

/// What chooses which wakings of a script become settlings, apart from what chooses its calls.
pub(crate) struct SettleMoves {
    random: Random,
    rate: u64,
}

impl SettleMoves {
    /// The choices of a seed.
    pub(crate) fn new(seed: u64) -> Self {
        Self {
            random: Random::new(seed.rotate_left(24) ^ 0x7365_7474_6c65),
            rate: SELDOM,
        }
    }
}

/// A kind of situation to be settled.
#[derive(Clone, Copy)]
enum Scene {
    /// Whatever the calls before have left.
    Present,
    /// A handshake that is not answered.
    Retry,
    /// A keepalive that takes the counter to the count at which a session is renewed, or near it.
    Renewal,
    /// A handshake scheduled and settled late, with sessions, a cookie or all handshakes overdue.
    Late,
    /// Sessions with data, some past their ends.
    Ends,
    /// An expired tunnel.
    Expired,
    /// A settling that is turned down.
    Refused,
}

const SCENES: &[(u64, Scene)] = &[
    (30, Scene::Present),
    (12, Scene::Retry),
    (16, Scene::Renewal),
    (16, Scene::Late),
    (12, Scene::Ends),
    (3, Scene::Expired),
    (8, Scene::Refused),
];

/// Makes the script of `seed` that is mostly about settlings, of about `length` lines.
pub fn make_settle_script(seed: u64, length: usize) -> Script {
    let mut maker = Maker::new(seed, length);
    maker.settle.rate = OFTEN;

    maker.whole(Maker::settle_on)
}

impl Maker {
    /// A line as it is, or in the place of a waking now and then a settling.
    pub(crate) fn settling_now_and_then(&mut self, line: Vec<u8>) -> Vec<u8> {
        match line.strip_prefix(b"wake ") {
            Some(rest) if self.settle.random.percent(self.settle.rate) => {
                [b"settle ", rest].concat()
            }
            _ => line,
        }
    }

    /// Adds a few lines of a pair, now and then mostly about settlings.
    pub(crate) fn go_on_or_settle(&mut self) {
        match self.settle.random.percent(PAIRS) {
            true => self.settle_on(),
            false => self.go_on(),
        }
    }

    /// Adds a situation with settlings around its deadline, lines as in any other script, or mostly a new tunnel once this one is expired.
    fn settle_on(&mut self) {
        let expired = self.view().is_some_and(|view| view.expired);
        if expired && self.random.percent(60) {
            self.drain();
            return self.new_tunnel();
        }
        if self.random.percent(35) {
            return self.go_on();
        }
        match self.random.weighted(SCENES) {
            Scene::Present => {}
            Scene::Retry => self.leave_unanswered(),
            Scene::Renewal => self.near_renewal(),
            Scene::Late => self.late_handshake(),
            Scene::Ends => self.sessions_to_end(),
            Scene::Expired => self.let_expire(),
            Scene::Refused => return self.refused_settling(),
        }
        self.settle_around();
    }

    /// Starts a handshake, sometimes with a cookie, and settles the retries that come first.
    fn leave_unanswered(&mut self) {
        let time = self.good_time();
        self.say(format!("restart {time}"));
        if self.random.percent(30) {
            self.good_cookie();
        }
        for _ in 0..self.random.below(3) {
            self.settle_around();
        }
    }

    /// Takes a good cookie reply where one is awaited.
    fn good_cookie(&mut self) {
        if let Some(index) = self.view().and_then(|view| view.awaited_cookie) {
            let time = self.greatest();
            self.say(format!("cookie {index} 0 {time}"));
        }
    }

    /// Sends until a keepalive, persistent or passive, takes the counter to the count of a renewal, one less or one more.
    fn near_renewal(&mut self) {
        let index = self.new_index();
        let keepalive = self.random.pick(&[0, 1, 1, 2, 5, 10, 25]);
        let time = self.greatest();
        self.say(format!("new {index} {keepalive} {time}"));
        let local = match self.random.percent(60) {
            true => self.own_session(),
            false => self.peer_session(),
        };
        let Some(local) = local else {
            return;
        };

        let goal = REKEY - self.random.pick(&[0, 1, 1, 1, 1, 2]);
        let count = goal.saturating_sub(self.current_counter());
        let time = self.greatest();
        self.say(format!("send {count} {time}"));
        if keepalive == 0 || self.random.percent(40) {
            self.take_data(local);
        }
    }

    /// Makes a session by a handshake of our own and gives its local index.
    fn own_session(&mut self) -> Option<u32> {
        let time = self.greatest();
        let peer = self.fresh_peer();

        match self.ask(format!("restart {time}")) {
            Some(Answer::Initiation { local }) => {
                self.ask(format!("resp {local} {peer} 0 {time}"))?;
                Some(local)
            }
            _ => None,
        }
    }

    /// Makes a session by a handshake of the peer, hears from it and gives its local index.
    fn peer_session(&mut self) -> Option<u32> {
        let time = self.greatest();
        let peer = self.fresh_peer();

        match self.ask(format!("hello {peer} 0 {time}")) {
            Some(Answer::Response { local, .. }) => {
                self.take_data(local);
                Some(local)
            }
            _ => None,
        }
    }

    /// Receives data with the next counter on the session with this index.
    fn take_data(&mut self, index: u32) {
        let sessions = self.view().map_or_else(Vec::new, |view| view.sessions);
        let session = sessions.iter().find(|session| session.index == index);

        if let Some(session) = session {
            let (id, next) = (session.id, session.next_received);
            let time = self.greatest();
            self.say(format!("recv {index} {id} {time} {next} d"));
        }
    }

    /// Lets a handshake be scheduled, with sessions and a cookie beside it, and settles it a while later.
    fn late_handshake(&mut self) {
        if self.random.percent(40) {
            self.own_session();
        }
        if self.random.percent(30) {
            self.peer_session();
        }
        let time = self.greatest();
        self.say(format!("restart {time}"));
        if self.random.percent(50) {
            self.good_cookie();
        }
        if self.random.percent(60) {
            self.drain();
        }
        let Some(at) = self.view().and_then(|view| view.deadline) else {
            return;
        };
        let time = at.max(self.greatest());
        let jitter = self.random.between(1, MAX_JITTER);
        self.say(format!("wake {jitter} {time}"));

        let later = self
            .random
            .pick(&[1, 5, 80, 85, 90, 115, 120, 170, 180, 535, 540]);
        let time = self.beside(time + later * SECOND);
        self.settle_at(time);
    }

    /// Makes sessions with or without data and goes on until one of them ends, or nearly.
    fn sessions_to_end(&mut self) {
        for _ in 0..self.random.between(1, 3) {
            let local = match self.random.percent(50) {
                true => self.own_session(),
                false => self.peer_session(),
            };
            if local.is_some() && self.random.percent(40) {
                let time = self.greatest();
                self.say(format!("send 1 {time}"));
            }
        }
        let age = self.random.pick(&[120, 165, 170, 180, 180, 180]);
        let Some(session) = self.session() else {
            return;
        };
        let time = self.beside(session.established_at + age * SECOND);
        self.settle_at(time.max(self.greatest()));
    }

    /// Rests until the tunnel is expired.
    fn let_expire(&mut self) {
        let time = self.greatest() + self.random.pick(&[539, 540, 541]) * SECOND;

        self.settle_at(time);
    }

    /// Settles with a jitter out of range, a time above the limit or one that went back, some of them at once, or by a line that cannot be read.
    fn refused_settling(&mut self) {
        if self.random.percent(15) {
            let line = self.random.pick(&ODD);
            self.say(line);
            return;
        }
        let pace =
            self.random
                .pick(&[Pace::Same, Pace::Short, Pace::Edge, Pace::Back, Pace::Limit]);
        let time = match self.random.percent(10) {
            true => TIME_LIMIT + 1,
            false => self.time_at(pace),
        };
        let jitter = match self.random.percent(60) {
            true => self.random.pick(&[MAX_JITTER + 1, u64::MAX]),
            false => self.settling_jitter(),
        };

        self.say(format!("settle {jitter} {time}"));
    }

    /// Settles just before, at or just after the next deadline, queued events disregarded, or later, with the events taken before or not.
    fn settle_around(&mut self) {
        if self.random.percent(50) {
            self.drain();
        }
        let Some(view) = self.view() else {
            return;
        };
        let at = view.deadline.unwrap_or(view.greatest);
        let late = at + self.random.below(6 * SECOND);
        let times: &[u64] = match self.random.below(8) {
            0 => &[at.saturating_sub(1), at],
            1 => &[at.saturating_sub(1), at + 1],
            2 => &[at.saturating_sub(1), at, at + 1],
            3 => &[at + 1],
            4 => &[late],
            _ => &[at],
        };

        for time in times {
            if *time >= self.greatest() || self.random.percent(10) {
                self.settle_at(*time);
            }
        }
        if self.greatest() == view.greatest {
            self.settle_at(view.greatest);
        }
    }

    /// Settles at a time and asks what came of it.
    fn settle_at(&mut self, time: u64) {
        let jitter = self.settling_jitter();
        self.say(format!("settle {jitter} {time}"));

        for _ in 0..self.random.below(4) {
            self.after_settling(time);
        }
    }

    /// A jitter: often none, the edges of the range, now and then out of it.
    fn settling_jitter(&mut self) -> u64 {
        match self.random.below(24) {
            0..10 => 0,
            10 => 1,
            11..13 => MAX_JITTER - 1,
            13..16 => MAX_JITTER,
            16 => MAX_JITTER + 1,
            _ => self.random.below(MAX_JITTER),
        }
    }

    /// Adds a call of the same time after a settling, or a question.
    fn after_settling(&mut self, time: u64) {
        let index = self.session().map_or(0, |session| session.index);
        let line = match self.random.below(9) {
            0 => "next".to_string(),
            1 => "event".to_string(),
            2 => format!("wake {} {time}", self.settling_jitter()),
            3 => format!("settle {} {time}", self.settling_jitter()),
            4 => format!("heard {index}"),
            5 => format!("missing {index}"),
            6 => format!("send 1 {time}"),
            7 => format!("look {index} 0 {time}"),
            _ => format!("settle 0 {}", time.saturating_sub(1)),
        };

        self.ask(line);
    }
}
