//! Short sequences of calls that lead to situations single calls seldom meet.

use oracle::{Answer, ViewSession};

use crate::maker::Maker;
use crate::moves::LIMIT;
use crate::times::{Pace, SECOND};

/// A kind of sequence.
#[derive(Clone, Copy, PartialEq, Eq)]
pub(crate) enum Plot {
    Initiator,
    Responder,
    Deadlines,
    Unanswered,
    Answered,
    Ages,
    PileUp,
    Tie,
    Wrap,
    Overwrite,
    Return,
    Collide,
    LateResponse,
    Climb,
    Sweep,
    Jumps,
    Growth,
    Passive,
    Persistent,
    CookieLife,
    Silence,
    Missed,
}

impl Maker {
    /// Adds a sequence in the manner of the profile.
    pub(crate) fn any_plot(&mut self) {
        match self.random.weighted(self.profile.plot_kinds) {
            Plot::Initiator => self.become_initiator(),
            Plot::Responder => self.become_responder(),
            Plot::Deadlines => self.follow_deadlines(),
            Plot::Unanswered => self.go_unanswered(),
            Plot::Answered => self.answer_rekeys(),
            Plot::Ages => self.walk_ages(),
            Plot::PileUp => self.pile_up_events(),
            Plot::Tie => self.tie(),
            Plot::Wrap => self.wrap_indices(),
            Plot::Overwrite => self.overwrite_slot(),
            Plot::Return => self.index_returns(),
            Plot::Collide => self.collide(),
            Plot::LateResponse => self.late_response(),
            Plot::Climb => self.climb_counter(),
            Plot::Sweep => self.sweep_window(),
            Plot::Jumps => self.jump_window(),
            Plot::Growth => self.grow_window(),
            Plot::Passive => self.passive_keepalive(),
            Plot::Persistent => self.persistent_keepalive(),
            Plot::CookieLife => self.cookie_life(),
            Plot::Silence => self.silence(),
            Plot::Missed => self.missed_wakings(),
        }
    }

    /// Completes a handshake of our own, sometimes with data both ways.
    fn become_initiator(&mut self) {
        let time = self.good_time();
        let word = self.random.pick(&["init", "restart"]);
        self.say(format!("{word} {time}"));
        self.answer_initiation();
        self.some_data();
    }

    /// Answers the present initiation well, if there is one.
    fn answer_initiation(&mut self) -> bool {
        let Some(index) = self.view().and_then(|view| view.initiations[0]) else {
            return false;
        };
        let peer = self.fresh_peer();
        let pace = self.random.pick(&[Pace::Same, Pace::Tiny, Pace::Short]);
        let time = self.time_at(pace);

        self.say(format!("resp {index} {peer} 0 {time}")).is_some()
    }

    /// Answers a handshake of the peer, and mostly hears from it.
    fn become_responder(&mut self) {
        let Some(index) = self.good_hello() else {
            return;
        };
        if self.random.percent(80) {
            self.hear(index, "k");
        }
        self.some_data();
    }

    /// Takes a good incoming initiation and gives its local index.
    pub(crate) fn good_hello(&mut self) -> Option<u32> {
        let peer = self.fresh_peer();
        let time = self.good_time();

        match self.say(format!("hello {peer} 0 {time}")) {
            Some(Answer::Response { local, .. }) => Some(local),
            _ => None,
        }
    }

    /// Receives the next counter on the session with this index, at the greatest time or just after.
    fn hear(&mut self, index: u32, opening: &str) {
        let Some(view) = self.view() else {
            return;
        };
        let Some(session) = view.sessions.iter().find(|session| session.index == index) else {
            return;
        };
        let (id, next) = (session.id, session.next_received);
        let pace = self.random.pick(&[Pace::Same, Pace::Tiny, Pace::Short]);
        let time = self.time_at(pace);

        self.say(format!("recv {index} {id} {time} {next} {opening}"));
    }

    /// Sends or receives data, or neither.
    fn some_data(&mut self) {
        if self.random.percent(50) {
            let time = self.good_time();
            self.say(format!("send 1 {time}"));
        }
        if self.random.percent(50) {
            if let Some(session) = self.session() {
                let opening = self.random.pick(&["d", "d", "k"]);
                self.hear(session.index, opening);
            }
        }
    }

    /// Wakes at the deadlines as they come, a nanosecond early or late now and then.
    fn follow_deadlines(&mut self) {
        for _ in 0..self.random.between(3, 12) {
            self.wake_at_deadline();
            if self.full() {
                return;
            }
        }
    }

    /// Takes the events and wakes at the next deadline or beside it.
    fn wake_at_deadline(&mut self) {
        if self.random.percent(85) {
            self.drain();
        }
        let Some(next) = self.view().and_then(|view| view.next) else {
            return;
        };
        let time = self.beside(next).max(self.greatest());
        let jitter = self.good_jitter();

        self.say(format!("wake {jitter} {time}"));
    }

    /// Starts a handshake that nobody answers and wakes at its deadlines until nothing is left.
    fn go_unanswered(&mut self) {
        let time = self.good_time();
        self.say(format!("init {time}"));
        let drains = self.random.percent(70);

        for _ in 0..45 {
            let Some(view) = self.view() else {
                return;
            };
            if view.expired || self.full() {
                return;
            }
            if drains {
                self.drain();
            }
            let at = self.soonest().unwrap_or(view.greatest);
            let time = self.beside(at).max(view.greatest);
            let jitter = self.good_jitter();
            self.say(format!("wake {jitter} {time}"));
        }
    }

    /// The next deadline, queued events disregarded.
    fn soonest(&self) -> Option<u64> {
        let view = self.view()?;

        view.deadlines
            .iter()
            .copied()
            .filter(|at| *at > view.greatest)
            .min()
    }

    /// Wakes at deadlines and answers the initiations that come of it.
    fn answer_rekeys(&mut self) {
        for _ in 0..self.random.between(2, 8) {
            self.wake_at_deadline();
            if self.random.percent(60) {
                self.answer_initiation();
            }
            if self.random.percent(40) {
                self.some_data();
            }
            if self.full() {
                return;
            }
        }
    }

    /// Uses a session at each age where something changes, to the nanosecond.
    fn walk_ages(&mut self) {
        let Some(session) = self.session() else {
            return self.become_initiator();
        };
        for age in [120, 165, 170, 180] {
            let at = session.established_at + age * SECOND;
            for time in [at - 1, at, at + 1] {
                if time < self.greatest() || self.random.percent(30) {
                    continue;
                }
                self.use_at(session.index, session.id, time);
                if self.full() {
                    return;
                }
            }
        }
    }

    /// Looks, receives, sends or wakes at a given time.
    fn use_at(&mut self, index: u32, id: u64, time: u64) {
        if self.random.percent(50) {
            self.ask(format!("look {index} 70000 {time}"));
        }
        match self.random.below(4) {
            0 => {
                let jitter = self.good_jitter();
                self.say(format!("wake {jitter} {time}"));
            }
            1 => {
                let counter = self.random.below(20);
                self.say(format!("recv {index} {id} {time} {counter} d"));
            }
            _ => {
                self.say(format!("send 1 {time}"));
            }
        }
    }

    /// Lets more than sixteen events pile up, then takes them.
    fn pile_up_events(&mut self) {
        let Some(index) = self.good_hello() else {
            return;
        };
        let wakes = self.random.between(14, 20);
        for counter in 0..wakes {
            let Some(session) = self
                .view()
                .and_then(|view| view.sessions.into_iter().find(|s| s.index == index))
            else {
                break;
            };
            let id = session.id;
            let time = self.greatest();
            self.ask(format!("recv {index} {id} {time} {counter} d"));
            let jitter = self.good_jitter();
            self.ask(format!("wake {jitter} {}", time + 10 * SECOND));
        }
        self.ask("next");
        self.drain();
        self.ask("next");
    }

    /// Makes two sessions of one time and hears from them by turns.
    fn tie(&mut self) {
        let Some(first) = self.good_hello() else {
            return;
        };
        let time = self.greatest();
        let peer = self.fresh_peer();
        let Some(Answer::Response { local: second, .. }) =
            self.say(format!("hello {peer} 0 {time}"))
        else {
            return;
        };

        for _ in 0..self.random.between(2, 6) {
            let index = self.random.pick(&[first, second]);
            let opening = self.random.pick(&["d", "k"]);
            self.hear(index, opening);
            let time = self.greatest();
            self.say(format!("send 1 {time}"));
        }
    }

    /// Uses up many indices, sometimes all 256.
    fn wrap_indices(&mut self) {
        let count = self.random.pick(&[4, 9, 17, 17, 260]);
        let words = self.random.below(3);

        for _ in 0..count {
            let time = self.greatest();
            let peer = self.fresh_peer();
            match words {
                0 => self.ask(format!("restart {time}")),
                1 => self.ask(format!("hello {peer} 0 {time}")),
                _ => self.ask(format!("hello {peer} 3 {time}")),
            };
        }
        self.ask("next");
    }

    /// Fills all slots again, asks after a session that was there and uses the new one in its slot.
    fn overwrite_slot(&mut self) {
        let Some(old) = self.session() else {
            return self.become_responder();
        };
        for _ in 0..self.random.between(6, 10) {
            self.good_hello();
        }
        let (index, id, next) = (old.index, old.id, old.next_received);
        let time = self.greatest();
        self.ask(format!("missing {index}"));
        self.ask(format!("look {index} {next} {time}"));
        self.say(format!("recv {index} {id} {time} {next} d"));
        self.say(format!("send 1 {time}"));

        let same_slot = |other: &ViewSession| other.index % 8 == index % 8;
        let sessions = self.view().map_or_else(Vec::new, |view| view.sessions);
        if let Some(new) = sessions.into_iter().find(same_slot) {
            self.use_anew(&new, id, next);
        }
    }

    /// Commits counters on a session that the session before it in its slot may have committed.
    fn use_anew(&mut self, new: &ViewSession, old_id: u64, old_next: u64) {
        let (index, id) = (new.index, new.id);
        let time = self.greatest();
        self.ask(format!("missing {index}"));
        self.say(format!("recv {index} {old_id} {time} 0 d"));
        for back in [2, 1, 0] {
            let counter = old_next.saturating_sub(back);
            self.ask(format!("recv {index} {id} {time} {counter} k"));
        }
        self.ask(format!("missing {index}"));
    }

    /// Lets the current session pass its end and hands out its index again.
    fn index_returns(&mut self) {
        let Some(current) = self.view().and_then(|view| {
            let mut sessions = view.sessions.into_iter();
            sessions.find(|session| Some(session.index) == view.current)
        }) else {
            return self.become_responder();
        };
        let end = current.established_at + 180 * SECOND;
        let peer = self.fresh_peer();
        let time = end.saturating_sub(SECOND).max(self.greatest());
        self.say(format!("hello {peer} 0 {time}"));
        let time = end.max(time);
        self.say(format!("wake 0 {time}"));

        for _ in 0..255 {
            let last = self.view().map_or(0, |view| view.last_index);
            if (last + 1) % 256 == current.index % 256 {
                break;
            }
            self.ask(format!("hello {peer} 3 {time}"));
        }
        self.say(format!("hello {peer} 0 {time}"));
        self.say(format!("send 1 {time}"));
        let sessions = self.view().map_or_else(Vec::new, |view| view.sessions);
        if let Some(new) = sessions.into_iter().find(|s| s.index == current.index) {
            self.use_anew(&new, current.id, current.next_received);
        }
    }

    /// Makes a session current in the slot, or with the very index, of an initiation under way, and
    /// answers that initiation.
    fn collide(&mut self) {
        let time = self.good_time();
        let Some(Answer::Initiation { local }) = self.ask(format!("restart {time}")) else {
            return;
        };
        let alike = self.random.pick(&[8, 8, 8, 8, 256]);
        let same = |session: &ViewSession| session.index % alike == local % alike;
        for _ in 0..300 {
            let peer = self.fresh_peer();
            self.ask(format!("hello {peer} 0 {time}"));
            let view = self.view();
            if view.is_some_and(|view| view.sessions.iter().any(same)) {
                break;
            }
        }
        let sessions = self.view().map_or_else(Vec::new, |view| view.sessions);
        let Some(first) = sessions.into_iter().find(same) else {
            return;
        };
        if self.random.percent(80) {
            let opening = self.random.pick(&["d", "k"]);
            self.hear(first.index, opening);
        }

        let peer = self.fresh_peer();
        let time = self.greatest();
        self.say(format!("resp {local} {peer} 0 {time}"));
        self.say(format!("send 1 {time}"));
        self.ask(format!("missing {}", first.index));
        self.say(format!("recv {} {} {time} 0 d", first.index, first.id));
        self.say(format!("recv {local} {} {time} 0 d", first.id + 1));
    }

    /// Answers one of the last three initiations, then perhaps another.
    fn late_response(&mut self) {
        let mut indices = Vec::new();
        for _ in 0..self.random.between(2, 4) {
            let time = self.good_time();
            if let Some(Answer::Initiation { local }) = self.say(format!("restart {time}")) {
                indices.push(local);
            }
        }
        if indices.is_empty() {
            return;
        }
        for _ in 0..self.random.between(1, 3) {
            let receiver = self.random.pick(&indices);
            let peer = self.fresh_peer();
            let outcome = self.random.pick(&[0, 0, 0, 7]);
            let time = self.good_time();
            self.say(format!("resp {receiver} {peer} {outcome} {time}"));
        }
        self.say(format!("send 1 {}", self.greatest()));
    }

    /// Takes the send counter to the edges, one message at a time around them.
    fn climb_counter(&mut self) {
        if self.current_counter() == 0 {
            self.become_initiator();
        }
        let edge = self.random.pick(&[1 << 60, LIMIT]);
        let short = self.random.between(1, 3);
        let count = (edge - short).saturating_sub(self.current_counter());
        let time = self.good_time();
        self.say(format!("send {count} {time}"));

        for _ in 0..self.random.between(2, 6) {
            let pace = self.random.pick(&[Pace::Same, Pace::Tiny, Pace::Short]);
            let time = self.time_at(pace);
            let count = self.random.pick(&[1, 1, 1, 2, 3]);
            match self.random.below(6) {
                0 => drop(self.say(format!("wake 0 {time}"))),
                1 => drop(self.good_hello()),
                _ => drop(self.say(format!("send {count} {time}"))),
            }
        }
    }

    /// Looks at and commits counters around both ends of the window.
    fn sweep_window(&mut self) {
        let Some(session) = self.session() else {
            return self.become_responder();
        };
        let (index, id) = (session.index, session.id);
        let time = self.greatest();

        for _ in 0..self.random.between(4, 12) {
            let Some(next) = self.next_received(index, id) else {
                return;
            };
            let counter = self.counter(next);
            self.ask(format!("look {index} {counter} {time}"));
            let opening = self.random.pick(&["d", "d", "k", "f"]);
            self.ask(format!("recv {index} {id} {time} {counter} {opening}"));
            if self.random.percent(50) {
                self.ask(format!("missing {index}"));
            }
        }
    }

    /// Fills stretches of the window, jumps ahead and tries what the jump should have cleared.
    fn jump_window(&mut self) {
        let Some(session) = self.session() else {
            return self.become_initiator();
        };
        let (index, id) = (session.index, session.id);
        let time = self.greatest();

        for _ in 0..self.random.between(2, 5) {
            let Some(next) = self.next_received(index, id) else {
                return;
            };
            let run = self.random.pick(&[1, 5, 64, 130, 400, 1_024]);
            self.ask(batch(index, id, time, next, run));
            let next = next.saturating_add(run);
            let jump = self.random.pick(&[
                1, 2, 62, 63, 64, 65, 66, 127, 128, 129, 200, 1_000, 4_096, 8_127, 8_128, 8_129,
                8_189, 8_190, 8_191, 8_192, 8_193, 8_194, 20_000,
            ]);
            let ahead = next.saturating_add(jump);
            self.ask(format!("recv {index} {id} {time} {ahead} d"));
            self.ask(format!("missing {index}"));
            for _ in 0..3 {
                let back = self.random.between(1, jump + 2 * run + 2);
                let counter = ahead.saturating_sub(back);
                self.ask(format!("recv {index} {id} {time} {counter} k"));
            }
            self.ask(format!("missing {index}"));
        }
    }

    /// The next counter that a session expects.
    pub(crate) fn next_received(&self, index: u32, id: u64) -> Option<u64> {
        let view = self.view()?;
        let mut sessions = view.sessions.iter();

        sessions
            .find(|session| session.index == index && session.id == id)
            .map(|session| session.next_received)
    }

    /// Receives data without replying, and wakes around the passive keepalive's deadline.
    fn passive_keepalive(&mut self) {
        let Some(session) = self.session() else {
            return self.become_responder();
        };
        self.hear(session.index, "d");
        let due = self.greatest() + 10 * SECOND;
        if self.random.percent(40) {
            let time = self.time_at(Pace::Short);
            let line = match self.random.below(4) {
                0 => format!("send 1 {time}"),
                1 => format!("restart {time}"),
                2 => format!("hello 77 0 {time}"),
                _ => format!("wake 0 {time}"),
            };
            self.say(line);
        }
        for time in [due - 1, due, due + 1] {
            if time >= self.greatest() && self.random.percent(80) {
                self.say(format!("wake 0 {time}"));
            }
        }
    }

    /// Wakes around the persistent keepalive's deadlines.
    fn persistent_keepalive(&mut self) {
        for _ in 0..self.random.between(3, 10) {
            let Some(view) = self.view() else {
                return;
            };
            if view.expired || self.full() {
                return;
            }
            let due = self.soonest().unwrap_or(view.greatest);
            let time = self.beside(due).max(view.greatest);
            self.say(format!("wake 0 {time}"));
            if self.random.percent(30) {
                self.some_data();
            }
            if self.random.percent(30) {
                self.answer_initiation();
            }
        }
    }

    /// Takes a cookie and lives on until it expires.
    fn cookie_life(&mut self) {
        let time = self.good_time();
        let word = self.random.pick(&["init", "restart"]);
        match self.random.below(3) {
            0 => self.say(format!("hello 5 0 {time}")),
            1 => self.say(format!("hello 5 7 {time}")),
            _ => self.say(format!("{word} {time}")),
        };
        if self.random.percent(30) {
            self.answer_initiation();
        }
        let Some(index) = self.view().and_then(|view| view.awaited_cookie) else {
            return;
        };
        let pace = self.random.pick(&[Pace::Same, Pace::Short, Pace::Medium]);
        let time = self.time_at(pace);
        let outcome = self.random.pick(&[0, 0, 0, 7]);
        self.say(format!("cookie {index} {outcome} {time}"));
        let due = time + 120 * SECOND;

        for _ in 0..self.random.between(0, 20) {
            self.wake_at_deadline();
            if self.random.percent(50) {
                self.answer_initiation();
            }
            if self.greatest() >= due || self.full() {
                break;
            }
        }
        for time in [due - 1, due, due + 1] {
            if time >= self.greatest() && self.random.percent(70) {
                self.say(format!("wake 0 {time}"));
            }
        }
        self.ask(format!("cookie {index} 0 {}", self.greatest()));
    }

    /// Lets everything rest until 540 seconds after the last handshake.
    fn silence(&mut self) {
        if self.random.percent(50) {
            self.new_tunnel();
        }
        if self.random.percent(50) {
            self.become_responder();
        }
        let completed = self.view().and_then(|view| view.deadlines.first().copied());
        let Some(due) = completed else {
            return;
        };
        for time in [due - 1, due, due + 1] {
            if time >= self.greatest() && self.random.percent(80) {
                let jitter = self.good_jitter();
                self.say(format!("wake {jitter} {time}"));
            }
        }
        self.after_expiry();
    }

    /// Lets a session that sent data, or did not, pass its end with no waking before.
    fn missed_wakings(&mut self) {
        if self.random.percent(50) {
            self.become_initiator();
        } else {
            self.become_responder();
        }
        if self.random.percent(30) {
            self.good_hello();
        }
        let Some(session) = self.session() else {
            return;
        };
        let end = session.established_at + 180 * SECOND;
        let time = self.beside(end).max(self.greatest());
        let jitter = self.good_jitter();
        self.say(format!("wake {jitter} {time}"));
        self.ask(format!("missing {}", session.index));
        self.follow_deadlines();
        self.after_expiry();
    }

    /// Tries a few calls once the tunnel is expired.
    fn after_expiry(&mut self) {
        if !self.view().is_some_and(|view| view.expired) {
            return;
        }
        for _ in 0..self.random.between(1, 6) {
            self.any_move();
        }
    }
}

/// A batch of `run` data messages with consecutive counters.
fn batch(index: u32, id: u64, time: u64, first: u64, run: u64) -> String {
    let mut line = format!("recv {index} {id} {time}");

    for counter in (0..run).map(|offset| first.saturating_add(offset)) {
        line.push_str(&format!(" {counter} d"));
    }

    line
}
