//! Sequences in which the window of a fresh session grows past the next counters where its missing report is counted otherwise.

use std::iter;

use oracle::{Answer, ViewSession};

use crate::gaps::{EDGES, JUMPS};
use crate::maker::Maker;
use crate::moves::LIMIT;

/// The most messages of a batch.
const MAX_BATCH: usize = 1_024;

/// The openings of a batch: data, keepalives, both, and some that fail.
const OPENINGS: [&[&str]; 4] = [&["d"], &["k"], &["d", "k"], &["d", "d", "k", "f"]];

impl Maker {
    /// Grows the window of a fresh session, with the missing report before and after every batch.
    pub(crate) fn grow_window(&mut self) {
        let Some(ViewSession { index, id, .. }) = self.fresh_session() else {
            return;
        };
        self.ask(format!("missing {index}"));

        for _ in 0..self.random.between(4, 16) {
            let Some(next) = self.next_received(index, id) else {
                return;
            };
            let messages = self.growing_messages(next);
            let time = self.greatest();
            self.ask(format!("recv {index} {id} {time}{messages}"));
            self.ask(format!("missing {index}"));
            if self.full() {
                return;
            }
        }
        self.all_missing();
    }

    /// Makes a session, by an initiation of the peer or of our own.
    fn fresh_session(&mut self) -> Option<ViewSession> {
        let index = if self.random.percent(60) {
            self.good_hello()?
        } else {
            self.good_restart()?
        };
        let sessions = self.view()?.sessions;

        sessions.into_iter().find(|session| session.index == index)
    }

    /// Starts a handshake that is answered well and gives its local index.
    fn good_restart(&mut self) -> Option<u32> {
        let time = self.good_time();
        let Some(Answer::Initiation { local }) = self.ask(format!("restart {time}")) else {
            return None;
        };
        let peer = self.fresh_peer();
        self.ask(format!("resp {local} {peer} 0 {time}"))?;

        Some(local)
    }

    /// The messages of a batch where `next` is expected, sometimes back to front, the first one again at the end.
    fn growing_messages(&mut self, next: u64) -> String {
        let mut counters = self.growing_counters(next);
        if self.random.percent(25) {
            counters.reverse();
        }
        if self.random.percent(15) && counters.len() < MAX_BATCH {
            counters.extend(counters.first().copied());
        }
        let openings = self.random.pick(&OPENINGS);

        counters
            .into_iter()
            .map(|counter| format!(" {counter} {}", self.random.pick(openings)))
            .collect()
    }

    /// Counters that take the next one to an edge, past it, or back into the gaps.
    fn growing_counters(&mut self, next: u64) -> Vec<u64> {
        let edge = self.edge_above(next);
        let most = self.random.pick(&[10, 70, 130, 130, 130, MAX_BATCH]);
        let step = self.random.pick(&[2, 3, 5]);
        let few = self.random.between(1, 6);

        match self.random.below(20) {
            0..5 => (next..edge).take(most).collect(),
            5..9 => {
                let thinned = (next..edge).step_by(step).take(most - 1);
                thinned.chain(iter::once(edge - 1)).collect()
            }
            9..13 => vec![edge - 1],
            13 => vec![next.saturating_add(self.random.pick(&JUMPS))],
            14..16 => (0..few)
                .map(|_| next.saturating_sub(3).saturating_add(self.random.below(8)))
                .collect(),
            16 if self.random.percent(self.profile.far) => vec![LIMIT - self.random.below(3)],
            _ => {
                let back = next.clamp(1, 8_194);
                (0..few)
                    .map(|_| next.saturating_sub(1 + self.random.below(back)))
                    .collect()
            }
        }
    }

    /// An edge above `next`, mostly the least.
    fn edge_above(&mut self, next: u64) -> u64 {
        let jump = self.random.pick(&JUMPS);
        let above: Vec<u64> = EDGES.into_iter().filter(|edge| *edge > next).collect();

        match above.first() {
            None => next.saturating_add(jump),
            Some(least) if self.random.percent(60) => *least,
            Some(_) => self.random.pick(&above),
        }
    }
}
