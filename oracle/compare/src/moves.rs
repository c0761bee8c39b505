//! Single calls with arguments worth trying.

use oracle::{MAX_LINE, ViewSession};

use crate::maker::Maker;
use crate::times::{MAX_JITTER, Pace, SECOND, TIME_LIMIT};

/// The limit of counters.
pub(crate) const LIMIT: u64 = u64::MAX - 8_192;
/// The count of messages after which a session is renewed.
pub(crate) const REKEY: u64 = 1 << 60;
/// How far a counter may lie behind the next one.
const WINDOW: u64 = 8_192;

/// A kind of call.
#[derive(Clone, Copy, PartialEq, Eq)]
pub(crate) enum Move {
    New,
    Init,
    Restart,
    Resp,
    Hello,
    Cookie,
    Send,
    Recv,
    Look,
    Wake,
    Event,
    Missing,
    Split,
    Wrong,
    Noise,
}

impl Maker {
    /// Adds a call in the manner of the profile.
    pub(crate) fn any_move(&mut self) {
        match self.random.weighted(self.profile.moves) {
            Move::New => self.new_tunnel(),
            Move::Init => self.timed("init"),
            Move::Restart => self.timed("restart"),
            Move::Resp => self.resp(),
            Move::Hello => self.hello(),
            Move::Cookie => self.cookie(),
            Move::Send => self.send(),
            Move::Recv => self.recv(),
            Move::Look => self.look(),
            Move::Wake => self.wake(),
            Move::Event => {
                self.ask("event");
            }
            Move::Missing => self.missing(),
            Move::Split => self.split(),
            Move::Wrong => self.wrong(),
            Move::Noise => self.noise(),
        }
    }

    /// Creates a tunnel, now and then with arguments out of range.
    pub(crate) fn new_tunnel(&mut self) {
        let index = self.new_index();
        let keepalive = match self.random.below(100) {
            0 => 65_536,
            1 => u64::MAX,
            _ => self.random.pick(self.profile.keepalives),
        };
        let time = match self.random.below(100) {
            0 => self.random.pick(&[u64::MAX, TIME_LIMIT + 1]),
            1..20 => 0,
            20..40 => self.greatest(),
            _ => self.random.pick(self.profile.starts) + self.random.below(SECOND),
        };

        self.say(format!("new {index} {keepalive} {time}"));
    }

    /// An index for a new tunnel, often one whose low byte is about to wrap.
    pub(crate) fn new_index(&mut self) -> u32 {
        let any = self.random.next() as u32;

        match self.random.below(8) {
            0 => self
                .random
                .pick(&[0, 7, 8, 255, 256, 511, u32::MAX, u32::MAX - 255]),
            1..4 => any | 0xf8,
            4 => 256,
            _ => any,
        }
    }

    /// Adds a call that has only a time.
    pub(crate) fn timed(&mut self, name: &str) {
        let time = self.time();
        self.say(format!("{name} {time}"));
    }

    /// Answers an initiation: the present one, the previous one, an older one or none.
    pub(crate) fn resp(&mut self) {
        let receiver = self.initiation();
        let peer = self.fresh_peer();
        let outcome = self.outcome(&[7]);
        let time = self.time();

        self.say(format!("resp {receiver} {peer} {outcome} {time}"));
    }

    /// The index of an initiation that was sent, or one near it.
    fn initiation(&mut self) -> u32 {
        let Some(view) = self.view() else {
            return self.random.next() as u32;
        };
        let [present, previous] = view.initiations;
        let older = self.older_index(view.last_index);

        match self.random.below(10) {
            0..5 => present.or(previous).unwrap_or(older),
            5..8 => previous.or(present).unwrap_or(older),
            _ => older,
        }
    }

    /// An index handed out a little earlier, another tunnel's, or any.
    fn older_index(&mut self, last: u32) -> u32 {
        let back = self.random.below(10) as u32;

        match self.random.below(8) {
            0 => last ^ 256,
            1 => self.random.next() as u32,
            _ => (last & !0xff) | (last.wrapping_sub(back) & 0xff),
        }
    }

    /// An outcome: mostly good, else one of those named for the call, now and then another.
    fn outcome(&mut self, named: &[u64]) -> u64 {
        match self.random.below(20) {
            0..2 => self.random.pick(named),
            2 => self.random.pick(&[1, 2, 3, 4, 5, 6, 7, 8, u64::MAX]),
            _ => 0,
        }
    }

    /// Takes an incoming initiation.
    pub(crate) fn hello(&mut self) {
        let peer = self.fresh_peer();
        let outcome = self.outcome(&[3, 4, 5, 7]);
        let time = self.time();

        self.say(format!("hello {peer} {outcome} {time}"));
    }

    /// Takes a cookie reply, for the awaited index or another.
    pub(crate) fn cookie(&mut self) {
        let awaited = self.view().and_then(|view| view.awaited_cookie);
        let other = self.initiation();
        let receiver = match awaited {
            Some(index) if self.random.percent(75) => index,
            _ => other,
        };
        let outcome = self.outcome(&[7]);
        let time = self.time();

        self.say(format!("cookie {receiver} {outcome} {time}"));
    }

    /// Asks for a range, sometimes one that takes the counter to an edge.
    pub(crate) fn send(&mut self) {
        let count = self.send_count();
        let time = self.time();

        self.say(format!("send {count} {time}"));
    }

    /// A count of messages to send.
    fn send_count(&mut self) -> u64 {
        if !self.random.percent(self.profile.big_sends) {
            return match self.random.below(30) {
                0 => 0,
                1 => u64::MAX,
                2 => self.random.between(1_025, 5_000),
                3..8 => self.random.between(2, 100),
                _ => 1,
            };
        }
        let target = self.random.pick(&[
            REKEY - 2,
            REKEY - 1,
            REKEY,
            REKEY + 1,
            LIMIT - 2,
            LIMIT - 1,
            LIMIT,
            LIMIT + 1,
            u64::MAX,
        ]);

        target.saturating_sub(self.current_counter())
    }

    /// The send counter of the current session, or 0.
    pub(crate) fn current_counter(&self) -> u64 {
        let Some(view) = self.view() else {
            return 0;
        };
        let mut sessions = view.sessions.iter();

        sessions
            .find(|session| Some(session.index) == view.current)
            .map_or(0, |session| session.next_sent)
    }

    /// Hands in a batch of received messages.
    pub(crate) fn recv(&mut self) {
        let len = match self.random.below(40) {
            0 => 0,
            1 => self.random.pick(&[1_023, 1_024, 1_025, 1_500]),
            2..5 => self.random.between(9, 80) as usize,
            5..20 => self.random.between(2, 8) as usize,
            _ => 1,
        };
        let time = self.time();
        let (index, id, next) = self.target();

        let mut line = format!("recv {index} {id} {time}");
        let mut next = next;
        for _ in 0..len {
            let counter = self.counter(next);
            let opening = self.random.pick(&["d", "d", "d", "k", "k", "f"]);
            line.push_str(&format!(" {counter} {opening}"));
            if opening != "f" && counter >= next && counter < LIMIT {
                next = counter + 1;
            }
        }
        debug_assert!(line.len() <= MAX_LINE);
        self.say(line);
    }

    /// Looks at a counter.
    pub(crate) fn look(&mut self) {
        let (index, _, next) = self.target();
        let counter = self.counter(next);
        let time = self.time();

        self.ask(format!("look {index} {counter} {time}"));
    }

    /// An index and session id with the next counter: mostly a session's own, else near misses.
    fn target(&mut self) -> (u32, u64, u64) {
        let Some(session) = self.session() else {
            let index = self.initiation();
            return (index, self.random.below(3), self.random.below(4));
        };
        let ViewSession {
            index,
            id,
            next_received,
            ..
        } = session;

        match self.random.below(30) {
            0 => (index, id.wrapping_add(1), next_received),
            1 => (index, id.wrapping_sub(1), next_received),
            2 => (index.wrapping_add(8), id, next_received),
            3 => (index.wrapping_sub(8), id, next_received),
            4 => (index.wrapping_add(1), id, next_received),
            5 => (index ^ 0x100, id, next_received),
            6 => (self.random.next() as u32, id, next_received),
            7 => (index, self.random.next(), next_received),
            _ => (index, id, next_received),
        }
    }

    /// A counter to receive where `next` is expected, mostly at an edge of the window.
    pub(crate) fn counter(&mut self, next: u64) -> u64 {
        const EDGES: [u64; 14] = [
            0, 1, 2, 62, 63, 64, 65, 127, 128, 8_190, 8_191, 8_192, 8_193, 8_256,
        ];
        let edge = self.random.pick(&EDGES);
        let near = self.random.below(70);
        let word = self.random.below(130) * 64;
        let beside = self.random.below(3);

        match self.random.below(200) {
            0..60 => next,
            60..85 => next.saturating_sub(edge),
            85..105 => next.saturating_sub(near),
            105..125 => next.saturating_add(edge),
            125..145 => next.saturating_add(near),
            145..160 => (next & !63)
                .saturating_add(word)
                .wrapping_add(beside)
                .saturating_sub(1),
            160..170 => (next.saturating_sub(WINDOW) & !63) + word + beside,
            170..180 => next.saturating_sub(self.random.below(WINDOW + 2)),
            180..190 => next.saturating_add(self.random.below(3 * WINDOW)),
            190..196 => next.saturating_add(1 << self.random.below(58)),
            _ => self.far_counter(),
        }
    }

    /// A counter at the limit or at the end of all numbers.
    fn far_counter(&mut self) -> u64 {
        if !self.random.percent(self.profile.far) {
            return self
                .random
                .pick(&[LIMIT, LIMIT + 1, u64::MAX, u64::MAX - 1]);
        }

        self.random.pick(&[
            LIMIT - 8_194,
            LIMIT - 8_193,
            LIMIT - 8_192,
            LIMIT - 2,
            LIMIT - 1,
            LIMIT,
            LIMIT + 1,
            u64::MAX,
        ])
    }

    /// Adds a call that is turned down, for its arguments and often for its time too.
    fn wrong(&mut self) {
        let pace = self
            .random
            .pick(&[Pace::Same, Pace::Short, Pace::Back, Pace::Limit]);
        let time = self.time_at(pace);
        let (index, id, next) = self.target();
        let receiver = self.initiation();
        let outcome = self.random.pick(&[1, 2, 6, 8, u64::MAX]);
        let jitter = self.random.pick(&[MAX_JITTER + 1, u64::MAX]);
        let too_many = format!(" {next} d").repeat(self.random.pick(&[1_025, 1_026]));

        let named_elsewhere = self.random.between(3, 5);
        let keepalive = self.random.pick(&[65_536, u64::MAX]);

        let line = match self.random.below(8) {
            0 => format!("send 0 {time}"),
            1 => format!("recv {index} {id} {time}{too_many}"),
            2 => format!("resp {receiver} 5 {outcome} {time}"),
            3 => format!("hello 5 {outcome} {time}"),
            4 => format!("cookie {receiver} {outcome} {time}"),
            5 => format!("wake {jitter} {time}"),
            6 => format!("resp {receiver} 5 {named_elsewhere} {time}"),
            _ => format!("new {index} {keepalive} {time}"),
        };
        self.say(line);
    }

    /// Wakes the tunnel.
    pub(crate) fn wake(&mut self) {
        let jitter = self.jitter();
        let time = self.time();

        self.say(format!("wake {jitter} {time}"));
    }

    /// Asks for a missing report, of a session or of none.
    pub(crate) fn missing(&mut self) {
        let (index, _, _) = self.target();

        self.ask(format!("missing {index}"));
    }

    /// Cuts a range, at its edges and at those of the counters.
    pub(crate) fn split(&mut self) {
        let peer = self.fresh_peer();
        let first = match self.random.below(4) {
            0 => 0,
            1 => LIMIT - self.random.below(5),
            2 => self.random.next(),
            _ => self.random.below(10_000),
        };
        let room = LIMIT.saturating_sub(first);
        let length = match self.random.below(8) {
            0 => 0,
            1 => room,
            2 => room.saturating_add(1),
            3 => self.random.pick(&[
                u64::MAX,
                u64::MAX - first,
                (u64::MAX - first).wrapping_add(1),
            ]),
            4 => 1,
            _ => self.random.between(1, 2_000),
        };
        let at = match self.random.below(8) {
            0 => 0,
            1 => length,
            2 => length.saturating_sub(1),
            3 => length.saturating_add(1),
            4 => u64::MAX,
            _ => self.random.below(length.max(1)),
        };

        self.ask(format!("split {peer} {first} {length} {at}"));
    }
}
