//! The gap scripts: windows of every length that document 02's note 2 tells apart, with the skips and the missing report after each commit; and
//! batches of every kind, with the last heard times after each.

use oracle::{Answer, Driver, ViewSession};

use crate::maker::Script;
use crate::moves::LIMIT;
use crate::times::SECOND;

/// Next counters at which the missing report is counted otherwise, or just beside them.
pub(crate) const EDGES: [u64; 11] = [0, 1, 63, 64, 65, 127, 128, 129, 8_191, 8_192, 8_193];
/// How many counters a jump skips.
pub(crate) const JUMPS: [u64; 11] = [
    63, 64, 65, 127, 129, 1_000, 8_127, 8_128, 8_191, 8_192, 8_193,
];

/// The next counter up to which windows grow.
const LAST: u64 = 8_330;
/// The most counters of a full window.
const WINDOW: u64 = 8_192;
/// The most messages of a batch.
const MAX_BATCH: u64 = 1_024;
/// The most messages of a batch whose kinds are all gone through.
const KINDS_OF: u32 = 4;

/// All gap scripts with the names they are reported by.
pub fn gap_scripts() -> Vec<(String, Script)> {
    let mut parts = vec![
        ("in order".to_string(), grown(0, 1)),
        ("every second".to_string(), grown(1, 2)),
        ("openings".to_string(), openings()),
        ("at the limit".to_string(), at_limit()),
        ("two sessions".to_string(), side_by_side()),
        ("a session replaced".to_string(), replaced()),
        ("an index again".to_string(), returned()),
        ("ends".to_string(), ends()),
        ("batches".to_string(), batches()),
        ("last heard".to_string(), last_heard()),
        ("last heard of eight".to_string(), last_heard_of_eight()),
    ];
    for first in 0..3 {
        parts.push((format!("every third from {first}"), grown(first, 3)));
    }
    for jump in JUMPS {
        parts.push((format!("jumps of {jump}"), jumps(jump)));
    }

    parts
        .into_iter()
        .map(|(name, gaps)| (format!("gaps: {name}"), Script { lines: gaps.lines }))
        .collect()
}

/// A session by its local index and its id.
#[derive(Clone, Copy)]
struct Session {
    index: u32,
    id: u64,
}

/// A script under way, and the oracle that tells its sessions.
struct Gaps {
    driver: Driver,
    lines: Vec<Vec<u8>>,
}

impl Gaps {
    /// A new tunnel, whose indices soon wrap.
    fn new() -> Self {
        let mut gaps = Self {
            driver: Driver::new(),
            lines: Vec::new(),
        };
        gaps.ask("new 507 0 0".to_string());

        gaps
    }

    /// A new tunnel with a fresh session.
    fn with_session() -> (Self, Session) {
        let mut gaps = Self::new();
        let session = gaps.session();

        (gaps, session)
    }

    /// Adds a line and gives the answer, if it is good.
    fn ask(&mut self, line: String) -> Option<Answer> {
        let answer = self.driver.answer(line.as_bytes());

        self.lines.push(line.into_bytes());
        answer.ok()
    }

    /// Answers an initiation of the peer and asks for the missing report of the fresh session.
    fn session(&mut self) -> Session {
        self.ask("hello 9 0 0".to_string());
        let sessions = self.driver.view().map_or_else(Vec::new, |v| v.sessions);
        let newest = sessions.iter().max_by_key(|session| session.id);
        let newest = newest.expect("a session that was just made");
        let session = Session {
            index: newest.index,
            id: newest.id,
        };

        self.missing(session);
        session
    }

    /// Asks for the missing report of a session.
    fn missing(&mut self, session: Session) {
        let line = format!("missing {}", session.index);

        self.lines.push(line.into_bytes());
    }

    /// Asks when a session was last heard.
    fn heard(&mut self, session: Session) {
        let line = format!("heard {}", session.index);

        self.lines.push(line.into_bytes());
    }

    /// Asks when each session was last heard, and the ones before them in their slots.
    fn all_heard(&mut self) {
        let last = self.driver.view().map_or(0, |view| view.last_index);

        for back in 0..17u32 {
            let index = (last & !0xff) | (last.wrapping_sub(back) & 0xff);
            self.lines.push(format!("heard {index}").into_bytes());
        }
    }

    /// Asks for the skips.
    fn skips(&mut self) {
        self.lines.push(b"skips".to_vec());
    }

    /// Receives one message on a session and asks for its skip and the session's missing report.
    fn receive(&mut self, session: Session, counter: u64, opening: char) {
        let Session { index, id } = session;

        self.ask(format!("recv {index} {id} 0 {counter} {opening}"));
        self.skips();
        self.missing(session);
    }

    /// Receives a batch on a session and asks for its skips.
    fn batch(&mut self, session: Session, messages: &str) {
        let Session { index, id } = session;

        self.ask(format!("recv {index} {id} 0 {messages}"));
        self.skips();
    }

    /// Commits counters one by one, with the skip and the missing report after each.
    fn commit(&mut self, session: Session, counters: impl Iterator<Item = u64>) {
        for counter in counters {
            self.receive(session, counter, 'd');
        }
    }

    /// Fills the counters from `first` up to `end` back to front: all near both ends, others now and then.
    fn fill(&mut self, session: Session, first: u64, end: u64) {
        let near = |counter: &u64| *counter < first + 70 || *counter + 70 >= end;
        let filled = |counter: &u64| near(counter) || (end - counter).is_multiple_of(97);

        self.commit(session, (first..end).rev().filter(filled));
    }
}

/// A session that commits every `step`th counter from `first` on, so that its window grows past 8,192.
fn grown(first: u64, step: usize) -> Gaps {
    let (mut gaps, session) = Gaps::with_session();

    gaps.commit(session, (first..LAST).step_by(step));
    gaps
}

/// Counters whose opening fails, which then come as a keepalive and once more as data.
fn openings() -> Gaps {
    let (mut gaps, session) = Gaps::with_session();

    for counter in (0..200).chain(8_125..LAST) {
        for opening in ['f', 'k', 'd'] {
            gaps.receive(session, counter, opening);
        }
    }
    gaps
}

/// A jump from a fresh window, the counters behind it filled, and the same jump again from there.
fn jumps(jump: u64) -> Gaps {
    let (mut gaps, session) = Gaps::with_session();
    let mut next = 0;

    for _ in 0..3 {
        let ahead = next + jump;
        gaps.receive(session, ahead, 'd');
        gaps.fill(session, (ahead + 1).saturating_sub(WINDOW + 2), ahead);
        next = ahead + 1;
    }
    gaps
}

/// A window at the end of all counters, filled, and one that reaches it counter by counter.
fn at_limit() -> Gaps {
    let (mut gaps, session) = Gaps::with_session();
    gaps.commit(session, [LIMIT, LIMIT - 1].into_iter());
    gaps.fill(session, LIMIT - WINDOW - 2, LIMIT);

    let session = gaps.session();
    gaps.commit(session, LIMIT - 200..LIMIT + 3);
    gaps
}

/// Two sessions by turns, one in order and one with gaps, and both reports after each commit.
fn side_by_side() -> Gaps {
    let (mut gaps, first) = Gaps::with_session();
    let second = gaps.session();

    for counter in (0..140).chain(8_125..LAST) {
        gaps.receive(first, counter, 'd');
        gaps.missing(second);
        gaps.receive(second, 3 * counter, 'k');
        gaps.missing(first);
    }
    gaps
}

/// A session whose slot goes to another one, which then has a window of its own.
fn replaced() -> Gaps {
    let (mut gaps, old) = Gaps::with_session();
    gaps.commit(old, 0..70);
    let current = gaps.session();
    gaps.commit(current, 0..1);

    let mut new = gaps.session();
    while new.index % 8 != old.index % 8 {
        new = gaps.session();
    }
    gaps.missing(old);
    gaps.receive(old, 70, 'd');
    gaps.receive(Session { id: old.id, ..new }, 70, 'd');
    gaps.commit(new, (1..140).step_by(2));
    gaps.commit(new, [8_190, 8_191, 8_192].into_iter());
    gaps.missing(current);
    gaps
}

/// A session whose index goes to another one, which then has a window of its own.
fn returned() -> Gaps {
    let (mut gaps, old) = Gaps::with_session();
    gaps.commit(old, (0..140).step_by(2));
    let current = gaps.session();
    gaps.commit(current, 0..1);

    let last = |gaps: &Gaps| gaps.driver.view().map_or(0, |view| view.last_index);
    while (last(&gaps) + 1) % 256 != old.index % 256 {
        gaps.ask("hello 9 3 0".to_string());
        gaps.missing(old);
    }
    let new = gaps.session();
    gaps.receive(old, 140, 'd');
    gaps.commit(new, 0..140);
    gaps.missing(current);
    gaps
}

/// A session past its end, before and after the waking that empties its slot, and in a tunnel created anew.
fn ends() -> Gaps {
    let (mut gaps, session) = Gaps::with_session();
    let Session { index, id } = session;
    let end = 180 * SECOND;
    gaps.commit(session, [0, 1, 2, 3, 4, 9].into_iter());

    for line in [
        format!("recv {index} {id} {end} 10 d"),
        format!("wake 0 {end}"),
        format!("wake 0 {}", 3 * end),
        format!("recv {index} {id} {} 11 d", 3 * end),
        "new 507 65536 0".to_string(),
        "new 507 0 0".to_string(),
    ] {
        gaps.ask(line);
        gaps.skips();
        gaps.missing(session);
    }
    let session = gaps.session();
    gaps.commit(session, [4, 0].into_iter());
    gaps
}

/// Batches of a jump among messages that skip nothing, and what is turned down or empty after them.
fn batches() -> Gaps {
    let (mut gaps, session) = Gaps::with_session();
    let Session { index, id } = session;
    let mut next = 0;
    gaps.skips();

    for jump in [0, 1, 2].into_iter().chain(JUMPS) {
        let ahead = next + jump;
        let [before, old] = [1, WINDOW].map(|back| ahead.saturating_sub(back));
        let messages = format!(
            "{before} f {ahead} f {ahead} d {ahead} k {before} k {old} d {} k",
            ahead + 2
        );
        gaps.batch(session, &messages);
        gaps.batch(session, "");
        gaps.batch(session, &format!("{} d {} d", ahead + 9, ahead + 20));
        gaps.ask(format!("recv {index} {} 0 {} d", id + 1, ahead + 30));
        gaps.skips();
        next = ahead + 21;
    }
    for (step, len) in [(2, MAX_BATCH), (9, MAX_BATCH), (2, MAX_BATCH + 1)] {
        let counters = (1..=len).map(|at| next + step * at);
        let mut messages: Vec<String> = counters.map(|counter| format!("{counter} d")).collect();
        gaps.batch(session, &messages.join(" "));
        messages.reverse();
        gaps.batch(session, &messages.join(" "));
        next += step * len + 1;
    }
    gaps.batch(session, "0 d");
    gaps
}

/// Batches of up to four messages in every combination of data, keepalives, failed openings, replays and counters too old, each a nanosecond
/// later, with the last heard times of the session and of another one after each.
fn last_heard() -> Gaps {
    const KINDS: u64 = 5;
    const FIRST: u64 = 2 * WINDOW;
    let (mut gaps, session) = Gaps::with_session();
    let other = gaps.session();
    let Session { index, id } = session;
    let mut next = FIRST + 1;
    let mut time = 1;
    gaps.ask(format!("recv {index} {id} 0 {FIRST} d"));

    for len in 0..=KINDS_OF {
        for word in 0..KINDS.pow(len) {
            let mut line = format!("recv {index} {id} {time}");
            for place in 0..len {
                let (counter, opening) = match word / KINDS.pow(place) % KINDS {
                    0 => (next, 'd'),
                    1 => (next, 'k'),
                    2 => (next, 'f'),
                    3 => (FIRST, 'd'),
                    _ => (0, 'd'),
                };
                line.push_str(&format!(" {counter} {opening}"));
                next += u64::from(counter == next && opening != 'f');
            }
            gaps.ask(line);
            gaps.heard(session);
            gaps.heard(other);
            time += 1;
        }
    }
    gaps
}

/// A session in each slot, each made and heard at a time of its own, then replaced or dropped, with all last heard times after each call.
fn last_heard_of_eight() -> Gaps {
    let mut gaps = Gaps::new();
    let mut time = 0;

    for call in 0..24 {
        time += SECOND;
        gaps.ask(format!("hello 9 0 {time}"));
        gaps.all_heard();
        let sessions = gaps.driver.view().map_or_else(Vec::new, |v| v.sessions);
        let at = call * 5 % sessions.len();
        let ViewSession {
            index,
            id,
            next_received: next,
            ..
        } = sessions[at];
        let opening = ['d', 'k', 'f'][call % 3];
        if call >= 8 {
            gaps.ask(format!("recv {index} {id} {} {next} {opening}", time + 1));
            gaps.all_heard();
        }
    }
    let sessions = gaps.driver.view().map_or_else(Vec::new, |v| v.sessions);
    let mut ends: Vec<u64> = sessions
        .iter()
        .map(|session| session.established_at + 180 * SECOND)
        .collect();
    ends.sort_unstable();
    for end in ends {
        for time in [end - 1, end] {
            gaps.ask(format!("wake 0 {time}"));
            gaps.all_heard();
        }
    }
    gaps.ask(format!("wake 0 {}", time + 540 * SECOND));
    gaps.all_heard();
    gaps
}
