//! All scripts of a small alphabet, up to a length.

use oracle::{Answer, Driver};

use crate::maker::Script;
use crate::times::SECOND;

/// One letter of the alphabet.
#[derive(Clone, Copy)]
enum Letter {
    /// Starts a handshake a second later.
    Init,
    /// Starts a handshake anew at once.
    Restart,
    /// A good response to the present initiation, or to the last index.
    Resp,
    /// A good response to the previous initiation, or to the index before the last.
    Late,
    /// A good incoming initiation.
    Hello,
    /// Data with the next counter on the newest session.
    Recv,
    /// One message on the current session.
    Send,
    /// A waking at the deadline, the events disregarded.
    Due,
    /// A waking sixty seconds later.
    Wait,
    /// A good cookie reply for the last index.
    Cookie,
}

const ALPHABET: [Letter; 10] = [
    Letter::Init,
    Letter::Restart,
    Letter::Resp,
    Letter::Late,
    Letter::Hello,
    Letter::Recv,
    Letter::Send,
    Letter::Due,
    Letter::Wait,
    Letter::Cookie,
];

/// What goes before a word: nothing, a session of our own, or one of the peer's.
const BEGINNINGS: [&[Letter]; 3] = [
    &[],
    &[Letter::Init, Letter::Resp],
    &[Letter::Hello, Letter::Recv],
];

/// Goes through all words of a length after each beginning; each shorter word begins some of them.
pub struct Exhaustive {
    length: u32,
    at: u64,
}

impl Exhaustive {
    /// All words of `length` letters.
    pub fn new(length: u32) -> Self {
        Self { length, at: 0 }
    }
}

impl Iterator for Exhaustive {
    type Item = Script;

    fn next(&mut self) -> Option<Script> {
        let letters = ALPHABET.len() as u64;
        let words = letters.pow(self.length);
        let beginning = BEGINNINGS.get((self.at / words) as usize)?;
        if self.length == 0 {
            return None;
        }
        let word = (0..self.length)
            .rev()
            .map(|place| ALPHABET[(self.at / letters.pow(place) % letters) as usize]);
        let script = spell(beginning.iter().copied().chain(word));

        self.at += 1;
        Some(script)
    }
}

/// The script of a word: a tunnel, each letter with the next index before it and the deadline after it, the skips and the last heard time after
/// each batch, a settling just before the deadline, the events, the skips, the next index and when each session was last heard, and at the end a
/// settling at the deadline with its events.
fn spell(word: impl Iterator<Item = Letter>) -> Script {
    let mut speller = Speller {
        driver: Driver::new(),
        lines: Vec::new(),
    };

    speller.ask("new 254 25 0".to_string());
    for letter in word {
        let line = speller.line(letter);
        speller.ask("ahead".to_string());
        speller.ask(line);
        speller.ask("next".to_string());
        if matches!(letter, Letter::Recv) {
            speller.ask("skips".to_string());
            let (index, _, _) = speller.newest();
            speller.ask(format!("heard {index}"));
        }
    }
    let [now, due] = speller.now_and_due();
    speller.ask(format!("settle 0 {}", now.max(due - 1)));
    speller.drain();
    speller.ask("skips".to_string());
    speller.ask("ahead".to_string());
    for index in speller.held() {
        speller.ask(format!("heard {index}"));
    }
    let [_, due] = speller.now_and_due();
    speller.ask(format!("settle 0 {due}"));
    speller.ask("next".to_string());
    speller.drain();

    Script {
        lines: speller.lines,
    }
}

/// A word under way.
struct Speller {
    driver: Driver,
    lines: Vec<Vec<u8>>,
}

impl Speller {
    /// Adds a line and gives the answer, if it is good.
    fn ask(&mut self, line: String) -> Option<Answer> {
        let answer = self.driver.answer(line.as_bytes());

        self.lines.push(line.into_bytes());
        answer.ok()
    }

    /// Takes all events.
    fn drain(&mut self) {
        while !matches!(self.ask("event".to_string()), Some(Answer::None)) {}
    }

    /// The greatest time and the next deadline, queued events disregarded, or the greatest time where that has come or is none.
    fn now_and_due(&self) -> [u64; 2] {
        let view = self.driver.view().expect("the word began with `new`");
        let due = view.deadline.unwrap_or(view.greatest);

        [view.greatest, due.max(view.greatest)]
    }

    /// The indices of all sessions.
    fn held(&self) -> Vec<u32> {
        let sessions = self.driver.view().map_or_else(Vec::new, |v| v.sessions);

        sessions.into_iter().map(|session| session.index).collect()
    }

    /// The newest session's index, its id and its next counter, or the last index where there is none.
    fn newest(&self) -> (u32, u64, u64) {
        let view = self.driver.view().expect("the word began with `new`");
        let newest = view.sessions.iter().max_by_key(|session| session.id);

        newest.map_or((view.last_index, 0, 0), |s| {
            (s.index, s.id, s.next_received)
        })
    }

    /// The line of a letter in the present state.
    fn line(&self, letter: Letter) -> String {
        let view = self.driver.view().expect("the word began with `new`");
        let now = view.greatest;
        let last = view.last_index;
        let [present, previous] = view.initiations;
        let due = view.deadlines.iter().filter(|at| **at > now).min();

        match letter {
            Letter::Init => format!("init {}", now + SECOND),
            Letter::Restart => format!("restart {now}"),
            Letter::Resp => format!("resp {} 9 0 {now}", present.unwrap_or(last)),
            Letter::Late => format!("resp {} 8 0 {now}", previous.unwrap_or(last - 1)),
            Letter::Hello => format!("hello 7 0 {now}"),
            Letter::Recv => {
                let (index, id, next) = self.newest();
                format!("recv {index} {id} {now} {next} d")
            }
            Letter::Send => format!("send 1 {now}"),
            Letter::Due => format!("wake 333000000 {}", due.copied().unwrap_or(now)),
            Letter::Wait => format!("wake 0 {}", now + 60 * SECOND),
            Letter::Cookie => format!("cookie {last} 0 {now}"),
        }
    }
}
