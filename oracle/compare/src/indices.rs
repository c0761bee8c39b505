//! The index scripts: every low byte of a created index, with the next index asked for just before each call that may allocate one.

use oracle::{Answer, Driver};

use crate::maker::Script;
use crate::times::SECOND;

/// The upper 24 bits of created indices.
const UPPER: [u32; 3] = [0, 1, 0xff_ffff];
/// Outcomes that turn an incoming initiation down and use up an index.
const TURNED_DOWN: [u64; 4] = [3, 4, 5, 7];
/// The allocations of a walk that meets every low byte.
const WHOLE: usize = 264;
/// The allocations of a walk that meets every slot.
const SHORT: usize = 10;
/// The most wakings of a life.
const WAKINGS: usize = 60;

/// All index scripts with the names they are reported by.
pub fn index_scripts() -> Vec<(String, Script)> {
    let mut scripts = Vec::new();

    for low in 0..256 {
        for upper in UPPER {
            let index = upper << 8 | low;
            scripts.push(named("no session", index, without_session(index, SHORT)));
            scripts.push(named("a session", index, with_session(index, SHORT)));
        }
        let index = with_some_upper(low);
        let long = with_session(index, WHOLE);
        scripts.push(named("a session for long", index, long));
        scripts.push(named("two numbers", index, two_numbers(index)));
        scripts.push(named("a session replaced", index, replaced(index)));
        scripts.push(named("wakings", index, wakings(index)));
    }
    for (upper, low) in UPPER.into_iter().zip([0, 254, 255]) {
        let index = upper << 8 | low;
        let long = without_session(index, WHOLE);
        scripts.push(named("no session for long", index, long));
    }

    scripts
}

/// Some of the index scripts: every low byte with a call that takes two numbers, every 31st with no session, with one that is replaced and with
/// wakings.
pub fn short_index_scripts() -> Vec<(String, Script)> {
    let mut scripts = Vec::new();

    for low in 0..256 {
        let index = with_some_upper(low);
        scripts.push(named("two numbers", index, two_numbers(index)));
        if low % 31 == 7 {
            scripts.push(named("no session", index, without_session(index, SHORT)));
            scripts.push(named("a session replaced", index, replaced(index)));
            scripts.push(named("wakings", index, wakings(index)));
        }
    }

    scripts
}

/// A low byte with upper bits that it chooses.
fn with_some_upper(low: u32) -> u32 {
    UPPER[low as usize % UPPER.len()] << 8 | low
}

/// A script with the name it is reported by.
fn named(name: &str, index: u32, indices: Indices) -> (String, Script) {
    let lines = indices.lines;

    (format!("indices: {name} from {index}"), Script { lines })
}

/// A script under way, and the oracle that tells its indices and deadlines.
struct Indices {
    driver: Driver,
    lines: Vec<Vec<u8>>,
    time: u64,
}

impl Indices {
    /// A new tunnel at time 0.
    fn new(index: u32) -> Self {
        let mut indices = Self {
            driver: Driver::new(),
            lines: Vec::new(),
            time: 0,
        };
        indices.ask(format!("new {index} 0 0"));

        indices
    }

    /// Adds a line and gives the answer, if it is good.
    fn ask(&mut self, line: String) -> Option<Answer> {
        let answer = self.driver.answer(line.as_bytes());

        self.lines.push(line.into_bytes());
        answer.ok()
    }

    /// Adds a call with the next index asked for just before it.
    fn told(&mut self, line: String) -> Option<Answer> {
        self.ask("ahead".to_string());

        self.ask(line)
    }

    /// Makes a session by an incoming initiation and data, which makes it the current one.
    fn session(&mut self) {
        let time = self.time;
        self.told(format!("hello 9 0 {time}"));
        let sessions = self.driver.view().map_or_else(Vec::new, |v| v.sessions);
        let newest = sessions.iter().max_by_key(|session| session.id);
        let newest = newest.expect("a session that was just made");

        self.ask(format!("recv {} {} {time} 0 d", newest.index, newest.id));
    }

    /// Allocates so many indices: by restarts and initiations that are turned down, seldom by one that is taken.
    fn walk(&mut self, allocations: usize) {
        let time = self.time;

        for at in 0..allocations {
            let outcome = TURNED_DOWN[at / 3 % TURNED_DOWN.len()];
            self.told(match at % 3 {
                0 => format!("restart {time}"),
                _ if at % 29 == 5 => format!("hello 8 0 {time}"),
                _ => format!("hello 8 {outcome} {time}"),
            });
        }
        self.ask("ahead".to_string());
    }

    /// Takes all events.
    fn drain(&mut self) {
        while !matches!(self.ask("event".to_string()), Some(Answer::None) | None) {}
    }

    /// Wakes the tunnel at each deadline, with all events taken, until it is expired or was woken often enough.
    fn wake_on(&mut self, most: usize) {
        for _ in 0..most {
            let view = self.driver.view().expect("the script began with `new`");
            let Some(next) = view.next else {
                return;
            };
            self.time = next;
            self.told(format!("wake 200000000 {next}"));
            self.drain();
        }
    }
}

/// A walk on a tunnel without a session.
fn without_session(index: u32, allocations: usize) -> Indices {
    let mut indices = Indices::new(index);
    indices.told("init 0".to_string());

    indices.walk(allocations);
    indices
}

/// A walk on a tunnel with a current session.
fn with_session(index: u32, allocations: usize) -> Indices {
    let mut indices = Indices::new(index);
    indices.session();

    indices.walk(allocations);
    indices
}

/// A current session whose slot follows, and a call of each kind in turn that has to pass it by.
fn two_numbers(index: u32) -> Indices {
    let mut indices = Indices::new(index);
    indices.session();
    for _ in 0..7 {
        indices.told("hello 8 3 0".to_string());
    }

    let kind = index as usize / 8 % 7;
    indices.told(match kind {
        0 => "init 0".to_string(),
        1 => "restart 0".to_string(),
        2 => "hello 7 0 0".to_string(),
        _ => format!("hello 7 {} 0", TURNED_DOWN[kind - 3]),
    });
    indices.walk(2);
    indices
}

/// A current session that is replaced by a newer one in another slot, which then ends by its age.
fn replaced(index: u32) -> Indices {
    let mut indices = Indices::new(index);
    indices.session();
    indices.walk(9 + index as usize % 7);
    indices.time = SECOND;
    indices.session();
    indices.walk(SHORT);

    let end = 181 * SECOND;
    for time in [end - 1, end] {
        indices.time = time;
        indices.told(format!("wake 0 {time}"));
    }
    indices.drain();
    indices.walk(3);
    indices
}

/// A session of our own that sends data and is not answered: wakings that send handshakes until the tunnel is expired, then every call that
/// would allocate an index.
fn wakings(index: u32) -> Indices {
    let mut indices = Indices::new(index);
    if let Some(Answer::Initiation { local }) = indices.told("init 0".to_string()) {
        indices.ask(format!("resp {local} 9 0 0"));
    }
    indices.walk(index as usize % 8);
    indices.ask("send 1 0".to_string());
    indices.wake_on(WAKINGS);

    let time = indices.time;
    for line in [
        format!("init {time}"),
        format!("restart {time}"),
        format!("hello 8 0 {time}"),
        format!("hello 8 3 {time}"),
        format!("wake 0 {time}"),
        format!("new {index} 0 {time}"),
        format!("init {time}"),
    ] {
        indices.told(line);
    }
    indices
}
