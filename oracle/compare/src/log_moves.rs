//! Lines of the log among the calls of a script.

use oracle::{Answer, Call, Driver, Report};

use crate::datagrams::{COUNTERS, INDICES};
use crate::maker::Maker;
use crate::noise::{bent, padded, with_zeros, zeros};
use crate::random::Random;
use crate::times::TIME_LIMIT;

/// The bytes of a trailer.
pub(crate) const TRAILER: u64 = 16;
/// The bytes of a record.
pub(crate) const RECORD: u64 = 32;
/// The verdicts that a record may have.
pub(crate) const VERDICTS: [u64; 4] = [0, 7, 9, 10];
/// Verdict words that no record may have, some with the low byte of one that may.
pub(crate) const ODD_VERDICTS: [u64; 24] = [
    1,
    2,
    6,
    8,
    11,
    128,
    135,
    249,
    250,
    255,
    256,
    263,
    265,
    266,
    519,
    65_536,
    65_543,
    1 << 32,
    (1 << 32) + 7,
    (1 << 32) + 10,
    1 << 63,
    u64::MAX - 6,
    u64::MAX - 1,
    u64::MAX,
];
/// Times that a record may have, at their edges.
pub(crate) const TIMES: [u64; 6] = [0, 1, 255, 1 << 32, TIME_LIMIT - 1, TIME_LIMIT];
/// Times above the limit.
pub(crate) const LATE_TIMES: [u64; 5] = [
    TIME_LIMIT + 1,
    TIME_LIMIT + (1 << 32),
    1 << 62,
    1 << 63,
    u64::MAX,
];

/// Words that are no arguments of the log's calls.
const ODD_LINES: [&str; 32] = [
    "store",
    "store -",
    "store 70001",
    "store 18446744073709551615",
    "store 1 1",
    "used",
    "used -1",
    "used 18446744073709551616",
    "used 0 0",
    "poke",
    "poke 0",
    "poke - 00",
    "poke 0 0",
    "poke 0 0g",
    "poke 0 00 00",
    "poke 18446744073709551616 -",
    "peek",
    "peek 0",
    "peek 0 -",
    "peek 0 1 1",
    "peek 0 18446744073709551616",
    "append 0",
    "append 0 0 0 0",
    "append 0 0 0 0 0 0",
    "append 0 0 0 4294967296 0",
    "append 0 0 0 0 18446744073709551616",
    "append -",
    "walk",
    "walk 1",
    "walk 4097 0",
    "walk 0 2049",
    "walk 1 1 1",
];

/// What chooses the log's lines of a script, apart from what chooses its calls, so that these are the same with and without them.
pub(crate) struct LogMoves {
    random: Random,
    begun: bool,
    /// The number of lines added.
    pub(crate) lines: usize,
}

impl LogMoves {
    /// The choices of a seed.
    pub(crate) fn new(seed: u64) -> Self {
        Self {
            random: Random::new(seed.rotate_left(32) ^ 0x6c6f_6721),
            begun: false,
            lines: 0,
        }
    }
}

impl Maker {
    /// Adds lines of the log as often as the profile says; the first one after the tunnel was made is a store, so that what an
    /// earlier script left does not matter.
    pub(crate) fn log_now_and_then(&mut self) {
        if !self.log.random.percent(self.profile.log) {
            return;
        }

        let random = &mut self.log.random;
        let mut lines = Vec::new();
        if !self.log.begun && self.driver.view().is_some() {
            self.log.begun = true;
            lines.push(store_line(random));
        } else if random.percent(self.profile.odd_log) {
            lines.push(odd_line(random));
        } else {
            lines = log_lines(random, &mut self.driver);
        }
        for line in lines {
            self.log.lines += 1;
            self.ask_driver(line);
        }
    }
}

/// Lines that go on with the log that a driver holds.
pub(crate) fn log_lines(random: &mut Random, driver: &mut Driver) -> Vec<Vec<u8>> {
    match random.below(100) {
        0..34 => vec![append_line(random, driver)],
        34..40 => vec![odd_append(random, driver)],
        40..58 => vec![walk_line(random, driver)],
        58..72 => damaged(random, driver),
        72..80 => misled(random, driver),
        80..83 => vec![cut_back(random, driver)],
        83..89 => vec![peek_line(random, driver)],
        89..93 => vec![free_end(random, driver)],
        93..97 => vec![store_line(random)],
        _ => vec![odd_line(random)],
    }
}

/// The line of a call.
fn line_of(call: Call) -> Vec<u8> {
    call.to_string().into_bytes()
}

/// A new store, mostly a short one.
pub(crate) fn store_line(random: &mut Random) -> Vec<u8> {
    let len = match random.below(12) {
        0 => random.pick(&[0, 1, 15, 16, 17, 65_535, 65_536, 65_537, 70_000]),
        1..3 => random.below(100),
        3..6 => TRAILER * random.between(1, 24),
        _ => random.between(100, 600),
    };

    line_of(Call::Store { len })
}

/// A report that can be written, its fields often at their edges.
pub(crate) fn report(random: &mut Random) -> Report {
    Report {
        time: match random.below(3) {
            0 => random.pick(&TIMES),
            1 => random.between(1, 255) << (8 * random.below(7)),
            _ => random.below(TIME_LIMIT + 1),
        },
        counter: number(random),
        session: number(random),
        index: match random.below(3) {
            0 => random.pick(&INDICES),
            _ => random.next() as u32,
        },
        verdict: random.pick(&VERDICTS),
    }
}

/// A counter or a session id.
fn number(random: &mut Random) -> u64 {
    match random.below(4) {
        0 => random.pick(&COUNTERS),
        1 => random.between(1, 255) << (8 * random.below(8)),
        2 => random.below(1_000),
        _ => random.next(),
    }
}

/// How many bytes follow the used length in the store.
fn room(driver: &Driver) -> u64 {
    let log = driver.log();

    (log.store.len() as u64).saturating_sub(log.used)
}

/// A callout, now and then just as long as the free end holds, or one report longer.
fn append_line(random: &mut Random, driver: &Driver) -> Vec<u8> {
    let fitting = room(driver).saturating_sub(TRAILER) / RECORD;
    let count = match random.below(12) {
        0..3 => 0,
        3 if fitting < 40 => fitting,
        4 if fitting < 40 => fitting + 1,
        5 => random.between(3, 6),
        6..9 => 2,
        _ => 1,
    };
    let reports = (0..count).map(|_| report(random)).collect();

    line_of(Call::Append { reports })
}

/// A callout that has a time above the limit, another verdict or both.
fn odd_append(random: &mut Random, driver: &Driver) -> Vec<u8> {
    let fitting = room(driver).saturating_sub(TRAILER) / RECORD;
    let count = match random.below(4) {
        0 if fitting < 40 => fitting + 1,
        _ => random.between(1, 4),
    };
    let mut reports: Vec<Report> = (0..count).map(|_| report(random)).collect();
    let kind = random.below(4);
    if kind != 0 {
        let at = random.below(count) as usize;
        reports[at].verdict = random.pick(&ODD_VERDICTS);
    }
    if kind < 2 {
        let at = random.below(count) as usize;
        reports[at].time = random.pick(&LATE_TIMES);
    }

    line_of(Call::Append { reports })
}

/// The callouts and the records of a driver's log, where it can be read.
pub(crate) fn shape(driver: &mut Driver) -> Option<(u64, u64)> {
    let walk = Call::Walk {
        counts: 4_096,
        records: 2_048,
    };
    let Ok(Answer::Log(callouts)) = driver.call(walk) else {
        return None;
    };
    let records = callouts.iter().map(Vec::len).sum::<usize>();

    Some((callouts.len() as u64, records as u64))
}

/// A walk with lists that are just long enough, longer, or too short.
fn walk_line(random: &mut Random, driver: &mut Driver) -> Vec<u8> {
    let (counts, records) = shape(driver).unwrap_or((3, 3));
    let (more, less) = (random.between(1, 5), random.between(1, 2));
    let (counts, records) = match random.below(12) {
        0..4 => (counts, records),
        4 => (counts + more, records),
        5 => (counts, records + more),
        6 => (counts.saturating_sub(less), records),
        7 => (counts, records.saturating_sub(less)),
        8 => (0, 0),
        9 => (counts + more, records.saturating_sub(1)),
        10 => (counts.saturating_sub(1), records + more),
        _ => (4_096, 2_048),
    };

    line_of(Call::Walk {
        counts: counts.min(4_096),
        records: records.min(2_048),
    })
}

/// Bytes that are changed, a walk, perhaps a callout behind them, and mostly the old bytes again.
fn damaged(random: &mut Random, driver: &mut Driver) -> Vec<Vec<u8>> {
    let log = driver.log();
    let used = log.used.min(log.store.len() as u64);
    if used == 0 {
        return vec![walk_line(random, driver)];
    }
    let back = match random.below(6) {
        0..3 => random.between(1, TRAILER),
        3..5 => TRAILER + random.between(1, 2 * RECORD),
        _ => random.between(1, used),
    };
    let at = used.saturating_sub(back);
    let old = log.store[at as usize];
    let new = match random.below(4) {
        0 => old ^ (1 << random.below(8)),
        1 => old.wrapping_add(random.pick(&[1, 255, 16, 240, 32, 224])),
        2 => random.pick(&[0, 1, 7, 9, 10, 128, 255]),
        _ => random.next() as u8,
    };

    let poke = |byte: u8| {
        line_of(Call::Poke {
            at,
            bytes: vec![byte],
        })
    };
    let mut lines = vec![poke(new)];
    lines.push(walk_line(random, driver));
    if random.percent(25) {
        lines.push(append_line(random, driver));
        lines.push(walk_line(random, driver));
    }
    if random.percent(85) {
        lines.push(poke(old));
        lines.push(walk_line(random, driver));
    }
    lines
}

/// A used length that is off, a walk or a callout, and mostly the old used length again.
fn misled(random: &mut Random, driver: &mut Driver) -> Vec<Vec<u8>> {
    let log = driver.log();
    let (used, store) = (log.used, log.store.len() as u64);
    let off = random.between(1, 17);
    let other = match random.below(12) {
        0..3 => used.saturating_sub(off),
        3..6 => used.saturating_add(off),
        6 => used.saturating_sub(RECORD),
        7 => used.saturating_add(RECORD),
        8 => store,
        9 => store + 1,
        10 => u64::MAX - random.below(17),
        _ => random.below(store + 2),
    };

    let mut lines = vec![line_of(Call::Used { len: other })];
    lines.push(match random.below(4) {
        0 => append_line(random, driver),
        _ => walk_line(random, driver),
    });
    if random.percent(85) {
        lines.push(line_of(Call::Used { len: used }));
        lines.push(walk_line(random, driver));
    }
    lines
}

/// The used length of the log without its newest callout.
fn cut_back(random: &mut Random, driver: &Driver) -> Vec<u8> {
    let log = driver.log();
    let trailer = log
        .used
        .checked_sub(TRAILER)
        .and_then(|at| log.store.get(at as usize..)?.first_chunk::<8>());
    let distance = trailer.map_or(0, |bytes| u64::from_le_bytes(*bytes));

    match random.below(5) {
        0 => line_of(Call::Used { len: 0 }),
        _ => line_of(Call::Used {
            len: log.used.saturating_sub(distance),
        }),
    }
}

/// Some bytes of the store, mostly near the used length.
fn peek_line(random: &mut Random, driver: &Driver) -> Vec<u8> {
    let log = driver.log();
    let store = log.store.len() as u64;
    let (at, len) = match random.below(10) {
        0..3 if store <= 700 => (0, store),
        0..5 => (log.used.saturating_sub(48), random.below(49)),
        5 => (log.used, random.below(17)),
        6 => (store, random.below(2)),
        7 => (store.saturating_sub(5), random.between(4, 6)),
        8 => (u64::MAX - random.below(3), random.below(5)),
        _ => (random.below(store + 2), random.below(40)),
    };

    line_of(Call::Peek { at, len })
}

/// Bytes put behind the used length, or past the store's end.
fn free_end(random: &mut Random, driver: &Driver) -> Vec<u8> {
    let log = driver.log();
    let at = match random.below(6) {
        0 => log.store.len() as u64,
        1 => (log.store.len() as u64).saturating_sub(random.below(4)),
        2 => u64::MAX - random.below(3),
        _ => log.used.saturating_add(random.below(3)),
    };
    let bytes = (0..random.below(6)).map(|_| random.next() as u8).collect();

    line_of(Call::Poke { at, bytes })
}

/// A line of the log that mostly cannot be read.
fn odd_line(random: &mut Random) -> Vec<u8> {
    let plain = match random.below(6) {
        0 => store_line(random),
        1 => line_of(Call::Append {
            reports: vec![report(random)],
        }),
        2 => b"walk 3 4".to_vec(),
        3 => b"peek 1 2".to_vec(),
        4 => b"poke 2 0aF0".to_vec(),
        _ => b"used 64".to_vec(),
    };

    match random.below(10) {
        0..4 => random.pick(&ODD_LINES).as_bytes().to_vec(),
        4..8 => bent(random, plain),
        8 => padded(random, &plain),
        _ => with_zeros(&zeros(random), &plain),
    }
}
