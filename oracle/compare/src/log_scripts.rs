//! The log scripts: every length, field, order and damage that document 02's note 3 tells apart.

use oracle::{Answer, Call, Driver, MAX_LINE, Report};

use crate::datagrams::{COUNTERS, INDICES};
use crate::log_moves::{
    LATE_TIMES, ODD_VERDICTS, RECORD, TIMES, TRAILER, VERDICTS, log_lines, report, shape,
    store_line,
};
use crate::maker::Script;
use crate::random::Random;
use crate::times::TIME_LIMIT;

/// The most bytes of a store that is written or read.
const MAX_STORE: u64 = 65_536;
/// The most records that such a store holds, in one callout.
const MAX_RECORDS: u64 = 2_047;
/// The most counts and records that a line can lend.
const LENT: (u64, u64) = (4_096, 2_048);
/// The counts of a small log's callouts, oldest first.
const SMALL: [u64; 3] = [2, 0, 1];
/// The number of random logs.
const RANDOM_LOGS: u64 = 500;
/// The lines of a random log, about.
const RANDOM_LINES: usize = 120;

/// Lines that cannot be read, and lines that can though they look odd.
const WORDS: [&[u8]; 88] = [
    b"store",
    b"store ",
    b"store -",
    b"store -1",
    b"store +1",
    b"store 1 1",
    b"store 0x10",
    b"store 1e3",
    b"store 70000",
    b"store 0070000",
    b"store 70001",
    b"store 18446744073709551615",
    b"store 18446744073709551616",
    b"Store 16",
    b"stores 16",
    b"stor 16",
    b"\tstore\t64\r",
    b"used",
    b"used -",
    b"used -1",
    b"used 1 1",
    b"used a",
    b"used 18446744073709551615",
    b"used 18446744073709551616",
    b"used 99999999999999999999999999",
    b"Used 16",
    b"use 16",
    b"useds 16",
    b"\tused\t0\r",
    b"poke",
    b"poke 0",
    b"poke 0 -",
    b"poke 0 --",
    b"poke 0 - -",
    b"poke - -",
    b"poke - 00",
    b"poke -1 00",
    b"poke 0 0",
    b"poke 0 000",
    b"poke 0 0g",
    b"poke 0 G0",
    b"poke 0 00 00",
    b"poke 00 00",
    b"poke 0 0x00",
    b"poke 0 aBcDeF",
    b"poke 18446744073709551616 -",
    b"Poke 0 00",
    b"pokes 0 00",
    b"\tpoke\t0\tfF\r",
    b"peek",
    b"peek 0",
    b"peek 0 -",
    b"peek - 0",
    b"peek 0 -1",
    b"peek 0 1 1",
    b"peek 0 00",
    b"peek 0 03",
    b"peek 0 a",
    b"peek 0 18446744073709551616",
    b"peek 18446744073709551616 0",
    b"Peek 0 1",
    b"peeks 0 1",
    b"\tpeek\t0\t3\r",
    b"append 0",
    b"append 0 0",
    b"append 0 0 0",
    b"append 0 0 0 0",
    b"append 0 0 0 0 0 0",
    b"append 0 0 0 0 0 0 0 0 0",
    b"append -",
    b"append -1 0 0 0 0",
    b"append 18446744073709551616 0 0 0 0",
    b"append 0 18446744073709551616 0 0 0",
    b"append 0 0 18446744073709551616 0 0",
    b"append 0 0 0 4294967296 0",
    b"append 0 0 0 18446744073709551615 0",
    b"append 0 0 0 0 18446744073709551616",
    b"append 4000000000000000001 0 0 4294967296 0",
    b"append 0 0 0 0 0 4000000000000000001",
    b"append 00 000 0000 04294967295 007",
    b"Append",
    b"appends",
    b"\tappend\t\r",
    b"walk",
    b"walk 1",
    b"walk 1 1 1",
    b"Walk 9 9",
    b"walks 9 9",
];

/// All log scripts with the names they are reported by; the first begins without a tunnel, every other one with a store.
pub fn log_scripts() -> Vec<(String, Script)> {
    let mut parts = vec![
        ("before a tunnel".to_string(), before_new()),
        ("words".to_string(), words()),
        ("hexadecimal digits".to_string(), digits()),
        ("long lines".to_string(), long_lines()),
        ("places".to_string(), places(&[0, 1, 64, 65_536, 70_000])),
        ("tunnels".to_string(), tunnels()),
        (
            "lists".to_string(),
            lists(&[&[], &[0], &[3], &SMALL, &[1, 4, 0, 0, 2]]),
        ),
        ("verdicts".to_string(), verdicts(0..=260)),
        ("verdict bytes".to_string(), verdict_bytes()),
        ("times".to_string(), times()),
        ("fields".to_string(), fields()),
        ("used lengths off".to_string(), misled(&[0, 1, 255])),
        ("two damages".to_string(), two_damages(1)),
        ("damage and short lists".to_string(), damage_and_lists(1)),
        ("trailers".to_string(), trailers()),
        ("the front".to_string(), fronts(200)),
        ("the free end".to_string(), free_end()),
        ("an append over damage".to_string(), over_damage(1)),
        ("refused appends".to_string(), refused()),
        ("many empty callouts".to_string(), empty_callouts()),
    ];
    for counts in [[2_047, 0], [0, 2_047], [1_023, 1_024], [1, 2_046]] {
        let [first, second] = counts;
        parts.push((format!("a full store, {first} and {second}"), full(counts)));
    }
    for count in [
        1_023, 1_024, 1_025, 2_046, 2_047, 2_048, 2_049, 4_096, 6_552, 6_553, 6_554,
    ] {
        parts.push((format!("{count} reports"), many(count)));
    }
    for len in [65_535, 65_536, 65_537, 69_999, 70_000] {
        parts.push((format!("a store of {len}"), large(len)));
    }
    for first in (0..=200).step_by(20) {
        let lens = || first..(first + 20).min(201);
        parts.push((format!("stores from {first}"), stores(lens())));
        for len in lens() {
            parts.push((format!("used lengths of {len}"), used_lengths(len)));
        }
    }
    for at in 0..small_len() {
        parts.push((format!("damage at {at}"), damage(at, 1..=255)));
    }
    for seed in 0..RANDOM_LOGS {
        parts.push((format!("random log {seed}"), random_log(seed, RANDOM_LINES)));
    }

    named(parts)
}

/// Log scripts of some thousand lines with short answers, which reach every number and edge.
pub fn short_log_scripts() -> Vec<(String, Script)> {
    let mut parts = vec![
        ("before a tunnel".to_string(), before_new()),
        ("words".to_string(), words()),
        ("places".to_string(), places(&[0, 1, 64])),
        ("tunnels".to_string(), tunnels()),
        ("lists".to_string(), lists(&[&[], &[0], &SMALL])),
        ("verdicts".to_string(), verdicts(0..=12)),
        ("times".to_string(), times()),
        ("used lengths off".to_string(), misled(&[255])),
        ("two damages".to_string(), two_damages(13)),
        ("damage and short lists".to_string(), damage_and_lists(5)),
        ("trailers".to_string(), trailers()),
        ("the front".to_string(), fronts(100)),
        ("the free end".to_string(), free_end()),
        ("an append over damage".to_string(), over_damage(11)),
        ("refused appends".to_string(), refused()),
        ("2048 reports".to_string(), many(2_048)),
        ("a store of 65536".to_string(), large(65_536)),
        ("a store of 65537".to_string(), large(65_537)),
        (
            "stores".to_string(),
            stores([0, 15, 16, 17, 47, 48, 49, 79, 80, 81].into_iter()),
        ),
    ];
    for at in 0..small_len() {
        let changes = [1, 128, 255].into_iter();
        parts.push((format!("damage at {at}"), damage(at, changes)));
    }
    for seed in 0..8 {
        parts.push((format!("random log {seed}"), random_log(seed, 60)));
    }

    named(parts)
}

/// Scripts with the names they are reported by.
fn named(parts: Vec<(String, Vec<Vec<u8>>)>) -> Vec<(String, Script)> {
    let parts = parts.into_iter();

    parts
        .map(|(name, lines)| (format!("log: {name}"), Script { lines }))
        .collect()
}

/// A script under way, and the oracle that answers it.
struct Scene {
    driver: Driver,
    lines: Vec<Vec<u8>>,
}

impl Scene {
    /// A script without a line.
    fn empty() -> Self {
        Self {
            driver: Driver::new(),
            lines: Vec::new(),
        }
    }

    /// A new tunnel and a new store.
    fn new(len: u64) -> Self {
        let mut scene = Self::empty();
        scene.say(b"new 1 0 0");
        scene.store(len);

        scene
    }

    /// A new store with callouts of so many reports, oldest first, behind each other.
    fn with_log(len: u64, counts: &[u64]) -> Self {
        let mut scene = Self::new(len);
        scene.append_all(counts);

        scene
    }

    /// A small log that fills its store.
    fn small() -> Self {
        Self::with_log(small_len(), &SMALL)
    }

    /// Adds a line as it is.
    fn say(&mut self, line: &[u8]) {
        let _ = self.driver.answer(line);

        self.lines.push(line.to_vec());
    }

    /// Adds a call and gives the answer, if it is good.
    fn ask(&mut self, call: Call) -> Option<Answer> {
        let line = call.to_string().into_bytes();
        let answer = self.driver.answer(&line);

        self.lines.push(line);
        answer.ok()
    }

    /// A new store.
    fn store(&mut self, len: u64) {
        self.ask(Call::Store { len });
    }

    /// The used length from now on.
    fn used(&mut self, len: u64) {
        self.ask(Call::Used { len });
    }

    /// Puts bytes into the store.
    fn poke(&mut self, at: u64, bytes: &[u8]) {
        let bytes = bytes.to_vec();

        self.ask(Call::Poke { at, bytes });
    }

    /// Asks for bytes of the store.
    fn peek(&mut self, at: u64, len: u64) {
        self.ask(Call::Peek { at, len });
    }

    /// Asks for the whole store.
    fn peek_all(&mut self) {
        let len = self.driver.log().store.len() as u64;

        self.peek(0, len);
    }

    /// Appends a callout of these reports.
    fn append(&mut self, reports: &[Report]) {
        let reports = reports.to_vec();

        self.ask(Call::Append { reports });
    }

    /// Appends callouts of so many reports.
    fn append_all(&mut self, counts: &[u64]) {
        let mut at = 0;

        for count in counts {
            let reports: Vec<Report> = (at..at + count).map(counted).collect();
            self.append(&reports);
            at += count;
        }
    }

    /// Walks with lists of so many counts and records.
    fn walk(&mut self, counts: u64, records: u64) {
        self.ask(Call::Walk { counts, records });
    }

    /// Walks with the longest lists.
    fn walk_all(&mut self) {
        self.walk(LENT.0, LENT.1);
    }

    /// Changes a byte, and gives the old one.
    fn change(&mut self, at: u64, change: u8) -> u8 {
        let old = self.driver.log().store[at as usize];
        self.poke(at, &[old ^ change]);

        old
    }
}

/// A report whose fields tell its place among the reports.
fn counted(at: u64) -> Report {
    Report {
        time: 1_000 + at,
        counter: 2_000 + at,
        session: 3_000 + at,
        index: 4_000 + at as u32,
        verdict: VERDICTS[(at % 4) as usize],
    }
}

/// The bytes of callouts of so many reports.
fn log_len(counts: &[u64]) -> u64 {
    counts.iter().map(|count| TRAILER + RECORD * count).sum()
}

/// The bytes of the small log.
fn small_len() -> u64 {
    log_len(&SMALL)
}

/// The bytes of a trailer.
fn trailer(distance: u64, count: u32, zero: u32) -> Vec<u8> {
    let fields = [count.to_le_bytes(), zero.to_le_bytes()].concat();

    [&distance.to_le_bytes()[..], &fields].concat()
}

/// Lines before the first tunnel, after creations that cannot be read, and after one that is turned down; then the store as it is
/// at the start.
fn before_new() -> Vec<Vec<u8>> {
    let mut scene = Scene::empty();
    let lines: [&[u8]; 9] = [
        b"store 64",
        b"used 1",
        b"poke 0 ff",
        b"peek 0 1",
        b"append",
        b"append 1 2 3 4 7",
        b"append 4000000000000000001 2 3 4 7",
        b"walk 0 0",
        b"walk 4097 0",
    ];

    for creation in [&b"new"[..], b"new 1 0", b"new 4294967296 0 0"] {
        lines.into_iter().for_each(|line| scene.say(line));
        scene.say(creation);
    }
    scene.say(b"new 1 65536 0");
    for (at, len) in [
        (0, 48),
        (65_530, 6),
        (65_530, 7),
        (65_536, 0),
        (65_536, 1),
        (65_537, 0),
    ] {
        scene.peek(at, len);
    }
    scene.walk(0, 0);
    scene.append(&[]);
    scene.walk(1, 0);
    scene.append(&[counted(1)]);
    scene.say(b"new 1 0 0");
    scene.walk(2, 1);
    scene.peek(0, 66);
    scene.say(b"new 1 0 4000000000000000001");
    scene.walk(2, 1);
    lines.into_iter().for_each(|line| scene.say(line));
    scene.lines
}

/// Lines that cannot be read, each with a walk and some bytes behind it; no line before matters.
fn words() -> Vec<Vec<u8>> {
    let mut scene = Scene::new(64);

    for line in WORDS {
        scene.say(b"store 64");
        scene.say(b"append");
        scene.say(line);
        scene.walk(9, 9);
        scene.peek(0, 17);
    }
    for line in [
        &b"walk 4096 2048"[..],
        b"walk 4097 2048",
        b"walk 4096 2049",
        b"walk 04096 02048",
        b"walk 18446744073709551615 0",
        b"walk 0 18446744073709551616",
        b"walk - 1",
        b"walk 1 -",
        b"walk +1 1",
    ] {
        scene.say(line);
    }
    scene.lines
}

/// Every byte but a newline in place of a digit of bytes that are put in, with what is then in the store.
fn digits() -> Vec<Vec<u8>> {
    const FRONT: usize = b"poke 1 ".len();
    let mut scene = Scene::new(16);

    for byte in (0..=255).filter(|byte| *byte != b'\n') {
        for place in [0, 1, 4, 5] {
            let mut line = b"poke 1 0a1b2c".to_vec();
            line[FRONT + place] = byte;
            scene.say(&line);
            scene.peek(0, 6);
        }
    }
    scene.lines
}

/// Lines as long as can be read and a byte longer, with separators around their words, with bytes and with reports.
fn long_lines() -> Vec<Vec<u8>> {
    let mut scene = Scene::new(MAX_STORE);
    let plain: [&[u8]; 6] = [
        b"store 100",
        b"used 0",
        b"poke 1 ff",
        b"peek 1 2",
        b"append 1 2 3 4 7",
        b"walk 1 1",
    ];

    for line in plain {
        for len in [MAX_LINE - 1, MAX_LINE, MAX_LINE + 1, 2 * MAX_LINE] {
            scene.say(&[line.to_vec(), vec![b' '; len - line.len()]].concat());
        }
        scene.peek(0, 20);
    }
    scene.store(70_000);
    let most = (MAX_LINE - b"poke 0 ".len()) / 2;
    for len in [most - 1, most, most + 1] {
        scene.poke(0, &vec![len as u8; len]);
        scene.peek(0, 1);
        scene.peek(len as u64 - 2, 4);
    }
    scene.lines
}

/// Bytes put in and asked for at both ends of a store, just past it and far past it.
fn places(lens: &[u64]) -> Vec<Vec<u8>> {
    let mut scene = Scene::new(0);

    for len in lens {
        scene.store(*len);
        for at in [0, 1, len / 2, len.saturating_sub(1), *len, len + 1] {
            for count in 0..4 {
                scene.poke(at, &[255, 254, 253][..count]);
                scene.peek(at, count as u64);
                scene.peek(at.saturating_sub(2), 5);
            }
        }
        for at in [
            1 << 16,
            1 << 32,
            (1 << 32) + 1,
            1 << 63,
            u64::MAX - 1,
            u64::MAX,
        ] {
            for count in 0..3 {
                scene.poke(at, &[1, 2][..count]);
                scene.peek(at, count as u64);
                scene.peek(count as u64, at);
                scene.peek(at, u64::MAX - at + count as u64);
            }
        }
        scene.peek(0, (*len).min(64));
        scene.peek(len.saturating_sub(8), (*len).min(8));
    }
    scene.lines
}

/// A log that stays as it is through the calls of tunnels, and through new ones.
fn tunnels() -> Vec<Vec<u8>> {
    let mut scene = Scene::with_log(200, &SMALL);

    for line in [
        &b"init 5"[..],
        b"hello 9 0 5",
        b"recv 3 1 5 1 d 2 d 2 d",
        b"send 3 5",
        b"wake 0 540000000005",
        b"event",
        b"new 7 0 9",
        b"new 1 65536 0",
        b"new 1 0 4000000000000000001",
        b"datagram 0400000001000000020000000000000003030303030303030303030303030303",
        b"header 1 2",
    ] {
        scene.say(line);
        scene.walk(3, 3);
        scene.peek(0, 20);
        scene.append(&[]);
        scene.used(small_len());
    }
    scene.lines
}

/// Logs of several shapes, each walked with lists of every length up to two more than needed, and with the longest.
fn lists(shapes: &[&[u64]]) -> Vec<Vec<u8>> {
    let mut scene = Scene::new(0);

    for counts in shapes {
        let records: u64 = counts.iter().sum();
        scene.store(log_len(counts) + 20);
        scene.append_all(counts);
        for lent_counts in 0..=counts.len() as u64 + 2 {
            for lent_records in 0..=records + 2 {
                scene.walk(lent_counts, lent_records);
            }
        }
        scene.walk(LENT.0, records);
        scene.walk(LENT.0, records.saturating_sub(1));
        scene.walk(counts.len() as u64, LENT.1);
        scene.walk((counts.len() as u64).saturating_sub(1), LENT.1);
        scene.walk(LENT.0 + 1, LENT.1);
        scene.walk(LENT.0, LENT.1 + 1);
    }
    scene.lines
}

/// Reports with each verdict word, by themselves and behind another, with the bytes written and a walk.
fn verdicts(words: impl Iterator<Item = u64>) -> Vec<Vec<u8>> {
    let mut scene = Scene::new(100);

    for verdict in words.chain(ODD_VERDICTS) {
        let odd = Report {
            verdict,
            ..counted(5)
        };
        let late = Report {
            time: TIME_LIMIT + 1,
            ..odd.clone()
        };
        for reports in [
            &[odd.clone()][..],
            &[counted(1), odd.clone()],
            &[odd.clone(), counted(1), counted(2)],
            &[odd, late],
        ] {
            scene.used(0);
            scene.append(reports);
            scene.walk(1, 2);
            scene.peek(24, 8);
        }
    }
    scene.lines
}

/// A record with each byte in the place of its verdict and of the zero bytes behind it.
fn verdict_bytes() -> Vec<Vec<u8>> {
    let mut scene = Scene::with_log(48, &[1]);

    for at in 28..32 {
        for byte in 0..=255 {
            scene.poke(at, &[byte]);
            scene.walk(1, 1);
        }
        scene.poke(at, &[0]);
    }
    scene.lines
}

/// Times at the limit, below and above it: in a callout at each place, and in a record.
fn times() -> Vec<Vec<u8>> {
    let mut scene = Scene::new(112);

    for time in TIMES.into_iter().chain(LATE_TIMES) {
        for at in 0..3 {
            let mut reports = [1, 2, 3].map(counted);
            reports[at].time = time;
            scene.used(0);
            scene.append(&reports);
            scene.walk(1, 3);
        }
        scene.used(0);
        scene.append_all(&[3]);
        for at in 0..3 {
            scene.poke(RECORD * at, &time.to_le_bytes());
            scene.walk(1, 3);
            scene.poke(RECORD * at, &[0; 8]);
        }
    }
    for place in 0..8 {
        for byte in [1, 55, 56, 128, 255] {
            let time = (TIME_LIMIT & !(255 << (8 * place))) | byte << (8 * place);
            scene.poke(0, &time.to_le_bytes());
            scene.walk(1, 3);
        }
    }
    scene.lines
}

/// Fields at their edges and with each byte by itself, written, shown and read back.
fn fields() -> Vec<Vec<u8>> {
    let mut scene = Scene::new(48);
    let numbers: Vec<u64> = (0..64).map(|bit| 1 << bit).chain(COUNTERS).collect();
    let mut reports: Vec<Report> = numbers
        .iter()
        .flat_map(|number| {
            let counter = Report {
                counter: *number,
                ..counted(1)
            };
            let session = Report {
                session: *number,
                ..counted(2)
            };
            [counter, session]
        })
        .collect();
    let indices = (0..32).map(|bit| 1 << bit).chain(INDICES);
    reports.extend(indices.map(|index| Report {
        index,
        ..counted(3)
    }));
    let times = (0..62).map(|bit| 1 << bit).chain(TIMES);
    reports.extend(times.map(|time| Report { time, ..counted(0) }));
    reports.push(Report {
        time: TIME_LIMIT,
        counter: u64::MAX,
        session: u64::MAX,
        index: u32::MAX,
        verdict: 10,
    });

    for report in reports {
        scene.used(0);
        scene.append(&[report]);
        scene.peek_all();
        scene.walk(1, 1);
    }
    scene.lines
}

/// A store of each length with callouts of 0 to 7 reports, from the front and behind an empty one.
fn stores(lens: impl Iterator<Item = u64>) -> Vec<Vec<u8>> {
    let mut scene = Scene::new(0);

    for len in lens {
        for count in 0..=7 {
            let reports: Vec<Report> = (0..count).map(counted).collect();
            scene.store(len);
            scene.append(&reports);
            scene.append(&[]);
            scene.walk(2, count);
            scene.peek_all();
        }
        scene.peek(0, len + 1);
        scene.poke(len, &[]);
        scene.poke(len, &[1]);
    }
    scene.lines
}

/// A store with each used length up to just past it, and far past it: an empty callout and one of one report at each.
fn used_lengths(len: u64) -> Vec<Vec<u8>> {
    let mut scene = Scene::new(len);
    let far = [len + 17, 1 << 32, u64::MAX - 15, u64::MAX];

    for used in (0..=len + 1).chain(far) {
        for count in [0, 1] {
            scene.used(used);
            scene.append_all(&[count]);
        }
        scene.walk(20, 20);
    }
    scene.peek_all();
    scene.lines
}

/// A small log with a used length off by 1 to 17 in both directions and more, and bytes of several values behind it.
fn misled(tails: &[u8]) -> Vec<Vec<u8>> {
    let mut scene = Scene::new(0);

    for tail in tails {
        scene.store(240);
        scene.append_all(&SMALL);
        scene.poke(small_len(), &[*tail; 90]);
        for used in (0..=260).chain([u64::MAX - 16, u64::MAX - 15, u64::MAX]) {
            scene.used(used);
            scene.walk(9, 9);
        }
    }
    scene.lines
}

/// The small log with one byte changed in every way that is asked for.
fn damage(at: u64, changes: impl Iterator<Item = u8>) -> Vec<Vec<u8>> {
    let mut scene = Scene::small();
    let old = scene.driver.log().store[at as usize];

    for change in changes {
        scene.poke(at, &[old ^ change]);
        scene.walk(3, 3);
    }
    scene.poke(at, &[old]);
    scene.walk(3, 3);
    scene.lines
}

/// Whether a place of the small log lies in one of its trailers.
fn in_trailer(at: u64) -> bool {
    let mut end = 0;

    SMALL.iter().any(|count| {
        end += TRAILER + RECORD * count;
        at < end && at + TRAILER >= end
    })
}

/// The small log with a byte of a trailer changed and one of a record: every `step`th pair of places.
fn two_damages(step: usize) -> Vec<Vec<u8>> {
    let mut scene = Scene::small();
    let trailers = (0..small_len()).filter(|at| in_trailer(*at));
    let pairs: Vec<(u64, u64)> = trailers
        .flat_map(|at| {
            let records = (0..small_len()).filter(|at| !in_trailer(*at));
            records.map(move |record| (at, record))
        })
        .collect();

    for (trailer, record) in pairs.into_iter().step_by(step) {
        let old = [scene.change(record, 128), scene.change(trailer, 1)];
        scene.walk(3, 3);
        scene.poke(record, &old[..1]);
        scene.poke(trailer, &old[1..]);
    }
    scene.lines
}

/// The small log with every `step`th byte changed, walked with lists that are too short.
fn damage_and_lists(step: usize) -> Vec<Vec<u8>> {
    let mut scene = Scene::small();

    for at in (0..small_len()).step_by(step) {
        for change in [1, 128, 255] {
            let old = scene.change(at, change);
            for (counts, records) in [(2, 3), (3, 2), (0, 0)] {
                scene.walk(counts, records);
            }
            scene.poke(at, &[old]);
        }
    }
    scene.lines
}

/// A trailer with its fields at their edges, behind no record, one and two.
fn trailers() -> Vec<Vec<u8>> {
    let mut scene = Scene::new(0);

    for held in 0..3u32 {
        let own = TRAILER + RECORD * u64::from(held);
        let mut cases = Vec::new();
        let offs = [
            0,
            1,
            2,
            8,
            15,
            16,
            17,
            31,
            32,
            33,
            48,
            64,
            1 << 16,
            1 << 32,
            1 << 63,
        ];
        for off in offs {
            cases.push((own.wrapping_add(off), held, 0));
            cases.push((own.wrapping_sub(off), held, 0));
        }
        for distance in [0, 1, 15, 16, 17, 32, 48, 80, u64::MAX - 31, u64::MAX] {
            cases.push((distance, held, 0));
        }
        for off in [1, 2, 8, 256, 65_536, 1 << 27, 1 << 28, 1 << 31, u32::MAX] {
            for count in [held.wrapping_add(off), held.wrapping_sub(off)] {
                let matching = TRAILER + RECORD * u64::from(count);
                cases.push((matching, count, 0));
                cases.push((matching % (1 << 32), count, 0));
                cases.push((own, count, 0));
            }
        }
        for zero in (0..32).map(|bit| 1 << bit).chain([u32::MAX]) {
            cases.push((own, held, zero));
        }

        for front in [&[][..], &[1]] {
            scene.store(log_len(front) + own + 4);
            scene.append_all(front);
            scene.append_all(&[u64::from(held)]);
            let at = log_len(front) + own - TRAILER;
            for (distance, count, zero) in &cases {
                scene.poke(at, &trailer(*distance, *count, *zero));
                scene.walk(5, 5);
            }
            scene.poke(at, &trailer(own, held, 0));
            scene.walk(5, 5);
        }
    }
    scene.lines
}

/// Good trailers of 0 to 4 records that end at each used length, so that some point just before the front, to it or just behind it.
fn fronts(most: u64) -> Vec<Vec<u8>> {
    let mut scene = Scene::new(most);

    for used in 0..=most {
        scene.used(used);
        for count in 0..5u32 {
            if used >= TRAILER {
                let distance = TRAILER + RECORD * u64::from(count);
                scene.poke(used - TRAILER, &trailer(distance, count, 0));
            }
            scene.walk(5, 5);
        }
        if used >= TRAILER {
            scene.poke(used - TRAILER, &[0; 16]);
        }
    }
    scene.lines
}

/// The small log in a longer store, with each byte of the free end changed; then a callout over them.
fn free_end() -> Vec<Vec<u8>> {
    let mut scene = Scene::with_log(small_len() + 60, &SMALL);

    for at in small_len()..small_len() + 60 {
        for byte in [1, 16, 255] {
            scene.poke(at, &[byte]);
            scene.walk(3, 3);
        }
    }
    scene.append(&[counted(9)]);
    scene.walk(4, 4);
    scene.peek_all();
    scene.lines
}

/// The small log with every `step`th byte changed, and a callout behind it and in its place.
fn over_damage(step: usize) -> Vec<Vec<u8>> {
    let mut scene = Scene::with_log(small_len() + 48, &SMALL);

    for at in (0..small_len()).step_by(step) {
        for change in [1, 255] {
            let old = scene.change(at, change);
            scene.append(&[counted(9)]);
            scene.walk(4, 4);
            scene.used(0);
            scene.append(&[counted(at)]);
            scene.walk(1, 1);
            scene.poke(at, &[old]);
            scene.used(0);
            scene.append_all(&SMALL);
            scene.walk(3, 3);
        }
    }
    scene.peek_all();
    scene.lines
}

/// Appends that are turned down for each reason and for two at a time, with the store and the used length afterwards.
fn refused() -> Vec<Vec<u8>> {
    let late = Report {
        time: TIME_LIMIT + 1,
        ..counted(3)
    };
    let odd = Report {
        verdict: 263,
        ..counted(4)
    };
    let callouts = [
        vec![late.clone()],
        vec![odd.clone()],
        vec![counted(1), late.clone()],
        vec![counted(1), odd.clone()],
        vec![odd.clone(), late.clone()],
        vec![counted(1), counted(2)],
        vec![counted(1), counted(2), odd.clone()],
        vec![counted(1), counted(2), late.clone()],
        vec![counted(1), counted(2), odd, late],
        vec![counted(1)],
        vec![],
    ];
    let mut scene = Scene::new(0);

    for len in [48, 63, 64, 80, 95, 96, 97, 127, 128] {
        for callout in &callouts {
            scene.store(len);
            scene.append(&[counted(7)]);
            scene.poke(48, &[170; 80][..(len - 48) as usize]);
            scene.append(callout);
            scene.peek_all();
            scene.append(&[]);
            scene.walk(9, 9);
        }
    }
    for used in [129, 1 << 32, u64::MAX] {
        for callout in &callouts {
            scene.store(128);
            scene.poke(0, &[170; 128]);
            scene.used(used);
            scene.append(callout);
            scene.walk(9, 9);
            scene.peek_all();
        }
    }
    scene.lines
}

/// As many empty callouts as a store holds, walked now and then.
fn empty_callouts() -> Vec<Vec<u8>> {
    let mut scene = Scene::new(MAX_STORE);

    for at in 0..=MAX_STORE / TRAILER {
        scene.append(&[]);
        if at % 512 == 511 {
            scene.walk(at, 0);
            scene.walk(at + 1, 0);
        }
    }
    scene.used(MAX_STORE - 1);
    scene.walk_all();
    scene.used(MAX_STORE - TRAILER);
    scene.walk(LENT.0 - 1, 0);
    scene.lines
}

/// Reports of a long callout, whose fields tell their place and fit in a line.
fn wide(at: u64) -> Report {
    Report {
        time: TIME_LIMIT - 7 * at,
        counter: 0x0102_0304 * (at % 251),
        session: at,
        index: u32::MAX - 3 * at as u32,
        verdict: VERDICTS[(at / 3 % 4) as usize],
    }
}

/// A full store with 2,047 records in two callouts, walked with lists that are long enough or not.
fn full([first, second]: [u64; 2]) -> Vec<Vec<u8>> {
    let mut scene = Scene::new(MAX_STORE);
    let callout = |from: u64, to: u64| -> Vec<Report> {
        let narrow = to - from > 1_100;
        (from..to)
            .map(|at| if narrow { counted(at) } else { wide(at) })
            .collect()
    };

    scene.append(&callout(0, first));
    scene.walk(1, first);
    scene.append(&callout(first, first + second));
    scene.append(&[]);
    scene.walk(2, MAX_RECORDS);
    scene.walk(1, MAX_RECORDS);
    scene.walk(2, MAX_RECORDS - 1);
    scene.walk_all();
    for at in [
        0,
        28,
        RECORD * first,
        MAX_STORE - 48,
        MAX_STORE - 16,
        MAX_STORE - 1,
    ] {
        let old = scene.change(at, 255);
        scene.walk_all();
        scene.poke(at, &[old]);
    }
    scene.walk(2, MAX_RECORDS);
    scene.peek_all();
    scene.lines
}

/// A callout of so many reports in stores that hold it or not; with a late time or another verdict at its ends and in the middle.
fn many(count: u64) -> Vec<Vec<u8>> {
    let mut scene = Scene::new(MAX_STORE);
    let plain = Report {
        time: 0,
        counter: 0,
        session: 0,
        index: 0,
        verdict: 0,
    };
    let reports = vec![plain; count as usize];

    scene.append(&reports);
    scene.append(&[]);
    scene.peek(MAX_STORE - 32, 32);
    let need = log_len(&[count]);
    for len in [need - 1, need, need + 1] {
        scene.store(len.min(MAX_STORE));
        scene.append(&reports);
        scene.peek(len.min(MAX_STORE) - 20, 20);
        if count < 1_100 {
            scene.walk(1, count - 1);
            scene.walk(1, count);
        }
    }
    // One digit more is over the limit of a line where the reports fill it.
    let mut odd = reports.clone();
    for at in [0, reports.len() / 2, reports.len() - 1] {
        odd[at].verdict = 8;
        scene.append(&odd);
        if count < 6_500 {
            odd[at].time = TIME_LIMIT + 1;
            scene.append(&odd);
        }
        odd[at] = reports[at].clone();
    }
    scene.peek(0, 20);
    scene.lines
}

/// A store near the greatest length: its ends, callouts that fit just so or not, and walks.
fn large(len: u64) -> Vec<Vec<u8>> {
    let mut scene = Scene::new(len);

    scene.walk(0, 0);
    scene.peek(len - 8, 8);
    scene.peek(len - 8, 9);
    scene.poke(len - 2, &[170, 170]);
    scene.poke(len - 1, &[170, 170]);
    for count in 0..3 {
        let need = log_len(&[count]);
        for used in [len - need - 1, len - need, len - need + 1, len, len + 1] {
            scene.used(used);
            scene.append_all(&[count]);
            scene.walk(9, 9);
            scene.peek(len - 20, 20);
        }
    }
    for used in [0, 16, 65_520, 65_535, 65_536, 65_537] {
        scene.used(used);
        scene.append(&[]);
        scene.walk(9, 9);
    }
    scene.lines
}

/// A log that grows, is damaged and repaired as the seed chooses.
fn random_log(seed: u64, lines: usize) -> Vec<Vec<u8>> {
    let mut random = Random::new(seed ^ 0x10_6c06);
    let mut scene = Scene::empty();
    scene.say(b"new 1 0 0");
    let store = store_line(&mut random);
    scene.say(&store);

    for count in 0..random.below(6) {
        let reports: Vec<Report> = (0..count).map(|_| report(&mut random)).collect();
        scene.append(&reports);
    }
    while scene.lines.len() < lines {
        let next = log_lines(&mut random, &mut scene.driver);
        next.iter().for_each(|line| scene.say(line));
    }
    if let Some((counts, records)) = shape(&mut scene.driver) {
        scene.walk(counts, records);
    }
    scene.lines
}
