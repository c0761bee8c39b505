//! Holds what the Rust tells ahead to what it then allocates, and makes sure that the scripts ask where it matters.

use std::collections::{BTreeMap, BTreeSet};

use compare::{Exhaustive, Script, index_scripts, make_script, short_index_scripts};
use oracle::{Answer, Call, Driver};

/// What the calls directly after an `ahead` have met: a name for each kind of allocation, with the numbers it took.
#[derive(Default)]
struct Met {
    allocations: BTreeMap<(&'static str, u8), usize>,
    /// The current session's slot, if any, with the low byte of the following number.
    following: BTreeSet<(Option<u32>, u32)>,
    /// Where an `ahead` stands.
    places: BTreeSet<&'static str>,
}

impl Met {
    /// Answers a script and holds each allocation directly after an `ahead` to what was told.
    fn note(&mut self, script: &Script) {
        let mut driver = Driver::new();
        let mut told = None;

        for line in &script.lines {
            let call = oracle::read(line);
            self.note_place(line, call.as_ref(), &driver);
            let last = driver.last_index();
            let answer = driver.answer(line);
            if call == Some(Call::Ahead) {
                assert_eq!(driver.last_index(), last);
                self.note_following(&driver);
                told = answer.ok();
                continue;
            }
            if let (Some(call), Some(last), Some(told)) = (call, last, told.take()) {
                self.note_call(&mut driver, &call, last, answer, told);
            }
        }
    }

    /// Notes whether a line that asks or tries to stands before a tunnel, on an expired one or cannot be read.
    fn note_place(&mut self, line: &[u8], call: Option<&Call>, driver: &Driver) {
        if call.is_none() && line.windows(4).any(|part| part == b"head") {
            self.places.insert("unreadable");
        }
        if call != Some(&Call::Ahead) {
            return;
        }
        self.places.insert(match driver.view() {
            None => "no tunnel",
            Some(view) if view.expired => "expired",
            Some(view) if view.current.is_some() => "current",
            Some(view) if view.sessions.is_empty() => "no session",
            Some(_) => "none current",
        });
    }

    /// Notes the current session's slot with the low byte of the number that follows the last index.
    fn note_following(&mut self, driver: &Driver) {
        if let Some(view) = driver.view() {
            let slot = view.current.map(|index| index % 8);
            self.following.insert((slot, (view.last_index + 1) % 256));
        }
    }

    /// Holds the last index, the answer and the newest queued initiation after a call to what was told just before it.
    fn note_call(
        &mut self,
        driver: &mut Driver,
        call: &Call,
        last: u32,
        answer: Result<Answer, u8>,
        told: Answer,
    ) {
        let after = driver.last_index().expect("a tunnel");
        let other = matches!(call, Call::New { .. } | Call::Settle { .. });
        if other || after == last {
            return;
        }
        let Answer::Ahead { index, tries } = told else {
            panic!("{told}");
        };
        assert_eq!(after, index, "{call}");
        assert_eq!(last & !0xff, index & !0xff, "{call}");
        assert_eq!((index as u8).wrapping_sub(last as u8), tries, "{call}");
        let (kind, used) = match (call, answer) {
            (Call::Init { .. }, Ok(Answer::Initiation { local })) => ("init", Some(local)),
            (Call::Restart { .. }, Ok(Answer::Initiation { local })) => ("restart", Some(local)),
            (Call::Hello { .. }, Ok(Answer::Response { local, .. })) => ("hello", Some(local)),
            (Call::Hello { .. }, Err(3)) => ("hello 3", Some(after)),
            (Call::Hello { .. }, Err(4)) => ("hello 4", Some(after)),
            (Call::Hello { .. }, Err(5)) => ("hello 5", Some(after)),
            (Call::Hello { .. }, Err(7)) => ("hello 7", Some(after)),
            (Call::Wake { .. }, Ok(Answer::None)) => ("wake", driver.newest_initiation()),
            (_, answer) => panic!("{call} moved the last index and answered {answer:?}"),
        };
        assert_eq!(used, Some(index), "{call}");
        *self.allocations.entry((kind, tries)).or_default() += 1;
    }

    /// Whether every kind of allocation was met with one number and with two.
    fn has_every_allocation(&self) -> bool {
        KINDS
            .into_iter()
            .all(|kind| (1..=2).all(|tries| self.allocations.contains_key(&(kind, tries))))
    }
}

/// Every kind of allocation.
const KINDS: [&str; 8] = [
    "hello", "hello 3", "hello 4", "hello 5", "hello 7", "init", "restart", "wake",
];

#[test]
fn what_is_told_before_each_call_is_what_the_rust_then_allocates() {
    let mut met = Met::default();

    for seed in 0..1_500 {
        met.note(&make_script(seed, 150).with_ahead());
    }

    for kind in KINDS {
        assert!(met.allocations.contains_key(&(kind, 1)), "{kind}");
    }
    for kind in ["hello", "hello 3", "hello 7", "init", "restart", "wake"] {
        assert!(met.allocations.contains_key(&(kind, 2)), "{kind}");
    }
    assert!(met.allocations.values().sum::<usize>() > 25_000);
}

#[test]
fn scripts_ask_ahead_everywhere() {
    let mut met = Met::default();

    for seed in 0..300 {
        met.note(&make_script(seed, 150));
    }

    for place in [
        "current",
        "expired",
        "no session",
        "no tunnel",
        "none current",
        "unreadable",
    ] {
        assert!(met.places.contains(place), "{place}");
    }
}

#[test]
fn every_manner_asks_ahead_of_allocations() {
    for manner in 0..10 {
        let mut met = Met::default();
        for seed in 0..40 {
            met.note(&make_script(10 * seed + manner, 150));
        }

        let kinds: BTreeSet<&str> = met.allocations.keys().map(|(kind, _)| *kind).collect();
        assert!(kinds.contains("hello"), "{manner}: {kinds:?}");
        assert!(kinds.len() > 1, "{manner}: {kinds:?}");
    }
}

#[test]
fn the_other_lines_of_a_seed_do_not_depend_on_the_question() {
    for seed in 0..200 {
        let is_ahead = |line: &Vec<u8>| oracle::read(line) == Some(Call::Ahead);
        let plain = make_script(seed, 150);
        let asked = make_script(seed, 150).with_ahead();
        let [plain, rest] = [plain.lines, asked.lines.clone()]
            .map(|lines| lines.into_iter().filter(|line| !is_ahead(line)));

        assert!(plain.eq(rest), "{seed}");
        for pair in asked.lines.windows(2) {
            let call = oracle::read(&pair[1]);
            let allocates = call.is_some_and(|call| call.may_allocate());
            assert!(!allocates || is_ahead(&pair[0]), "{seed}");
        }
    }
}

#[test]
fn index_scripts_meet_each_low_byte_in_each_slot() {
    let mut met = Met::default();
    let scripts = index_scripts();
    let lines: usize = scripts.iter().map(|(_, script)| script.lines.len()).sum();
    assert!((100_000..300_000).contains(&lines), "{lines}");

    for (name, script) in &scripts {
        assert!(script.begins_with_new(), "{name}");
        met.note(script);
    }

    for low in 0..256 {
        for slot in (0..8).map(Some).chain([None]) {
            assert!(met.following.contains(&(slot, low)), "{slot:?} {low}");
        }
    }
    assert!(met.has_every_allocation(), "{:?}", met.allocations);
    assert!(met.places.contains("expired"));
}

#[test]
fn short_index_scripts_meet_every_allocation() {
    let mut met = Met::default();

    for (_, script) in short_index_scripts() {
        met.note(&script);
    }

    assert!(met.has_every_allocation(), "{:?}", met.allocations);
    assert!(met.places.contains("expired"));
}

#[test]
fn all_words_of_three_letters_ask_ahead_of_each_call() {
    let mut met = Met::default();

    for script in Exhaustive::new(3) {
        met.note(&script);
    }

    for kind in ["hello", "init", "restart", "wake"] {
        assert!(met.allocations.contains_key(&(kind, 1)), "{kind}");
    }
}
