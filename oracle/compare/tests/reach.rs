//! Makes sure that the scripts reach every call, every refusal, every event, every type of datagram, the edges of a young window,
//! skips and last heard times of every kind and every refusal of the log.

use std::collections::BTreeSet;

use compare::{
    Exhaustive, Script, datagram_scripts, gap_scripts, log_scripts, make_script, short_log_scripts,
};
use oracle::{Answer, Call, Driver, Opening};

/// What a range of seeds has met.
#[derive(Default)]
struct Met {
    calls: BTreeSet<String>,
    refusals: BTreeSet<u8>,
    events: BTreeSet<String>,
    verdicts: BTreeSet<u8>,
    datagrams: BTreeSet<String>,
    unreadable: usize,
}

impl Met {
    /// Answers one line and notes what came of it.
    fn note(&mut self, driver: &mut Driver, line: &[u8]) {
        let call = oracle::read(line);
        let answer = driver.answer(line);

        match (&call, &answer) {
            (None, _) => self.unreadable += 1,
            (_, Err(number)) => drop(self.refusals.insert(*number)),
            (Some(Call::Event), Ok(event)) => drop(self.events.insert(first_words(event, 2))),
            (Some(Call::Datagram { .. }), Ok(received)) => {
                self.datagrams.insert(first_words(received, 3));
            }
            (_, Ok(Answer::Verdicts(verdicts))) => self.verdicts.extend(verdicts),
            _ => {}
        }
        if let Some(call) = call {
            let name = format!("{call:?}");
            self.calls
                .extend(name.split([' ', '{']).next().map(str::to_string));
        }
    }
}

/// The first words of an answer.
fn first_words(answer: &Answer, count: usize) -> String {
    let text = answer.to_string();

    text.split(' ').take(count).collect::<Vec<_>>().join(" ")
}

#[test]
fn scripts_reach_everything() {
    let mut met = Met::default();

    for seed in 0..300 {
        let mut driver = Driver::new();
        for line in make_script(seed, 150).lines {
            met.note(&mut driver, &line);
        }
    }

    assert_eq!(met.calls.len(), 26, "{:?}", met.calls);
    assert_eq!(
        met.refusals,
        (1..=19).filter(|number| *number != 14).collect()
    );
    assert_eq!(met.verdicts, BTreeSet::from([0, 7, 9, 10]));
    let events = ["ok est", "ok exp", "ok init", "ok key", "ok none"];
    assert_eq!(met.events, events.map(str::to_string).into());
    assert_eq!(met.datagrams, types());
    assert!(met.unreadable > 100);
}

/// The beginnings of the answers to datagrams that are not turned away.
fn types() -> BTreeSet<String> {
    (1..=4).map(|kind| format!("ok type {kind}")).collect()
}

#[test]
fn datagram_scripts_reach_every_type_and_refusal() {
    let mut met = Met::default();

    for (_, script) in datagram_scripts() {
        let mut driver = Driver::new();
        for line in script.lines {
            met.note(&mut driver, &line);
        }
    }

    assert_eq!(met.refusals, BTreeSet::from([2, 15, 16]));
    assert_eq!(met.datagrams, types());
    assert!(met.unreadable > 1_000);
}

/// What log scripts have met by call and answer, each with the most callouts and the most records of a walk.
fn log_answers(scripts: Vec<(String, Script)>) -> (BTreeSet<String>, usize, usize) {
    let mut answers = BTreeSet::new();
    let (mut callouts, mut records) = (0, 0);
    let mut driver = Driver::new();

    for line in scripts.into_iter().flat_map(|(_, script)| script.lines) {
        let answer = driver.answer(&line);
        let call = oracle::read(&line).map_or("unreadable".to_string(), |call| call.to_string());
        let word = call.split(' ').next().unwrap_or_default();
        match answer {
            Ok(Answer::Log(read)) => {
                answers.insert(format!("{word} ok"));
                callouts = callouts.max(read.len());
                records = records.max(read.iter().map(Vec::len).sum());
            }
            Ok(_) => drop(answers.insert(format!("{word} ok"))),
            Err(number) => drop(answers.insert(format!("{word} {number}"))),
        }
    }

    (answers, callouts, records)
}

/// Every answer that a line of the log can have after a tunnel was made.
const LOG_ANSWERS: [&str; 15] = [
    "append 1",
    "append 19",
    "append 2",
    "append ok",
    "peek 2",
    "peek ok",
    "poke 2",
    "poke ok",
    "store ok",
    "unreadable 2",
    "used ok",
    "walk 17",
    "walk 18",
    "walk 2",
    "walk ok",
];

#[test]
fn log_scripts_reach_every_answer_and_a_full_store() {
    let scripts = log_scripts();
    let lines: usize = scripts.iter().map(|(_, script)| script.lines.len()).sum();
    assert!(lines >= 200_000, "{lines}");

    let (answers, callouts, records) = log_answers(scripts);
    assert!(LOG_ANSWERS.iter().all(|answer| answers.contains(*answer)));
    assert_eq!((callouts, records), (4_096, 2_047));
}

#[test]
fn short_log_scripts_reach_every_answer() {
    let (answers, _, _) = log_answers(short_log_scripts());

    assert!(LOG_ANSWERS.iter().all(|answer| answers.contains(*answer)));
}

#[test]
fn every_log_script_after_the_first_begins_with_a_tunnel_and_a_store() {
    for scripts in [log_scripts(), short_log_scripts()] {
        for (name, script) in &scripts[1..] {
            let front: Vec<_> = script
                .lines
                .iter()
                .take(2)
                .map(|l| oracle::read(l))
                .collect();
            assert!(script.begins_with_new(), "{name}");
            assert!(matches!(front[1], Some(Call::Store { .. })), "{name}");
        }
    }
}

/// The next counters of the sessions whose missing report was asked for.
fn next_counters_asked(lines: &[Vec<u8>]) -> BTreeSet<u64> {
    let mut driver = Driver::new();
    let mut counters = BTreeSet::new();

    for line in lines {
        if let Some(Call::Missing { index }) = oracle::read(line) {
            let sessions = driver.view().map_or_else(Vec::new, |view| view.sessions);
            let asked = sessions.iter().filter(|session| session.index == index);
            counters.extend(asked.map(|session| session.next_received));
        } else {
            let _ = driver.answer(line);
        }
    }

    counters
}

#[test]
fn gap_scripts_ask_at_every_next_counter() {
    let mut counters = BTreeSet::new();

    for (_, script) in gap_scripts() {
        counters.extend(next_counters_asked(&script.lines));
    }

    assert!((0..=8_330).all(|next| counters.contains(&next)));
}

#[test]
fn scripts_ask_at_the_edges_of_a_young_window() {
    let mut counters = BTreeSet::new();

    for seed in 0..300 {
        counters.extend(next_counters_asked(&make_script(seed, 150).lines));
    }

    for next in [0, 1, 63, 64, 65, 127, 128, 129, 8_191, 8_192, 8_193] {
        assert!(counters.contains(&next), "{next}");
    }
}

/// What the skips of scripts have met.
#[derive(Default)]
struct SkipsMet {
    kinds: BTreeSet<&'static str>,
    /// The verdicts other than 0 of batches that skip some counters.
    beside_a_jump: BTreeSet<u8>,
    /// What the batches before were turned down by.
    after_refused: BTreeSet<u8>,
}

impl SkipsMet {
    /// Notes what a script's skips met.
    fn note(&mut self, lines: &[Vec<u8>]) {
        let mut driver = Driver::new();
        let mut verdicts = Vec::new();
        let mut before = (None, Ok(Answer::None));

        for line in lines {
            let call = oracle::read(line);
            let answer = driver.answer(line);
            if let Ok(Answer::Verdicts(good)) = &answer {
                verdicts = good.clone();
            }
            if call == Some(Call::Skips) {
                self.note_skips(&answer, &verdicts, &before);
            }
            before = (call, answer);
        }
    }

    /// Notes the answer to a `skips`, given the verdicts of the last good batch and the line before it.
    fn note_skips(
        &mut self,
        answer: &Result<Answer, u8>,
        verdicts: &[u8],
        before: &(Option<Call>, Result<Answer, u8>),
    ) {
        let Ok(Answer::Skips(skips)) = answer else {
            let none = *answer == Ok(Answer::None);
            self.kinds.insert(if none { "none" } else { "no tunnel" });
            return;
        };
        let kinds = [
            ("no message", skips.is_empty()),
            ("0", skips.contains(&0)),
            ("1 to 8,192", skips.iter().any(|n| (1..=8_192).contains(n))),
            ("above 8,192", skips.iter().any(|n| *n > 8_192)),
            ("above 2^63", skips.iter().any(|n| *n > 1 << 63)),
            ("two jumps", skips.iter().filter(|n| **n > 0).count() > 1),
            ("a full batch", skips.len() == 1_024),
        ];
        let met = kinds.into_iter().filter(|(_, is_met)| *is_met);
        self.kinds.extend(met.map(|(kind, _)| kind));

        if skips.iter().any(|skipped| *skipped > 0) {
            let others = verdicts.iter().filter(|verdict| **verdict != 0);
            self.beside_a_jump.extend(others);
        }
        match before {
            (Some(Call::Recv { .. }), Err(number)) => drop(self.after_refused.insert(*number)),
            (Some(Call::Skips), _) => drop(self.kinds.insert("twice")),
            (None, _) => drop(self.kinds.insert("after an unreadable line")),
            _ => {}
        }
    }
}

#[test]
fn scripts_reach_skips_of_every_kind() {
    let mut met = SkipsMet::default();

    for seed in 0..300 {
        met.note(&make_script(seed, 150).lines);
    }

    let kinds = [
        "no tunnel",
        "none",
        "no message",
        "0",
        "1 to 8,192",
        "above 8,192",
        "above 2^63",
        "two jumps",
        "a full batch",
        "twice",
        "after an unreadable line",
    ];
    assert_eq!(met.kinds, kinds.into());
    assert_eq!(met.beside_a_jump, BTreeSet::from([7, 9, 10]));
    assert_eq!(met.after_refused, BTreeSet::from([1, 2, 11, 12, 13]));
}

#[test]
fn every_manner_asks_for_skips_of_jumps() {
    for manner in 0..10 {
        let mut met = SkipsMet::default();
        for seed in 0..30 {
            met.note(&make_script(10 * seed + manner, 150).lines);
        }

        for kind in ["none", "0", "1 to 8,192"] {
            assert!(met.kinds.contains(kind), "{manner}: {kind}");
        }
        assert!(!met.after_refused.is_empty(), "{manner}");
    }
}

#[test]
fn gap_scripts_reach_skips_of_jumps_and_of_what_is_turned_down() {
    let mut met = SkipsMet::default();

    for (_, script) in gap_scripts() {
        met.note(&script.lines);
    }

    let kinds = [
        "none",
        "no message",
        "0",
        "1 to 8,192",
        "above 8,192",
        "above 2^63",
        "two jumps",
        "a full batch",
    ];
    assert_eq!(met.kinds, kinds.into());
    assert_eq!(met.beside_a_jump, BTreeSet::from([7, 9, 10]));
    assert_eq!(met.after_refused, BTreeSet::from([2, 11, 12]));
}

/// What the questions when a session was last heard have met.
#[derive(Default)]
struct HeardMet {
    kinds: BTreeSet<&'static str>,
    /// What the batches before, for the same index, were turned down by.
    after_refused: BTreeSet<u8>,
}

/// A line and what came of it.
type Answered = (Option<Call>, Result<Answer, u8>);

impl HeardMet {
    /// Notes what a script's questions met.
    fn note(&mut self, lines: &[Vec<u8>]) {
        let mut driver = Driver::new();
        let mut before: Answered = (None, Ok(Answer::None));
        let mut gone: BTreeSet<u32> = BTreeSet::new();

        for line in lines {
            let call = oracle::read(line);
            let answer = driver.answer(line);
            let sessions = driver.view().map_or_else(Vec::new, |view| view.sessions);
            gone.extend(sessions.iter().map(|session| session.index));
            match call {
                Some(Call::Heard { index }) => {
                    self.note_heard(&driver, index, &answer, &before);
                    if gone.contains(&index) && answer == Err(12) {
                        self.kinds.insert("gone");
                    }
                }
                Some(Call::Next | Call::Skips) => {}
                _ => before = (call, answer),
            }
            if line.starts_with(b"hea") && oracle::read(line).is_none() {
                self.kinds.insert("unreadable");
            }
        }
    }

    /// Notes the answer to a question, given the last line that was none and asked neither for the deadline nor for skips; the time lies from the session's first to the greatest one.
    fn note_heard(
        &mut self,
        driver: &Driver,
        index: u32,
        answer: &Result<Answer, u8>,
        before: &Answered,
    ) {
        let Some(view) = driver.view() else {
            assert_eq!(*answer, Err(2));
            self.kinds.insert("no tunnel");
            return;
        };
        let session = view.sessions.iter().find(|held| held.index == index);
        let Some(session) = session else {
            assert_eq!(*answer, Err(12));
            let slot = |other: u32| other % 8 == index % 8;
            let filled = view.sessions.iter().any(|held| slot(held.index));
            let kind = if filled {
                "another index"
            } else {
                "no session"
            };
            self.kinds.insert(kind);
            if view.expired {
                self.kinds.insert("expired");
            }
            return;
        };
        assert_eq!(*answer, Ok(Answer::At(session.last_heard)));
        assert!((session.established_at..=view.greatest).contains(&session.last_heard));

        let later = session.last_heard > session.established_at;
        self.kinds.insert(if later { "later" } else { "at first" });
        let others = view.sessions.iter().filter(|held| held.index != index);
        if later
            && others
                .clone()
                .any(|held| held.last_heard > session.last_heard)
        {
            self.kinds.insert("another heard later");
        }
        self.note_after(session.last_heard, index, before);
    }

    /// Notes what came before a question that was answered with `time`.
    fn note_after(&mut self, time: u64, index: u32, before: &Answered) {
        match before {
            (Some(Call::Recv { index: to, .. }), Err(number)) if *to == index => {
                self.after_refused.insert(*number);
            }
            (
                Some(Call::Recv {
                    index: to,
                    time: at,
                    messages,
                    ..
                }),
                Ok(Answer::Verdicts(verdicts)),
            ) if *to == index => {
                let committed = messages
                    .iter()
                    .zip(verdicts)
                    .filter(|(_, verdict)| **verdict == 0);
                let data = committed
                    .clone()
                    .any(|((_, opening), _)| *opening == Opening::Data);
                let kind = match committed.count() {
                    0 if messages.is_empty() => "after an empty batch",
                    0 if time < *at => "after a batch that committed nothing",
                    0 => "at the time of a batch that committed nothing",
                    _ if data => "after data",
                    _ => "after keepalives",
                };
                self.kinds.insert(kind);
            }
            (Some(Call::Wake { time: at, .. }), Ok(_)) if time < *at => {
                self.kinds.insert("after a waking");
            }
            (Some(Call::Send { time: at, .. }), Ok(_)) if time < *at => {
                self.kinds.insert("after a send");
            }
            _ => {}
        }
    }
}

/// What questions meet in scripts of every kind.
const HEARD: [&str; 12] = [
    "another heard later",
    "another index",
    "after a batch that committed nothing",
    "after a send",
    "after a waking",
    "after an empty batch",
    "after data",
    "after keepalives",
    "at first",
    "gone",
    "later",
    "no session",
];

#[test]
fn scripts_reach_last_heard_times_of_every_kind() {
    let mut met = HeardMet::default();

    for seed in 0..300 {
        met.note(&make_script(seed, 150).lines);
    }

    for kind in HEARD
        .into_iter()
        .chain(["no tunnel", "unreadable", "expired"])
    {
        assert!(met.kinds.contains(kind), "{kind}");
    }
    assert_eq!(met.after_refused, BTreeSet::from([1, 2, 12, 13]));
}

#[test]
fn every_manner_asks_for_last_heard_times() {
    for manner in 0..10 {
        let mut met = HeardMet::default();
        for seed in 0..30 {
            met.note(&make_script(10 * seed + manner, 150).lines);
        }

        for kind in ["at first", "later", "after data", "after keepalives"] {
            assert!(met.kinds.contains(kind), "{manner}: {kind}");
        }
    }
}

#[test]
fn gap_scripts_reach_last_heard_times_after_batches_of_every_kind() {
    let mut met = HeardMet::default();

    for (name, script) in gap_scripts() {
        if name.contains("heard") {
            met.note(&script.lines);
        }
    }

    for kind in HEARD.into_iter().filter(|kind| *kind != "after a send") {
        assert!(met.kinds.contains(kind), "{kind}");
    }
}

#[test]
fn all_words_of_three_letters_reach_last_heard_times() {
    let mut met = HeardMet::default();

    for script in Exhaustive::new(3) {
        met.note(&script.lines);
    }

    for kind in ["after data", "at first", "later", "no session"] {
        assert!(met.kinds.contains(kind), "{kind}");
    }
}

#[test]
fn a_seed_always_makes_the_same_script() {
    for seed in 0..10 {
        assert!(make_script(seed, 150).lines == make_script(seed, 150).lines);
    }
}
