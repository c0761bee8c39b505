//! Holds settlings of the Rust to the single wakings they stand for, and makes sure that the scripts settle where it matters.

use std::collections::{BTreeMap, BTreeSet};

use compare::{Exhaustive, Script, judge, make_pair, make_script, make_settle_script, place_of};
use oracle::{Answer, Call, Driver};

/// The seeds whose scripts must meet everything.
const SEEDS: std::ops::Range<u64> = 0..300;

/// What the settlings of scripts have met.
#[derive(Default)]
struct Met {
    /// How often each number of wakings was met, by whether the jitter was 0.
    woke: BTreeMap<(u64, bool), usize>,
    /// The number of wakings, how the time stood to the deadline before, and whether events were queued.
    places: BTreeSet<(u64, &'static str, bool)>,
    /// The jitters of settlings that woke the tunnel.
    jitters: BTreeSet<u64>,
    refusals: BTreeSet<u8>,
    /// The calls after a settling that woke the tunnel so often, up to the next one at another time.
    followed: BTreeSet<(u64, String)>,
    others: BTreeSet<&'static str>,
}

impl Met {
    /// Notes what a script's settlings met.
    fn note(&mut self, script: &Script) {
        let mut driver = Driver::new();
        let mut before = None;

        for line in &script.lines {
            let call = oracle::read(line);
            let view = driver.view();
            let answer = driver.answer(line);
            if let (Some((wakings, time)), Some(call)) = (before, &call) {
                if call.time().is_none_or(|at| at == time) {
                    let word = call.to_string().split(' ').next().map(str::to_string);
                    self.followed.extend(word.map(|word| (wakings, word)));
                } else {
                    before = None;
                }
            }
            match (call, view, answer) {
                (None, ..) if line.starts_with(b"settle") => {
                    self.others.insert("unreadable");
                }
                (Some(Call::Settle { .. }), None, _) => {
                    self.others.insert("no tunnel");
                }
                (Some(Call::Settle { .. }), _, Err(number)) => {
                    self.refusals.insert(number);
                }
                (Some(Call::Settle { jitter, time }), Some(view), Ok(Answer::Woke(wakings))) => {
                    *self.woke.entry((wakings, jitter == 0)).or_default() += 1;
                    let place = place_of(view.deadline, time);
                    self.places.insert((wakings, place, view.has_events));
                    if wakings > 0 {
                        self.jitters.insert(jitter);
                    }
                    before = Some((wakings, time));
                }
                _ => {}
            }
        }
    }
}

/// What the settle scripts of the first seeds have met.
fn met_by_settle_scripts() -> Met {
    let mut met = Met::default();

    for seed in SEEDS {
        met.note(&make_settle_script(seed, 150));
    }

    met
}

#[test]
fn settle_scripts_meet_every_number_of_wakings() {
    let met = met_by_settle_scripts();
    let numbers: BTreeSet<u64> = met.woke.keys().map(|(wakings, _)| *wakings).collect();

    assert_eq!(numbers, (0..=3).collect());
    for wakings in 0..=2 {
        for no_jitter in [false, true] {
            let count = met.woke.get(&(wakings, no_jitter)).copied();
            assert!(count.is_some_and(|count| count > 100), "{:?}", met.woke);
        }
    }
    // A third waking sends the handshake that the second one scheduled for this very time.
    assert!(met.woke[&(3, true)] > 50, "{:?}", met.woke);
    assert!(!met.woke.contains_key(&(3, false)), "{:?}", met.woke);
    for jitter in [0, 1, 332_999_999, 333_000_000] {
        assert!(met.jitters.contains(&jitter), "{jitter}");
    }
}

#[test]
fn settle_scripts_stand_at_deadlines_and_a_nanosecond_beside_them() {
    let met = met_by_settle_scripts();

    for has_events in [false, true] {
        for place in ["a nanosecond before", "earlier"] {
            assert!(met.places.contains(&(0, place, has_events)), "{place}");
        }
        for place in ["at the deadline", "a nanosecond after", "later"] {
            for wakings in 1..=3 {
                let kind = (wakings, place, has_events);
                assert!(met.places.contains(&kind), "{kind:?}");
            }
        }
        assert!(met.places.contains(&(0, "expired", has_events)));
    }
    for (wakings, place, _) in &met.places {
        let due = ["at the deadline", "a nanosecond after", "later"].contains(place);
        assert_eq!(*wakings > 0, due, "{place}");
    }
}

#[test]
fn settle_scripts_meet_every_refusal_and_every_call_behind() {
    let met = met_by_settle_scripts();

    assert_eq!(met.refusals, BTreeSet::from([1, 2, 13]));
    assert_eq!(met.others, BTreeSet::from(["no tunnel", "unreadable"]));
    for wakings in 0..=3 {
        for word in [
            "next", "event", "wake", "settle", "heard", "missing", "send",
        ] {
            let kind = (wakings, word.to_string());
            assert!(met.followed.contains(&kind), "{kind:?}");
        }
    }
}

#[test]
fn scripts_of_every_manner_settle_now_and_then() {
    let mut all = Met::default();

    for manner in 0..10 {
        let mut met = Met::default();
        for seed in 0..40 {
            let script = make_script(10 * seed + manner, 150);
            met.note(&script);
            all.note(&script);
        }
        assert!(!met.woke.is_empty(), "{manner}");
    }

    for wakings in 0..=2 {
        assert!(all.woke.contains_key(&(wakings, true)), "{wakings}");
    }
    assert_eq!(all.refusals, BTreeSet::from([1, 2, 13]));
    assert!(all.others.contains("unreadable"));
}

#[test]
fn all_words_of_three_letters_settle() {
    let mut met = Met::default();

    for script in Exhaustive::new(3) {
        met.note(&script);
    }

    for kind in [
        (0, "a nanosecond before", false),
        (0, "a nanosecond before", true),
        (0, "expired", false),
        (1, "at the deadline", false),
        (2, "at the deadline", false),
    ] {
        assert!(met.places.contains(&kind), "{kind:?}");
    }
}

#[test]
fn pairs_settle_with_every_number_of_wakings() {
    let mut numbers = BTreeSet::new();

    for seed in 0..1_500 {
        let pair = make_pair(seed, 100, None);
        assert_eq!(judge(&pair).violations(), 0, "{seed}");
        let mut driver = Driver::new();
        driver.call(pair.created).expect("a good creation");
        for step in pair.steps {
            let is_extra = step.extra;
            let answer = driver.call(step.call);
            if let Ok(Answer::Woke(wakings)) = answer {
                assert!(!is_extra, "an extra waking is a single one");
                numbers.insert(wakings);
            }
        }
    }

    assert_eq!(numbers, (0..=3).collect());
}

#[test]
fn a_settling_leaves_what_its_single_wakings_leave() {
    for seed in SEEDS {
        let script = make_settle_script(seed, 150);
        let [mut settled, mut woken] = [Driver::new(), Driver::new()];

        for line in &script.lines {
            let answer = settled.answer(line);
            match (oracle::read(line), &answer) {
                (Some(Call::Settle { jitter, time }), Ok(Answer::Woke(wakings @ 1..))) => {
                    for _ in 0..*wakings {
                        let waking = woken.call(Call::Wake { jitter, time });
                        assert_eq!(waking, Ok(Answer::None));
                    }
                }
                _ => assert_eq!(woken.answer(line), answer, "{seed}"),
            }
        }
    }
}

#[test]
fn a_waking_is_due_where_the_deadline_without_events_has_come() {
    for seed in SEEDS {
        let script = make_settle_script(seed, 150);
        let [mut settled, mut drained] = [Driver::new(), Driver::new()];

        for line in &script.lines {
            let answer = settled.answer(line);
            match (oracle::read(line), answer) {
                (Some(Call::Settle { jitter, time }), Ok(Answer::Woke(wakings))) => {
                    let mut count = 0;
                    while next_without_events(&mut drained).is_some_and(|at| at <= time) {
                        let waking = drained.call(Call::Wake { jitter, time });
                        assert_eq!(waking, Ok(Answer::None));
                        count += 1;
                    }
                    assert_eq!(wakings, count, "{seed}");
                    if count == 0 {
                        drained
                            .call(Call::Settle { jitter, time })
                            .expect("no waking");
                    }
                }
                (Some(Call::Event), _) | (None, _) => {}
                _ => drop(drained.answer(line)),
            }
        }
    }
}

/// The deadline that the Rust tells once all events are taken.
fn next_without_events(driver: &mut Driver) -> Option<u64> {
    while !matches!(driver.call(Call::Event), Ok(Answer::None)) {}

    match driver.call(Call::Next) {
        Ok(Answer::At(at)) => Some(at),
        _ => None,
    }
}

#[test]
fn a_settling_that_is_not_due_raises_the_greatest_time_only() {
    for seed in SEEDS {
        let script = make_settle_script(seed, 150);
        let [mut settled, mut left] = [Driver::new(), Driver::new()];

        for line in &script.lines {
            let before = settled.view().map(|view| view.greatest);
            let answer = settled.answer(line);
            let call = oracle::read(line);
            let is_settle = matches!(call, Some(Call::Settle { .. }));
            if is_settle && answer == Ok(Answer::Woke(0)) {
                let time = call.and_then(|call| call.time());
                assert_eq!(settled.view().map(|view| view.greatest), time, "{seed}");
                continue;
            }
            if is_settle && answer.is_err() {
                assert_eq!(settled.view().map(|view| view.greatest), before, "{seed}");
            }
            let other = left.answer(line);
            if answer == Err(13) && other != answer {
                break;
            }
            assert_eq!(other, answer, "{seed}");
        }
    }
}
