//! Makes sure that pairs keep the conditions and reach every call and refusal, and that each condition matters.

use std::collections::BTreeSet;

use compare::{Pair, Step, judge, make_pair, make_script};
use oracle::{Call, Driver};

/// The pairs of the first seeds.
fn pairs(dropped: Option<usize>) -> impl Iterator<Item = Pair> {
    (0..600).map(move |seed| make_pair(seed, 100, dropped))
}

#[test]
fn with_all_conditions_kept_no_answer_differs() {
    for pair in pairs(None) {
        let judgement = judge(&pair);
        assert_eq!((judgement.broken, judgement.violations()), ([0; 3], 0));
    }
}

#[test]
fn with_a_condition_dropped_answers_differ() {
    for dropped in 1..=3 {
        let judgements: Vec<_> = pairs(Some(dropped)).map(|pair| judge(&pair)).collect();
        assert!(
            judgements
                .iter()
                .all(|judgement| judgement.keeps_all_but(Some(dropped)))
        );
        assert!(
            judgements
                .iter()
                .any(|judgement| judgement.violations() > 0)
        );
    }
}

#[test]
fn pairs_reach_every_call_and_refusal() {
    let mut words = BTreeSet::new();
    let mut refusals = BTreeSet::new();

    for pair in pairs(None) {
        let mut driver = Driver::new();
        driver.call(pair.created).expect("a good creation");
        for step in pair.steps {
            words.extend(step.call.to_string().split(' ').next().map(str::to_string));
            refusals.extend(driver.call(step.call).err());
        }
    }

    assert_eq!(words.len(), 15, "{words:?}");
    assert_eq!(refusals, (1..=13).collect());
}

#[test]
fn pairs_wake_between_a_batch_and_its_skips() {
    let is_batch = |step: &Step| matches!(step.call, Call::Recv { .. }) && !step.extra;
    let is_skips = |step: &Step| step.call == Call::Skips && !step.extra;

    let woken = pairs(None).filter(|pair| {
        let mut threes = pair.steps.windows(3);
        threes.any(|three| is_batch(&three[0]) && three[1].extra && is_skips(&three[2]))
    });
    assert!(woken.count() > 10);
}

#[test]
fn pairs_wake_between_a_batch_and_the_last_heard_time() {
    let batch_of = |step: &Step| match step.call {
        Call::Recv { index, .. } if !step.extra => Some(index),
        _ => None,
    };
    let is_heard = |step: &Step, index: u32| step.call == Call::Heard { index };

    let woken = pairs(None).filter(|pair| {
        let mut threes = pair.steps.windows(3);
        threes.any(|three| {
            let index = batch_of(&three[0]).filter(|_| three[1].extra);
            index.is_some_and(|index| is_heard(&three[2], index))
        })
    });
    assert!(woken.count() > 10);
}

#[test]
fn the_line_of_a_call_reads_back_to_it() {
    for seed in 0..30 {
        let lines = make_script(seed, 150).lines;
        let calls: Vec<Call> = lines.iter().filter_map(|line| oracle::read(line)).collect();
        for call in calls {
            assert_eq!(oracle::read(call.to_string().as_bytes()), Some(call));
        }
    }
}
