//! The missing report, the skips and the time a session was last heard, recounted from document 02's notes 2, 5 and 6 with the counters that
//! were seen committed.

use std::collections::{BTreeMap, BTreeSet};

/// The most counters that a window has.
const WINDOW: u64 = 8_192;

/// The committed counters of each session of a tunnel and the time of the last batch that committed any, by the session's id.
#[derive(Default)]
pub(crate) struct Recount {
    committed: BTreeMap<u64, BTreeSet<u64>>,
    heard: BTreeMap<u64, u64>,
}

impl Recount {
    /// Notes the counters of a batch that got the verdict 0 and tells how many counters each message skipped.
    pub(crate) fn note(&mut self, session: u64, counters: &[u64], verdicts: &[u8]) -> Vec<u64> {
        let committed = self.committed.entry(session).or_default();
        let mut skips = Vec::with_capacity(counters.len());

        for (counter, verdict) in counters.iter().zip(verdicts) {
            let mut skipped = 0;
            if *verdict == 0 {
                skipped = counter.saturating_sub(next_expected(committed));
                committed.insert(*counter);
            }
            skips.push(skipped);
        }

        skips
    }

    /// Notes the time of a batch in which any message got the verdict 0.
    pub(crate) fn hear(&mut self, session: u64, verdicts: &[u8], time: u64) {
        if verdicts.contains(&0) {
            self.heard.insert(session, time);
        }
    }

    /// The time of the last batch that committed a message to a session, if there was one.
    pub(crate) fn last_heard(&self, session: u64) -> Option<u64> {
        self.heard.get(&session).copied()
    }

    /// The number of counters of a session's window that were not committed.
    pub(crate) fn missing(&self, session: u64) -> u64 {
        let none = BTreeSet::new();
        let committed = self.committed.get(&session).unwrap_or(&none);
        let next = next_expected(committed);
        let first = next.saturating_sub(WINDOW);

        (first..next)
            .filter(|counter| !committed.contains(counter))
            .count() as u64
    }
}

/// One more than the greatest committed counter, or 0.
fn next_expected(committed: &BTreeSet<u64>) -> u64 {
    committed.last().map_or(0, |greatest| greatest + 1)
}
