//! Counts what a run has met.

use std::collections::BTreeMap;
use std::fmt;
use std::ops::Range;

use oracle::Call;

use crate::told::Replay;

/// Counts of call words, refusal numbers, events, verdicts, skips, last heard times, of the wakings of settlings, of the indices told ahead and then used by the Rust, of the
/// types read and the headers written, and of the log's callouts and records.
#[derive(Default)]
pub struct Tally {
    calls: u64,
    words: BTreeMap<String, u64>,
    refusals: BTreeMap<u64, u64>,
    events: BTreeMap<String, u64>,
    verdicts: BTreeMap<u64, u64>,
    skips: BTreeMap<&'static str, u64>,
    heard: BTreeMap<&'static str, u64>,
    /// The times of the handshake messages that made the tunnel's sessions, by the local index.
    made: BTreeMap<u32, u64>,
    /// The settlings by the number of wakings.
    woke: BTreeMap<String, u64>,
    /// The settlings by how their time stood to the deadline before them.
    settled: BTreeMap<&'static str, u64>,
    /// The indices told ahead, by the call that then allocated them.
    told: BTreeMap<&'static str, u64>,
    /// The same ones, by the numbers that the allocation took.
    tries: BTreeMap<u8, u64>,
    datagrams: BTreeMap<String, u64>,
    log: BTreeMap<String, u64>,
}

impl Tally {
    /// Counts one line and the answer that both programs gave to it.
    pub fn count(&mut self, line: &[u8], answer: &[u8]) {
        self.calls += 1;
        let call = oracle::read(line);
        let word = word_of(line, call.as_ref());
        let answer = String::from_utf8_lossy(answer);
        if let Some(call) = &call {
            self.count_heard(call, &answer);
        }
        let mut parts = answer.split(' ');

        match (parts.next(), word.as_str()) {
            (Some("no"), _) => {
                let number = parts.next().and_then(|number| number.parse().ok());
                *self.refusals.entry(number.unwrap_or(0)).or_default() += 1;
            }
            (Some("ok"), "event") => {
                let kind = parts.next().unwrap_or_default().to_string();
                *self.events.entry(kind).or_default() += 1;
            }
            (Some("ok"), "recv") => {
                for verdict in parts.filter_map(|verdict| verdict.parse().ok()) {
                    *self.verdicts.entry(verdict).or_default() += 1;
                }
            }
            (Some("ok"), "skips") => {
                for word in parts {
                    *self.skips.entry(skip_kind(word)).or_default() += 1;
                }
            }
            (Some("ok"), "settle") => {
                let wakings = parts.nth(1).unwrap_or_default().to_string();
                *self.woke.entry(wakings).or_default() += 1;
            }
            (Some("ok"), "datagram") => {
                let kind = parts.take(2).collect::<Vec<_>>().join(" ");
                *self.datagrams.entry(kind).or_default() += 1;
            }
            (Some("ok"), "header") => {
                let kind = parts.next().unwrap_or_default().to_string();
                *self.datagrams.entry(kind).or_default() += 1;
            }
            (Some("ok"), "append" | "walk") => self.count_log(&word, parts),
            _ => {}
        }
        *self.words.entry(word).or_default() += 1;
    }

    /// Counts the answer to a `heard`: none, the time the session was made, or a later one; notes when sessions are made.
    fn count_heard(&mut self, call: &Call, answer: &str) {
        let words: Vec<&str> = answer.split(' ').take(3).collect();

        match (call, words.as_slice()) {
            (Call::New { .. }, _) => self.made.clear(),
            (Call::Resp { receiver, time, .. }, ["ok", ..]) => {
                self.made.insert(*receiver, *time);
            }
            (Call::Hello { time, .. }, ["ok", "resp", local]) => {
                self.made
                    .extend(local.parse().ok().map(|local: u32| (local, *time)));
            }
            (Call::Heard { .. }, ["no", "12"]) => *self.heard.entry("none").or_default() += 1,
            (Call::Heard { index }, ["ok", "at", at]) => {
                let at_first = self.made.get(index).copied() == at.parse().ok();
                let kind = if at_first { "at first" } else { "later" };
                *self.heard.entry(kind).or_default() += 1;
            }
            _ => {}
        }
    }

    /// Counts, among these lines, each index that was told ahead and then used by the Rust, and how each settling stood to the deadline.
    pub(crate) fn count_replay(&mut self, replay: &Replay, lines: Range<usize>) {
        for told in replay.told.iter().filter(|told| lines.contains(&told.at)) {
            *self.told.entry(told.call).or_default() += 1;
            *self.tries.entry(told.tries).or_default() += 1;
        }
        let settled = replay.settled.iter();
        for settled in settled.filter(|settled| lines.contains(&settled.at)) {
            *self.settled.entry(settled.place).or_default() += 1;
        }
    }

    /// Counts a callout that was appended, or a walk with its callouts and records.
    fn count_log<'a>(&mut self, word: &str, mut parts: impl Iterator<Item = &'a str>) {
        if word == "append" {
            *self.log.entry("appended".to_string()).or_default() += 1;
            return;
        }
        let callouts = parts.nth(1).and_then(|count| count.parse().ok());
        let callouts: u64 = callouts.unwrap_or(0);
        let records = (parts.count() as u64 - callouts) / 5;

        *self.log.entry("walked".to_string()).or_default() += 1;
        *self.log.entry("callouts".to_string()).or_default() += callouts;
        *self.log.entry("records".to_string()).or_default() += records;
    }

    /// The number of lines counted.
    pub fn calls(&self) -> u64 {
        self.calls
    }
}

/// How far a message skipped, in a word, or that there is no batch yet.
fn skip_kind(word: &str) -> &'static str {
    match word.parse() {
        Ok(0) => "0",
        Ok(..=8_192) => "up to 8192",
        Ok(8_193u64..) => "above 8192",
        Err(_) => "none",
    }
}

/// The name of a line's call, or a word for a line that cannot be read.
fn word_of(line: &[u8], call: Option<&Call>) -> String {
    if call.is_none() {
        return "unreadable".to_string();
    }
    let text = String::from_utf8_lossy(line);

    text.split([' ', '\t', '\r'])
        .find(|word| !word.is_empty())
        .unwrap_or_default()
        .to_string()
}

impl fmt::Display for Tally {
    fn fmt(&self, f: &mut fmt::Formatter<'_>) -> fmt::Result {
        writeln!(f, "calls:     {}", list(&self.words))?;
        writeln!(f, "refusals:  {}", list(&self.refusals))?;
        writeln!(f, "events:    {}", list(&self.events))?;
        writeln!(f, "verdicts:  {}", list(&self.verdicts))?;
        writeln!(f, "skips:     {}", list(&self.skips))?;
        writeln!(f, "heard:     {}", list(&self.heard))?;
        writeln!(f, "woke:      {}", list(&self.woke))?;
        writeln!(f, "settled:   {}", list(&self.settled))?;
        let told: u64 = self.told.values().sum();
        let by_call = list(&self.told);
        writeln!(f, "told:      {told} as the Rust then used them: {by_call}")?;
        writeln!(f, "tries:     {}", list(&self.tries))?;
        writeln!(f, "datagrams: {}", list(&self.datagrams))?;
        write!(f, "log:       {}", list(&self.log))
    }
}

/// Names with their counts on one line.
pub(crate) fn list<K: fmt::Display>(counts: &BTreeMap<K, u64>) -> String {
    let parts: Vec<String> = counts
        .iter()
        .map(|(name, count)| format!("{name} {count}"))
        .collect();

    parts.join(", ")
}

#[cfg(test)]
mod tests {
    use super::*;

    #[test]
    fn last_heard_times_are_counted_by_whether_a_batch_moved_them() {
        let mut tally = Tally::default();

        for (line, answer) in [
            ("heard 257", "no 2"),
            ("new 256 0 0", "ok"),
            ("heard 257", "no 12"),
            ("hello 9 0 5", "ok resp 257 9"),
            ("hello 9 3 6", "no 3"),
            ("heard 257", "ok at 5"),
            ("init 6", "ok init 258"),
            ("resp 258 7 7 7", "no 7"),
            ("resp 258 7 0 8", "ok key 7 0"),
            ("heard 258", "ok at 8"),
            ("recv 257 0 8 0 d", "ok 0"),
            ("heard 257", "ok at 8"),
            ("new 256 0 0", "ok"),
            ("heard 257", "no 12"),
            ("heard 258 0", "no 2"),
        ] {
            tally.count(line.as_bytes(), answer.as_bytes());
        }

        assert_eq!(list(&tally.heard), "at first 2, later 1, none 2");
    }

    #[test]
    fn settlings_are_counted_by_their_wakings() {
        let mut tally = Tally::default();

        for (line, answer) in [
            ("settle 0 0", "no 2"),
            ("new 256 0 0", "ok"),
            ("settle 0 0", "ok woke 0"),
            ("settle 0 540000000000", "ok woke 1"),
            ("settle 0 540000000000", "ok woke 0"),
            ("settle 0 0", "no 13"),
        ] {
            tally.count(line.as_bytes(), answer.as_bytes());
        }

        assert_eq!(list(&tally.woke), "0 2, 1 1");
    }
}
