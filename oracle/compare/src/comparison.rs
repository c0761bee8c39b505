//! Goes through scripts, many for each run of the two programs, and reports.

use std::collections::BTreeSet;

use crate::cut::{cut_down, text};
use crate::maker::Script;
use crate::programs::{Output, first_difference, run_both};
use crate::tally::Tally;
use crate::told::{Replay, replay};

/// The most scripts that one run of a program answers.
const BATCH: usize = 300;

/// A comparison under way.
pub struct Comparison<'a> {
    programs: [&'a str; 2],
    stop: bool,
    cut: bool,
    tally: Tally,
    scripts: u64,
    differences: u64,
    runs: u64,
}

/// A script with the name it is reported by.
type Named = (String, Script);

impl<'a> Comparison<'a> {
    /// Compares two programs; `stop` ends at the first difference, `cut` shortens its script.
    pub fn new(programs: [&'a str; 2], stop: bool, cut: bool) -> Self {
        Self {
            programs,
            stop,
            cut,
            tally: Tally::default(),
            scripts: 0,
            differences: 0,
            runs: 0,
        }
    }

    /// The number of scripts answered differently.
    pub fn differences(&self) -> u64 {
        self.differences
    }

    /// Answers all scripts; one that does not begin with `new` begins a run of its own.
    pub fn go_through(&mut self, scripts: impl Iterator<Item = Named>) {
        let mut batch: Vec<Named> = Vec::new();

        for script in scripts {
            if batch.len() == BATCH || !script.1.begins_with_new() {
                self.compare(&std::mem::take(&mut batch));
            }
            if self.stop && self.differences > 0 {
                return;
            }
            batch.push(script);
        }
        self.compare(&batch);
    }

    /// Answers a batch with one run of each program; every other input ends without a newline.
    fn compare(&mut self, batch: &[Named]) {
        if batch.is_empty() {
            return;
        }
        let lines = lines_of(batch);
        let mut input = text(&lines);
        if self.runs % 2 == 1 {
            input.pop();
        }
        self.runs += 1;

        let outputs = run_both(self.programs, &input);
        let replay = replay(&lines, &outputs[0].lines);
        let equal = first_difference(&outputs).is_none();
        if replay.holds() && equal && outputs[0].lines.len() == lines.len() {
            self.scripts += batch.len() as u64;
            for (line, answer) in lines.iter().zip(&outputs[0].lines) {
                self.tally.count(line, answer);
            }
            self.tally.count_replay(&replay, 0..lines.len());
            return;
        }
        self.find_differences(batch, &outputs, &replay);
    }

    /// Finds the scripts of a batch that were answered differently, or in which the first program told another index than the Rust then used.
    fn find_differences(&mut self, batch: &[Named], outputs: &[Output; 2], replay: &Replay) {
        let wrong = replay.told.iter().filter(|told| !told.holds);
        let wrong: BTreeSet<usize> = wrong.map(|told| told.at).collect();
        let mut start = 0;

        for (at, (name, script)) in batch.iter().enumerate() {
            let end = start + script.lines.len();
            let last = at + 1 == batch.len();
            let differs = (start..end).find(|line| {
                let [a, b] = outputs.each_ref().map(|output| output.lines.get(*line));
                a != b || a.is_none() || wrong.contains(line)
            });

            self.scripts += 1;
            let equal = differs.unwrap_or(end) - start;
            for (line, answer) in script.lines[..equal].iter().zip(&outputs[0].lines[start..]) {
                self.tally.count(line, answer);
            }
            self.tally.count_replay(replay, start..start + equal);
            if differs.is_some() || (last && ends_differently(outputs, end)) {
                self.note_difference(name, &batch[..=at]);
                if self.stop {
                    return;
                }
            }
            start = end;
        }
    }

    /// Counts a difference and prints the first one, cut down.
    fn note_difference(&mut self, name: &str, batch: &[Named]) {
        self.differences += 1;
        if self.differences > 1 {
            return;
        }
        println!(
            "first difference: {name}, after {} calls",
            self.tally.calls() + 1
        );
        if self.cut {
            self.print_cut(&self.cut_down(batch));
        }
    }

    /// Cuts down the last script of a batch, or all of it where what went before matters.
    fn cut_down(&self, batch: &[Named]) -> Vec<Vec<u8>> {
        let last = batch.last().map_or(&[][..], |(_, script)| &script.lines);

        cut_down(self.programs, last)
            .or_else(|| cut_down(self.programs, &lines_of(batch)))
            .unwrap_or_else(|| {
                println!("  (not met again by itself: the script as it was)");
                last.to_vec()
            })
    }

    /// Prints a script beside the answers of both programs, and each index of the Rust that the first one did not tell.
    fn print_cut(&self, lines: &[Vec<u8>]) {
        let outputs = run_both(self.programs, &text(lines));
        let told = replay(lines, &outputs[0].lines).told;
        let shown = |output: &Output, at: usize| {
            output
                .lines
                .get(at)
                .map_or("(nothing)".to_string(), |line| shorten(line))
        };

        for (at, line) in lines.iter().enumerate() {
            let [a, b] = outputs.each_ref().map(|output| shown(output, at));
            println!("  {}", shorten(line));
            if a == b {
                println!("      both: {a}");
            } else {
                println!("      A:    {a}");
                println!("      B:    {b}");
            }
            if let Some(told) = told.iter().find(|told| told.at == at && !told.holds) {
                println!(
                    "      the Rust used {} in {}, A told otherwise",
                    told.index, told.tries
                );
            }
        }
        for (name, output) in ["A", "B"].iter().zip(&outputs) {
            if let Some(fault) = &output.fault {
                println!("  {name} {fault}");
            }
        }
    }

    /// Prints the counts.
    pub fn report(&self) {
        println!("{}", self.tally);
        println!(
            "{} calls compared in {} scripts, {} scripts differ",
            self.tally.calls(),
            self.scripts,
            self.differences
        );
    }
}

/// All lines of a batch.
fn lines_of(batch: &[Named]) -> Vec<Vec<u8>> {
    let scripts = batch.iter().map(|(_, script)| script);

    scripts.flat_map(|script| script.lines.clone()).collect()
}

/// Whether the programs wrote more than they should, or ended badly.
fn ends_differently(outputs: &[Output; 2], end: usize) -> bool {
    outputs
        .iter()
        .any(|output| output.lines.len() != end || output.fault.is_some())
}

/// A line as it can be printed, cut off where it is long.
fn shorten(line: &[u8]) -> String {
    let text = line.escape_ascii().to_string();

    match text.get(..400) {
        Some(front) if text.len() > 400 => format!("{front}.. ({} bytes)", line.len()),
        _ => text,
    }
}
