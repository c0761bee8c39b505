//! Goes through pairs of scripts on the Rust and on drive, and reports.

use std::collections::BTreeMap;

use oracle::{Call, Number};

use crate::cut::{shrink, text};
use crate::pair::{Came, Heard, Judgement, Met, Pair, Standing, Step, judge, standing};
use crate::programs::{Output, run};
use crate::tally::{Tally, list};
use crate::times::SECOND;

/// The most pairs that one run of drive answers.
const BATCH: usize = 300;
/// The most pairs with a violation that are cut down.
const CUTS: u64 = 300;

/// A pair with the name it is reported by and what came of it on the Rust.
type Judged = (String, Pair, Judgement);

/// A run under way.
pub struct Pairing<'a> {
    drive: &'a str,
    /// The condition that is not kept.
    dropped: Option<usize>,
    shared: Tally,
    pairs: u64,
    wakings: Wakings,
    broken: [u64; 3],
    rust: Count,
    port: Count,
    /// The lines that drive answers otherwise than the Rust, of plain and of woken scripts.
    otherwise: [u64; 2],
    shortest: Option<Pair>,
}

/// The extra wakings by what they met.
#[derive(Default)]
struct Wakings {
    all: u64,
    expired: u64,
    refused: BTreeMap<Number, u64>,
    current_and_keepalive: u64,
    current_only: u64,
    keepalive_only: u64,
    neither: u64,
    last_moment: u64,
}

/// What came of the shared calls of one program.
#[derive(Default)]
struct Count {
    shared: u64,
    both_come: u64,
    heard: u64,
    violations: u64,
    pairs: u64,
}

impl<'a> Pairing<'a> {
    /// Compares two tunnels of the Rust and two of the program `drive`; `dropped` is the condition that the pairs do not keep.
    pub fn new(drive: &'a str, dropped: Option<usize>) -> Self {
        Self {
            drive,
            dropped,
            shared: Tally::default(),
            pairs: 0,
            wakings: Wakings::default(),
            broken: [0; 3],
            rust: Count::default(),
            port: Count::default(),
            otherwise: [0; 2],
            shortest: None,
        }
    }

    /// Goes through all pairs.
    pub fn go_through(&mut self, pairs: impl Iterator<Item = (String, Pair)>) {
        let mut batch: Vec<Judged> = Vec::new();

        for (name, pair) in pairs {
            let judgement = judge(&pair);
            self.note(&name, &pair, &judgement);
            batch.push((name, pair, judgement));
            if batch.len() == BATCH {
                self.ask_drive(&std::mem::take(&mut batch));
            }
        }
        self.ask_drive(&batch);
    }

    /// Whether the run shows what it should: no violation, or some where a condition is dropped.
    pub fn is_good(&self) -> bool {
        let kept = self.broken.iter().enumerate();
        let as_meant = kept
            .clone()
            .all(|(at, count)| (*count > 0) == (Some(at + 1) == self.dropped));
        let violates = [&self.rust, &self.port].map(|count| count.violations > 0);

        as_meant && self.otherwise == [0; 2] && violates == [self.dropped.is_some(); 2]
    }

    /// Counts what came of a pair on the Rust, and cuts it down where it violates the conclusion.
    fn note(&mut self, name: &str, pair: &Pair, judgement: &Judgement) {
        self.pairs += 1;
        for (sum, count) in self.broken.iter_mut().zip(judgement.broken) {
            *sum += count;
        }
        for (step, came) in pair.steps.iter().zip(&judgement.came) {
            match came {
                Came::Extra { met, .. } => self.wakings.count(*met),
                Came::Shared {
                    plain,
                    heard,
                    standing,
                    ..
                } => {
                    self.shared
                        .count(step.call.to_string().as_bytes(), plain.as_bytes());
                    self.rust.count(*standing);
                    self.rust.heard += heard.len() as u64;
                }
            }
        }
        if judgement.violations() == 0 {
            return;
        }
        self.rust.pairs += 1;
        if self.dropped.is_none() && self.rust.pairs == 1 {
            println!("first violation: {name}");
        }
        if self.rust.pairs <= CUTS {
            self.keep_shortest(cut_down(pair, self.dropped));
        }
    }

    /// Keeps the shorter one of this pair and the shortest so far.
    fn keep_shortest(&mut self, pair: Pair) {
        let size = |pair: &Pair| (pair.steps.len(), text(&pair.woken(&judge(pair))).len());

        if self
            .shortest
            .as_ref()
            .is_none_or(|shortest| size(&pair) < size(shortest))
        {
            self.shortest = Some(pair);
        }
    }

    /// Gives the plain and the woken scripts of a batch to drive and compares the answers with each other and with the Rust's.
    fn ask_drive(&mut self, batch: &[Judged]) {
        let of_all = |lines: fn(&Pair, &Judgement) -> Vec<Vec<u8>>| -> Vec<Vec<u8>> {
            let scripts = batch
                .iter()
                .map(|(_, pair, judgement)| lines(pair, judgement));
            scripts.flatten().collect()
        };
        let scripts = [of_all(Pair::plain), of_all(Pair::woken)];
        let outputs = scripts
            .each_ref()
            .map(|lines| run(self.drive, &text(lines)));

        for (lines, output) in scripts.iter().zip(&outputs) {
            let missing = lines.len() != output.lines.len();
            if missing || output.fault.is_some() {
                let fault = output
                    .fault
                    .as_deref()
                    .unwrap_or("wrote too few or too many lines");
                println!("drive {fault}");
                self.otherwise[0] += 1;
                return;
            }
        }
        let mut answers = outputs
            .each_ref()
            .map(|output: &Output| output.lines.iter());
        for (name, pair, judgement) in batch {
            let [plain, woken] = answers.each_mut().map(|lines| lines.next());
            let good = Some(&b"ok"[..]);
            self.hold(0, name, plain.map(Vec::as_slice), good);
            self.hold(1, name, woken.map(Vec::as_slice), good);

            let before = self.port.violations;
            for (step, came) in pair.steps.iter().zip(&judgement.came) {
                self.hold_step(name, step, came, &mut answers);
            }
            self.port.pairs += u64::from(self.port.violations > before);
        }
    }

    /// Compares what drive answered to a step with what the Rust did, and its answers to a shared call and to the questions after it with each
    /// other.
    fn hold_step<'b>(
        &mut self,
        name: &str,
        step: &Step,
        came: &Came,
        [plain, woken]: &mut [impl Iterator<Item = &'b Vec<u8>>; 2],
    ) {
        match came {
            Came::Extra { woken: rust, .. } => {
                let woken = woken.next().map(Vec::as_slice);
                self.hold(1, name, woken, Some(rust.as_bytes()));
            }
            Came::Shared {
                plain: rust,
                woken: rust_woken,
                greatest,
                heard,
                ..
            } => {
                let mut next =
                    || [plain.next(), woken.next()].map(|line| line.map_or(&[][..], Vec::as_slice));
                let answers = next();
                self.hold(0, name, Some(answers[0]), Some(rust.as_bytes()));
                self.hold(1, name, Some(answers[1]), Some(rust_woken.as_bytes()));
                let mut differs = false;
                for rust in heard {
                    let times = next();
                    self.hold(0, name, Some(times[0]), Some(rust.plain.as_bytes()));
                    self.hold(1, name, Some(times[1]), Some(rust.woken.as_bytes()));
                    differs |= times[0] != times[1];
                }
                self.port.heard += heard.len() as u64;
                let standing = standing(&step.call, answers, *greatest);
                self.port.count(standing.unless_heard_differs(differs));
            }
        }
    }

    /// Counts a line that drive answers otherwise than the Rust, and prints the first one.
    fn hold(&mut self, which: usize, name: &str, drive: Option<&[u8]>, rust: Option<&[u8]>) {
        if drive == rust {
            return;
        }
        if self.otherwise == [0; 2] {
            let shown = |line: Option<&[u8]>| line.unwrap_or_default().escape_ascii().to_string();
            println!(
                "drive answers otherwise than the Rust: {name}: {} for {}",
                shown(drive),
                shown(rust)
            );
        }
        self.otherwise[which] += 1;
    }

    /// Prints the counts.
    pub fn report(&self) {
        println!("{}", self.shared);
        println!(
            "{} shared calls compared on the Rust and {} on drive, in {} pairs of scripts",
            self.rust.shared, self.port.shared, self.pairs
        );
        println!(
            "{} last heard times compared after them on the Rust and {} on drive",
            self.rust.heard, self.port.heard
        );
        self.wakings.report();
        println!(
            "deadlines that differed and had both come: {} on the Rust, {} on drive",
            self.rust.both_come, self.port.both_come
        );
        let [plain, woken] = self.otherwise;
        println!(
            "lines that drive answers otherwise than the Rust: {plain} of plain and {woken} of woken scripts"
        );
        let [first, second, third] = self.broken;
        println!("steps that do not keep condition 1: {first}, 2: {second}, 3: {third}");
        if let Some(pair) = &self.shortest {
            println!("the shortest pair with a violation, + before an extra waking:");
            print_pair(pair);
        }
        println!(
            "violations: {} shared calls in {} pairs on the Rust, {} in {} on drive",
            self.rust.violations, self.rust.pairs, self.port.violations, self.port.pairs
        );
    }
}

impl Wakings {
    /// Counts an extra waking.
    fn count(&mut self, met: Met) {
        self.all += 1;
        match met {
            Met::Expired => self.expired += 1,
            Met::Refused(number) => *self.refused.entry(number).or_default() += 1,
            Met::Woke {
                current,
                keepalive,
                last_moment,
            } => {
                *match (current, keepalive) {
                    (true, true) => &mut self.current_and_keepalive,
                    (true, false) => &mut self.current_only,
                    (false, true) => &mut self.keepalive_only,
                    (false, false) => &mut self.neither,
                } += 1;
                self.last_moment += u64::from(last_moment);
            }
        }
    }

    /// Prints the counts.
    fn report(&self) {
        let refused: u64 = self.refused.values().sum();

        println!(
            "{} extra wakings: {} on an expired tunnel, {refused} turned down by {{{}}}, the others let through:",
            self.all,
            self.expired,
            list(&self.refused)
        );
        println!(
            "  session current and keepalive set {}, session current {}, keepalive set {}, neither {}; the last nanosecond before the deadline {}",
            self.current_and_keepalive,
            self.current_only,
            self.keepalive_only,
            self.neither,
            self.last_moment
        );
    }
}

impl Count {
    /// Counts a shared call.
    fn count(&mut self, standing: Standing) {
        self.shared += 1;
        self.both_come += u64::from(standing == Standing::BothCome);
        self.violations += u64::from(standing == Standing::Different);
    }
}

/// Removes steps, then messages of batches, then what times have too much, as long as a shared call still violates the conclusion and
/// every condition but the dropped one is kept.
fn cut_down(pair: &Pair, dropped: Option<usize>) -> Pair {
    let with = |steps: &[Step]| Pair {
        created: pair.created.clone(),
        steps: steps.to_vec(),
    };
    let keeps = |pair: &Pair| {
        let judgement = judge(pair);
        judgement.violations() > 0 && judgement.keeps_all_but(dropped)
    };
    let end = judge(pair)
        .first_violation()
        .map_or(pair.steps.len(), |at| at + 1);
    let steps = shrink(&pair.steps[..end], &|steps: &[Step]| keeps(&with(steps)));
    let pair = (0..steps.len()).fold(with(&steps), |pair, at| shrink_batch(pair, at, &keeps));

    round_times(from_zero(pair, &keeps), &keeps)
}

/// Removes messages of the batch at `at`.
fn shrink_batch(pair: Pair, at: usize, keeps: &impl Fn(&Pair) -> bool) -> Pair {
    let Call::Recv {
        index,
        session,
        time,
        messages,
    } = pair.steps[at].call.clone()
    else {
        return pair;
    };
    let with = |messages: &[_]| {
        let mut changed = pair.clone();
        changed.steps[at].call = Call::Recv {
            index,
            session,
            time,
            messages: messages.to_vec(),
        };
        changed
    };

    with(&shrink(&messages, &|messages: &[_]| keeps(&with(messages))))
}

/// Creates the tunnels at 0 and moves all times with it.
fn from_zero(pair: Pair, keeps: &impl Fn(&Pair) -> bool) -> Pair {
    let start = pair.created.time().unwrap_or(0);
    let moved = |call: Call| match call.time() {
        Some(time) => call.at(time.saturating_sub(start)),
        None => call,
    };
    let mut changed = pair.clone();
    changed.created = moved(changed.created);
    for step in &mut changed.steps {
        step.call = moved(step.call.clone());
    }

    if keeps(&changed) { changed } else { pair }
}

/// Puts each time to 0 or to a whole second.
fn round_times(mut pair: Pair, keeps: &impl Fn(&Pair) -> bool) -> Pair {
    for at in 0..pair.steps.len() {
        let Some(time) = pair.steps[at].call.time() else {
            continue;
        };
        let second = time / SECOND * SECOND;
        for rounder in [0, second, second.saturating_add(SECOND)] {
            let mut changed = pair.clone();
            changed.steps[at].call = changed.steps[at].call.clone().at(rounder);
            if keeps(&changed) {
                pair = changed;
                break;
            }
        }
    }

    pair
}

/// Prints a pair beside the answers of the Rust.
fn print_pair(pair: &Pair) {
    println!("    {}", pair.created);
    for (step, came) in pair.steps.iter().zip(&judge(pair).came) {
        match came {
            Came::Extra { woken, .. } => println!("  + {}: {woken}", step.call),
            Came::Shared { plain, woken, .. } if plain == woken => {
                println!("    {}: {plain}", step.call);
                print_heard(came);
            }
            Came::Shared {
                plain,
                woken,
                greatest,
                ..
            } => {
                println!(
                    "    {}: plain {plain}, woken {woken} (greatest time {greatest})",
                    step.call
                );
                print_heard(came);
            }
        }
    }
}

/// Prints the last heard times that differ after a shared call.
fn print_heard(came: &Came) {
    let Came::Shared { heard, .. } = came else {
        return;
    };

    for heard in heard.iter().filter(|heard| heard.plain != heard.woken) {
        let Heard { plain, woken, .. } = heard;
        println!("      {}: plain {plain}, woken {woken}", heard.question());
    }
}
