//! A pair of scripts: one list of calls, with extra wakings in one of the two; and the judgement of it by demand 3.

use std::collections::BTreeSet;

use oracle::{Answer, Call, Driver, Number, View};

/// A call of a pair; an extra one is given to the woken tunnel only.
#[derive(Clone, Debug, PartialEq, Eq)]
pub struct Step {
    pub call: Call,
    pub extra: bool,
}

/// The creation of two tunnels alike, and what is called on them.
#[derive(Clone, Debug, PartialEq, Eq)]
pub struct Pair {
    pub created: Call,
    pub steps: Vec<Step>,
}

impl Pair {
    /// The lines that the tunnel without extra wakings is given.
    pub(crate) fn plain(&self, judgement: &Judgement) -> Vec<Vec<u8>> {
        self.lines(judgement, |step| !step.extra)
    }

    /// The lines that the woken tunnel is given.
    pub(crate) fn woken(&self, judgement: &Judgement) -> Vec<Vec<u8>> {
        self.lines(judgement, |_| true)
    }

    /// The creation and the chosen steps as lines, each shared call with the questions after it.
    fn lines(&self, judgement: &Judgement, chosen: impl Fn(&Step) -> bool) -> Vec<Vec<u8>> {
        let mut lines = vec![self.created.to_string().into_bytes()];
        let steps = self.steps.iter().zip(&judgement.came);

        for (step, came) in steps.filter(|(step, _)| chosen(step)) {
            lines.push(step.call.to_string().into_bytes());
            if let Came::Shared { heard, .. } = came {
                let questions = heard.iter().map(|heard| heard.question().to_string());
                lines.extend(questions.map(String::into_bytes));
            }
        }

        lines
    }

    /// The interval of the persistent keepalive, or 0.
    fn keepalive(&self) -> u64 {
        match self.created {
            Call::New { keepalive, .. } => keepalive,
            _ => 0,
        }
    }
}

/// What an extra waking met.
#[derive(Clone, Copy, Debug, PartialEq, Eq)]
pub(crate) enum Met {
    /// The tunnel was expired.
    Expired,
    /// It was turned down by this number, the tunnel not expired.
    Refused(Number),
    /// It was let through.
    Woke {
        current: bool,
        keepalive: bool,
        last_moment: bool,
    },
}

/// How the answers to a shared call stand to each other.
#[derive(Clone, Copy, Debug, PartialEq, Eq)]
pub(crate) enum Standing {
    Equal,
    /// Two deadlines that differ, neither above the woken tunnel's greatest time.
    BothCome,
    Different,
}

impl Standing {
    /// The same, or different where a last heard time differs after the call.
    pub(crate) fn unless_heard_differs(self, differs: bool) -> Self {
        if differs {
            return Standing::Different;
        }

        self
    }
}

/// What came of one step.
pub(crate) enum Came {
    Extra {
        woken: String,
        met: Met,
    },
    Shared {
        plain: String,
        woken: String,
        greatest: u64,
        heard: Vec<Heard>,
        standing: Standing,
    },
}

/// What both tunnels answer after a shared call when they are asked when the session with an index was last heard.
pub(crate) struct Heard {
    index: u32,
    pub(crate) plain: String,
    pub(crate) woken: String,
}

impl Heard {
    /// What is asked.
    pub(crate) fn question(&self) -> Call {
        Call::Heard { index: self.index }
    }
}

/// What came of each step of a pair on the Rust, and how often each of the three conditions was not kept.
pub struct Judgement {
    pub(crate) came: Vec<Came>,
    pub broken: [u64; 3],
}

impl Judgement {
    /// The number of shared calls whose answers differ, or after which a last heard time does.
    pub fn violations(&self) -> u64 {
        self.came.iter().filter(|came| is_violation(came)).count() as u64
    }

    /// The step of the first of these calls.
    pub(crate) fn first_violation(&self) -> Option<usize> {
        self.came.iter().position(is_violation)
    }

    /// Whether every condition but `dropped` was kept.
    pub fn keeps_all_but(&self, dropped: Option<usize>) -> bool {
        let mut broken = self.broken.iter().enumerate();

        broken.all(|(at, count)| *count == 0 || Some(at + 1) == dropped)
    }
}

/// Whether a step is a shared call whose answers differ, or after which a last heard time does.
fn is_violation(came: &Came) -> bool {
    matches!(
        came,
        Came::Shared {
            standing: Standing::Different,
            ..
        }
    )
}

/// Gives the pair to two tunnels of the Rust, compares the answers and, after each shared call, the last heard times, and tests the conditions
/// along the woken run.
pub fn judge(pair: &Pair) -> Judgement {
    let [mut plain, mut woken] = [Driver::new(), Driver::new()];
    for driver in [&mut plain, &mut woken] {
        let created = driver.call(pair.created.clone());
        assert_eq!(created, Ok(Answer::Good), "{}", pair.created);
    }
    let keepalive = pair.keepalive() > 0;
    let mut latest_extra = 0;
    let mut held = BTreeSet::new();
    let mut judgement = Judgement {
        came: Vec::with_capacity(pair.steps.len()),
        broken: [0; 3],
    };

    for step in &pair.steps {
        let time = step.call.time();
        let came = if step.extra {
            let time = time.expect("a waking has a time");
            let view = view_of(&woken);
            judgement.broken[0] += u64::from(!below_deadline(&view, time));
            judgement.broken[1] += u64::from(!current_or_no_keepalive(&view, keepalive));
            latest_extra = latest_extra.max(time);
            extra(&mut woken, &step.call, &view, time, keepalive)
        } else {
            judgement.broken[2] += u64::from(time.is_some_and(|time| time < latest_extra));
            shared([&mut plain, &mut woken], &step.call, &mut held)
        };
        judgement.came.push(came);
    }

    judgement
}

/// Condition 1: the tunnel is expired, or the time lies below its deadline.
fn below_deadline(view: &View, time: u64) -> bool {
    view.expired || view.next.is_some_and(|next| time < next)
}

/// Condition 2: the tunnel is expired, a session is current, or no persistent keepalive is set.
fn current_or_no_keepalive(view: &View, keepalive: bool) -> bool {
    view.expired || view.current.is_some() || !keepalive
}

/// Gives an extra waking to the woken tunnel.
fn extra(woken: &mut Driver, call: &Call, view: &View, time: u64, keepalive: bool) -> Came {
    let answer = woken.call(call.clone());
    let met = match answer {
        _ if view.expired => Met::Expired,
        Err(number) => Met::Refused(number),
        Ok(_) => Met::Woke {
            current: view.current.is_some(),
            keepalive,
            last_moment: view.next.is_some_and(|next| time + 1 == next),
        },
    };

    Came::Extra {
        woken: line_of(answer),
        met,
    }
}

/// Gives a shared call to both tunnels and asks when each session was last heard that either holds, or held after the shared call before.
fn shared(drivers: [&mut Driver; 2], call: &Call, held: &mut BTreeSet<u32>) -> Came {
    let [plain, woken] = drivers;
    let ask = |driver: &mut Driver, call: &Call| line_of(driver.call(call.clone()));
    let answers = [ask(plain, call), ask(woken, call)];
    let views = [view_of(plain), view_of(woken)];
    let greatest = views[1].greatest;
    let sessions = views.iter().flat_map(|view| &view.sessions);
    let holds: BTreeSet<u32> = sessions.map(|session| session.index).collect();

    let asked = held.union(&holds).map(|index| {
        let question = Call::Heard { index: *index };
        Heard {
            index: *index,
            plain: ask(plain, &question),
            woken: ask(woken, &question),
        }
    });
    let heard: Vec<Heard> = asked.collect();
    *held = holds;
    let standing = standing(
        call,
        answers.each_ref().map(|line| line.as_bytes()),
        greatest,
    );
    let equal = heard.iter().all(|heard| heard.plain == heard.woken);
    let [plain, woken] = answers;

    Came::Shared {
        plain,
        woken,
        greatest,
        heard,
        standing: standing.unless_heard_differs(!equal),
    }
}

/// How two answers to a shared call stand to each other, given the woken tunnel's greatest time.
pub(crate) fn standing(call: &Call, [plain, woken]: [&[u8]; 2], greatest: u64) -> Standing {
    let has_come = |line: &[u8]| deadline(line).is_some_and(|at| at <= greatest);

    if plain == woken {
        Standing::Equal
    } else if *call == Call::Next && has_come(plain) && has_come(woken) {
        Standing::BothCome
    } else {
        Standing::Different
    }
}

/// The deadline that a line tells.
fn deadline(line: &[u8]) -> Option<u64> {
    let digits = line.strip_prefix(b"ok at ")?;

    std::str::from_utf8(digits).ok()?.parse().ok()
}

/// An answer as a line.
fn line_of(answer: Result<Answer, Number>) -> String {
    match answer {
        Ok(answer) => answer.to_string(),
        Err(number) => format!("no {number}"),
    }
}

/// What can be seen of a tunnel that was created.
fn view_of(driver: &Driver) -> View {
    driver.view().expect("the tunnel was created")
}

#[cfg(test)]
mod tests {
    use super::*;

    /// A tunnel with sessions, to which these lines were given.
    fn driver(lines: &[&str]) -> Driver {
        let mut driver = Driver::new();
        for line in ["new 256 0 0", "hello 9 0 1", "hello 9 0 2"]
            .iter()
            .chain(lines)
        {
            driver.answer(line.as_bytes()).expect("a good line");
        }

        driver
    }

    #[test]
    fn a_last_heard_time_that_differs_is_a_violation() {
        let call = Call::Missing { index: 999 };
        let mut held = BTreeSet::from([300]);
        let batches = [["recv 258 1 3 0 d"], ["recv 258 1 4 0 d"]];
        let [mut plain, mut woken] = batches.each_ref().map(|lines| driver(lines));

        let came = shared([&mut plain, &mut woken], &call, &mut held);
        assert!(is_violation(&came));
        let Came::Shared { heard, .. } = came else {
            panic!("a shared call");
        };
        let asked = heard
            .iter()
            .map(|heard| (heard.index, heard.plain.as_str(), heard.woken.as_str()));
        assert!(asked.eq([
            (257, "ok at 1", "ok at 1"),
            (258, "ok at 3", "ok at 4"),
            (300, "no 12", "no 12"),
        ]));
        assert_eq!(held, BTreeSet::from([257, 258]));
    }

    #[test]
    fn an_index_that_one_tunnel_holds_is_a_violation() {
        let [mut plain, mut woken] = [driver(&[]), driver(&["hello 9 0 2"])];
        let call = Call::Missing { index: 999 };

        let came = shared([&mut plain, &mut woken], &call, &mut BTreeSet::new());
        assert!(is_violation(&came));
    }
}
