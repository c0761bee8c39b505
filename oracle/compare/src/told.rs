//! Document 02's note 7 executed: the index told just before a call that allocates one is the index that the Rust then uses. Beside it stands how
//! each settling stood to the deadline.

use oracle::{Answer, Call, Driver};

use crate::settled::{Settled, settled};

/// A call directly after an `ahead` that allocated an index on the Rust.
pub(crate) struct Told {
    /// The place of the call's line.
    pub(crate) at: usize,
    /// The call's name, with a word more where it was turned down.
    pub(crate) call: &'static str,
    /// The index that the Rust then used.
    pub(crate) index: u32,
    /// How far the low byte moved.
    pub(crate) tries: u8,
    /// Whether the line before was answered with these two, and the Rust answered or queued this index.
    pub(crate) holds: bool,
}

/// What came of a script on the Rust.
#[derive(Default)]
pub(crate) struct Replay {
    pub(crate) told: Vec<Told>,
    pub(crate) settled: Vec<Settled>,
}

impl Replay {
    /// Whether every index was told as the Rust then used it.
    pub(crate) fn holds(&self) -> bool {
        self.told.iter().all(|told| told.holds)
    }
}

/// Makes the calls of a script on the Rust, those that only ask left out, and holds the answers of a program to each index that the Rust allocates
/// directly after an `ahead`.
pub(crate) fn replay(lines: &[Vec<u8>], answers: &[Vec<u8>]) -> Replay {
    let mut driver = Driver::new();
    let mut found = Replay::default();
    let mut asked = false;

    for (at, line) in lines.iter().enumerate() {
        let call = oracle::read(line);
        let after_ahead = std::mem::replace(&mut asked, call == Some(Call::Ahead));
        let Some(call) = call.filter(may_change_the_rust) else {
            continue;
        };
        if let Call::Settle { jitter, time } = call {
            let settled = settled(&mut driver, jitter, time, at);
            found.settled.extend(settled);
            continue;
        }
        if !after_ahead || !call.may_allocate() {
            let _ = driver.call(call);
            continue;
        }
        let answer = answers.get(at - 1).map_or(&[][..], Vec::as_slice);
        found.told.extend(allocated(&mut driver, call, at, answer));
    }

    found
}

/// Makes one call on the Rust and, where its last index moves, holds what was told to it.
fn allocated(driver: &mut Driver, call: Call, at: usize, told: &[u8]) -> Option<Told> {
    let before = driver.last_index()?;
    let answer = driver.call(call.clone());
    let index = driver.last_index()?;
    if index == before {
        return None;
    }

    let tries = (index as u8).wrapping_sub(before as u8);
    let (name, used) = match (&call, answer) {
        (Call::Init { .. }, Ok(Answer::Initiation { local })) => ("init", Some(local)),
        (Call::Restart { .. }, Ok(Answer::Initiation { local })) => ("restart", Some(local)),
        (Call::Hello { .. }, Ok(Answer::Response { local, .. })) => ("hello", Some(local)),
        (Call::Hello { .. }, Err(_)) => ("hello turned down", Some(index)),
        (Call::Wake { .. }, Ok(_)) => ("wake", driver.newest_initiation()),
        _ => ("unexpected", None),
    };
    let holds = used == Some(index) && told == format!("ok ahead {index} {tries}").as_bytes();

    Some(Told {
        at,
        call: name,
        index,
        tries,
        holds,
    })
}

/// Whether a call may change the tunnel of the Rust.
fn may_change_the_rust(call: &Call) -> bool {
    matches!(
        call,
        Call::New { .. }
            | Call::Init { .. }
            | Call::Restart { .. }
            | Call::Resp { .. }
            | Call::Hello { .. }
            | Call::Cookie { .. }
            | Call::Send { .. }
            | Call::Recv { .. }
            | Call::Wake { .. }
            | Call::Settle { .. }
            | Call::Event
    )
}

#[cfg(test)]
mod tests {
    use super::*;

    /// A script with an allocation of each kind, and the answers to it.
    const SCRIPT: [(&str, &str); 22] = [
        ("ahead", "no 2"),
        ("init 0", "no 2"),
        ("new 254 0 0", "ok"),
        ("ahead", "ok ahead 255 1"),
        ("init 0", "ok init 255"),
        ("ahead", "ok ahead 0 1"),
        ("init 0", "ok none"),
        ("ahead", "ok ahead 0 1"),
        ("hello 9 3 0", "no 3"),
        ("resp 255 9 0 0", "ok key 9 0"),
        ("restart 0", "ok init 1"),
        ("ahead", "ok ahead 2 1"),
        ("hello 9 0 0", "ok resp 2 9"),
        ("ahead", "ok ahead 3 1"),
        ("wake 0 5000000000", "ok none"),
        ("next", "ok at 5000000000"),
        ("ahead", "ok ahead 3 1"),
        ("wake 0 5000000000", "ok none"),
        ("event", "ok est 0 0"),
        ("hello 9 4 5000000000", "no 4"),
        ("ahead", "ok ahead 5 1"),
        ("restart 5000000000", "ok init 5"),
    ];

    /// What the judge says of the script where the answer at `at` is another one.
    fn judged(at: usize, answer: &str) -> Vec<(usize, &'static str, bool)> {
        let lines: Vec<Vec<u8>> = SCRIPT.map(|(line, _)| line.into()).to_vec();
        let mut answers: Vec<Vec<u8>> = SCRIPT.map(|(_, answer)| answer.into()).to_vec();
        answers[at] = answer.into();

        replay(&lines, &answers)
            .told
            .iter()
            .map(|told| (told.at, told.call, told.holds))
            .collect()
    }

    #[test]
    fn each_allocation_after_an_ahead_is_held_to_what_was_told() {
        let good = [
            (4, "init", true),
            (8, "hello turned down", true),
            (12, "hello", true),
            (17, "wake", true),
            (21, "restart", true),
        ];

        assert_eq!(judged(0, "no 2"), good);
        for (at, wrong) in [
            (3, "ok ahead 255 2"),
            (7, "ok ahead 256 1"),
            (11, "ok ahead 1 1"),
            (16, "ok ahead 3 0"),
            (20, "no 2"),
        ] {
            let mut expected = good;
            for one in &mut expected {
                one.2 = one.0 != at + 1;
            }
            assert_eq!(judged(at, wrong), expected, "{at}");
        }
    }
}
