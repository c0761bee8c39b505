//! Makes pairs: puts extra wakings among the calls of a script as it grows, so that demand 3's conditions are kept.

use oracle::{Answer, Call, View};

use crate::maker::Maker;
use crate::pair::{Pair, Step};
use crate::times::{SECOND, TIME_LIMIT};

/// The persistent keepalives of pairs, in seconds.
const KEEPALIVES: &[u64] = &[
    0, 0, 0, 0, 0, 0, 0, 0, 1, 1, 2, 5, 10, 15, 25, 25, 60, 120, 180, 540, 65_535,
];

/// The extra wakings of a pair under way.
pub(crate) struct Insertion {
    steps: Vec<Step>,
    /// The condition that is not kept.
    dropped: Option<usize>,
    /// How often extra wakings are put in before a call, in percent.
    rate: u64,
    keepalive: bool,
    /// The latest time of an extra waking so far.
    latest_extra: u64,
}

/// Makes the pair of `seed`, of about `length` steps, with one of the conditions 1, 2 and 3 dropped or none.
pub fn make_pair(seed: u64, length: usize, dropped: Option<usize>) -> Pair {
    let mut maker = Maker::new(seed, length);
    let created = maker.create_pair(dropped);

    while !maker.full() && !maker.rests() {
        maker.go_on_or_settle();
    }
    maker.end();

    Pair {
        created,
        steps: maker.insertion.map_or_else(Vec::new, |pair| pair.steps),
    }
}

impl Maker {
    /// Creates the tunnels with good arguments and begins to put extra wakings in.
    fn create_pair(&mut self, dropped: Option<usize>) -> Call {
        let index = self.new_index();
        let keepalive = self.random.pick(KEEPALIVES);
        let time = match self.random.below(3) {
            0 => 0,
            _ => self.random.pick(self.profile.starts) + self.random.below(SECOND),
        };
        let created = Call::New {
            index,
            keepalive,
            time,
        };

        self.ask_driver(created.to_string());
        self.insertion = Some(Insertion {
            steps: Vec::new(),
            dropped,
            rate: self.random.pick(&[5, 15, 30, 60]),
            keepalive: keepalive > 0,
            latest_extra: 0,
        });

        created
    }

    /// Now and then true of an expired tunnel, with which little more can happen.
    fn rests(&mut self) -> bool {
        let expired = self.view().is_some_and(|view| view.expired);

        expired && self.random.percent(10)
    }

    /// Adds a shared call, perhaps with extra wakings before it; leaves out what is not a call on the tunnel.
    pub(crate) fn ask_both(&mut self, mut insertion: Insertion, line: &[u8]) -> Option<Answer> {
        let mut answer = None;
        let call = oracle::read(line).filter(is_of_tunnel);

        if let Some(mut call) = call {
            if self.random.percent(insertion.rate) {
                for _ in 0..self.random.pick(&[1, 1, 1, 2, 3]) {
                    self.insert(&mut insertion, call.time());
                }
            }
            let latest = insertion.latest_extra;
            if insertion.dropped != Some(3) && call.time().is_some_and(|time| time < latest) {
                call = call.at(latest);
            }
            answer = self.step(&mut insertion, call, false);
        }
        self.insertion = Some(insertion);

        answer
    }

    /// Adds a step and gives the woken tunnel's answer, if it is good.
    fn step(&mut self, insertion: &mut Insertion, call: Call, extra: bool) -> Option<Answer> {
        insertion.steps.push(Step {
            call: call.clone(),
            extra,
        });

        self.ask_driver(call.to_string())
    }

    /// Adds an extra waking where the conditions allow one before a call at `until`.
    fn insert(&mut self, insertion: &mut Insertion, until: Option<u64>) {
        let Some(view) = self.view() else {
            return;
        };
        let idle = insertion.keepalive && !view.expired && view.current.is_none();
        if idle && insertion.dropped != Some(2) {
            return;
        }
        let Some(time) = self.extra_time(insertion, &view, until) else {
            return;
        };
        let jitter = self.jitter();

        insertion.latest_extra = insertion.latest_extra.max(time);
        self.step(insertion, Call::Wake { jitter, time }, true);
    }

    /// The time of an extra waking, if the deadline leaves one.
    fn extra_time(
        &mut self,
        insertion: &Insertion,
        view: &View,
        until: Option<u64>,
    ) -> Option<u64> {
        let greatest = view.greatest;
        let last = match view.next {
            Some(next) if insertion.dropped == Some(1) => self.overdue(next),
            Some(next) => next.checked_sub(1)?,
            None => self.last_of_expired(greatest),
        };
        // Once the deadline has come, any waking below it is turned down.
        if last < greatest && self.random.percent(80) {
            return None;
        }
        let later = last.max(greatest);
        let time = match self.random.below(20) {
            0..6 => last,
            6..10 => greatest,
            10..14 => self.random.between(greatest, later),
            14..16 => until.unwrap_or(greatest),
            16..18 => {
                let back = self.random.pick(&[1, 2, SECOND, u64::MAX]);
                greatest.saturating_sub(back)
            }
            18 => self.random.below(last.max(1)),
            _ => greatest + self.random.below(2 * SECOND),
        };
        // Mostly not after the call that comes next, whose time would have to be raised.
        let bound = match until {
            Some(until) if until >= greatest && self.random.percent(80) => until,
            _ => u64::MAX,
        };
        let limit = if self.random.percent(95) {
            TIME_LIMIT
        } else {
            u64::MAX
        };

        Some(time.min(last).min(bound).min(limit))
    }

    /// A time not below the deadline.
    fn overdue(&mut self, next: u64) -> u64 {
        next + self.random.pick(&[0, 0, 1, SECOND, 200 * SECOND])
    }

    /// A time for an expired tunnel, seldom one that leaves no good time to the calls after it.
    fn last_of_expired(&mut self, greatest: u64) -> u64 {
        match self.random.below(60) {
            0 => TIME_LIMIT,
            1 => self.random.pick(&[TIME_LIMIT + 1, u64::MAX]),
            _ => greatest + self.random.below(20 * SECOND),
        }
    }
}

/// Whether a call is one on a tunnel that is there.
fn is_of_tunnel(call: &Call) -> bool {
    !matches!(
        call,
        Call::New { .. }
            | Call::Ahead
            | Call::Split { .. }
            | Call::Datagram { .. }
            | Call::Header { .. }
            | Call::Store { .. }
            | Call::Used { .. }
            | Call::Poke { .. }
            | Call::Peek { .. }
            | Call::Append { .. }
            | Call::Walk { .. }
    )
}
