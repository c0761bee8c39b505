//! Chooses the time of a call and the jitter of a waking.

use oracle::View;

use crate::maker::Maker;

/// A second in nanoseconds.
pub(crate) const SECOND: u64 = 1_000_000_000;
/// The greatest time that a call may give.
pub(crate) const TIME_LIMIT: u64 = 4_000_000_000_000_000_000;
/// The greatest jitter.
pub(crate) const MAX_JITTER: u64 = 333_000_000;

/// The ages of a session at which something changes, in seconds.
const AGES: [u64; 5] = [120, 165, 170, 180, 540];

/// A way to choose a time.
#[derive(Clone, Copy, PartialEq, Eq)]
pub(crate) enum Pace {
    /// The greatest time again.
    Same,
    /// A few nanoseconds later.
    Tiny,
    /// Up to two seconds later.
    Short,
    /// Up to fifteen seconds later.
    Medium,
    /// A deadline, or a nanosecond to either side.
    Edge,
    /// Up to twelve minutes later.
    Long,
    /// Earlier than the greatest time.
    Back,
    /// At the limit of times or above it.
    Limit,
}

impl Maker {
    /// A time in the manner of the profile.
    pub(crate) fn time(&mut self) -> u64 {
        let pace = self.random.weighted(self.profile.paces);

        self.time_at(pace)
    }

    /// A time that is not turned down, in the manner of the profile.
    pub(crate) fn good_time(&mut self) -> u64 {
        let greatest = self.greatest();
        let time = self.time();

        time.clamp(greatest, TIME_LIMIT.max(greatest))
    }

    /// A time chosen in one way.
    pub(crate) fn time_at(&mut self, pace: Pace) -> u64 {
        let greatest = self.greatest();

        match pace {
            Pace::Same => greatest,
            Pace::Tiny => greatest + self.random.between(1, 3),
            Pace::Short => greatest + self.random.below(2 * SECOND),
            Pace::Medium => greatest + self.random.below(15 * SECOND),
            Pace::Edge => self.edge(),
            Pace::Long => greatest + self.random.below(720 * SECOND),
            Pace::Back => {
                let back = self.random.pick(&[1, 2, SECOND, u64::MAX]);
                greatest.saturating_sub(back)
            }
            Pace::Limit => self.random.pick(&[
                TIME_LIMIT - 1,
                TIME_LIMIT + 1,
                TIME_LIMIT + 1,
                TIME_LIMIT + SECOND,
                u64::MAX,
                u64::MAX,
            ]),
        }
    }

    /// One of the times at which something changes, mostly an early one, or a nanosecond beside it.
    pub(crate) fn edge(&mut self) -> u64 {
        let Some(view) = self.view() else {
            return self.random.below(SECOND);
        };
        let edges = edges(&view);
        let mut at = 0;
        while at + 1 < edges.len() && self.random.percent(40) {
            at += 1;
        }
        let edge = edges.get(at).copied().unwrap_or(view.greatest);

        self.beside(edge)
    }

    /// A time, or the nanosecond before or after it.
    pub(crate) fn beside(&mut self, time: u64) -> u64 {
        match self.random.below(6) {
            0 => time.saturating_sub(1),
            1 => time + 1,
            _ => time,
        }
    }

    /// A jitter, now and then out of range.
    pub(crate) fn jitter(&mut self) -> u64 {
        match self.random.below(40) {
            0..12 => 0,
            12..24 => MAX_JITTER,
            24 => 1,
            25 => MAX_JITTER - 1,
            26 => MAX_JITTER + 1,
            27 => u64::MAX,
            _ => self.random.below(MAX_JITTER),
        }
    }

    /// A jitter that is not turned down.
    pub(crate) fn good_jitter(&mut self) -> u64 {
        self.jitter().min(MAX_JITTER)
    }
}

/// The times from now on at which something changes, in order.
fn edges(view: &View) -> Vec<u64> {
    let ages = view
        .sessions
        .iter()
        .flat_map(|session| AGES.iter().map(|age| session.established_at + age * SECOND));
    let mut edges: Vec<u64> = view.deadlines.iter().copied().chain(ages).collect();

    edges.retain(|edge| edge + 1 >= view.greatest);
    edges.sort_unstable();
    edges.dedup();
    edges
}
