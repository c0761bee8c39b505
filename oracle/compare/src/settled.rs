//! How settlings stand to the deadline of the Rust before them.

use oracle::{Call, Driver};

/// A settling that was let through.
pub(crate) struct Settled {
    /// The place of its line.
    pub(crate) at: usize,
    /// How its time stands to the next deadline before it, queued events disregarded.
    pub(crate) place: &'static str,
}

/// Settles the Rust and says how the time stood to the deadline; nothing where that is turned down.
pub(crate) fn settled(driver: &mut Driver, jitter: u64, time: u64, at: usize) -> Option<Settled> {
    let deadline = driver.view()?.deadline;
    driver.call(Call::Settle { jitter, time }).ok()?;

    Some(Settled {
        at,
        place: place_of(deadline, time),
    })
}

/// How a time stands to the next deadline of a tunnel, in words.
pub fn place_of(deadline: Option<u64>, time: u64) -> &'static str {
    match deadline {
        None => "expired",
        Some(deadline) if time == deadline => "at the deadline",
        Some(deadline) if time + 1 == deadline => "a nanosecond before",
        Some(deadline) if time == deadline + 1 => "a nanosecond after",
        Some(deadline) if time < deadline => "earlier",
        Some(_) => "later",
    }
}
