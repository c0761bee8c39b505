//! The manners in which scripts are made; the seed chooses one.

use crate::moves::Move;
use crate::plots::Plot;
use crate::times::{Pace, SECOND, TIME_LIMIT};

/// What a script prefers.
#[derive(Clone, Copy)]
pub(crate) struct Profile {
    name: &'static str,
    /// How often a sequence is added rather than a single call, in percent.
    pub(crate) plots: u64,
    /// How often the events are taken after a call, in percent.
    pub(crate) events: u64,
    /// How often a send takes the counter to an edge, in percent.
    pub(crate) big_sends: u64,
    /// How often a far counter may use up the window, in percent.
    pub(crate) far: u64,
    /// How often a line is followed by a datagram or a header, in percent.
    pub(crate) datagrams: u64,
    /// How many of these, and of the lines that ask when a session was last heard or for the next index, mostly cannot be read, in percent.
    pub(crate) odd_datagrams: u64,
    /// How often a line is followed by lines of the log, in percent.
    pub(crate) log: u64,
    /// How many of these mostly cannot be read, in percent.
    pub(crate) odd_log: u64,
    pub(crate) keepalives: &'static [u64],
    pub(crate) starts: &'static [u64],
    pub(crate) paces: &'static [(u64, Pace)],
    pub(crate) moves: &'static [(u64, Move)],
    pub(crate) plot_kinds: &'static [(u64, Plot)],
}

const STARTS: &[u64] = &[0, 1, 5 * SECOND, 1_000_000 * SECOND];
const LATE_STARTS: &[u64] = &[
    TIME_LIMIT - 700 * SECOND,
    TIME_LIMIT - 541 * SECOND,
    TIME_LIMIT - 200 * SECOND,
    TIME_LIMIT - 100 * SECOND,
    TIME_LIMIT - 20 * SECOND,
    TIME_LIMIT - 2 * SECOND,
    TIME_LIMIT - SECOND,
];

const MIXED_PACES: &[(u64, Pace)] = &[
    (25, Pace::Same),
    (10, Pace::Tiny),
    (15, Pace::Short),
    (10, Pace::Medium),
    (30, Pace::Edge),
    (4, Pace::Long),
    (4, Pace::Back),
    (2, Pace::Limit),
];
const STILL_PACES: &[(u64, Pace)] = &[
    (70, Pace::Same),
    (15, Pace::Tiny),
    (10, Pace::Short),
    (3, Pace::Edge),
    (2, Pace::Back),
];
const EDGE_PACES: &[(u64, Pace)] = &[
    (15, Pace::Same),
    (5, Pace::Tiny),
    (10, Pace::Short),
    (60, Pace::Edge),
    (5, Pace::Medium),
    (2, Pace::Long),
    (2, Pace::Back),
    (1, Pace::Limit),
];

const MIXED_MOVES: &[(u64, Move)] = &[
    (1, Move::New),
    (6, Move::Init),
    (4, Move::Restart),
    (8, Move::Resp),
    (8, Move::Hello),
    (5, Move::Cookie),
    (10, Move::Send),
    (14, Move::Recv),
    (5, Move::Look),
    (16, Move::Wake),
    (5, Move::Event),
    (4, Move::Missing),
    (2, Move::Split),
    (3, Move::Wrong),
    (2, Move::Noise),
];
const WINDOW_MOVES: &[(u64, Move)] = &[
    (40, Move::Recv),
    (20, Move::Look),
    (10, Move::Missing),
    (2, Move::Hello),
    (1, Move::Send),
    (3, Move::Wake),
];
const HANDSHAKE_MOVES: &[(u64, Move)] = &[
    (10, Move::Init),
    (10, Move::Restart),
    (20, Move::Resp),
    (20, Move::Hello),
    (8, Move::Cookie),
    (5, Move::Send),
    (8, Move::Recv),
    (10, Move::Wake),
    (2, Move::Missing),
];
const LIFE_MOVES: &[(u64, Move)] = &[
    (3, Move::Init),
    (2, Move::Restart),
    (6, Move::Resp),
    (5, Move::Hello),
    (3, Move::Cookie),
    (14, Move::Send),
    (14, Move::Recv),
    (4, Move::Look),
    (30, Move::Wake),
];
const NOISE_MOVES: &[(u64, Move)] = &[
    (2, Move::New),
    (4, Move::Init),
    (4, Move::Resp),
    (4, Move::Hello),
    (4, Move::Cookie),
    (4, Move::Send),
    (4, Move::Recv),
    (4, Move::Look),
    (4, Move::Wake),
    (3, Move::Missing),
    (15, Move::Split),
    (25, Move::Wrong),
    (50, Move::Noise),
];

const MIXED_PLOTS: &[(u64, Plot)] = &[
    (12, Plot::Initiator),
    (12, Plot::Responder),
    (10, Plot::Deadlines),
    (3, Plot::Unanswered),
    (8, Plot::Answered),
    (6, Plot::Ages),
    (2, Plot::PileUp),
    (6, Plot::Tie),
    (2, Plot::Wrap),
    (4, Plot::Overwrite),
    (1, Plot::Return),
    (3, Plot::Collide),
    (8, Plot::LateResponse),
    (5, Plot::Climb),
    (6, Plot::Sweep),
    (2, Plot::Jumps),
    (4, Plot::Growth),
    (8, Plot::Passive),
    (5, Plot::Persistent),
    (5, Plot::CookieLife),
    (2, Plot::Silence),
    (4, Plot::Missed),
];
const WINDOW_PLOTS: &[(u64, Plot)] = &[
    (3, Plot::Responder),
    (1, Plot::Initiator),
    (50, Plot::Sweep),
    (40, Plot::Jumps),
    (40, Plot::Growth),
];
const LIFE_PLOTS: &[(u64, Plot)] = &[
    (10, Plot::Initiator),
    (10, Plot::Responder),
    (20, Plot::Deadlines),
    (20, Plot::Answered),
    (20, Plot::Ages),
    (6, Plot::Missed),
    (8, Plot::CookieLife),
    (10, Plot::Passive),
];
const HANDSHAKE_PLOTS: &[(u64, Plot)] = &[
    (8, Plot::Initiator),
    (8, Plot::Responder),
    (25, Plot::LateResponse),
    (10, Plot::Wrap),
    (20, Plot::Overwrite),
    (3, Plot::Return),
    (8, Plot::Collide),
    (20, Plot::Tie),
    (10, Plot::CookieLife),
    (5, Plot::Answered),
];
const KEEPALIVE_PLOTS: &[(u64, Plot)] = &[
    (12, Plot::Initiator),
    (12, Plot::Responder),
    (40, Plot::Persistent),
    (25, Plot::Passive),
    (6, Plot::PileUp),
    (10, Plot::Answered),
];
const COUNTER_PLOTS: &[(u64, Plot)] = &[
    (8, Plot::Initiator),
    (8, Plot::Responder),
    (50, Plot::Climb),
    (8, Plot::Growth),
    (8, Plot::Deadlines),
    (8, Plot::Answered),
];
const EXPIRY_PLOTS: &[(u64, Plot)] = &[
    (4, Plot::Initiator),
    (4, Plot::Responder),
    (25, Plot::Unanswered),
    (25, Plot::Silence),
    (30, Plot::Missed),
    (5, Plot::Deadlines),
    (4, Plot::Growth),
];

const KEEPALIVES: &[u64] = &[0, 0, 0, 0, 0, 0, 1, 10, 25, 120, 180, 65_535];
const SHORT_KEEPALIVES: &[u64] = &[
    1, 1, 2, 5, 9, 10, 11, 15, 25, 25, 60, 119, 120, 121, 165, 179, 180, 181, 539, 540, 541, 65_535,
];

/// All manners, by the remainder of the seed.
const PROFILES: [Profile; 10] = [
    Profile {
        name: "mixed",
        plots: 45,
        events: 70,
        big_sends: 8,
        far: 10,
        datagrams: 3,
        odd_datagrams: 3,
        log: 3,
        odd_log: 3,
        keepalives: KEEPALIVES,
        starts: STARTS,
        paces: MIXED_PACES,
        moves: MIXED_MOVES,
        plot_kinds: MIXED_PLOTS,
    },
    Profile {
        name: "edges of the window",
        plots: 60,
        events: 20,
        big_sends: 1,
        far: 15,
        datagrams: 0,
        odd_datagrams: 0,
        log: 0,
        odd_log: 0,
        keepalives: KEEPALIVES,
        starts: STARTS,
        paces: STILL_PACES,
        moves: WINDOW_MOVES,
        plot_kinds: WINDOW_PLOTS,
    },
    Profile {
        name: "long lives",
        plots: 55,
        events: 85,
        big_sends: 2,
        far: 2,
        datagrams: 0,
        odd_datagrams: 0,
        log: 0,
        odd_log: 0,
        keepalives: KEEPALIVES,
        starts: STARTS,
        paces: EDGE_PACES,
        moves: LIFE_MOVES,
        plot_kinds: LIFE_PLOTS,
    },
    Profile {
        name: "handshake storms",
        plots: 40,
        events: 60,
        big_sends: 2,
        far: 2,
        datagrams: 0,
        odd_datagrams: 0,
        log: 0,
        odd_log: 0,
        keepalives: KEEPALIVES,
        starts: STARTS,
        paces: STILL_PACES,
        moves: HANDSHAKE_MOVES,
        plot_kinds: HANDSHAKE_PLOTS,
    },
    Profile {
        name: "keepalive days",
        plots: 65,
        events: 80,
        big_sends: 1,
        far: 1,
        datagrams: 0,
        odd_datagrams: 0,
        log: 0,
        odd_log: 0,
        keepalives: SHORT_KEEPALIVES,
        starts: STARTS,
        paces: EDGE_PACES,
        moves: LIFE_MOVES,
        plot_kinds: KEEPALIVE_PLOTS,
    },
    Profile {
        name: "edges of the counters",
        plots: 55,
        events: 80,
        big_sends: 50,
        far: 50,
        datagrams: 3,
        odd_datagrams: 0,
        log: 0,
        odd_log: 0,
        keepalives: KEEPALIVES,
        starts: STARTS,
        paces: MIXED_PACES,
        moves: MIXED_MOVES,
        plot_kinds: COUNTER_PLOTS,
    },
    Profile {
        name: "noise",
        plots: 20,
        events: 30,
        big_sends: 10,
        far: 10,
        datagrams: 8,
        odd_datagrams: 50,
        log: 6,
        odd_log: 40,
        keepalives: KEEPALIVES,
        starts: STARTS,
        paces: MIXED_PACES,
        moves: NOISE_MOVES,
        plot_kinds: MIXED_PLOTS,
    },
    Profile {
        name: "ends",
        plots: 70,
        events: 60,
        big_sends: 2,
        far: 2,
        datagrams: 2,
        odd_datagrams: 0,
        log: 0,
        odd_log: 0,
        keepalives: KEEPALIVES,
        starts: STARTS,
        paces: EDGE_PACES,
        moves: MIXED_MOVES,
        plot_kinds: EXPIRY_PLOTS,
    },
    Profile {
        name: "the last times",
        plots: 40,
        events: 70,
        big_sends: 5,
        far: 5,
        datagrams: 0,
        odd_datagrams: 0,
        log: 0,
        odd_log: 0,
        keepalives: KEEPALIVES,
        starts: LATE_STARTS,
        paces: MIXED_PACES,
        moves: MIXED_MOVES,
        plot_kinds: MIXED_PLOTS,
    },
    Profile {
        name: "single calls",
        plots: 5,
        events: 50,
        big_sends: 8,
        far: 10,
        datagrams: 5,
        odd_datagrams: 5,
        log: 5,
        odd_log: 5,
        keepalives: KEEPALIVES,
        starts: STARTS,
        paces: MIXED_PACES,
        moves: MIXED_MOVES,
        plot_kinds: MIXED_PLOTS,
    },
];

/// The manner of a seed.
pub(crate) fn of_seed(seed: u64) -> Profile {
    PROFILES[(seed % PROFILES.len() as u64) as usize]
}

/// The name of a seed's manner.
pub fn profile_name(seed: u64) -> &'static str {
    of_seed(seed).name
}
