//! The cases of the program `bench`, made of the same calls in the same order on the original tunnel, so that the
//! instructions of both can be counted.

use std::hint::black_box;
use std::mem;
use std::num::NonZeroUsize;
use std::sync::Arc;
use std::time::{Duration, Instant};

use rand::SeedableRng;
use rand::rngs::StdRng;
use zeroize::Zeroizing;

use crate::datagram_speed::datagrams;
use crate::driver::{Number, incoming_initiation};
use crate::errors::Error;
use crate::index::Index;
use crate::keys::{PublicKey, StaticSecret};
use crate::log_speed::logs;
use crate::message::{HandshakeResponse, TransportData};
use crate::session::access::decrypted_batch;
use crate::session::{DecryptedBatch, Plaintext};
use crate::tai64n::TimeStamper;
use crate::tunnel::{CommittedBatch, Tunnel, TunnelConfig};

/// The local index of the first session.
const INDEX: u32 = 257;
/// The peer's index.
const PEER: u32 = 9;
/// The number of counters that are made before the first turn.
const COUNTERS: usize = 65_536;
/// The greatest number of batches that are made before the first turn.
const BATCHES: usize = 8_192;
/// The number of batches before the first missing report, a call that the Rust lacks.
const REPORTED: usize = 9;
/// The number of rounds of a day.
const ROUNDS: usize = 720;
/// The number of bursts in a round.
const BURSTS: usize = 12;
/// The number of messages in a burst.
const BURST: usize = 64;
/// The time from one burst to the next.
const PAUSE: Duration = Duration::from_secs(10);
/// The time from an initiation to its response.
const TRIP: Duration = Duration::from_millis(1);
/// The jitter of a day.
const JITTER: Duration = Duration::from_millis(200);
/// The time from one call to the next.
const TICK: Duration = Duration::from_nanos(1);

/// A committed batch, or why it was turned down.
type Answer = Result<CommittedBatch<()>, Error>;

/// A tunnel, and the last batch's answer.
struct Run {
    base: Instant,
    now: Instant,
    tunnel: Tunnel,
    last: Option<Answer>,
}

/// Carries out the case that the input asks for and answers the line that `bench` writes.
pub fn speed(input: &[u8]) -> Option<String> {
    let &[case, pattern, length, ref turns @ ..] = input else {
        return None;
    };
    if matches!(case, b'g' | b'w') {
        return Some(datagrams(case, turns).to_string());
    }
    let turns = turns.len();
    if matches!(case, b'a' | b'v') {
        return Some(logs(case, pattern, length, turns).to_string());
    }
    let mut run = match case {
        b'h' => Run::started(0),
        b's' => Run::established(0),
        b'k' | b'u' => Run::established(1),
        b'f' => Run::filled(),
        b'r' | b'm' | b'q' => Run::established(25),
        _ => Run::carrying(),
    };

    match case {
        b's' => run.sends(turns),
        b'r' => run.receives(pattern, length_of(length), turns),
        b'q' => run.receives(pattern, length_of(length), REPORTED),
        b'k' => run.wakes(Duration::from_secs(1), turns),
        b'h' => run.wakes(Duration::from_secs(5), turns),
        b'm' => run.rounds(pattern, turns),
        b'l' => run.looks(turns),
        b'i' => run.wakes(TICK, turns),
        b't' => run.settles(TICK, turns),
        b'u' => run.settles(Duration::from_secs(1), turns),
        b'd' | b'f' => run.deadlines(turns),
        _ => run.events(turns),
    }

    Some(run.report())
}

/// The number of messages in a batch.
fn length_of(letter: u8) -> usize {
    match letter {
        b'1' => 1,
        b'2' => 64,
        _ => 1_024,
    }
}

/// The counter at a place of a pattern.
fn counter_at(pattern: u8, place: usize) -> u64 {
    let place = place as u64;

    match pattern {
        b'o' => place ^ 7,
        b'r' => place / 2,
        b'j' => place * 100,
        b'c' => place * 10_000,
        b'm' => place - place % 16 / 15,
        _ => place,
    }
}

/// A batch of data messages with the counters from this place on.
fn batch(index: u32, id: u64, pattern: u8, start: usize, length: usize) -> DecryptedBatch<()> {
    let messages = (start..start + length)
        .map(|place| {
            let data = Plaintext::Data {
                buffer: (),
                len: 16,
            };

            (counter_at(pattern, place), Ok(data))
        })
        .collect();

    decrypted_batch(index, id, messages)
}

/// The local index of the session that a round begins with.
fn index_of(round: usize) -> u32 {
    256 + (round as u32 + 1) % 256
}

impl Run {
    /// A tunnel that has sent its first initiation; a keepalive of 0 means none.
    fn started(keepalive: u64) -> Self {
        let base = Instant::now();
        let config =
            TunnelConfig::default().with_persistent_keepalive(Duration::from_secs(keepalive));
        let tunnel = Tunnel::new(
            StaticSecret::from(Zeroizing::new([0; 32])),
            PublicKey::from([1; 32]),
            config,
            Index::from_peer(256),
            Arc::new(()),
            Arc::new(()),
            &mut StdRng::from_seed([0; 32]),
            base,
            TimeStamper::new(base, Duration::ZERO),
        );
        let mut tunnel = tunnel.expect("the creation is good");
        let _ = tunnel.initiate_handshake(base);
        rand::set_jitter(Duration::ZERO);

        Self {
            base,
            now: base,
            tunnel,
            last: None,
        }
    }

    /// A tunnel with one session and no event queued.
    fn established(keepalive: u64) -> Self {
        let mut run = Self::started(keepalive);
        run.respond(INDEX);
        run.tunnel.poll_event();

        run
    }

    /// A tunnel whose session has received and sent data.
    fn carrying() -> Self {
        let mut run = Self::established(25);
        let message = (
            5,
            Ok(Plaintext::Data {
                buffer: (),
                len: 16,
            }),
        );
        let _ = run
            .tunnel
            .commit_decapsulate(decrypted_batch(INDEX, 0, vec![message]), run.now);
        run.send(1);

        run
    }

    /// A tunnel with eight sessions and sixteen events.
    fn filled() -> Self {
        let mut run = Self::established(1);
        for _ in 0..7 {
            let initiation = incoming_initiation(PEER, 0);
            let _ = run.tunnel.handle_handshake_initiation(initiation, run.now);
        }
        run.wakes(Duration::from_secs(1), 16);

        run
    }

    /// Receives the response for a local index.
    fn respond(&mut self, index: u32) {
        let response = HandshakeResponse {
            sender_idx: PEER,
            receiver_idx: index,
            unencrypted_ephemeral: [0; 32],
            encrypted_nothing: [0; 16],
        };
        let _ = black_box(self.tunnel.handle_handshake_response(response, self.now));
    }

    /// Sends so many messages.
    fn send(&mut self, count: usize) {
        let count = NonZeroUsize::new(count).expect("a message is sent");
        let range = self
            .tunnel
            .begin_encapsulate(self.now)
            .and_then(|batch| batch.finish(count));
        black_box(&range);
    }

    /// Commits a batch and keeps its answer; the answer before is not freed.
    fn receive(&mut self, batch: DecryptedBatch<()>) {
        let answer = self.tunnel.commit_decapsulate(batch, self.now);
        mem::forget(self.last.replace(answer));
    }

    /// Looks at a counter.
    fn look(&self, index: u32, counter: u64) {
        let message = TransportData {
            receiver_idx: index,
            counter,
        };
        let _ = black_box(&self.tunnel.begin_decapsulate(message, self.now));
    }

    /// Sends of one message.
    fn sends(&mut self, turns: usize) {
        for _ in 0..turns {
            self.send(1);
            self.now += TICK;
        }
    }

    /// Batches, all made before the first turn.
    fn receives(&mut self, pattern: u8, length: usize, turns: usize) {
        let count = BATCHES.min(COUNTERS / length);
        let mut batches = (0..count)
            .map(|turn| batch(INDEX, 0, pattern, turn * length, length))
            .collect::<Vec<_>>()
            .into_iter();

        for batch in batches.by_ref().take(turns) {
            self.receive(batch);
            self.now += TICK;
        }

        mem::forget(batches);
    }

    /// Early looks at counters that follow each other.
    fn looks(&mut self, turns: usize) {
        for turn in 0..turns {
            self.look(INDEX, turn as u64);
            self.now += TICK;
        }
    }

    /// Wakings at times that are a step apart.
    fn wakes(&mut self, step: Duration, turns: usize) {
        for _ in 0..turns {
            self.now += step;
            black_box(&mut self.tunnel).handle_timeout(self.now);
        }
    }

    /// Settlings at times that are a step apart: wakings while the deadline has come. Each event is taken, since the deadline has
    /// passed while one is queued.
    fn settles(&mut self, step: Duration, turns: usize) {
        for _ in 0..turns {
            self.now += step;
            while self.is_due() {
                black_box(&mut self.tunnel).handle_timeout(self.now);
                self.drain();
            }
        }
    }

    /// Whether the deadline has come.
    fn is_due(&self) -> bool {
        let deadline = black_box(&self.tunnel).poll_timeout();

        deadline.is_some_and(|at| at <= self.now)
    }

    /// Takes every queued event.
    fn drain(&mut self) {
        while black_box(black_box(&mut self.tunnel).poll_event()).is_some() {}
    }

    /// Deadlines.
    fn deadlines(&mut self, turns: usize) {
        for _ in 0..turns {
            black_box(black_box(&self.tunnel).poll_timeout());
        }
    }

    /// Polls of an empty queue.
    fn events(&mut self, turns: usize) {
        for _ in 0..turns {
            black_box(black_box(&mut self.tunnel).poll_event());
        }
    }

    /// The rounds of a day, whose batches are all made before the first one.
    fn rounds(&mut self, pattern: u8, turns: usize) {
        let mut batches = (0..ROUNDS * BURSTS)
            .map(|burst| {
                let (round, start) = (burst / BURSTS, burst % BURSTS * BURST);

                batch(index_of(round), round as u64, pattern, start, BURST)
            })
            .collect::<Vec<_>>()
            .into_iter();
        rand::set_jitter(JITTER);

        for round in 0..turns {
            for (burst, batch) in batches.by_ref().take(BURSTS).enumerate() {
                self.look(index_of(round), (burst * BURST) as u64);
                self.receive(batch);
                self.send(BURST);
                self.wake();
                self.now += PAUSE;
            }
            self.wake();
            self.now += JITTER;
            self.wake();
            self.now += TRIP;
            self.respond(index_of(round + 1));
        }

        mem::forget(batches);
    }

    /// Wakes the tunnel, takes an event and asks for the deadline.
    fn wake(&mut self) {
        self.tunnel.handle_timeout(self.now);
        black_box(self.tunnel.poll_event());
        black_box(self.tunnel.poll_timeout());
    }

    /// How many of the last 8,192 counters below the next one, or of all where there are fewer, are not committed.
    fn missing(&self) -> Option<u64> {
        let sessions = self.tunnel.sessions();
        let next = sessions.view(Index::from_peer(INDEX))?.next_received;
        let ones = sessions.ones(Index::from_peer(INDEX))?;

        Some(next.min(8_192) - u64::from(ones))
    }

    /// The missing report, the deadline, the counter of a send and the sum of the last verdicts.
    fn report(mut self) -> String {
        let missing = self.missing().unwrap_or(12);
        let deadline = self
            .tunnel
            .poll_timeout()
            .map_or(0, |at| at.duration_since(self.base).as_nanos());
        let range = self
            .tunnel
            .begin_encapsulate(self.now)
            .and_then(|batch| batch.finish(NonZeroUsize::MIN));
        let first = range.map_or_else(|error| error.number().into(), |range| range.range().1);
        let verdicts = self.last.map_or(0, verdict_sum);

        format!("{missing} {deadline} {first} {verdicts}")
    }
}

/// The sum of a batch's verdicts.
fn verdict_sum(answer: Answer) -> u64 {
    let number = |error: Error| -> Number { error.number() };

    answer.map_or(0, |batch| {
        batch
            .map(|message| u64::from(message.map_or_else(number, |_| 0)))
            .sum()
    })
}
