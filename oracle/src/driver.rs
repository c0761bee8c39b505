//! Answers each call of a script with the original tunnel, and adds document 01's checks 1, 2
//! and 13, the greatest time and document 02's missing report, skips and last heard times; it is settled by single wakings, the next index is told,
//! datagrams are read, headers written and a log kept beside it.

use std::fmt;
use std::num::NonZeroUsize;
use std::sync::Arc;
use std::time::{Duration, Instant};

use rand::SeedableRng;
use rand::rngs::StdRng;
use zeroize::Zeroizing;

use crate::crypto;
use crate::datagram::{self, HEADER_LEN, Received};
use crate::errors::Error;
use crate::index::Index;
use crate::keys::{PublicKey, StaticSecret};
use crate::log::{Log, Report};
use crate::message::{
    CookieReply, Datagram, HandshakeInitiation, HandshakeResponse, InnerHandshakeInitiation,
    ReplayCheck, TransportData,
};
use crate::recount::Recount;
use crate::script::{self, Call, Opening};
use crate::session::access::{SessionView, decrypted_batch};
use crate::session::{PendingEncapsulate, Plaintext};
use crate::tai64n::{Tai64N, TimeStamper};
use crate::timers::{MAX_JITTER, REJECT_AFTER_MESSAGES};
use crate::tunnel::{Event, Tunnel, TunnelConfig};
use crate::written::Hex;

/// The greatest time that a call may give, in nanoseconds.
const TIME_LIMIT: u64 = 4_000_000_000_000_000_000;
/// The greatest interval of the persistent keepalive, in seconds.
const MAX_KEEPALIVE: u64 = 65_535;
/// The greatest number of messages in a batch.
const MAX_BATCH: usize = 1_024;
/// The wakings at one time after which a settling is taken to have no end.
const MOST_WAKINGS: u64 = 16;

/// The number that turns a call down.
pub type Number = u8;

const TIME_ABOVE_LIMIT: Number = 1;
const BAD_ARGUMENT: Number = 2;
const WRONG_KEY: u64 = 3;
const REPLAYED: u64 = 4;
const PREDATES: u64 = 5;
const OPENING_FAILED: u64 = 7;
const NO_SESSION: Number = 12;
const TIME_WENT_BACK: Number = 13;

/// The good answer to a call.
#[derive(Debug, Clone, PartialEq, Eq)]
pub enum Answer {
    Good,
    None,
    Initiation {
        local: u32,
    },
    Response {
        local: u32,
        peer: u32,
    },
    Keepalive {
        peer: u32,
        counter: u64,
    },
    Range((u32, u64, u64)),
    Ranges((u32, u64, u64), (u32, u64, u64)),
    Verdicts(Vec<Number>),
    Established {
        started: u64,
        confirmed: u64,
    },
    Expired,
    At(u64),
    Missing(u64),
    Ahead {
        index: u32,
        tries: u8,
    },
    Woke(u64),
    Skips(Vec<u64>),
    Type1 {
        sender: u32,
    },
    Type2 {
        sender: u32,
        receiver: u32,
    },
    Type3 {
        receiver: u32,
    },
    Type4 {
        receiver: u32,
        counter: u64,
        encrypted: Vec<u8>,
    },
    Bytes(Vec<u8>),
    Used(u64),
    Log(Vec<Vec<Report>>),
}

impl fmt::Display for Answer {
    fn fmt(&self, f: &mut fmt::Formatter<'_>) -> fmt::Result {
        match self {
            Answer::Good => write!(f, "ok"),
            Answer::None => write!(f, "ok none"),
            Answer::Initiation { local } => write!(f, "ok init {local}"),
            Answer::Response { local, peer } => write!(f, "ok resp {local} {peer}"),
            Answer::Keepalive { peer, counter } => write!(f, "ok key {peer} {counter}"),
            Answer::Range((p, c, l)) => write!(f, "ok range {p} {c} {l}"),
            Answer::Ranges((p, c, l), (q, d, m)) => write!(f, "ok range {p} {c} {l} {q} {d} {m}"),
            Answer::Verdicts(verdicts) => {
                write!(f, "ok")?;
                verdicts
                    .iter()
                    .try_for_each(|verdict| write!(f, " {verdict}"))
            }
            Answer::Skips(skips) => {
                write!(f, "ok")?;
                skips.iter().try_for_each(|skipped| write!(f, " {skipped}"))
            }
            Answer::Established { started, confirmed } => write!(f, "ok est {started} {confirmed}"),
            Answer::Expired => write!(f, "ok exp"),
            Answer::At(time) => write!(f, "ok at {time}"),
            Answer::Missing(count) => write!(f, "ok missing {count}"),
            Answer::Ahead { index, tries } => write!(f, "ok ahead {index} {tries}"),
            Answer::Woke(wakings) => write!(f, "ok woke {wakings}"),
            Answer::Type1 { sender } => write!(f, "ok type 1 {sender}"),
            Answer::Type2 { sender, receiver } => write!(f, "ok type 2 {sender} {receiver}"),
            Answer::Type3 { receiver } => write!(f, "ok type 3 {receiver}"),
            Answer::Type4 {
                receiver,
                counter,
                encrypted,
            } => write!(f, "ok type 4 {receiver} {counter} {}", Hex(encrypted)),
            Answer::Bytes(bytes) => write!(f, "ok bytes {}", Hex(bytes)),
            Answer::Used(len) => write!(f, "ok used {len}"),
            Answer::Log(callouts) => {
                write!(f, "ok log {}", callouts.len())?;
                callouts.iter().try_for_each(|callout| {
                    write!(f, " {}", callout.len())?;
                    callout.iter().try_for_each(|report| write!(f, " {report}"))
                })
            }
        }
    }
}

/// What a script drives: nothing before the first `new`, then a tunnel and the log, which a further `new` leaves alone.
pub struct Driver {
    base: Instant,
    held: Option<Held>,
    log: Log,
}

/// A tunnel, the greatest time it was given, the counters it was seen to commit and when, and the skips of its last batch that was answered
/// good.
struct Held {
    tunnel: Tunnel,
    base: Instant,
    greatest: u64,
    recount: Recount,
    skips: Option<Vec<u64>>,
}

impl Default for Driver {
    fn default() -> Self {
        Self::new()
    }
}

impl Driver {
    /// Holds no tunnel yet; the only place where a clock is read.
    pub fn new() -> Self {
        Self {
            base: Instant::now(),
            held: None,
            log: Log::at_start(),
        }
    }

    /// Answers one line, given without its newline.
    pub fn answer(&mut self, line: &[u8]) -> Result<Answer, Number> {
        let call = script::read(line).ok_or(BAD_ARGUMENT)?;

        self.call(call)
    }

    /// Answers one call; before the first `new` every other call is turned down.
    pub fn call(&mut self, call: Call) -> Result<Answer, Number> {
        if let Call::New {
            index,
            keepalive,
            time,
        } = call
        {
            return self.create(index, keepalive, time);
        }

        let held = self.held.as_mut().ok_or(BAD_ARGUMENT)?;
        match call {
            Call::Store { .. }
            | Call::Used { .. }
            | Call::Poke { .. }
            | Call::Peek { .. }
            | Call::Append { .. }
            | Call::Walk { .. } => self.log_call(call),
            _ => held.call(call),
        }
    }

    /// Answers a call on the log.
    fn log_call(&mut self, call: Call) -> Result<Answer, Number> {
        match call {
            Call::Store { len } => self.log = Log::of_len(len as usize),
            Call::Used { len } => self.log.set_used(len),
            Call::Poke { at, bytes } => self.log.poke(at, &bytes)?,
            Call::Peek { at, len } => {
                let bytes = self.log.peek(at, len)?;
                return Ok(Answer::Bytes(bytes.to_vec()));
            }
            Call::Append { reports } => return self.log.append(&reports).map(Answer::Used),
            Call::Walk { counts, records } => {
                let callouts = self.log.walk(counts as usize, records as usize)?;
                return Ok(Answer::Log(callouts));
            }
            _ => unreachable!("the tunnel answers every other call"),
        }

        Ok(Answer::Good)
    }

    /// Creates a tunnel; turned down, it leaves the one from index 0, no keepalive and time 0.
    fn create(&mut self, index: u32, keepalive: u64, time: u64) -> Result<Answer, Number> {
        self.held = Some(Held::new(self.base, 0, 0, 0));

        within_limit(time)?;
        if keepalive > MAX_KEEPALIVE {
            return Err(BAD_ARGUMENT);
        }
        self.held = Some(Held::new(self.base, index, keepalive, time));

        Ok(Answer::Good)
    }

    /// What can be seen of the tunnel, for whoever makes scripts.
    pub fn view(&self) -> Option<View> {
        self.held.as_ref().map(Held::view)
    }

    /// The most recently allocated local index, if there is a tunnel.
    pub fn last_index(&self) -> Option<u32> {
        let held = self.held.as_ref()?;

        Some(held.tunnel.sessions().last_index())
    }

    /// The local index of the newest initiation that is queued.
    pub fn newest_initiation(&mut self) -> Option<u32> {
        let held = self.held.as_mut()?;

        held.tunnel
            .newest_initiation(|datagram| number_at(datagram, 4))
    }

    /// What can be seen of the log, for whoever makes scripts.
    pub fn log(&self) -> LogView<'_> {
        LogView {
            store: self.log.store(),
            used: self.log.used(),
        }
    }
}

impl Held {
    /// A new tunnel; a keepalive of 0 means none.
    fn new(base: Instant, index: u32, keepalive: u64, time: u64) -> Self {
        let config =
            TunnelConfig::default().with_persistent_keepalive(Duration::from_secs(keepalive));
        let mut rng = StdRng::from_seed([0; 32]);
        crypto::set_opening_fails(false);
        let tunnel = Tunnel::new(
            StaticSecret::from(Zeroizing::new([0; 32])),
            peer_key(),
            config,
            Index::from_peer(index),
            Arc::new(()),
            Arc::new(()),
            &mut rng,
            base + Duration::from_nanos(time),
            TimeStamper::new(base, Duration::ZERO),
        );

        Self {
            tunnel: tunnel.expect("a creation that passed its checks is good"),
            base,
            greatest: time,
            recount: Recount::default(),
            skips: None,
        }
    }

    /// Answers any call but `new`.
    fn call(&mut self, call: Call) -> Result<Answer, Number> {
        match call {
            Call::New { .. }
            | Call::Store { .. }
            | Call::Used { .. }
            | Call::Poke { .. }
            | Call::Peek { .. }
            | Call::Append { .. }
            | Call::Walk { .. } => unreachable!("the driver answers `new` and the log's calls"),
            Call::Init { time } => self.init(time),
            Call::Restart { time } => self.restart(time),
            Call::Resp {
                receiver,
                peer,
                outcome,
                time,
            } => self.resp(receiver, peer, outcome, time),
            Call::Hello {
                peer,
                outcome,
                time,
            } => self.hello(peer, outcome, time),
            Call::Cookie {
                receiver,
                outcome,
                time,
            } => self.cookie(receiver, outcome, time),
            Call::Send { count, time } => self.send(count, time),
            Call::Recv {
                index,
                session,
                time,
                messages,
            } => self.recv(index, session, time, messages),
            Call::Look {
                index,
                counter,
                time,
            } => self.look(index, counter, time),
            Call::Wake { jitter, time } => self.wake(jitter, time),
            Call::Settle { jitter, time } => self.settle(jitter, time),
            Call::Event => Ok(self.event()),
            Call::Next => Ok(self.next()),
            Call::Missing { index } => self.missing(index),
            Call::Heard { index } => self.heard(index),
            Call::Ahead => Ok(self.ahead()),
            Call::Skips => Ok(self.skips()),
            Call::Split {
                peer,
                first,
                length,
                at,
            } => split(peer, first, length, at),
            Call::Datagram { bytes } => datagram::read(&bytes).map(received_answer),
            Call::Header { receiver, counter } => Ok(header(receiver, counter)),
        }
    }

    /// Starts a handshake; while one is under way or once expired, only the greatest time rises.
    fn init(&mut self, time: u64) -> Result<Answer, Number> {
        within_limit(time)?;
        self.not_back(time)?;

        let initiation = self.tunnel.initiate_handshake(self.instant(time));
        self.greatest = time;

        Ok(initiation.map_or(Answer::None, |datagram| initiation_answer(&datagram)))
    }

    /// Starts a handshake anew; once expired, only the greatest time rises.
    fn restart(&mut self, time: u64) -> Result<Answer, Number> {
        within_limit(time)?;
        self.not_back(time)?;

        let initiation = self.tunnel.restart_handshake(self.instant(time));
        self.greatest = time;

        Ok(initiation.map_or(Answer::None, |datagram| initiation_answer(&datagram)))
    }

    /// Takes a response to an initiation; the outcome is good or 7.
    fn resp(
        &mut self,
        receiver: u32,
        peer: u32,
        outcome: u64,
        time: u64,
    ) -> Result<Answer, Number> {
        within_limit(time)?;
        outcome_among(outcome, &[OPENING_FAILED])?;
        self.not_back(time)?;

        crypto::set_opening_fails(outcome == OPENING_FAILED);
        let response = HandshakeResponse {
            sender_idx: peer,
            receiver_idx: receiver,
            unencrypted_ephemeral: [0; 32],
            encrypted_nothing: [0; 16],
        };
        let keepalive = self
            .tunnel
            .handle_handshake_response(response, self.instant(time));
        crypto::set_opening_fails(false);
        let keepalive = keepalive.map_err(Error::number)?;
        self.greatest = time;

        Ok(keepalive_answer(&keepalive))
    }

    /// Takes an incoming initiation; the outcome is good, 3, 4, 5 or 7.
    fn hello(&mut self, peer: u32, outcome: u64, time: u64) -> Result<Answer, Number> {
        within_limit(time)?;
        outcome_among(outcome, &[WRONG_KEY, REPLAYED, PREDATES, OPENING_FAILED])?;
        self.not_back(time)?;

        crypto::set_opening_fails(outcome == OPENING_FAILED);
        let response = self
            .tunnel
            .handle_handshake_initiation(incoming_initiation(peer, outcome), self.instant(time));
        crypto::set_opening_fails(false);
        let response = response.map_err(Error::number)?;
        self.greatest = time;

        Ok(Answer::Response {
            local: number_at(&response, 4),
            peer: number_at(&response, 8),
        })
    }

    /// Takes a cookie reply; the outcome is good or 7.
    fn cookie(&mut self, receiver: u32, outcome: u64, time: u64) -> Result<Answer, Number> {
        within_limit(time)?;
        outcome_among(outcome, &[OPENING_FAILED])?;
        self.not_back(time)?;

        crypto::set_opening_fails(outcome == OPENING_FAILED);
        let reply = CookieReply {
            receiver_idx: receiver,
            nonce: [0; 24],
            encrypted_cookie: [0; 32],
        };
        let stored = self.tunnel.handle_cookie_reply(reply, self.instant(time));
        crypto::set_opening_fails(false);
        stored.map_err(Error::number)?;
        self.greatest = time;

        Ok(Answer::Good)
    }

    /// Grants a range; a session with too few counters left (12) still raises the greatest time.
    fn send(&mut self, count: u64, time: u64) -> Result<Answer, Number> {
        within_limit(time)?;
        let count = NonZeroUsize::new(count as usize).ok_or(BAD_ARGUMENT)?;
        self.not_back(time)?;

        let now = self.instant(time);
        let batch = self.tunnel.begin_encapsulate(now).map_err(Error::number)?;
        self.greatest = time;
        let range = batch.finish(count).map_err(Error::number)?;

        Ok(Answer::Range(range.range()))
    }

    /// Commits a batch, gives a verdict on each message and keeps what each one skipped, and the time where any was committed.
    fn recv(
        &mut self,
        index: u32,
        session: u64,
        time: u64,
        messages: Vec<(u64, Opening)>,
    ) -> Result<Answer, Number> {
        within_limit(time)?;
        if messages.len() > MAX_BATCH {
            return Err(BAD_ARGUMENT);
        }
        self.not_back(time)?;

        let counters: Vec<u64> = messages.iter().map(|(counter, _)| *counter).collect();
        let messages = messages.into_iter().map(opened).collect();
        let batch = decrypted_batch(index, session, messages);
        let verdicts: Vec<Number> = self
            .tunnel
            .commit_decapsulate(batch, self.instant(time))
            .map_err(Error::number)?
            .map(|message| message.map_or_else(Error::number, |_| 0))
            .collect();
        self.greatest = time;
        let skips = self.recount.note(session, &counters, &verdicts);
        self.skips = Some(skips);
        self.recount.hear(session, &verdicts, time);

        Ok(Answer::Verdicts(verdicts))
    }

    /// Looks at a counter without committing it; nothing changes, not even the greatest time.
    fn look(&self, index: u32, counter: u64, time: u64) -> Result<Answer, Number> {
        within_limit(time)?;
        self.not_back(time)?;

        let message = TransportData {
            receiver_idx: index,
            counter,
        };
        let batch = self
            .tunnel
            .begin_decapsulate(message, self.instant(time))
            .map_err(Error::number)?;
        let _ = batch.finish();

        Ok(Answer::Good)
    }

    /// Wakes the tunnel; once expired, only the greatest time rises.
    fn wake(&mut self, jitter: u64, time: u64) -> Result<Answer, Number> {
        let jitter = self.waking_checked(jitter, time)?;

        self.wake_once(jitter, time);
        self.greatest = time;

        Ok(Answer::None)
    }

    /// Wakes the tunnel at one time while a waking is due and answers how often; where none is due, only the greatest time rises.
    fn settle(&mut self, jitter: u64, time: u64) -> Result<Answer, Number> {
        let jitter = self.waking_checked(jitter, time)?;
        let mut wakings = 0;

        while self.deadline().is_some_and(|at| at <= time) {
            assert!(wakings < MOST_WAKINGS, "no end of wakings at {time}");
            self.wake_once(jitter, time);
            wakings += 1;
        }
        self.greatest = time;

        Ok(Answer::Woke(wakings))
    }

    /// Makes the checks before a waking and gives its jitter as the original takes it.
    fn waking_checked(&self, jitter: u64, time: u64) -> Result<Duration, Number> {
        within_limit(time)?;
        let jitter = Duration::from_nanos(jitter);
        if jitter > MAX_JITTER {
            return Err(BAD_ARGUMENT);
        }
        self.not_back(time)?;

        Ok(jitter)
    }

    /// Wakes the original once.
    fn wake_once(&mut self, jitter: Duration, time: u64) {
        rand::set_jitter(jitter);
        self.tunnel.handle_timeout(self.instant(time));
    }

    /// The next deadline, queued events disregarded; an expired tunnel has none.
    fn deadline(&self) -> Option<u64> {
        self.tunnel.deadline().map(|at| self.time(at))
    }

    /// Takes the oldest event.
    fn event(&mut self) -> Answer {
        match self.tunnel.poll_event() {
            None => Answer::None,
            Some(Event::SendHandshakeInitiation(datagram)) => initiation_answer(&datagram),
            Some(Event::SendKeepalive(datagram)) => keepalive_answer(&datagram),
            Some(Event::Established {
                started_at,
                confirmed_at,
            }) => Answer::Established {
                started: self.time(started_at),
                confirmed: self.time(confirmed_at),
            },
            Some(Event::ConnectionExpired) => Answer::Expired,
        }
    }

    /// The next deadline.
    fn next(&self) -> Answer {
        self.tunnel
            .poll_timeout()
            .map_or(Answer::None, |at| Answer::At(self.time(at)))
    }

    /// The count of window counters that were not committed, of the session with exactly `index`.
    fn missing(&self, index: u32) -> Result<Answer, Number> {
        let session = self.tunnel.sessions().view(Index::from_peer(index));
        let session = session.ok_or(NO_SESSION)?;

        Ok(Answer::Missing(self.recount.missing(session.id)))
    }

    /// When the session with exactly `index` was last heard: the time of the last batch that committed a message to it, before that the time
    /// from which its age counts.
    fn heard(&self, index: u32) -> Result<Answer, Number> {
        let session = self.tunnel.sessions().view(Index::from_peer(index));
        let session = session.ok_or(NO_SESSION)?;
        let last_heard = self.last_heard(&session);

        Ok(Answer::At(last_heard))
    }

    /// When a session was last heard.
    fn last_heard(&self, session: &SessionView) -> u64 {
        let committed = self.recount.last_heard(session.id);

        committed.unwrap_or_else(|| self.time(session.established_at))
    }

    /// The local index that the next allocation would give, and the numbers it would take.
    fn ahead(&mut self) -> Answer {
        let (index, tries) = self.tunnel.sessions_mut().ahead();

        Answer::Ahead { index, tries }
    }

    /// The skips of the last batch that was answered good, if there was one.
    fn skips(&self) -> Answer {
        self.skips.clone().map_or(Answer::None, Answer::Skips)
    }

    /// Turns down a time earlier than the greatest one.
    fn not_back(&self, time: u64) -> Result<(), Number> {
        if time < self.greatest {
            return Err(TIME_WENT_BACK);
        }

        Ok(())
    }

    /// A script's time as the original takes it.
    fn instant(&self, time: u64) -> Instant {
        self.base + Duration::from_nanos(time)
    }

    /// A time of the original as the script writes it.
    fn time(&self, instant: Instant) -> u64 {
        instant.duration_since(self.base).as_nanos() as u64
    }
}

/// Cuts a range at `at`; answers nothing at its whole length or beyond.
fn split(peer: u32, first: u64, length: u64, at: u64) -> Result<Answer, Number> {
    let len = NonZeroUsize::new(length as usize).ok_or(BAD_ARGUMENT)?;
    let at = NonZeroUsize::new(at as usize).ok_or(BAD_ARGUMENT)?;
    if first
        .checked_add(length)
        .is_none_or(|end| end > REJECT_AFTER_MESSAGES)
    {
        return Err(BAD_ARGUMENT);
    }

    let mut front = PendingEncapsulate::of(peer, first, len);
    let back = front.split_off(at);

    Ok(back.map_or(Answer::None, |back| {
        Answer::Ranges(front.range(), back.range())
    }))
}

/// What a datagram says.
fn received_answer(received: Received<'_>) -> Answer {
    match received {
        Received::Initiation { sender } => Answer::Type1 { sender },
        Received::Response { sender, receiver } => Answer::Type2 { sender, receiver },
        Received::CookieReply { receiver } => Answer::Type3 { receiver },
        Received::Data {
            receiver,
            counter,
            encrypted,
        } => Answer::Type4 {
            receiver,
            counter,
            encrypted: encrypted.to_vec(),
        },
    }
}

/// The header of a data message.
fn header(receiver: u32, counter: u64) -> Answer {
    let mut header = [0; HEADER_LEN];
    datagram::write_header(&mut header, receiver, counter);

    Answer::Bytes(header.to_vec())
}

/// Turns down a time above the limit.
fn within_limit(time: u64) -> Result<(), Number> {
    if time > TIME_LIMIT {
        return Err(TIME_ABOVE_LIMIT);
    }

    Ok(())
}

/// Turns down an outcome that is neither good nor among those named for the call.
fn outcome_among(outcome: u64, named: &[u64]) -> Result<(), Number> {
    if outcome != 0 && !named.contains(&outcome) {
        return Err(BAD_ARGUMENT);
    }

    Ok(())
}

/// The key of the tunnel's peer.
fn peer_key() -> PublicKey {
    PublicKey::from([1; 32])
}

/// An incoming initiation that comes out as the script says; for 7 the key agreement fails later.
pub(crate) fn incoming_initiation(peer: u32, outcome: u64) -> HandshakeInitiation {
    let wrong_key = PublicKey::from([2; 32]);

    HandshakeInitiation(Box::new(InnerHandshakeInitiation {
        sender_idx: peer,
        peer_static_public: if outcome == WRONG_KEY {
            wrong_key
        } else {
            peer_key()
        },
        peer_ephemeral_public: PublicKey::from([0; 32]),
        chaining_key: Zeroizing::new([0; 32]),
        hash: [0; 32],
        timestamp: Tai64N::zero(),
        replay_check: match outcome {
            REPLAYED => ReplayCheck::Replayed,
            PREDATES => ReplayCheck::Unchecked,
            _ => ReplayCheck::Fresh,
        },
    }))
}

/// A received message after its opening.
fn opened((counter, opening): (u64, Opening)) -> (u64, Result<Plaintext<()>, Error>) {
    let plaintext = match opening {
        Opening::Data => Ok(Plaintext::Data {
            buffer: (),
            len: 16,
        }),
        Opening::Keepalive => Ok(Plaintext::Keepalive),
        Opening::Failed => Err(Error::InvalidAeadTag),
    };

    (counter, plaintext)
}

/// The local index of an initiation.
fn initiation_answer(datagram: &Datagram) -> Answer {
    Answer::Initiation {
        local: number_at(datagram, 4),
    }
}

/// The peer's index and the counter of a keepalive.
fn keepalive_answer(datagram: &Datagram) -> Answer {
    let counter = datagram[8..16].try_into().expect("eight bytes");

    Answer::Keepalive {
        peer: number_at(datagram, 4),
        counter: u64::from_le_bytes(counter),
    }
}

/// The four-byte number at an offset of a datagram.
fn number_at(datagram: &Datagram, offset: usize) -> u32 {
    u32::from_le_bytes(datagram[offset..offset + 4].try_into().expect("four bytes"))
}

/// What can be seen of a tunnel, for whoever makes scripts.
pub struct View {
    pub greatest: u64,
    pub expired: bool,
    pub has_events: bool,
    pub next: Option<u64>,
    /// The next deadline, queued events disregarded; an expired tunnel has none.
    pub deadline: Option<u64>,
    pub deadlines: Vec<u64>,
    pub sessions: Vec<ViewSession>,
    pub current: Option<u32>,
    pub last_index: u32,
    pub initiations: [Option<u32>; 2],
    pub awaited_cookie: Option<u32>,
}

/// What can be seen of the log: the store's bytes and the used length, which may lie above their number.
#[derive(Clone, Copy)]
pub struct LogView<'a> {
    pub store: &'a [u8],
    pub used: u64,
}

/// What can be seen of a filled slot.
pub struct ViewSession {
    pub index: u32,
    pub peer: u32,
    pub id: u64,
    pub established_at: u64,
    pub initiator: bool,
    pub next_sent: u64,
    pub next_received: u64,
    pub last_heard: u64,
}

impl Held {
    /// What can be seen of this tunnel.
    fn view(&self) -> View {
        let sessions = self.tunnel.sessions();
        let handshake = self.tunnel.handshake();

        View {
            greatest: self.greatest,
            expired: self.tunnel.is_expired(),
            has_events: self.tunnel.has_events(),
            next: self.tunnel.poll_timeout().map(|at| self.time(at)),
            deadline: self.deadline(),
            deadlines: self
                .tunnel
                .deadlines()
                .into_iter()
                .map(|at| self.time(at))
                .collect(),
            sessions: sessions
                .views()
                .into_iter()
                .map(|session| self.session_view(session))
                .collect(),
            current: sessions.current_index(),
            last_index: sessions.last_index(),
            initiations: handshake.initiations(),
            awaited_cookie: handshake.awaited_cookie(),
        }
    }

    /// What can be seen of a filled slot, with its time as the script writes it.
    fn session_view(&self, session: SessionView) -> ViewSession {
        ViewSession {
            index: session.index,
            peer: session.peer,
            id: session.id,
            established_at: self.time(session.established_at),
            last_heard: self.last_heard(&session),
            initiator: session.initiator,
            next_sent: session.next_sent,
            next_received: session.next_received,
        }
    }
}

#[cfg(test)]
mod tests {
    use super::*;

    /// A tunnel from index 256 at time 0.
    fn tunnel() -> Held {
        Held::new(Instant::now(), 256, 0, 0)
    }

    #[test]
    fn the_datagrams_of_the_rust_read_back_to_their_fields() {
        let mut held = tunnel();
        let initiation = held.tunnel.initiate_handshake(held.base).expect("one");
        let response = HandshakeResponse {
            sender_idx: 0x0403_0201,
            receiver_idx: 257,
            unencrypted_ephemeral: [0; 32],
            encrypted_nothing: [0; 16],
        };
        let keepalive = held.tunnel.handle_handshake_response(response, held.base);
        let incoming = incoming_initiation(0x0807_0605, 0);
        let response = held.tunnel.handle_handshake_initiation(incoming, held.base);

        assert_eq!(
            datagram::read(&initiation),
            Ok(Received::Initiation { sender: 257 })
        );
        assert_eq!(
            datagram::read(&keepalive.expect("a keepalive")),
            Ok(Received::Data {
                receiver: 0x0403_0201,
                counter: 0,
                encrypted: &[0; 16],
            })
        );
        assert_eq!(
            datagram::read(&response.expect("a response")),
            Ok(Received::Response {
                sender: 258,
                receiver: 0x0807_0605,
            })
        );
    }

    #[test]
    fn missing_counters_and_set_bits_make_up_the_window() {
        let mut held = tunnel();
        let index = Index::from_peer(257);
        let openings = [Opening::Data, Opening::Keepalive, Opening::Failed];
        held.hello(9, 0, 0).expect("a session");

        for step in 0..6_000u64 {
            let session = held.tunnel.sessions().view(index).expect("the session");
            let ones = held.tunnel.sessions().ones(index).expect("the session");
            let window = session.next_received.min(8_192);
            let missing = window - u64::from(ones);
            assert_eq!(held.missing(257), Ok(Answer::Missing(missing)));

            let back = step.wrapping_mul(0x9e37_79b9_7f4a_7c15) >> (step % 7 + 50);
            let counter = match step % 3 {
                0 => session.next_received + back % 12,
                1 => session.next_received.saturating_sub(back),
                _ => session.next_received.saturating_sub(back % 70),
            };
            let opening = openings[(step % 5 / 2) as usize];
            let verdict = held.recv(257, 0, 0, vec![(counter, opening)]);
            verdict.expect("a verdict");
        }
    }

    /// What a good batch of the session 257 skipped.
    fn skips_of(held: &mut Held, messages: &[(u64, Opening)]) -> Vec<u64> {
        held.recv(257, 0, 0, messages.to_vec()).expect("verdicts");

        held.skips.clone().expect("skips")
    }

    /// Messages ahead of `next`, at it and behind it, some with an opening that fails.
    fn messages_around(next: u64, step: u64) -> Vec<(u64, Opening)> {
        let openings = [Opening::Data, Opening::Keepalive, Opening::Failed];

        (step..=step + step % 6)
            .map(|at| {
                let far = at.wrapping_mul(0x9e37_79b9_7f4a_7c15) >> (at % 9 + 48);
                let counter = match at % 4 {
                    0 => next + far,
                    1 => next.saturating_sub(far),
                    _ => (next + far % 12).saturating_sub(3),
                };
                (counter, openings[(at % 5 / 2) as usize])
            })
            .collect()
    }

    #[test]
    fn a_skip_is_how_far_the_next_counter_of_the_rust_moves_less_one() {
        let [mut single, mut whole] = [tunnel(), tunnel()];
        let next = |held: &Held| {
            let session = held.tunnel.sessions().view(Index::from_peer(257));
            session.expect("the session").next_received
        };
        single.hello(9, 0, 0).expect("a session");
        whole.hello(9, 0, 0).expect("a session");

        for step in 0..4_000 {
            let messages = messages_around(next(&single), step);
            let mut skips = Vec::new();
            for message in &messages {
                let before = next(&single);
                skips.extend(skips_of(&mut single, &[*message]));
                let moved = next(&single) - before;
                assert_eq!(skips.last(), Some(&moved.saturating_sub(1)));
            }
            assert_eq!(skips_of(&mut whole, &messages), skips);
        }
    }

    #[test]
    fn what_is_turned_down_or_not_ahead_skips_nothing() {
        const LAST: u64 = REJECT_AFTER_MESSAGES - 1;
        let mut held = tunnel();
        held.hello(9, 0, 0).expect("a session");
        let messages = [
            (3, Opening::Data),
            (3, Opening::Data),
            (9, Opening::Failed),
            (2, Opening::Keepalive),
            (4, Opening::Keepalive),
            (20_000, Opening::Data),
            (5, Opening::Data),
            (20_001, Opening::Keepalive),
            (20_010, Opening::Failed),
            (20_010, Opening::Data),
            (LAST, Opening::Keepalive),
            (LAST + 1, Opening::Data),
        ];

        assert_eq!(
            held.recv(257, 0, 0, messages.to_vec()),
            Ok(Answer::Verdicts(vec![0, 10, 7, 0, 0, 0, 9, 0, 7, 0, 0, 9]))
        );
        assert_eq!(
            held.skips(),
            Answer::Skips(vec![3, 0, 0, 0, 0, 19_995, 0, 0, 0, 8, LAST - 20_011, 0])
        );
    }

    /// The next counter and the set bits of the Rust's window of the session 257, which stay only where nothing is committed.
    fn window(held: &Held) -> (u64, u32) {
        let index = Index::from_peer(257);
        let session = held.tunnel.sessions().view(index).expect("the session");
        let ones = held.tunnel.sessions().ones(index).expect("the session");

        (session.next_received, ones)
    }

    #[test]
    fn a_session_is_heard_just_where_the_window_of_the_rust_changes() {
        let mut held = tunnel();
        held.hello(9, 0, 3).expect("a session");
        let mut last_heard = 3;
        let mut kept = 0;

        for step in 0..4_000 {
            let before = window(&held);
            let mut messages = messages_around(before.0, step);
            if step % 3 == 0 {
                messages.retain(|(counter, opening)| {
                    *opening == Opening::Failed || counter + 8_192 < before.0
                });
            }
            held.recv(257, 0, step + 4, messages).expect("verdicts");
            if window(&held) == before {
                kept += 1;
            } else {
                last_heard = step + 4;
            }
            assert_eq!(held.heard(257), Ok(Answer::At(last_heard)));
        }
        assert!((1_000..3_000).contains(&kept), "{kept}");
    }

    #[test]
    fn a_session_is_first_heard_when_its_handshake_message_came() {
        let mut held = tunnel();
        held.hello(9, 0, 5).expect("a session");
        held.init(6).expect("an initiation");
        held.resp(258, 8, 0, 7).expect("a session");
        held.recv(257, 0, 8, vec![(0, Opening::Failed)])
            .expect("a verdict");

        assert_eq!(held.heard(257), Ok(Answer::At(5)));
        assert_eq!(held.heard(258), Ok(Answer::At(7)));
        assert_eq!(held.heard(259), Err(NO_SESSION));
    }

    #[test]
    fn what_is_turned_down_and_what_is_no_batch_leaves_the_last_heard_time() {
        let data = || vec![(9, Opening::Data)];
        let mut held = tunnel();
        held.hello(9, 0, 1).expect("a session");
        held.recv(257, 0, 2, vec![(0, Opening::Keepalive)])
            .expect("a verdict");

        let refused = [
            held.recv(257, 0, TIME_LIMIT + 1, data()),
            held.recv(257, 0, 3, vec![(9, Opening::Data); MAX_BATCH + 1]),
            held.recv(257, 0, 1, data()),
            held.recv(257, 1, 3, data()),
            held.recv(265, 0, 3, data()),
        ];
        assert_eq!(refused, [1, 2, 13, 12, 12].map(Err));
        held.recv(257, 0, 3, Vec::new()).expect("no verdict");
        held.send(1, 4).expect("a range");
        held.look(257, 9, 5).expect("a look");
        held.wake(0, 6).expect("a waking");
        held.hello(8, 0, 7).expect("another session");
        held.recv(258, 1, 8, data()).expect("a verdict");

        assert_eq!(held.heard(257), Ok(Answer::At(2)));
    }

    /// A tunnel whose session 257 is the current one and whose last index is `last`.
    fn current_257(last: u32) -> Held {
        let mut held = tunnel();
        held.hello(9, 0, 0).expect("a session");
        held.recv(257, 0, 0, vec![(0, Opening::Data)])
            .expect("a verdict");
        while held.tunnel.sessions().last_index() != last {
            held.hello(9, 3, 0).expect_err("a wrong key");
        }

        held
    }

    #[test]
    fn two_numbers_are_taken_just_where_the_following_slot_is_the_current_one() {
        for last in (256..512).filter(|last| last % 8 != 1 || *last == 257) {
            let mut held = current_257(last);
            let two = last % 8 == 0;
            let index = 256 + (last + 1 + u32::from(two)) % 256;
            let tries = 1 + u8::from(two);

            assert_eq!(held.ahead(), Answer::Ahead { index, tries }, "{last}");
            assert_eq!(held.tunnel.sessions().last_index(), last);
        }
    }

    #[test]
    fn a_selected_session_that_was_emptied_since_takes_one_number() {
        let one = Answer::Ahead {
            index: 265,
            tries: 1,
        };
        let two = Answer::Ahead {
            index: 266,
            tries: 2,
        };
        let current = Index::from_peer(257);
        let [mut empty, mut renamed] = [current_257(264), current_257(264)];
        assert_eq!([empty.ahead(), renamed.ahead()], [two.clone(), two]);

        empty.tunnel.sessions_mut().empty(current);
        renamed
            .tunnel
            .sessions_mut()
            .rename(current, Index::from_peer(249));
        assert_eq!(empty.tunnel.sessions().current_index(), None);
        assert_eq!(renamed.tunnel.sessions().current_index(), None);
        assert_eq!([empty.ahead(), renamed.ahead()], [one.clone(), one]);
        assert_eq!(empty.init(0), Ok(Answer::Initiation { local: 265 }));
        assert_eq!(renamed.restart(0), Ok(Answer::Initiation { local: 265 }));
    }

    #[test]
    fn asking_ahead_leaves_the_queued_events_and_the_last_index() {
        let mut held = tunnel();
        held.init(0).expect("an initiation");
        for time in 1..=20 {
            held.wake(0, time * 5_000_000_000).expect("a waking");
        }
        let newest = held.tunnel.newest_initiation(|d| number_at(d, 4));
        let last = held.tunnel.sessions().last_index();
        held.ahead();
        let indices: Vec<u32> = std::iter::from_fn(|| match held.event() {
            Answer::Initiation { local } => Some(local),
            _ => None,
        })
        .collect();

        assert_eq!(newest, indices.last().copied());
        assert_eq!(newest, Some(last));
        assert!(indices.windows(2).all(|pair| pair[0] + 1 == pair[1]));
        assert!(indices.len() > 2, "{indices:?}");
    }

    #[test]
    fn a_header_is_the_one_that_the_rust_makes() {
        for receiver in [0, 1, 0x0403_0201, 1 << 31, u32::MAX] {
            for counter in [0, 1, 0x0807_0605_0403_0201, 1 << 32, 1 << 63, u64::MAX] {
                let expected = crate::session::access::header(receiver, counter);
                assert_eq!(header(receiver, counter), Answer::Bytes(expected.to_vec()));
            }
        }
    }
}
