//! What the driver reads of a tunnel.

use std::time::Instant;

use super::{Event, Tunnel};
use crate::handshake::Handshake;
use crate::message::Datagram;
use crate::session::Sessions;

impl Tunnel {
    /// The tunnel's sessions.
    pub(crate) fn sessions(&self) -> &Sessions {
        &self.sessions
    }

    /// The tunnel's sessions, to be asked by a call that changes them.
    pub(crate) fn sessions_mut(&mut self) -> &mut Sessions {
        &mut self.sessions
    }

    /// The tunnel's handshake.
    pub(crate) fn handshake(&self) -> &Handshake {
        &self.handshake
    }

    /// Whether an event is queued.
    pub(crate) fn has_events(&self) -> bool {
        !self.events.is_empty()
    }

    /// The Rust's own next deadline, queued events disregarded; none once expired.
    pub(crate) fn deadline(&self) -> Option<Instant> {
        if self.is_expired() {
            return None;
        }

        self.next_deadline()
    }

    /// What `read` finds in the newest initiation that is queued; each event is taken and queued again in its order.
    pub(crate) fn newest_initiation<T>(&mut self, read: impl Fn(&Datagram) -> T) -> Option<T> {
        let events: Vec<Event> = std::iter::from_fn(|| self.events.pop_front()).collect();
        let mut newest = None;

        for event in events {
            if let Event::SendHandshakeInitiation(datagram) = &event {
                newest = Some(read(datagram));
            }
            self.events.push_back(event);
        }

        newest
    }

    /// Every time at which some rule of the tunnel changes its answer, due or not.
    pub(crate) fn deadlines(&self) -> Vec<Instant> {
        let timers = &self.timers;

        [
            Some(timers.reject_after_time()),
            Some(timers.rekey_attempt_deadline()),
            timers.scheduled_handshake(),
            timers.rekey_after_time_without_response(),
            timers.keepalive_after_time_without_send(),
            timers.next_persistent_keepalive(),
            self.handshake.cookie_expiration(),
            self.handshake_rekey_timeout().map(|(at, _)| at),
            self.sessions.next_expiry(),
            self.rekey_after_time_on_send(),
            self.reject_after_time_on_receive(),
        ]
        .into_iter()
        .flatten()
        .collect()
    }
}
