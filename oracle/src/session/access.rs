//! What the driver makes and reads of sessions, ranges and batches.

use super::*;

/// What can be seen of one filled slot.
pub(crate) struct SessionView {
    pub(crate) index: u32,
    pub(crate) peer: u32,
    pub(crate) id: u64,
    pub(crate) established_at: Instant,
    pub(crate) initiator: bool,
    pub(crate) next_sent: u64,
    pub(crate) next_received: u64,
}

impl Session {
    /// What can be seen of this session.
    fn view(&self) -> SessionView {
        SessionView {
            index: number_of(self.receiving_index),
            peer: number_of(self.sending_index),
            id: self.id.0,
            established_at: self.established_at,
            initiator: self.role == Role::Initiator,
            next_sent: self.sending_key_counter,
            next_received: self.receiving_key_counter.next(),
        }
    }
}

impl Sessions {
    /// The set bits of the bitmap of the session with exactly `index`.
    pub(crate) fn ones(&self, index: Index) -> Option<u32> {
        Some(self.get(index)?.receiving_key_counter.ones())
    }

    /// What can be seen of the session with exactly `index`.
    pub(crate) fn view(&self, index: Index) -> Option<SessionView> {
        Some(self.get(index)?.view())
    }

    /// What can be seen of each filled slot.
    pub(crate) fn views(&self) -> Vec<SessionView> {
        self.slots.iter().flatten().map(Session::view).collect()
    }

    /// The index of the current session, if its slot is still filled with it.
    pub(crate) fn current_index(&self) -> Option<u32> {
        Some(number_of(self.current()?.receiving_index))
    }

    /// The most recently allocated local index.
    pub(crate) fn last_index(&self) -> u32 {
        number_of(self.last_index)
    }

    /// The local index that the Rust's own allocation gives, and the numbers it takes; the last index is set back afterwards.
    pub(crate) fn ahead(&mut self) -> (u32, u8) {
        let last = self.last_index;
        let index = self.next_index();
        self.last_index = last;
        let [low, last_low] = [index, last].map(|index| number_of(index) as u8);

        (number_of(index), low.wrapping_sub(last_low))
    }

    /// Empties the slot of `index`, whether or not the session in it is selected.
    #[cfg(test)]
    pub(crate) fn empty(&mut self, index: Index) {
        *self.slot_mut(index) = None;
    }

    /// Gives the session in the slot of `index` another index.
    #[cfg(test)]
    pub(crate) fn rename(&mut self, index: Index, other: Index) {
        let session = self.slot_mut(index).as_mut();

        session.expect("a session").receiving_index = other;
    }
}

impl PendingEncapsulate {
    /// A range that was not granted by a session.
    pub(crate) fn of(peer: u32, first_counter: u64, len: NonZeroUsize) -> Self {
        Self {
            key: SessionKey::new(&[0; 32]),
            receiver_index: Index::from_peer(peer),
            first_counter,
            len,
        }
    }

    /// The peer's index, the first counter and the length.
    pub(crate) fn range(&self) -> (u32, u64, u64) {
        (
            number_of(self.receiver_index),
            self.first_counter,
            self.len.get() as u64,
        )
    }
}

/// A batch of messages that were opened or failed to open, for the session with this index and id.
pub(crate) fn decrypted_batch(
    index: u32,
    session: u64,
    messages: Vec<(u64, Result<Plaintext<()>, Error>)>,
) -> DecryptedBatch<()> {
    DecryptedBatch {
        receiving_index: Index::from_peer(index),
        session: SessionId(session),
        messages,
    }
}

/// An index as a number.
pub(crate) fn number_of(index: Index) -> u32 {
    u32::from_le_bytes(index.to_le_bytes())
}

/// The header of a data message as the Rust makes it.
#[cfg(test)]
pub(crate) fn header(receiver: u32, counter: u64) -> [u8; DATA_HEADER_SZ] {
    data_header(receiver.to_le_bytes(), counter)
}
