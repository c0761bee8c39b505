//! What the driver reads of a handshake.

use super::{Handshake, HandshakeState};
use crate::session::access::number_of;

impl Handshake {
    /// The local indices of the present and the previous initiation.
    pub(crate) fn initiations(&self) -> [Option<u32>; 2] {
        [&self.state, &self.previous].map(|state| match state {
            HandshakeState::InitSent(sent) => Some(number_of(sent.local_index)),
            HandshakeState::None | HandshakeState::Expired => None,
        })
    }

    /// The index that a cookie reply must name, if one is awaited.
    pub(crate) fn awaited_cookie(&self) -> Option<u32> {
        self.cookies.last_mac1?;

        Some(number_of(self.cookies.index))
    }
}
