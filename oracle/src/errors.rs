//! Stand-in for the errors of the original, each with document 01's number.

use std::fmt;

/// Why the original turns a call or a message down.
#[derive(Debug, Clone, Copy, PartialEq, Eq)]
pub enum Error {
    WrongKey,
    ReplayedHandshakeInitiation,
    InitiationPredatesTunnel,
    WrongIndex,
    InvalidAeadTag,
    UnexpectedPacket,
    InvalidCounter,
    DuplicateCounter,
    ConnectionExpired,
    NoCurrentSession,
    EmptyPlaintext,
    DestinationBufferTooSmall { required: usize, available: usize },
}

impl Error {
    /// Document 01's number for this error.
    pub(crate) fn number(self) -> u8 {
        match self {
            Error::WrongKey => 3,
            Error::ReplayedHandshakeInitiation => 4,
            Error::InitiationPredatesTunnel => 5,
            Error::WrongIndex => 6,
            Error::InvalidAeadTag => 7,
            Error::UnexpectedPacket => 8,
            Error::InvalidCounter => 9,
            Error::DuplicateCounter => 10,
            Error::ConnectionExpired => 11,
            Error::NoCurrentSession => 12,
            Error::EmptyPlaintext | Error::DestinationBufferTooSmall { .. } => {
                unreachable!("no call of the script encrypts or decrypts a message")
            }
        }
    }
}

impl fmt::Display for Error {
    fn fmt(&self, f: &mut fmt::Formatter<'_>) -> fmt::Result {
        fmt::Debug::fmt(self, f)
    }
}
