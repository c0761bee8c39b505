//! Datagrams as they come off the air, read and written as document 02's note 1 says; the places of the fields are those of
//! whitepaper section 5.4.

use crate::driver::Number;

/// The type of a handshake initiation (note 1: "1 with 148 bytes").
const INITIATION: u32 = 1;
/// The bytes of a handshake initiation.
const INITIATION_LEN: usize = 148;
/// The type of a handshake response (note 1: "2 with 92").
const RESPONSE: u32 = 2;
/// The bytes of a handshake response.
const RESPONSE_LEN: usize = 92;
/// The type of a cookie reply (note 1: "3 with 64").
const COOKIE_REPLY: u32 = 3;
/// The bytes of a cookie reply.
const COOKIE_REPLY_LEN: usize = 64;
/// The type of a data message (note 1: "4 with 32 or more").
const DATA: u32 = 4;
/// The least bytes of a data message.
const DATA_LEN: usize = 32;
/// The bytes of a data message before its encrypted part (note 1: "the 16-byte type 4 header").
pub const HEADER_LEN: usize = 16;

/// The number of an unknown type (note 1: "15 an unknown type").
const UNKNOWN_TYPE: Number = 15;
/// The number of a length that does not fit (note 1: "16 a wrong length or fewer than four bytes").
const WRONG_LENGTH: Number = 16;

/// What the reader gives (note 1: "type, indices and counter, and for type 4 the encrypted part of the caller's own bytes").
#[derive(Debug, Clone, Copy, PartialEq, Eq)]
pub enum Received<'a> {
    Initiation {
        sender: u32,
    },
    Response {
        sender: u32,
        receiver: u32,
    },
    CookieReply {
        receiver: u32,
    },
    Data {
        receiver: u32,
        counter: u64,
        encrypted: &'a [u8],
    },
}

/// Reads a datagram; its type is looked at before its length (note 1: "15 comes first where four bytes are there").
pub fn read(datagram: &[u8]) -> Result<Received<'_>, Number> {
    if datagram.len() < 4 {
        return Err(WRONG_LENGTH);
    }

    match (number_32(datagram, 0), datagram.len()) {
        (INITIATION, INITIATION_LEN) => Ok(Received::Initiation {
            sender: number_32(datagram, 4),
        }),
        (RESPONSE, RESPONSE_LEN) => Ok(Received::Response {
            sender: number_32(datagram, 4),
            receiver: number_32(datagram, 8),
        }),
        (COOKIE_REPLY, COOKIE_REPLY_LEN) => Ok(Received::CookieReply {
            receiver: number_32(datagram, 4),
        }),
        (DATA, DATA_LEN..) => Ok(Received::Data {
            receiver: number_32(datagram, 4),
            counter: number_64(datagram, 8),
            encrypted: &datagram[HEADER_LEN..],
        }),
        (INITIATION..=DATA, _) => Err(WRONG_LENGTH),
        _ => Err(UNKNOWN_TYPE),
    }
}

/// Writes the header of a data message (note 1: "a writer makes the 16-byte type 4 header").
pub fn write_header(header: &mut [u8; HEADER_LEN], receiver: u32, counter: u64) {
    header[..4].copy_from_slice(&DATA.to_le_bytes());
    header[4..8].copy_from_slice(&receiver.to_le_bytes());
    header[8..].copy_from_slice(&counter.to_le_bytes());
}

/// The number of four little-endian bytes at a place.
fn number_32(datagram: &[u8], at: usize) -> u32 {
    let bytes = datagram[at..at + 4].try_into().expect("four bytes");

    u32::from_le_bytes(bytes)
}

/// The number of eight little-endian bytes at a place.
fn number_64(datagram: &[u8], at: usize) -> u64 {
    let bytes = datagram[at..at + 8].try_into().expect("eight bytes");

    u64::from_le_bytes(bytes)
}
