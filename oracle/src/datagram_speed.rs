//! The cases of the program `bench` that have no tunnel: data messages that lie one after another are read, and headers are
//! written one after another. The length of each datagram comes from the input, as it comes from the air.

use crate::datagram::{self, HEADER_LEN, Received};

/// The bytes that hold all data messages, and into which headers are written.
const BYTES: usize = 65_536;
/// The bytes from one data message to the next.
const DISTANCE: usize = 64;
/// The number of data messages that are read; any length fits behind them.
const MESSAGES: usize = 512;
/// What the receiver is raised by from one header to the next.
const RECEIVER_STEP: u32 = 0x0102_0304;
/// What the counter is raised by from one header to the next.
const COUNTER_STEP: u64 = 0x0102_0304_0506_0708;

/// Carries out a case: the sum of what is read, or of the bytes that are written.
pub(crate) fn datagrams(case: u8, lengths: &[u8]) -> u64 {
    let mut bytes = Box::new([0; BYTES]);

    if case == b'w' {
        writes(&mut bytes, lengths.len());
        return bytes.iter().copied().map(u64::from).sum();
    }
    fill(&mut bytes);
    reads(&bytes, lengths)
}

/// Makes data messages: their headers, and the first byte of each encrypted part.
fn fill(bytes: &mut [u8; BYTES]) {
    let (mut receiver, mut counter) = (0u32, 0u64);

    for message in bytes.chunks_exact_mut(DISTANCE) {
        write_header(&mut message[..HEADER_LEN], receiver, counter);
        message[HEADER_LEN] = (counter % 251) as u8;
        receiver = receiver.wrapping_add(RECEIVER_STEP);
        counter = counter.wrapping_add(COUNTER_STEP);
    }
}

/// Reads of one data message after another, each of the length that its turn's byte says.
fn reads(bytes: &[u8; BYTES], lengths: &[u8]) -> u64 {
    let mut total = 0u64;

    for (turn, len) in lengths.iter().enumerate() {
        let start = turn % MESSAGES * DISTANCE;
        total = total.wrapping_add(read(&bytes[start..start + usize::from(*len)]));
    }

    total
}

/// Writes of one header after another.
fn writes(bytes: &mut [u8; BYTES], turns: usize) {
    let (mut receiver, mut counter) = (0u32, 0u64);

    for turn in 0..turns {
        let start = turn % (BYTES / HEADER_LEN) * HEADER_LEN;
        write_header(&mut bytes[start..start + HEADER_LEN], receiver, counter);
        receiver = receiver.wrapping_add(RECEIVER_STEP);
        counter = counter.wrapping_add(COUNTER_STEP);
    }
}

/// Writes a header into sixteen bytes.
fn write_header(bytes: &mut [u8], receiver: u32, counter: u64) {
    let header = bytes.try_into().expect("sixteen bytes");

    datagram::write_header(header, receiver, counter);
}

/// Reads a datagram: its fields, and the length and first byte of its encrypted part together.
fn read(bytes: &[u8]) -> u64 {
    match datagram::read(bytes) {
        Err(number) => number.into(),
        Ok(Received::Initiation { sender } | Received::Response { sender, .. }) => sender.into(),
        Ok(Received::CookieReply { receiver }) => receiver.into(),
        Ok(Received::Data {
            receiver,
            counter,
            encrypted,
        }) => u64::from(receiver)
            .wrapping_add(counter)
            .wrapping_add(encrypted.len() as u64)
            .wrapping_add(encrypted[0].into()),
    }
}
