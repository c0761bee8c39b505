//! The datagram scripts: every length, reserved byte, field and word that document 02's note 1 tells apart.

use std::iter;

use oracle::{Answer, Call, Driver, MAX_LINE};

use crate::maker::Script;

/// Each type with its length, type 4 with its least.
pub(crate) const LENGTHS: [(u32, usize); 4] = [(1, 148), (2, 92), (3, 64), (4, 32)];
/// Edges of a sender and a receiver.
pub(crate) const INDICES: [u32; 4] = [0, 1, 1 << 31, u32::MAX];
/// Edges of a counter.
pub(crate) const COUNTERS: [u64; 7] = [0, 1, 1 << 31, u32::MAX as u64, 1 << 32, 1 << 63, u64::MAX];
/// The most bytes that a `datagram` line can have.
pub(crate) const LONGEST: usize = (MAX_LINE - b"datagram ".len()) / 2;

/// Changes of a reserved byte: each bit, and all.
const DAMAGES: [u8; 9] = [1, 2, 4, 8, 16, 32, 64, 128, 255];

/// Lines that cannot be read, and lines that can though they look odd.
const WORDS: [&[u8]; 60] = [
    b"datagram",
    b"datagram ",
    b"datagram -",
    b"datagram --",
    b"datagram - -",
    b"datagram -0",
    b"datagram 0-",
    b"datagram -00",
    b"datagram 00-",
    b"datagram +0",
    b"datagram 0",
    b"datagram 000",
    b"datagram 0400000",
    b"datagram 04000000 -",
    b"datagram 04000000 0",
    b"datagram 04000000 00",
    b"datagram 0400 0000",
    b"datagram 04\t000000",
    b"datagram 04\r000000",
    b"datagram 0x04000000",
    b"datagram 0X04000000",
    b"datagram 04000000h",
    b"datagram 04,00,00,00",
    b"datagram 04:00:00:00",
    b"datagram \"04000000\"",
    b"datagram 0G",
    b"datagram G0",
    b"datagram 0g",
    b"datagram g0",
    b"datagram  04000000",
    b"\tdatagram\t04000000\t",
    b"datagram 04000000\r",
    b"datagram 04000000\0",
    b"datagram\x0004000000",
    b"datagram\x0b04000000",
    b"datagram04000000",
    b"Datagram 04000000",
    b"DATAGRAM 04000000",
    b"datagrams 04000000",
    b"datagra 04000000",
    b"header",
    b"header 1",
    b"header 1 2 3",
    b"header 4294967295 18446744073709551615",
    b"header 4294967296 0",
    b"header 18446744073709551615 0",
    b"header 0 18446744073709551616",
    b"header 0 99999999999999999999999999",
    b"header 00000000004294967295 018446744073709551615",
    b"header -1 0",
    b"header +1 0",
    b"header 0 -",
    b"header - -",
    b"header a 0",
    b"header 0 0x1",
    b"header 0 1e9",
    b"\theader\t1\t2\r",
    b"Header 1 2",
    b"headers 1 2",
    b"head 1 2",
];

/// All datagram scripts with the names they are reported by; the first begins without a tunnel.
pub fn datagram_scripts() -> Vec<(String, Script)> {
    let mut parts = vec![
        ("types".to_string(), types()),
        ("headers".to_string(), headers()),
        ("bytes of headers".to_string(), header_bytes()),
        ("hexadecimal digits".to_string(), digits()),
        ("words".to_string(), WORDS.map(<[u8]>::to_vec).to_vec()),
        ("long lines".to_string(), long_lines()),
    ];
    for kind in 0..=5 {
        parts.push((format!("lengths of type {kind}"), lengths_of(kind)));
    }
    for (kind, len) in LENGTHS {
        parts.push((
            format!("reserved bytes of type {kind}"),
            reserved(kind, len),
        ));
        parts.push((format!("fields of type {kind}"), fields(kind, len)));
        parts.push((format!("bytes of type {kind}"), single_bytes(kind, len)));
    }

    let first = (
        "before a tunnel".to_string(),
        Script {
            lines: before_new(),
        },
    );
    let rest = parts
        .into_iter()
        .map(|(name, lines)| (name, after_new(lines)));
    iter::once(first)
        .chain(rest)
        .map(|(name, script)| (format!("datagrams: {name}"), script))
        .collect()
}

/// A script of a new tunnel and these lines.
fn after_new(lines: Vec<Vec<u8>>) -> Script {
    let created = iter::once(b"new 1 0 0".to_vec());

    Script {
        lines: created.chain(lines).collect(),
    }
}

/// The line that hands in a datagram.
pub(crate) fn line_of(bytes: &[u8]) -> Vec<u8> {
    let bytes = bytes.to_vec();

    Call::Datagram { bytes }.to_string().into_bytes()
}

/// A datagram of a type and a length, with the bytes that `fill` gives behind the type.
pub(crate) fn datagram(kind: u32, len: usize, fill: impl FnMut(usize) -> u8) -> Vec<u8> {
    let rest = (4..len).map(fill);
    let mut bytes: Vec<u8> = kind.to_le_bytes().into_iter().chain(rest).collect();

    bytes.truncate(len);
    bytes
}

/// A byte that tells its place in a datagram.
fn counted(at: usize) -> u8 {
    (at % 251) as u8 + 1
}

/// Lines before the first tunnel, after creations that cannot be read, and after one that is turned down.
fn before_new() -> Vec<Vec<u8>> {
    let good = LENGTHS.map(|(kind, len)| line_of(&datagram(kind, len, counted)));
    let other: [&[u8]; 4] = [
        b"datagram -",
        b"datagram 05000000",
        b"datagram 0",
        b"header 1 2",
    ];
    let lines = [&good[..], &other.map(<[u8]>::to_vec)].concat();
    let creations: [&[u8]; 4] = [b"new", b"new 1 0", b"new 4294967296 0 0", b"new 1 65536 0"];

    creations
        .into_iter()
        .flat_map(|creation| [&lines[..], &[creation.to_vec()]].concat())
        .chain(lines.clone())
        .collect()
}

/// Every length up to 200 of a type, with three kinds of bytes behind it, and long datagrams.
fn lengths_of(kind: u32) -> Vec<Vec<u8>> {
    let fills: [fn(usize) -> u8; 3] = [counted, |_| 0, |_| 255];
    let short = fills
        .into_iter()
        .flat_map(|fill| (0..=200).map(move |len| datagram(kind, len, fill)));
    let long = [1_500, 9_000, LONGEST, LONGEST + 1].map(|len| datagram(kind, len, counted));

    short.chain(long).map(|bytes| line_of(&bytes)).collect()
}

/// A type with each of its reserved bytes damaged, at its length and at others.
fn reserved(kind: u32, len: usize) -> Vec<Vec<u8>> {
    let mut lines = Vec::new();

    for len in [len, len - 1, len + 1, 200, 4, 3] {
        for at in 1..len.min(4) {
            for damage in DAMAGES {
                let mut bytes = datagram(kind, len, counted);
                bytes[at] = damage;
                lines.push(line_of(&bytes));
            }
        }
    }

    lines
}

/// Every first byte, and every last byte of a type, at the length of each type and at four bytes.
fn types() -> Vec<Vec<u8>> {
    let lengths = LENGTHS.map(|(_, len)| len).into_iter().chain([4]);

    lengths
        .flat_map(|len| (0..=255).map(move |byte| (len, byte)))
        .flat_map(|(len, byte)| [byte, byte << 24].map(|kind| datagram(kind, len, counted)))
        .map(|bytes| line_of(&bytes))
        .collect()
}

/// A type with all its fields at their edges, in all combinations.
fn fields(kind: u32, len: usize) -> Vec<Vec<u8>> {
    let firsts = INDICES.map(u32::to_le_bytes);
    let seconds: Vec<Vec<u8>> = match kind {
        2 => INDICES.map(|index| index.to_le_bytes().to_vec()).to_vec(),
        4 => COUNTERS
            .map(|counter| counter.to_le_bytes().to_vec())
            .to_vec(),
        _ => vec![Vec::new()],
    };
    let mut lines = Vec::new();

    for first in firsts {
        for second in &seconds {
            let mut bytes = datagram(kind, len, counted);
            bytes[4..8].copy_from_slice(&first);
            bytes[8..8 + second.len()].copy_from_slice(second);
            lines.push(line_of(&bytes));
        }
    }

    lines
}

/// A type with the bytes behind it set one by one, the others being 0, and the other way round.
fn single_bytes(kind: u32, len: usize) -> Vec<Vec<u8>> {
    let mut lines = Vec::new();

    for place in 4..20 {
        for (byte, others) in [(1, 0), (128, 0), (255, 0), (0, 255), (127, 255), (254, 255)] {
            let fill = |at| if at == place { byte } else { others };
            lines.push(line_of(&datagram(kind, len, fill)));
        }
    }

    lines
}

/// Headers with all fields at their edges, each read back with too few and enough bytes behind it.
fn headers() -> Vec<Vec<u8>> {
    let combinations = INDICES
        .into_iter()
        .flat_map(|receiver| COUNTERS.map(|counter| (receiver, counter)));

    combinations
        .flat_map(|(receiver, counter)| read_back(receiver, counter, &[0, 1, 15, 16, 17, 48, 100]))
        .collect()
}

/// Headers with the bytes of their fields set one by one, each read back.
fn header_bytes() -> Vec<Vec<u8>> {
    let mut lines = Vec::new();

    for byte in [1, 128, 255] {
        for place in 0..4 {
            let receiver = byte << (8 * place);
            lines.extend(read_back(receiver, 0, &[16]));
            lines.extend(read_back(!receiver, u64::MAX, &[16]));
        }
        for place in 0..8 {
            let counter = u64::from(byte) << (8 * place);
            lines.extend(read_back(0, counter, &[16]));
            lines.extend(read_back(u32::MAX, !counter, &[16]));
        }
    }

    lines
}

/// The line of a header, and the header that it makes with so many bytes behind it.
fn read_back(receiver: u32, counter: u64, behind: &[usize]) -> Vec<Vec<u8>> {
    let header = Call::Header { receiver, counter };
    let line = header.to_string().into_bytes();
    let made = header_of(header);
    let datagrams = behind.iter().map(|len| {
        let encrypted = (0..*len).map(counted);

        line_of(&made.iter().copied().chain(encrypted).collect::<Vec<u8>>())
    });

    iter::once(line).chain(datagrams).collect()
}

/// The bytes that the oracle answers to a header's call.
pub(crate) fn header_of(call: Call) -> Vec<u8> {
    let mut driver = Driver::new();
    let _ = driver.answer(b"new 1 0 0");

    match driver.call(call) {
        Ok(Answer::Bytes(bytes)) => bytes,
        _ => Vec::new(),
    }
}

/// Every byte but a newline in place of a digit, and every value in lower, upper and mixed case.
fn digits() -> Vec<Vec<u8>> {
    const FRONT: usize = b"datagram ".len();
    let (kind, len) = LENGTHS[3];
    let mut lines = Vec::new();

    for every in [0, 1, 3] {
        let mut line = line_of(&datagram(kind, len + 256, |at| (at - 4) as u8));
        for (at, digit) in line[FRONT..].iter_mut().enumerate() {
            if every > 0 && at % every == 0 {
                digit.make_ascii_uppercase();
            }
        }
        lines.push(line);
    }
    for byte in (0..=255).filter(|byte| *byte != b'\n') {
        for place in [0, 1, 31, 32, 62, 63] {
            let mut line = line_of(&datagram(kind, len, counted));
            line[FRONT + place] = byte;
            lines.push(line);
        }
    }

    lines
}

/// Lines as long as can be read and a byte longer, with separators around their words.
fn long_lines() -> Vec<Vec<u8>> {
    let lines = [line_of(&datagram(4, 32, counted)), b"header 1 2".to_vec()];
    let lengths = [MAX_LINE - 1, MAX_LINE, MAX_LINE + 1, 2 * MAX_LINE];

    lines
        .iter()
        .flat_map(|line| lengths.map(|len| [line.clone(), vec![b' '; len - line.len()]].concat()))
        .collect()
}
