//! Datagrams and headers among the calls of a script.

use oracle::Call;

use crate::datagrams::{COUNTERS, INDICES, LENGTHS, LONGEST, datagram, header_of, line_of};
use crate::maker::Maker;
use crate::noise::{bent, padded, with_zeros, zeros};
use crate::random::Random;

/// Words that are no bytes.
const ODD_WORDS: [&str; 12] = [
    "", "0", "--", "-0", "0-", "- -", "0 0", "00 00", "0x00", "000", "0g", "G0",
];

/// Numbers that are no fields of a header.
const ODD_NUMBERS: [&str; 12] = [
    "",
    "0",
    "0 0 0",
    "0 -",
    "- 0",
    "+1 0",
    "0 -1",
    "4294967296 0",
    "0 18446744073709551616",
    "0x1 0",
    "0 a",
    "99999999999999999999999999 0",
];

/// Bytes that are no digits and stand beside the digits, or look like them.
const NEAR_DIGITS: &[u8] = b"/:@G`gxz-+.,\0\x80\xff";

/// What chooses the datagrams of a script, apart from what chooses its calls, so that these are the same with and without them.
pub(crate) struct Datagrams {
    random: Random,
    /// The number of lines added.
    pub(crate) lines: usize,
}

impl Datagrams {
    /// The choices of a seed.
    pub(crate) fn new(seed: u64) -> Self {
        Self {
            random: Random::new(!seed),
            lines: 0,
        }
    }
}

impl Maker {
    /// Adds a datagram or a header as often as the profile says; in noise, often one that cannot be read.
    pub(crate) fn datagrams_now_and_then(&mut self) {
        if !self.datagrams.random.percent(self.profile.datagrams) {
            return;
        }

        let odd = self.datagrams.random.percent(self.profile.odd_datagrams);
        let lines = match self.datagrams.random.below(10) {
            0..3 if odd => vec![self.odd_header()],
            _ if odd => vec![self.odd_datagram()],
            0..3 => self.header_read_back(),
            _ => vec![self.any_datagram()],
        };
        for line in lines {
            self.datagrams.lines += 1;
            self.ask_driver(line);
        }
    }

    /// The line of a header, mostly with the datagram that it begins.
    fn header_read_back(&mut self) -> Vec<Vec<u8>> {
        let header = Call::Header {
            receiver: self.index_field(),
            counter: self.counter_field(),
        };
        let line = header.to_string().into_bytes();
        let random = &mut self.datagrams.random;
        if random.percent(30) {
            return vec![line];
        }
        let mut bytes = header_of(header);
        let behind = random.pick(&[0, 15, 16, 16, 17, 32, 48]);
        bytes.extend((0..behind).map(|_| random.next() as u8));

        vec![line, self.in_any_case(&bytes)]
    }

    /// A datagram of a type, one that is nearly so, or any bytes.
    fn any_datagram(&mut self) -> Vec<u8> {
        let mut bytes = self.good_datagram();
        let random = &mut self.datagrams.random;

        match random.below(20) {
            0..3 => drop(bytes.pop()),
            3..5 => bytes.push(random.next() as u8),
            5..8 => bytes[random.between(1, 3) as usize] ^= 1 << random.below(8),
            8 => bytes[0] = random.pick(&[0, 5, 6, 128, 129, 132, 255]),
            9 => bytes[0] = random.between(1, 4) as u8,
            10 => bytes.truncate(random.below(9) as usize),
            11 => bytes.truncate(random.below(40) as usize),
            12 => {
                bytes = (0..random.below(200))
                    .map(|_| random.next() as u8)
                    .collect()
            }
            _ => {}
        }

        self.in_any_case(&bytes)
    }

    /// A datagram of a type with fields worth trying.
    fn good_datagram(&mut self) -> Vec<u8> {
        let fields = [self.index_field(), self.index_field()];
        let counter = self.counter_field();
        let random = &mut self.datagrams.random;
        let (kind, least) = random.pick(&LENGTHS);
        let more = match random.below(30) {
            _ if kind != 4 => 0,
            0 => random.pick(&[1_468, 8_968, LONGEST - least]),
            1..10 => 0,
            10..15 => 1,
            _ => random.below(100) as usize,
        };

        let mut bytes = datagram(kind, least + more, |_| random.next() as u8);
        bytes[4..8].copy_from_slice(&fields[0].to_le_bytes());
        if kind == 4 {
            bytes[8..16].copy_from_slice(&counter.to_le_bytes());
        } else {
            bytes[8..12].copy_from_slice(&fields[1].to_le_bytes());
        }

        bytes
    }

    /// A sender or receiver: one of the tunnel's, an edge, a byte at a place, or any.
    fn index_field(&mut self) -> u32 {
        let view = self.view();
        let random = &mut self.datagrams.random;
        let sessions = view.map_or_else(Vec::new, |view| view.sessions);

        match random.below(8) {
            0..3 if !sessions.is_empty() => {
                let session = &sessions[random.below(sessions.len() as u64) as usize];
                random.pick(&[session.index, session.peer])
            }
            0..5 => random.pick(&INDICES),
            5 => (random.between(1, 255) as u32) << (8 * random.below(4)),
            _ => random.next() as u32,
        }
    }

    /// A counter: one of the tunnel's, an edge, a byte at a place, or any.
    fn counter_field(&mut self) -> u64 {
        let view = self.view();
        let random = &mut self.datagrams.random;
        let sessions = view.map_or_else(Vec::new, |view| view.sessions);

        match random.below(8) {
            0..3 if !sessions.is_empty() => {
                let session = &sessions[random.below(sessions.len() as u64) as usize];
                random.pick(&[session.next_received, session.next_sent])
            }
            0..5 => random.pick(&COUNTERS),
            5 => random.between(1, 255) << (8 * random.below(8)),
            _ => random.next(),
        }
    }

    /// The line of a datagram, its digits in lower, upper or mixed case.
    fn in_any_case(&mut self, bytes: &[u8]) -> Vec<u8> {
        let random = &mut self.datagrams.random;
        let part = random.pick(&[0, 0, 0, 50, 100]);
        let mut line = line_of(bytes);

        for byte in &mut line[b"datagram ".len()..] {
            if random.percent(part) {
                byte.make_ascii_uppercase();
            }
        }

        line
    }

    /// A line of a datagram that mostly cannot be read.
    fn odd_datagram(&mut self) -> Vec<u8> {
        let bytes = self.good_datagram();
        let random = &mut self.datagrams.random;
        let mut line = line_of(&bytes);
        let at = random.between(b"datagram ".len() as u64, line.len() as u64 - 1) as usize;

        match random.below(40) {
            0..8 => format!("datagram {}", random.pick(&ODD_WORDS)).into_bytes(),
            8..16 => {
                line.remove(at);
                line
            }
            16..28 => {
                line[at] = random.pick(NEAR_DIGITS);
                line
            }
            28..34 => bent(random, line),
            34..39 => padded(random, &line),
            _ => line_of(&vec![4; LONGEST + 1]),
        }
    }

    /// A line of a header that mostly cannot be read.
    fn odd_header(&mut self) -> Vec<u8> {
        let (receiver, counter) = (self.index_field(), self.counter_field());
        let random = &mut self.datagrams.random;
        let line = Call::Header { receiver, counter }.to_string().into_bytes();

        match random.below(4) {
            0 => format!("header {}", random.pick(&ODD_NUMBERS)).into_bytes(),
            1 => bent(random, line),
            2 => padded(random, &line),
            _ => with_zeros(&zeros(random), &line),
        }
    }
}
