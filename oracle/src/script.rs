//! The lines of a script: reading them from a stream, and reading a call from each.

use std::io::{self, BufRead};

use crate::log::Report;

/// The longest line that can be read, in bytes, without its newline.
pub const MAX_LINE: usize = 65_536;
/// The longest log store that a line can make.
const MAX_STORE: u64 = 70_000;
/// The most counts that a line can lend to the reader of the log.
const MAX_COUNTS: u64 = 4_096;
/// The most records that a line can lend room for.
const MAX_RECORDS: u64 = 2_048;

/// How the opening of a received message came out.
#[derive(Debug, Clone, Copy, PartialEq, Eq)]
pub enum Opening {
    Data,
    Keepalive,
    Failed,
}

/// One call, as a line names it.
#[derive(Debug, Clone, PartialEq, Eq)]
pub enum Call {
    New {
        index: u32,
        keepalive: u64,
        time: u64,
    },
    Init {
        time: u64,
    },
    Restart {
        time: u64,
    },
    Resp {
        receiver: u32,
        peer: u32,
        outcome: u64,
        time: u64,
    },
    Hello {
        peer: u32,
        outcome: u64,
        time: u64,
    },
    Cookie {
        receiver: u32,
        outcome: u64,
        time: u64,
    },
    Send {
        count: u64,
        time: u64,
    },
    Recv {
        index: u32,
        session: u64,
        time: u64,
        messages: Vec<(u64, Opening)>,
    },
    Look {
        index: u32,
        counter: u64,
        time: u64,
    },
    Wake {
        jitter: u64,
        time: u64,
    },
    Settle {
        jitter: u64,
        time: u64,
    },
    Event,
    Next,
    Missing {
        index: u32,
    },
    Heard {
        index: u32,
    },
    Ahead,
    Skips,
    Split {
        peer: u32,
        first: u64,
        length: u64,
        at: u64,
    },
    Datagram {
        bytes: Vec<u8>,
    },
    Header {
        receiver: u32,
        counter: u64,
    },
    Store {
        len: u64,
    },
    Used {
        len: u64,
    },
    Poke {
        at: u64,
        bytes: Vec<u8>,
    },
    Peek {
        at: u64,
        len: u64,
    },
    Append {
        reports: Vec<Report>,
    },
    Walk {
        counts: u64,
        records: u64,
    },
}

/// Reads the call of a line without its newline, or nothing where the line cannot be read.
pub fn read(line: &[u8]) -> Option<Call> {
    if line.len() > MAX_LINE {
        return None;
    }

    let mut words = Words::of(line);
    let call = read_call(&mut words)?;

    words.end()?;
    Some(call)
}

/// Reads the call's name and its arguments in their order.
fn read_call(words: &mut Words<'_>) -> Option<Call> {
    Some(match words.next()? {
        b"new" => Call::New {
            index: words.number_32()?,
            keepalive: words.number_64()?,
            time: words.number_64()?,
        },
        b"init" => Call::Init {
            time: words.number_64()?,
        },
        b"restart" => Call::Restart {
            time: words.number_64()?,
        },
        b"resp" => Call::Resp {
            receiver: words.number_32()?,
            peer: words.number_32()?,
            outcome: words.number_64()?,
            time: words.number_64()?,
        },
        b"hello" => Call::Hello {
            peer: words.number_32()?,
            outcome: words.number_64()?,
            time: words.number_64()?,
        },
        b"cookie" => Call::Cookie {
            receiver: words.number_32()?,
            outcome: words.number_64()?,
            time: words.number_64()?,
        },
        b"send" => Call::Send {
            count: words.number_64()?,
            time: words.number_64()?,
        },
        b"recv" => Call::Recv {
            index: words.number_32()?,
            session: words.number_64()?,
            time: words.number_64()?,
            messages: read_messages(words)?,
        },
        b"look" => Call::Look {
            index: words.number_32()?,
            counter: words.number_64()?,
            time: words.number_64()?,
        },
        b"wake" => Call::Wake {
            jitter: words.number_64()?,
            time: words.number_64()?,
        },
        b"settle" => Call::Settle {
            jitter: words.number_64()?,
            time: words.number_64()?,
        },
        b"event" => Call::Event,
        b"next" => Call::Next,
        b"missing" => Call::Missing {
            index: words.number_32()?,
        },
        b"heard" => Call::Heard {
            index: words.number_32()?,
        },
        b"ahead" => Call::Ahead,
        b"skips" => Call::Skips,
        b"split" => Call::Split {
            peer: words.number_32()?,
            first: words.number_64()?,
            length: words.number_64()?,
            at: words.number_64()?,
        },
        b"datagram" => Call::Datagram {
            bytes: words.hex()?,
        },
        b"header" => Call::Header {
            receiver: words.number_32()?,
            counter: words.number_64()?,
        },
        b"store" => Call::Store {
            len: words.number_up_to(MAX_STORE)?,
        },
        b"used" => Call::Used {
            len: words.number_64()?,
        },
        b"poke" => Call::Poke {
            at: words.number_64()?,
            bytes: words.hex()?,
        },
        b"peek" => Call::Peek {
            at: words.number_64()?,
            len: words.number_64()?,
        },
        b"append" => Call::Append {
            reports: read_reports(words)?,
        },
        b"walk" => Call::Walk {
            counts: words.number_up_to(MAX_COUNTS)?,
            records: words.number_up_to(MAX_RECORDS)?,
        },
        _ => return None,
    })
}

/// Reads the pairs of counter and opening up to the end of the line.
fn read_messages(words: &mut Words<'_>) -> Option<Vec<(u64, Opening)>> {
    let mut messages = Vec::new();

    while let Some(word) = words.next() {
        messages.push((number(word, u64::MAX)?, words.opening()?));
    }

    Some(messages)
}

/// Reads the reports of a callout, five numbers each, up to the end of the line.
fn read_reports(words: &mut Words<'_>) -> Option<Vec<Report>> {
    let mut reports = Vec::new();

    while let Some(word) = words.next() {
        reports.push(Report {
            time: number(word, u64::MAX)?,
            counter: words.number_64()?,
            session: words.number_64()?,
            index: words.number_32()?,
            verdict: words.number_64()?,
        });
    }

    Some(reports)
}

/// The words of a line, separated by spaces, tabs or carriage returns.
struct Words<'a> {
    rest: &'a [u8],
}

impl<'a> Words<'a> {
    /// All words of `line`.
    fn of(line: &'a [u8]) -> Self {
        Self { rest: line }
    }

    /// Takes the next word, if there is one.
    fn next(&mut self) -> Option<&'a [u8]> {
        let start = self.rest.iter().position(|byte| !is_separator(*byte))?;
        let rest = &self.rest[start..];
        let len = rest
            .iter()
            .position(|byte| is_separator(*byte))
            .unwrap_or(rest.len());
        let (word, rest) = rest.split_at(len);

        self.rest = rest;
        Some(word)
    }

    /// Makes sure that no word is left.
    fn end(&mut self) -> Option<()> {
        match self.next() {
            Some(_) => None,
            None => Some(()),
        }
    }

    /// Takes an index, a receiver or a peer.
    fn number_32(&mut self) -> Option<u32> {
        let value = number(self.next()?, u64::from(u32::MAX))?;

        u32::try_from(value).ok()
    }

    /// Takes any other number.
    fn number_64(&mut self) -> Option<u64> {
        number(self.next()?, u64::MAX)
    }

    /// Takes a number up to a bound of its own.
    fn number_up_to(&mut self, bound: u64) -> Option<u64> {
        number(self.next()?, bound)
    }

    /// Takes the letter of an opening.
    fn opening(&mut self) -> Option<Opening> {
        match self.next()? {
            b"d" => Some(Opening::Data),
            b"k" => Some(Opening::Keepalive),
            b"f" => Some(Opening::Failed),
            _ => None,
        }
    }

    /// Takes bytes.
    fn hex(&mut self) -> Option<Vec<u8>> {
        hex(self.next()?)
    }
}

/// Whether a byte separates words.
fn is_separator(byte: u8) -> bool {
    matches!(byte, b' ' | b'\t' | b'\r')
}

/// Reads a decimal number of digits only, up to `bound`; leading zeros are allowed.
fn number(word: &[u8], bound: u64) -> Option<u64> {
    let mut value = 0u64;

    for byte in word {
        let digit = byte.checked_sub(b'0').filter(|digit| *digit <= 9)?;
        value = value.checked_mul(10)?.checked_add(u64::from(digit))?;
    }

    Some(value).filter(|value| *value <= bound)
}

/// Reads bytes of two hexadecimal digits each, in either case; `-` stands for no bytes.
fn hex(word: &[u8]) -> Option<Vec<u8>> {
    if word == b"-" {
        return Some(Vec::new());
    }
    if word.len() % 2 != 0 {
        return None;
    }
    let bytes = word
        .chunks_exact(2)
        .map(|pair| Some(16 * hex_digit(pair[0])? + hex_digit(pair[1])?));

    bytes.collect()
}

/// The value of a hexadecimal digit.
fn hex_digit(digit: u8) -> Option<u8> {
    match digit {
        b'0'..=b'9' => Some(digit - b'0'),
        b'a'..=b'f' => Some(digit - b'a' + 10),
        b'A'..=b'F' => Some(digit - b'A' + 10),
        _ => None,
    }
}

/// The lines of a stream, read one at a time with a bounded amount of memory.
pub struct Lines<R> {
    input: R,
    line: Vec<u8>,
}

impl<R: BufRead> Lines<R> {
    /// All lines of `input`.
    pub fn of(input: R) -> Self {
        Self {
            input,
            line: Vec::with_capacity(MAX_LINE + 1),
        }
    }

    /// Reads the next line, without its newline; of a line over the limit only the beginning,
    /// one byte longer than the limit.
    pub fn next_line(&mut self) -> io::Result<Option<&[u8]>> {
        self.line.clear();
        let mut started = false;

        loop {
            let part = self.input.fill_buf()?;
            if part.is_empty() {
                return Ok(started.then_some(&self.line));
            }
            started = true;

            let newline = part.iter().position(|byte| *byte == b'\n');
            let content = &part[..newline.unwrap_or(part.len())];
            let room = (MAX_LINE + 1) - self.line.len();
            self.line
                .extend_from_slice(&content[..content.len().min(room)]);

            let used = newline.map_or(part.len(), |at| at + 1);
            self.input.consume(used);
            if newline.is_some() {
                return Ok(Some(&self.line));
            }
        }
    }
}
