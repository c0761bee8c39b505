//! Lines that cannot be read, and lines that can though they look odd.

use crate::maker::Maker;
use crate::random::Random;

/// Lines that stand for themselves.
const ODD: [&str; 50] = [
    "",
    " ",
    "\t",
    "\r",
    "new",
    "new 1 0",
    "new 1 0 0 0",
    "New 1 0 0",
    "new 4294967296 0 0",
    "new 1 18446744073709551616 0",
    "new 1 0 18446744073709551616",
    "new -1 0 0",
    "new +1 0 0",
    "init",
    "init 0 0",
    "init x",
    "init 1e9",
    "init 0x10",
    "init 99999999999999999999999999",
    "restart",
    "restart 1,000",
    "resp 1 2 0",
    "resp 4294967296 2 0 0",
    "resp 1 4294967296 0 0",
    "hello 1 0",
    "hello 4294967296 0 0",
    "cookie 4294967296 0 0",
    "send 1",
    "send 18446744073709551616 0",
    "recv 1 0",
    "recv 1 0 0 1",
    "recv 1 0 0 1 x",
    "recv 1 0 0 1 dd",
    "recv 1 0 0 d 1",
    "look 1 0",
    "wake 0",
    "settle",
    "settle 0",
    "settle 0 0 0",
    "settle 0 18446744073709551616",
    "settle 18446744073709551616 0",
    "Settle 0 0",
    "settled 0 0",
    "event 0",
    "next 0",
    "missing 4294967296",
    "skips 0",
    "skips -",
    "skip",
    "split 1 0 2",
];

/// Bytes that are put into a line.
const BYTES: [u8; 16] = [
    b' ', b'\t', b'\r', 0, 1, 11, 12, b'-', b'+', b'.', b'0', b'9', b'a', 127, 128, 255,
];

impl Maker {
    /// Adds a line that mostly cannot be read.
    pub(crate) fn noise(&mut self) {
        let line = match self.random.below(10) {
            0..4 => self.random.pick(&ODD).as_bytes().to_vec(),
            4..7 => self.bent_line(),
            7 => self.padded_line(),
            8 => self.line_of_zeros(),
            _ => self.any_bytes(),
        };

        self.ask(line);
    }

    /// A call of the grammar.
    fn plain_line(&mut self) -> String {
        let time = self.time();
        let small = self.random.below(4);

        match self.random.below(11) {
            0 => format!("init {time}"),
            1 => format!("send {small} {time}"),
            2 => format!("wake {small} {time}"),
            3 => format!("recv {small} {small} {time} {small} d 1 k"),
            4 => "event".to_string(),
            5 => "next".to_string(),
            6 => format!("missing {small}"),
            7 => format!("look {small} {small} {time}"),
            8 => format!("cookie {small} 0 {time}"),
            9 => "skips".to_string(),
            _ => format!("split {small} 0 9 {small}"),
        }
    }

    /// A call with a byte put in, taken out or replaced.
    fn bent_line(&mut self) -> Vec<u8> {
        let line = self.plain_line().into_bytes();

        bent(&mut self.random, line)
    }

    /// A call with separators around its words.
    fn padded_line(&mut self) -> Vec<u8> {
        let line = self.plain_line();

        padded(&mut self.random, line.as_bytes())
    }

    /// A call whose first number has zeros in front.
    fn line_of_zeros(&mut self) -> Vec<u8> {
        let padding = zeros(&mut self.random);
        let line = self.plain_line();

        with_zeros(&padding, line.as_bytes())
    }

    /// Any bytes but a newline.
    fn any_bytes(&mut self) -> Vec<u8> {
        let len = self.random.below(30);

        (0..len)
            .map(|_| self.random.next() as u8)
            .filter(|byte| *byte != b'\n')
            .collect()
    }
}

/// A line with a byte put in, taken out or replaced.
pub(crate) fn bent(random: &mut Random, mut line: Vec<u8>) -> Vec<u8> {
    let at = random.below(line.len() as u64) as usize;
    let byte = random.pick(&BYTES);

    match random.below(3) {
        0 => line.insert(at, byte),
        1 => drop(line.remove(at)),
        _ => line[at] = byte,
    }

    line
}

/// A line with separators around its words, now and then up to the limit of a line or past it.
pub(crate) fn padded(random: &mut Random, plain: &[u8]) -> Vec<u8> {
    let mut line = Vec::new();

    for word in plain.split(|byte| *byte == b' ') {
        for _ in 0..random.between(1, 3) {
            line.push(random.pick(b" \t\r"));
        }
        line.extend_from_slice(word);
    }
    if random.percent(12) {
        let len = random.pick(&[65_535, 65_536, 65_537, 70_000, 140_000]);
        line.resize(len, b' ');
    }

    line
}

/// Zeros to put in front of a number, now and then nearly as many as a line can have.
pub(crate) fn zeros(random: &mut Random) -> Vec<u8> {
    let zeros = match random.below(20) {
        0 => random.pick(&[60_000, 65_000]),
        _ => random.between(1, 40) as usize,
    };

    vec![b'0'; zeros]
}

/// A line whose second word has zeros in front; one of a single word stays as it is.
pub(crate) fn with_zeros(zeros: &[u8], line: &[u8]) -> Vec<u8> {
    match line.iter().position(|byte| *byte == b' ') {
        Some(at) => [&line[..=at], zeros, &line[at + 1..]].concat(),
        None => line.to_vec(),
    }
}
