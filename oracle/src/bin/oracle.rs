//! Answers a script from standard input, one line out for each line in.

use std::io::{self, BufWriter, Write};

use oracle::{Driver, Lines};

fn main() -> io::Result<()> {
    let mut lines = Lines::of(io::stdin().lock());
    let mut output = BufWriter::with_capacity(1 << 16, io::stdout().lock());
    let mut driver = Driver::new();

    while let Some(line) = lines.next_line()? {
        match driver.answer(line) {
            Ok(answer) => writeln!(output, "{answer}")?,
            Err(number) => writeln!(output, "no {number}")?,
        }
    }

    output.flush()
}
