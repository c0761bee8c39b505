//! Carries out the case on standard input as `bench` does, and writes the same line.

use std::io::{self, Read};

fn main() -> io::Result<()> {
    let mut input = Vec::new();
    io::stdin().lock().read_to_end(&mut input)?;

    if let Some(line) = oracle::speed(&input) {
        println!("{line}");
    }

    Ok(())
}
