//! Demand 3 executed: gives random pairs of scripts to two tunnels of the Rust and to two of drive and compares the answers:
//! pairs DRIVE [--seeds FROM..TO] [--lines M] [--drop 1|2|3]

use std::env;
use std::process::ExitCode;

use compare::{Pairing, make_pair, profile_name};

/// What to compare.
struct Options {
    drive: String,
    seeds: (u64, u64),
    lines: usize,
    dropped: Option<usize>,
}

fn main() -> ExitCode {
    let Some(options) = options() else {
        eprintln!("usage: pairs DRIVE [--seeds FROM..TO] [--lines M] [--drop 1|2|3]");
        return ExitCode::from(2);
    };

    let (from, to) = options.seeds;
    let mut pairing = Pairing::new(&options.drive, options.dropped);
    pairing.go_through((from..to).map(|seed| {
        let name = format!("seed {seed} ({})", profile_name(seed));
        (name, make_pair(seed, options.lines, options.dropped))
    }));
    pairing.report();

    ExitCode::from(u8::from(!pairing.is_good()))
}

/// Reads the arguments, or nothing where they are not as they should be.
fn options() -> Option<Options> {
    let mut arguments = env::args().skip(1);
    let mut options = Options {
        drive: arguments.next()?,
        seeds: (0, 1_000),
        lines: 100,
        dropped: None,
    };

    while let Some(name) = arguments.next() {
        let value = arguments.next()?;
        match name.as_str() {
            "--seeds" => {
                let (from, to) = value.split_once("..")?;
                options.seeds = (from.parse().ok()?, to.parse().ok()?);
            }
            "--lines" => options.lines = value.parse().ok()?,
            "--drop" => {
                let dropped = value
                    .parse()
                    .ok()
                    .filter(|dropped| (1..=3).contains(dropped));
                options.dropped = Some(dropped?);
            }
            _ => return None,
        }
    }

    Some(options)
}
