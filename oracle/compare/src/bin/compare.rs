//! Runs two programs on the same scripts, compares their answers line by line and holds each index that the first told ahead to the Rust:
//! compare A B [--seeds FROM..TO] [--manner D] [--exhaustive N] [--datagrams] [--gaps] [--log] [--indices] [--ahead] [--settle] [--lines M] [--stop] [--no-cut]

use std::env;
use std::process::ExitCode;

use compare::{
    Comparison, Exhaustive, Script, datagram_scripts, gap_scripts, index_scripts, log_scripts,
    make_script, make_settle_script, profile_name,
};

/// What to compare.
struct Options {
    programs: [String; 2],
    seeds: (u64, u64),
    manner: Option<u64>,
    exhaustive: u32,
    datagrams: bool,
    gaps: bool,
    log: bool,
    indices: bool,
    ahead: bool,
    settle: bool,
    lines: usize,
    stop: bool,
    cut: bool,
}

fn main() -> ExitCode {
    let Some(options) = options() else {
        eprintln!(
            "usage: compare A B [--seeds FROM..TO] [--manner D] [--exhaustive N] [--datagrams] [--gaps] [--log] [--indices] [--ahead] [--settle] [--lines M] [--stop] [--no-cut]"
        );
        return ExitCode::from(2);
    };

    let (from, to) = options.seeds;
    let seeds = (from..to)
        .filter(|seed| options.manner.is_none_or(|digit| seed % 10 == digit))
        .map(|seed| of_seed(seed, &options));
    let words = Exhaustive::new(options.exhaustive)
        .enumerate()
        .map(|(at, script)| (format!("word {at}"), script));
    let datagrams = options.datagrams.then(datagram_scripts).unwrap_or_default();
    let gaps = options.gaps.then(gap_scripts).unwrap_or_default();
    let log = options.log.then(log_scripts).unwrap_or_default();
    let indices = options.indices.then(index_scripts).unwrap_or_default();
    let [a, b] = &options.programs;
    let mut comparison = Comparison::new([a, b], options.stop, options.cut);

    let fixed = datagrams.into_iter().chain(gaps).chain(log).chain(indices);
    comparison.go_through(seeds.chain(words).chain(fixed));
    comparison.report();

    ExitCode::from(u8::from(comparison.differences() > 0))
}

/// The script of a seed with the name it is reported by, where the options say so one mostly about settlings, and with the next index asked for
/// before every call that may allocate one.
fn of_seed(seed: u64, options: &Options) -> (String, Script) {
    let name = format!("seed {seed} ({})", profile_name(seed));
    let script = match options.settle {
        true => make_settle_script(seed, options.lines),
        false => make_script(seed, options.lines),
    };

    match options.ahead {
        true => (name, script.with_ahead()),
        false => (name, script),
    }
}

/// Reads the arguments, or nothing where they are not as they should be.
fn options() -> Option<Options> {
    let mut arguments = env::args().skip(1);
    let mut options = Options {
        programs: [arguments.next()?, arguments.next()?],
        seeds: (0, 0),
        manner: None,
        exhaustive: 0,
        datagrams: false,
        gaps: false,
        log: false,
        indices: false,
        ahead: false,
        settle: false,
        lines: 150,
        stop: false,
        cut: true,
    };
    let mut chosen = false;

    while let Some(name) = arguments.next() {
        match name.as_str() {
            "--seeds" => {
                let value = arguments.next()?;
                let (from, to) = value.split_once("..")?;
                options.seeds = (from.parse().ok()?, to.parse().ok()?);
                chosen = true;
            }
            "--exhaustive" => {
                options.exhaustive = arguments.next()?.parse().ok()?;
                chosen = true;
            }
            "--datagrams" => {
                options.datagrams = true;
                chosen = true;
            }
            "--gaps" => {
                options.gaps = true;
                chosen = true;
            }
            "--log" => {
                options.log = true;
                chosen = true;
            }
            "--indices" => {
                options.indices = true;
                chosen = true;
            }
            "--ahead" => options.ahead = true,
            "--settle" => options.settle = true,
            "--manner" => options.manner = Some(arguments.next()?.parse().ok()?),
            "--lines" => options.lines = arguments.next()?.parse().ok()?,
            "--stop" => options.stop = true,
            "--no-cut" => options.cut = false,
            _ => return None,
        }
    }
    if !chosen {
        options.seeds = (0, 1_000);
    }

    Some(options)
}
