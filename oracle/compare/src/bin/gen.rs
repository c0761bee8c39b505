//! Writes the script of a seed, or all datagram, gap, log or index scripts one after another, or few of the last two kinds:
//! gen [--ahead | --settle] SEED [LINES] | gen --datagrams | gen --gaps | gen --log | gen --short-log | gen --indices | gen --short-indices

use std::env;
use std::io::{self, BufWriter, Write};
use std::process;

use compare::{
    Script, datagram_scripts, gap_scripts, index_scripts, log_scripts, make_script,
    make_settle_script, short_index_scripts, short_log_scripts,
};

/// The length of a script where none is given.
const LINES: usize = 150;

fn main() -> io::Result<()> {
    let arguments: Vec<String> = env::args().skip(1).collect();
    let Some(lines) = lines(&arguments) else {
        eprintln!(
            "usage: gen [--ahead | --settle] SEED [LINES] | gen --datagrams | gen --gaps | gen --log | gen --short-log | gen --indices | gen --short-indices"
        );
        process::exit(2);
    };

    let mut output = BufWriter::new(io::stdout().lock());
    for line in lines {
        output.write_all(&line)?;
        output.write_all(b"\n")?;
    }

    output.flush()
}

/// The lines that are asked for, or nothing where the arguments are not as they should be.
fn lines(arguments: &[String]) -> Option<Vec<Vec<u8>>> {
    match arguments {
        [name] if name == "--datagrams" => Some(all_lines(datagram_scripts())),
        [name] if name == "--gaps" => Some(all_lines(gap_scripts())),
        [name] if name == "--log" => Some(all_lines(log_scripts())),
        [name] if name == "--short-log" => Some(all_lines(short_log_scripts())),
        [name] if name == "--indices" => Some(all_lines(index_scripts())),
        [name] if name == "--short-indices" => Some(all_lines(short_index_scripts())),
        [name, rest @ ..] if name == "--ahead" => {
            Some(of_seed(make_script, rest)?.with_ahead().lines)
        }
        [name, rest @ ..] if name == "--settle" => Some(of_seed(make_settle_script, rest)?.lines),
        _ => Some(of_seed(make_script, arguments)?.lines),
    }
}

/// The script that `make` makes of a seed, of the length that is given or of the usual one.
fn of_seed(make: fn(u64, usize) -> Script, arguments: &[String]) -> Option<Script> {
    match arguments {
        [seed] => Some(make(seed.parse().ok()?, LINES)),
        [seed, lines] => Some(make(seed.parse().ok()?, lines.parse().ok()?)),
        _ => None,
    }
}

/// The lines of all scripts, one after another.
fn all_lines(scripts: Vec<(String, Script)>) -> Vec<Vec<u8>> {
    let scripts = scripts.into_iter();

    scripts.flat_map(|(_, script)| script.lines).collect()
}
