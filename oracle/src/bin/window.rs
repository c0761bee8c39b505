//! Answers `reset`, `look COUNTER` and `commit COUNTER` from standard input with one window.

use std::io::{self, BufRead, BufWriter, Write};
use std::process;

use oracle::Window;

fn main() -> io::Result<()> {
    let mut output = BufWriter::with_capacity(1 << 16, io::stdout().lock());
    let mut window = Window::default();

    for line in io::stdin().lock().lines() {
        let line = line?;
        match answer(&mut window, &line) {
            Some(answer) => writeln!(output, "{answer}")?,
            None => {
                output.flush()?;
                eprintln!("cannot read this line: {line}");
                process::exit(2);
            }
        }
    }

    output.flush()
}

/// Answers one line, or nothing where it cannot be read.
fn answer(window: &mut Window, line: &str) -> Option<String> {
    let words: Vec<&str> = line.split_whitespace().collect();

    match words[..] {
        ["reset"] => {
            *window = Window::default();
            Some("ok".to_string())
        }
        ["look", counter] => Some(window.look(counter.parse().ok()?).to_string()),
        ["commit", counter] => {
            let (verdict, skipped) = window.commit(counter.parse().ok()?);
            let (next, ones) = (window.next(), window.ones());
            Some(format!("{verdict} {next} {ones} {skipped}"))
        }
        _ => None,
    }
}
