//! Runs a program on a script.

use std::io::{Read, Write};
use std::process::{Child, Command, Stdio};
use std::sync::mpsc;
use std::thread;
use std::time::Duration;

/// How long a program may take for one input.
const PATIENCE: Duration = Duration::from_secs(120);

/// What a program did with an input.
pub struct Output {
    /// The lines it wrote, each without its newline.
    pub lines: Vec<Vec<u8>>,
    /// What was wrong with how it ended, if anything.
    pub fault: Option<String>,
}

/// Runs `program` with `input` on its standard input.
pub fn run(program: &str, input: &[u8]) -> Output {
    let child = Command::new(program)
        .stdin(Stdio::piped())
        .stdout(Stdio::piped())
        .stderr(Stdio::null())
        .spawn();

    match child {
        Ok(child) => talk(child, input),
        Err(error) => Output {
            lines: Vec::new(),
            fault: Some(format!("cannot be started: {error}")),
        },
    }
}

/// Runs both programs with the same input at the same time.
pub fn run_both(programs: [&str; 2], input: &[u8]) -> [Output; 2] {
    let [first, second] = programs;

    thread::scope(|scope| {
        let first = scope.spawn(|| run(first, input));
        let second = run(second, input);
        [first.join().expect("the thread ends"), second]
    })
}

/// Writes the input, reads the output and waits for the end.
fn talk(mut child: Child, input: &[u8]) -> Output {
    let mut stdin = child.stdin.take().expect("standard input is a pipe");
    let mut stdout = child.stdout.take().expect("standard output is a pipe");
    let (sender, receiver) = mpsc::channel();
    let reader = thread::spawn(move || {
        let mut bytes = Vec::new();
        let _ = stdout.read_to_end(&mut bytes);
        let _ = sender.send(());
        bytes
    });

    let input = input.to_vec();
    let writer = thread::spawn(move || drop(stdin.write_all(&input)));
    let in_time = receiver.recv_timeout(PATIENCE).is_ok();
    if !in_time {
        let _ = child.kill();
    }
    let status = child.wait();
    let bytes = reader.join().expect("the reader ends");
    writer.join().expect("the writer ends");

    Output {
        lines: lines_of(&bytes),
        fault: match status {
            _ if !in_time => Some("did not end in time".to_string()),
            Ok(status) if status.success() => None,
            Ok(status) => Some(format!("ended with {status}")),
            Err(error) => Some(format!("cannot be waited for: {error}")),
        },
    }
}

/// Cuts an output into lines; a last line without newline is kept apart by a mark.
fn lines_of(bytes: &[u8]) -> Vec<Vec<u8>> {
    let mut lines: Vec<Vec<u8>> = bytes
        .split(|byte| *byte == b'\n')
        .map(<[u8]>::to_vec)
        .collect();

    match lines.pop() {
        Some(rest) if !rest.is_empty() => {
            lines.push([b"(no newline) ", &rest[..]].concat());
            lines
        }
        _ => lines,
    }
}

/// The first place where two outputs differ: a line's number, or the end.
pub fn first_difference(outputs: &[Output; 2]) -> Option<usize> {
    let [first, second] = outputs;
    let len = first.lines.len().max(second.lines.len());
    let line = (0..len).find(|at| first.lines.get(*at) != second.lines.get(*at));

    line.or_else(|| (first.fault != second.fault).then_some(len))
}
