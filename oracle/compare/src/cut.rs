//! Cuts a script on which two programs differ down to a short one.

use crate::programs::{first_difference, run_both};
use crate::told::replay;

/// Removes lines, then messages of batches and reports of callouts, as long as the programs still differ; gives nothing
/// where they do not differ on the whole script.
pub(crate) fn cut_down(programs: [&str; 2], script: &[Vec<u8>]) -> Option<Vec<Vec<u8>>> {
    let differs = |lines: &[Vec<u8>]| differs(programs, lines);
    if !differs(script) {
        return None;
    }

    let lines = shrink(script, &differs);
    let shorter = (0..lines.len()).fold(lines, |lines, at| shrink_line(lines, at, &differs));
    Some(shorter)
}

/// Whether the programs answer a script differently, or the first tells another index than the Rust then uses.
fn differs(programs: [&str; 2], lines: &[Vec<u8>]) -> bool {
    let outputs = run_both(programs, &text(lines));
    let replay = replay(lines, &outputs[0].lines);

    first_difference(&outputs).is_some() || !replay.holds()
}

/// The lines of a script as one text.
pub(crate) fn text(lines: &[Vec<u8>]) -> Vec<u8> {
    let mut text = Vec::new();

    for line in lines {
        text.extend_from_slice(line);
        text.push(b'\n');
    }

    text
}

/// Removes ever smaller pieces of a list while `keeps` holds of what is left.
pub(crate) fn shrink<T: Clone>(list: &[T], keeps: &impl Fn(&[T]) -> bool) -> Vec<T> {
    let mut list = list.to_vec();
    let mut piece = list.len().div_ceil(2).max(1);

    loop {
        let before = list.len();
        let mut at = 0;
        while at < list.len() {
            let end = (at + piece).min(list.len());
            let shorter = [&list[..at], &list[end..]].concat();
            if keeps(&shorter) {
                list = shorter;
            } else {
                at = end;
            }
        }
        if piece > 1 {
            piece = piece.div_ceil(2);
        } else if list.len() == before {
            return list;
        }
    }
}

/// Removes messages of the batch or reports of the callout at `at` while the programs still differ.
fn shrink_line(
    lines: Vec<Vec<u8>>,
    at: usize,
    differs: &impl Fn(&[Vec<u8>]) -> bool,
) -> Vec<Vec<u8>> {
    let words: Vec<Vec<u8>> = lines[at]
        .split(|byte| *byte == b' ')
        .map(<[u8]>::to_vec)
        .collect();
    let (front, each) = match &words[0][..] {
        b"recv" => (4, 2),
        b"append" => (1, 5),
        _ => return lines,
    };
    if words.len() < front + each {
        return lines;
    }

    let (head, messages) = words.split_at(front);
    let messages: Vec<&[Vec<u8>]> = messages.chunks(each).collect();
    let with = |messages: &[&[Vec<u8>]]| {
        let mut changed = lines.clone();
        changed[at] = [head, &messages.concat()].concat().join(&b' ');
        changed
    };
    let messages = shrink(&messages, &|messages: &[&[Vec<u8>]]| {
        differs(&with(messages))
    });

    with(&messages)
}
