//! Replays every script of cases/ and compares each answer with the line that stands for it.

use std::fs;
use std::path::Path;

use oracle::{Driver, Lines};

/// What the oracle writes for a whole script.
fn answers(input: &[u8]) -> String {
    let mut lines = Lines::of(input);
    let mut driver = Driver::new();
    let mut output = String::new();

    while let Some(line) = lines.next_line().expect("a slice can be read") {
        match driver.answer(line) {
            Ok(answer) => output.push_str(&format!("{answer}\n")),
            Err(number) => output.push_str(&format!("no {number}\n")),
        }
    }

    output
}

#[test]
fn every_case_has_the_answers_beside_it() {
    let folder = Path::new(env!("CARGO_MANIFEST_DIR")).join("cases");
    let mut count = 0;

    for entry in fs::read_dir(folder).expect("the folder of cases") {
        let input = entry.expect("a case").path();
        if input.extension().is_none_or(|extension| extension != "in") {
            continue;
        }
        let expected = fs::read_to_string(input.with_extension("out")).expect("its answers");
        assert_eq!(
            answers(&fs::read(&input).expect("its lines")),
            expected,
            "{input:?}"
        );
        count += 1;
    }

    assert!(count >= 20);
}

#[test]
fn an_empty_script_has_no_answers() {
    assert_eq!(answers(b""), "");
}

#[test]
fn a_last_line_without_newline_counts() {
    assert_eq!(answers(b"new 1 0 0\nnext"), "ok\nok at 540000000000\n");
}

#[test]
fn a_line_over_the_limit_cannot_be_read() {
    let padded = |len: usize| format!("new 1 0 0\n{}event\n", " ".repeat(len - 5));

    assert_eq!(answers(padded(65_536).as_bytes()), "ok\nok none\n");
    assert_eq!(answers(padded(65_537).as_bytes()), "ok\nno 2\n");
    assert_eq!(answers(padded(300_000).as_bytes()), "ok\nno 2\n");
}

#[test]
fn a_batch_of_more_than_1024_messages_is_turned_down_by_1_then_2() {
    let batch = |time: &str, len: usize| format!("recv 1 0 {time}{}\n", " 1 k".repeat(len));
    let script = [
        "new 0 0 0\nhello 5 0 0\n".to_string(),
        batch("0", 1_025),
        batch("4000000000000000001", 1_025),
        "missing 1\n".to_string(),
        batch("0", 1_024),
    ]
    .concat();
    let verdicts = format!("ok 0{}\n", " 10".repeat(1_023));

    assert_eq!(
        answers(script.as_bytes()),
        format!("ok\nok resp 1 5\nno 2\nno 1\nok missing 0\n{verdicts}")
    );
}
