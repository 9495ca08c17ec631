//! What the C client must print, by the reference program.

use crate::by_reference::Reference;
use crate::program::Program;
use reference::{line, names, value};
use std::io::{Read, Result as IoResult, Write};

/// Prints the client's answer to each line of the input; with a row, to each typed value.
pub fn answers(row: Option<u64>, mut input: impl Read, mut output: impl Write) -> IoResult<()> {
    let mut bytes = vec![];
    input.read_to_end(&mut bytes)?;
    for line in bytes.split_inclusive(|&byte| byte == b'\n') {
        let line = line.strip_suffix(b"\n").unwrap_or(line);
        let answer = match row {
            None => line_answer(line),
            Some(row) => value_answer(row, line),
        };
        writeln!(output, "{answer}")?;
    }
    output.flush()
}

fn value_answer(row: u64, value: &[u8]) -> String {
    let graded = Reference.grade(row, value);
    format!("{} {}", graded.answer, graded.level)
}

fn line_answer(line: &[u8]) -> String {
    let answer = Reference.classify(line);
    match level(line) {
        Some(level) if answer == line::ACCEPTED => format!("{answer} {level}"),
        _ => answer.to_string(),
    }
}

/// The level of an assigned value that a row judges.
fn level(line: &[u8]) -> Option<u8> {
    let (name, value) = line::split(line)?;
    let row = match names::item(name)? {
        4 | 5 => 6,
        6 | 7 => 8,
        8 | 9 => 10,
        _ => return None,
    };
    (value::form(value) == Some(value::Form::Bare)).then(|| Reference.grade(row, value).level)
}
