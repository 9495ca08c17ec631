//! Faulty readers of lines and values.

use super::Wrong;
use crate::boundary::{Graded, NumberResult};
use crate::by_reference::Reference;
use crate::old_build::OLD_LIMIT;
use crate::points::{Pointed, Side};
use crate::program::Program;
use reference::grade;
use reference::line::{self, ACCEPTED, LIMIT, NOT_A_LINE, NO_SUCH_NAME, WRONG_KIND};
use reference::names::{item, Kind, ITEMS};
use reference::number::{number, DIGITS, PLACES};
use reference::value;

pub const FAULTS: [(&str, Wrong); 20] = [
    (
        "spaces at the end are passed over",
        Wrong::Classify(|line| line::classify(line.trim_ascii_end())),
    ),
    ("the name is looked at before the form", Wrong::Classify(name_first)),
    ("the bound itself earns the level", Wrong::Grade(at_least)),
    ("the last bound passed decides", Wrong::Grade(last_bound)),
    ("rows count modulo 2^32", Wrong::Grade(|row, value| Reference.grade(row % (1 << 32), value))),
    ("nine digits on each side", Wrong::Number(digits_on_each_side)),
    ("the sign is lost below one", Wrong::Number(sign_lost)),
    ("a quoted mark is unassigned", Wrong::Value(quoted_mark)),
    ("names are folded by one bit", Wrong::Item(folded_by_one_bit)),
    ("the case of a name tells", Wrong::Item(|name| first_item(|known| known == name))),
    ("a name is found by its beginning", Wrong::Item(found_by_beginning)),
    ("a number wants a digit on each side", Wrong::Number(digit_on_each_side)),
    ("a point alone is zero", Wrong::Number(point_alone)),
    ("a last point is one of nine digits", Wrong::Number(point_counted)),
    ("seven places after a first point", Wrong::Number(seven_places)),
    ("a level wants a digit on each side", Wrong::Grade(graded_on_each_side)),
    ("a line's number wants a digit on each side", Wrong::Classify(line_on_each_side)),
    ("a bare point in a line is no number", Wrong::Classify(bare_point)),
    ("a line of 81 bytes is still refused", Wrong::Classify(line_of_81)),
    ("a line of 201 bytes is taken", Wrong::Classify(line_of_201)),
];

fn name_first(line: &[u8]) -> u8 {
    let name = line.split(|&byte| byte == b' ').next().unwrap_or(line);
    if name.starts_with(b"_") && item(name).is_none() {
        NO_SUCH_NAME
    } else {
        line::classify(line)
    }
}

fn at_least(row: u64, value: &[u8]) -> Graded {
    let right = Reference.grade(row, value);
    match (grade::bounds(row), number(value)) {
        (Some(bounds), Some(number)) if bounds.contains(&number) => {
            Graded { level: right.level.max(1) + 1, ..right }
        }
        _ => right,
    }
}

fn last_bound(row: u64, value: &[u8]) -> Graded {
    let Graded { answer, level } = Reference.grade(row, value);
    Graded { answer, level: level.min(2) }
}

fn digits_on_each_side(text: &[u8]) -> NumberResult {
    let point = text.iter().position(|&byte| byte == b'.').unwrap_or(0);
    let first = text.iter().position(u8::is_ascii_digit).unwrap_or(point);
    let many = first + 3 < point
        && point <= first + DIGITS
        && text[first..point].iter().all(u8::is_ascii_digit);
    match Reference.number(text) {
        NumberResult { found: 0, .. } if many => Reference.number(&text[point - 3..]),
        right => right,
    }
}

const NO_NUMBER: NumberResult = NumberResult { millionths: 0, found: 0 };

/// Whether the text is a number for its point at an end alone.
fn is_pointed(text: &[u8]) -> bool {
    Pointed::read(text).is_some_and(|pointed| pointed.side != Side::Alone)
}

fn digit_on_each_side(text: &[u8]) -> NumberResult {
    if is_pointed(text) {
        NO_NUMBER
    } else {
        Reference.number(text)
    }
}

fn point_alone(text: &[u8]) -> NumberResult {
    match Pointed::read(text) {
        Some(Pointed { side: Side::Alone, .. }) if text.len() > 1 => {
            NumberResult { millionths: 0, found: 1 }
        }
        _ => Reference.number(text),
    }
}

fn point_counted(text: &[u8]) -> NumberResult {
    match Pointed::read(text) {
        Some(Pointed { side: Side::Last, digits: DIGITS, .. }) => NO_NUMBER,
        _ => Reference.number(text),
    }
}

/// The seventh place is left out.
fn seven_places(text: &[u8]) -> NumberResult {
    let point = text.iter().position(|&byte| byte == b'.').unwrap_or(0);
    match Pointed::read(text) {
        Some(Pointed { side: Side::First, digits, .. }) if digits == PLACES + 1 => {
            let seventh = point + PLACES + 1;
            Reference.number(&[&text[..seventh], &text[seventh + 1..]].concat())
        }
        _ => Reference.number(text),
    }
}

fn graded_on_each_side(row: u64, value: &[u8]) -> Graded {
    match Reference.grade(row, value) {
        Graded { answer: 0, .. } if is_pointed(value) => Graded { answer: WRONG_KIND, level: 0 },
        right => right,
    }
}

/// A number item's line with such a value, where the right program accepts it.
fn refused_value(line: &[u8], refused: fn(&[u8]) -> bool) -> u8 {
    match (line::classify(line), line::split(line)) {
        (ACCEPTED, Some((name, value))) if is_number_item(name) && refused(value) => WRONG_KIND,
        (right, _) => right,
    }
}

fn is_number_item(name: &[u8]) -> bool {
    item(name).is_some_and(|item| ITEMS[item - 1].1 == Kind::Number)
}

fn line_on_each_side(line: &[u8]) -> u8 {
    refused_value(line, is_pointed)
}

fn bare_point(line: &[u8]) -> u8 {
    refused_value(line, |value| value == b".")
}

fn line_of_81(line: &[u8]) -> u8 {
    if line.len() > OLD_LIMIT {
        NOT_A_LINE
    } else {
        line::classify(line)
    }
}

/// Such a line is taken for its first bytes.
fn line_of_201(line: &[u8]) -> u8 {
    if line.len() == LIMIT + 1 {
        line::classify(&line[..LIMIT])
    } else {
        line::classify(line)
    }
}

fn sign_lost(text: &[u8]) -> NumberResult {
    let NumberResult { millionths, found } = Reference.number(text);
    let millionths = if millionths > -1_000_000 { millionths.abs() } else { millionths };
    NumberResult { millionths, found }
}

fn quoted_mark(text: &[u8]) -> u64 {
    let inside = value::text(text);
    if inside == b"?" || inside == b"." {
        1
    } else {
        Reference.value(text)
    }
}

/// The first item whose name passes a test, or 0.
fn first_item(passes: impl Fn(&[u8]) -> bool) -> u64 {
    let place = ITEMS.iter().position(|(known, _)| passes(known.as_bytes()));
    place.map_or(0, |place| place as u64 + 1)
}

fn folded_by_one_bit(name: &[u8]) -> u64 {
    let folded = |text: &[u8]| text.iter().map(|byte| byte | 32).collect::<Vec<u8>>();
    first_item(|known| folded(known) == folded(name))
}

fn found_by_beginning(name: &[u8]) -> u64 {
    first_item(|known| known.get(..name.len()).is_some_and(|part| part.eq_ignore_ascii_case(name)))
}
