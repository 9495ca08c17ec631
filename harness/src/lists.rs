//! Fixed lists of inputs: every short text, and every place next to a limit or a bound.

use crate::inputs::{decimal, LONGEST, ROWS, WORDS};
use crate::points::writings;
use reference::grade::bounds;
use reference::line::LIMIT;
use reference::names::ITEMS;
use reference::number::{DIGITS, PLACES, UNCERTAINTY_DIGITS};

/// Every value up to this length over the telling bytes.
pub const SHORT_VALUE: usize = 4;
/// Every value up to this length in a line.
pub const SHORT_IN_LINE: usize = 3;
/// The bytes that numbers are made of, and a foreign one.
pub const OF_NUMBERS: &[u8] = b"049+-.()x";
/// Every value up to this length over those bytes, in lines too; as a multiplier of row 12.
pub const SHORT_NUMBER: usize = 5;
pub const SHORT_MULTIPLIER: usize = 4;
/// Lengths that would be short ones if cut down to 16 bits.
const LONG: [usize; 3] = [65_536, 65_536 + 40, 65_536 + LIMIT];
/// One name for each kind: text, number, category.
const NAMES: [&str; 3] =
    ["_chemical_formula_sum", "_refine_ls_R_factor_gt", "_publ_requested_category"];

/// Every text of some bytes up to `longest`.
pub fn short_texts(of: &'static [u8], longest: usize) -> impl Iterator<Item = Vec<u8>> {
    (0..=longest).flat_map(move |length| {
        (0..of.len().pow(length as u32)).map(move |number| spelled(of, number, length))
    })
}

/// A number written with some bytes as digits.
fn spelled(of: &[u8], number: usize, length: usize) -> Vec<u8> {
    let digit = |place: usize| of[number / of.len().pow(place as u32) % of.len()];
    (0..length).map(digit).collect()
}

/// Each value after a name of each kind.
pub fn in_lines(values: impl Iterator<Item = Vec<u8>>) -> impl Iterator<Item = Vec<u8>> {
    values.flat_map(|value| NAMES.map(|name| [name.as_bytes(), b" ", &value].concat()))
}

pub fn single_bytes() -> impl Iterator<Item = Vec<u8>> {
    (0..=u8::MAX).map(|byte| vec![byte])
}

/// Reserved words and words close to them, in every mixture of case.
pub fn reserved_words() -> impl Iterator<Item = Vec<u8>> {
    let near = |word: &str| {
        let shorter = &word[..word.len() - 1];
        ["", "x", "_", "'"]
            .map(|end| format!("{word}{end}"))
            .into_iter()
            .chain(["x", "'"].map(|end| format!("{shorter}{end}")))
            .collect::<Vec<_>>()
    };
    WORDS
        .into_iter()
        .flat_map(near)
        .flat_map(|word| (0..1_u32 << word.len()).map(move |capitals| cased(&word, capitals)))
}

/// The word with a capital wherever the number has a bit.
fn cased(word: &str, capitals: u32) -> Vec<u8> {
    let case = |(place, byte): (usize, u8)| {
        if capitals >> place & 1 == 1 {
            byte.to_ascii_uppercase()
        } else {
            byte
        }
    };
    word.bytes().enumerate().map(case).collect()
}

/// Every count of digits, of places and of uncertainty up to two beyond its limit.
pub fn numbers_at_limits() -> Vec<Vec<u8>> {
    let mut numbers = vec![];
    for whole in 0..=DIGITS + 2 {
        for places in 0..=PLACES + 2 {
            for uncertainty in 0..=UNCERTAINTY_DIGITS + 2 {
                for digit in ["0", "1", "9"] {
                    numbers.extend(written(
                        digit.repeat(whole),
                        digit.repeat(places),
                        digit.repeat(uncertainty),
                    ));
                }
            }
        }
    }
    numbers
}

/// The digits with each sign, with and without point and brackets.
fn written(whole: String, places: String, uncertainty: String) -> impl Iterator<Item = Vec<u8>> {
    let unsigned = [
        format!("{whole}{places}"),
        format!("{whole}.{places}"),
        format!("{whole}{places}({uncertainty})"),
        format!("{whole}.{places}({uncertainty})"),
    ];
    unsigned.into_iter().flat_map(|text| ["", "+", "-"].map(|sign| format!("{sign}{text}").into()))
}

/// Each bound of each row, and one unit beside it in each place, in each writing.
pub fn numbers_at_bounds() -> Vec<Vec<u8>> {
    let mut numbers = vec![];
    for bound in ROWS.into_iter().flat_map(|row| bounds(row).expect("each row has bounds")) {
        for places in 1..=PLACES {
            let unit = 10_i64.pow((PLACES - places) as u32);
            for near in [bound - unit, bound, bound + unit, 2 * bound, 10 * bound] {
                for text in writings(&decimal(near, places)) {
                    numbers.extend(signed(&text));
                }
            }
        }
    }
    numbers
}

fn signed(text: &str) -> impl Iterator<Item = Vec<u8>> + '_ {
    let ends = ["", "0", "(1)", "(9999)"].into_iter();
    ends.flat_map(move |end| {
        ["", "+", "-", "0", "-00"].map(|sign| format!("{sign}{text}{end}").into())
    })
}

/// Each item with a value of each kind, and with every two letters of a category.
pub fn items_with_values() -> impl Iterator<Item = Vec<u8>> {
    let letters = "FCIMOfcimoX";
    let pairs = letters.chars().flat_map(|a| letters.chars().map(move |b| format!("{a}{b}")));
    let numbers = ["1", "-1.5(3)", ".045", "45.", "-.5(3)", "45.(3)", "-.", "+.", ".(3)", "-.(3)"];
    let others = ["", "?", ".", "x", "F", "FOX", " FO", "loop_", "C10 H20"];
    let others = numbers.into_iter().chain(others).map(String::from);
    let texts: Vec<String> = pairs.chain(others).collect();
    let values =
        texts.into_iter().flat_map(|text| ["", "'", "\""].map(|q| format!("{q}{text}{q}")));
    values.flat_map(|value| ITEMS.map(|(name, _)| format!("{name} {value}").into()))
}

/// Each name with one byte changed into every other byte, removed or doubled.
pub fn names_one_byte_off() -> impl Iterator<Item = Vec<u8>> {
    ITEMS
        .into_iter()
        .flat_map(|(name, _)| (0..name.len()).flat_map(move |at| one_byte_off(name.as_bytes(), at)))
}

fn one_byte_off(name: &'static [u8], at: usize) -> impl Iterator<Item = Vec<u8>> {
    let (before, after) = (&name[..at], &name[at + 1..]);
    let changed = (0..=u8::MAX).map(move |byte| [before, &[byte], after, b" ?"].concat());
    changed.chain([
        [before, after, b" ?"].concat(),
        [before, &name[at..=at], &name[at..], b" ?"].concat(),
    ])
}

/// Lines of each length: filled with spaces, with a bare or a quoted value, or ended wrongly.
pub fn line_lengths() -> impl Iterator<Item = Vec<u8>> {
    let shapes: [(&str, u8, &str); 5] =
        [("", b' ', "x"), ("", b'x', ""), ("'", b'y', "'"), ("", b' ', ""), ("", b'x', "\x7f")];
    let of_length = move |length| {
        NAMES.into_iter().flat_map(move |name| {
            shapes.map(|(opening, fill, end)| filled(name, opening, fill, end, length))
        })
    };
    (0..=LONGEST).chain(LONG).flat_map(of_length)
}

fn filled(name: &str, opening: &str, fill: u8, end: &str, length: usize) -> Vec<u8> {
    let room = length.saturating_sub(name.len() + 1 + opening.len() + end.len());
    let mut line =
        [name.as_bytes(), b" ", opening.as_bytes(), &vec![fill; room], end.as_bytes()].concat();
    line.truncate(length);
    line
}
