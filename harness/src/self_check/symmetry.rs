//! Faulty readers of symmetry operators, and faulty checks of their lists.

use super::Wrong;
use crate::boundary::{Checked, Operator};
use crate::by_reference::Reference;
use crate::program::Program;
use reference::group::{
    determinant, product, BAD_DETERMINANT, EQUAL_ROWS, IDENTITY, NO_IDENTITY, NO_PRODUCT,
};
use reference::operator::{Row, FACTORS, NOT_READ, NUMBERS, TAKEN, WHOLE};

pub const FAULTS: [(&str, Wrong); 15] = [
    (
        "a product applies the first first",
        Wrong::Group(|list| by(list, |first, second| product(second, first), <[Row]>::contains)),
    ),
    ("translations not modulo 1", Wrong::Group(|list| by(list, not_modulo, <[Row]>::contains))),
    (
        "the last row is never looked for",
        Wrong::Group(|list| by(list, product, |rows, row| rows[..rows.len() - 1].contains(row))),
    ),
    ("determinant 0 passed", Wrong::Group(determinant_0_passed)),
    (
        "the pair count is one too many",
        Wrong::Group(|list| changed(list, NO_PRODUCT, |checked| checked.pairs += 1)),
    ),
    (
        "pairs are counted with refusal 16",
        Wrong::Group(|list| changed(list, EQUAL_ROWS, |checked| checked.pairs = 1)),
    ),
    ("the identity is looked for before determinants", Wrong::Group(identity_first)),
    ("the identity with any translation", Wrong::Group(any_translation)),
    (
        "a part row is passed over",
        Wrong::Group(|list| Reference.group(list.as_chunks::<NUMBERS>().0.as_flattened())),
    ),
    ("translations of 24 are taken", Wrong::Group(taken_24)),
    ("4/4 is read", Wrong::Operator(|text| instead(text, "4/4", "3/4"))),
    ("a letter twice is read", Wrong::Operator(|text| instead(text, "x+x", "x"))),
    ("x-1/4 has translation 6", Wrong::Operator(|text| instead(text, "-1/4", "+1/4"))),
    ("a fourth part is passed over", Wrong::Operator(fourth_passed_over)),
    (
        "the row is left with refusal 13",
        Wrong::Operator(|text| {
            let mut read = Reference.operator(text);
            read.row[0] += i8::from(read.answer == NOT_READ && text.starts_with(b"x,"));
            read
        }),
    ),
];

/// The right answer to the text in which the first of these is another one.
fn instead(text: &[u8], old: &str, new: &str) -> Operator {
    match std::str::from_utf8(text) {
        Ok(text) => Reference.operator(text.replacen(old, new, 1).as_bytes()),
        Err(_) => Reference.operator(text),
    }
}

fn fourth_passed_over(text: &[u8]) -> Operator {
    let parts: Vec<&[u8]> = text.split(|&byte| byte == b',').take(3).collect();
    Reference.operator(&parts.join(&b','))
}

/// The right answer, but that where it is this one, something is changed.
fn changed(list: &[i8], answer: u8, change: fn(&mut Checked)) -> Checked {
    let mut checked = Reference.group(list);
    if checked.answer == answer {
        change(&mut checked);
    }
    checked
}

/// The right answer up to 16; then by another product, and another search.
fn by(list: &[i8], product: fn(&Row, &Row) -> Row, has: fn(&[Row], &Row) -> bool) -> Checked {
    let right = Reference.group(list);
    if ![TAKEN, NO_PRODUCT].contains(&right.answer) {
        return right;
    }
    let rows = list.as_chunks().0;
    let mut pairs = 0;
    for first in rows {
        for second in rows {
            pairs += 1;
            if !has(rows, &product(first, second)) {
                return Checked { pairs, answer: NO_PRODUCT };
            }
        }
    }
    Checked { pairs, answer: TAKEN }
}

fn not_modulo(first: &Row, second: &Row) -> Row {
    let mut row = product(first, second);
    for part in 0..3 {
        let turned: i8 = (0..3).map(|at| first[3 * part + at] * second[FACTORS + at]).sum();
        row[FACTORS + part] = turned + first[FACTORS + part];
    }
    row
}

/// Rows of determinant 0 are taken for rows that have one.
fn determinant_0_passed(list: &[i8]) -> Checked {
    let right = Reference.group(list);
    let rows: &[Row] = list.as_chunks().0;
    if right.answer == BAD_DETERMINANT && rows.iter().all(|row| determinant(row).abs() < 2) {
        let answer = if rows.contains(&IDENTITY) { NO_PRODUCT } else { NO_IDENTITY };
        return Checked { pairs: 0, answer };
    }
    right
}

fn identity_first(list: &[i8]) -> Checked {
    let right = Reference.group(list);
    let rows: &[Row] = list.as_chunks().0;
    if right.answer == BAD_DETERMINANT && !rows.contains(&IDENTITY) {
        return Checked { answer: NO_IDENTITY, ..right };
    }
    right
}

fn any_translation(list: &[i8]) -> Checked {
    let right = Reference.group(list);
    let rows: &[Row] = list.as_chunks().0;
    let unturned = |row: &Row| row[..FACTORS] == IDENTITY[..FACTORS];
    if right.answer == NO_IDENTITY && rows.iter().any(unturned) {
        return Checked { pairs: 1, answer: NO_PRODUCT };
    }
    right
}

/// A translation of 24 counts as 0.
fn taken_24(list: &[i8]) -> Checked {
    let wrapped = |(at, &number): (usize, &i8)| match number {
        WHOLE if at % NUMBERS >= FACTORS => 0,
        _ => number,
    };
    Reference.group(&list.iter().enumerate().map(wrapped).collect::<Vec<_>>())
}
