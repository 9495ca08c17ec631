//! Faulty hydrogen helpers, and faulty checks of a count.

use super::Wrong;
use crate::boundary::{Memory, Proposed};
use crate::by_reference::Reference;
use crate::memory::held;
use crate::program::Program;
use reference::desk::{is_sound, values, NOT_SOUND};
use reference::formula::{sum, symbols};
use reference::hydrogen::{Start, MOST, NOT_RIGHT, NO_RIGHT_COUNT, NO_START};
use reference::line::ACCEPTED;
use reference::number::number;
use reference::rows::{assigned, Values};
use reference::value::text;

pub const FAULTS: [(&str, Wrong); 20] = [
    (
        "the largest count instead of the smallest",
        Wrong::Hydrogens(|m, s| helper(m, s, |_| true, true)),
    ),
    ("the present count first", Wrong::Hydrogens(present_first)),
    ("9999 is left out", Wrong::Hydrogens(|m, s| helper(m, s, |n| n != MOST, false))),
    ("0 is left out", Wrong::Hydrogens(|m, s| helper(m, s, |n| n != 0, false))),
    ("0 is right for H alone", Wrong::HydrogensRight(|m, s, n| alone(m, s, n))),
    ("the check leaves out 9999", Wrong::HydrogensRight(|m, s, n| without(m, s, n, n == MOST))),
    ("the check leaves out 0", Wrong::HydrogensRight(|m, s, n| without(m, s, n, n == 0))),
    (
        "the check takes a ratio of 1.0101",
        Wrong::HydrogensRight(|m, s, n| beyond(m, s, n, 10_000, 10_101)),
    ),
    (
        "the check takes a ratio of 0.9899",
        Wrong::HydrogensRight(|m, s, n| beyond(m, s, n, 9_899, 10_000)),
    ),
    ("the check takes 10000", Wrong::HydrogensRight(|m, s, n| beyond_most(m, s, n))),
    ("counts are cut to 32 bits", Wrong::HydrogensRight(|m, s, n| cut(m, s, n))),
    ("H is put first without C", Wrong::Hydrogens(put_first)),
    ("the check puts H first without C", Wrong::HydrogensRight(put_first_checked)),
    ("the other terms' order is lost", Wrong::Hydrogens(order_lost)),
    ("23 is looked at before 22", Wrong::Hydrogens(|m, s| instead(m, s, NO_START, NO_RIGHT_COUNT))),
    (
        "24 is looked at before 22",
        Wrong::HydrogensRight(|m, s, n| {
            swapped(Reference.hydrogens_right(m, s, n), NO_START, NOT_RIGHT)
        }),
    ),
    ("22 is looked at before 2", Wrong::Hydrogens(|m, s| instead(m, s, NOT_SOUND, NO_START))),
    (
        "a refusal tells a count",
        Wrong::HydrogensRight(|m, s, n| {
            let right = Reference.hydrogens_right(m, s, n);
            let count = if right.answer == NOT_RIGHT { n as usize } else { right.count };
            Proposed { count, ..right }
        }),
    ),
    ("sheet 1 is asked as sheet 0", Wrong::Hydrogens(|m, s| Reference.hydrogens(m, s.min(2) & 2))),
    ("symbols without a weight are left out", Wrong::Hydrogens(weightless)),
];

/// What comes of the values of a sheet of a sound desk that the right helper starts from.
fn started<T>(memory: &Memory, sheet: u64, then: impl FnOnce(&Values, Start) -> T) -> Option<T> {
    let (desk, _) = held(memory).filter(|(desk, _)| is_sound(desk))?;
    let values = values(desk.sheet(sheet)?);
    Some(then(&values, Start::of(&values)?))
}

fn told(count: Option<u64>) -> Proposed {
    match count {
        None => Proposed { count: 0, answer: NO_RIGHT_COUNT },
        Some(count) => Proposed { count: count as usize, answer: ACCEPTED },
    }
}

/// The right answer, but for starts this count, or none.
fn other(m: &Memory, sheet: u64, count: impl FnOnce(&Values, Start) -> Option<u64>) -> Proposed {
    started(m, sheet, |values, start| told(count(values, start)))
        .unwrap_or_else(|| Reference.hydrogens(m, sheet))
}

/// The smallest or the largest right count of those that pass.
fn helper(memory: &Memory, sheet: u64, passes: fn(u64) -> bool, largest: bool) -> Proposed {
    other(memory, sheet, |_, start| {
        let mut right = (0..=MOST).filter(|&count| passes(count) && start.is_right(count));
        if largest {
            right.last()
        } else {
            right.next()
        }
    })
}

fn present_first(memory: &Memory, sheet: u64) -> Proposed {
    other(memory, sheet, |values, start| {
        let present = hydrogens(text(values[0]));
        Some(present).filter(|&count| start.is_right(count)).or_else(|| start.smallest())
    })
}

/// The count of H in a formula.
fn hydrogens(formula: &[u8]) -> u64 {
    let terms = reference::formula::terms(formula).flatten();
    terms.filter(|term| term.symbol == b"H").map(|term| term.count as u64).sum()
}

/// The right check, but that a count is refused.
fn without(memory: &Memory, sheet: u64, count: u64, refused: bool) -> Proposed {
    match Reference.hydrogens_right(memory, sheet, count) {
        Proposed { answer: ACCEPTED, .. } if refused => Proposed { count: 0, answer: NOT_RIGHT },
        right => right,
    }
}

/// The right check, but that a count of the range is accepted where the weight is within so many
/// ten-thousandths of the sum.
fn beyond(memory: &Memory, sheet: u64, count: u64, low: i128, high: i128) -> Proposed {
    let right = Reference.hydrogens_right(memory, sheet, count);
    let within = started(memory, sheet, |values, start| {
        let weight = assigned(values, 2).and_then(number).map_or(0, i128::from);
        let sum = sum(&start.text(count)).unwrap_or(0);
        count <= MOST && (low * sum..=high * sum).contains(&(10 * weight))
    });
    match within {
        Some(true) => Proposed { count: count as usize, answer: ACCEPTED },
        _ => right,
    }
}

fn alone(memory: &Memory, sheet: u64, count: u64) -> Proposed {
    let right = Reference.hydrogens_right(memory, sheet, count);
    let empty = started(memory, sheet, |_, start| start.text(0).is_empty());
    match empty {
        Some(true) if count == 0 => Proposed { count: 0, answer: ACCEPTED },
        _ => right,
    }
}

fn beyond_most(memory: &Memory, sheet: u64, count: u64) -> Proposed {
    match Reference.hydrogens_right(memory, sheet, count.min(MOST)) {
        Proposed { answer: ACCEPTED, .. } if count == MOST + 1 => {
            Proposed { count: count as usize, answer: ACCEPTED }
        }
        _ => Reference.hydrogens_right(memory, sheet, count),
    }
}

fn cut(memory: &Memory, sheet: u64, count: u64) -> Proposed {
    match Reference.hydrogens_right(memory, sheet, count % (1 << 32)) {
        right @ Proposed { answer: ACCEPTED, .. } => Proposed { count: count as usize, ..right },
        right => right,
    }
}

/// Whether H stands elsewhere than first in a formula without C.
fn is_not_first(values: &Values, start: &Start) -> bool {
    let carbon = symbols(text(values[0])).any(|symbol| symbol == b"C");
    !carbon && !start.text(1).starts_with(b"H ") && start.text(1) != b"H"
}

/// Row 2 is broken then, but for 0.
fn put_first(memory: &Memory, sheet: u64) -> Proposed {
    other(memory, sheet, |values, start| {
        start.smallest().filter(|&count| count == 0 || !is_not_first(values, &start))
    })
}

fn put_first_checked(memory: &Memory, sheet: u64, count: u64) -> Proposed {
    let first = started(memory, sheet, |values, start| is_not_first(values, &start));
    without(memory, sheet, count, count > 0 && first == Some(true))
}

/// With two other terms the new text is out of order.
fn order_lost(memory: &Memory, sheet: u64) -> Proposed {
    other(memory, sheet, |_, start| start.smallest().filter(|_| !start.text(0).contains(&b' ')))
}

fn swapped(right: Proposed, answer: u8, other: u8) -> Proposed {
    if right.answer == answer {
        Proposed { answer: other, ..right }
    } else {
        right
    }
}

/// One answer in place of another.
fn instead(memory: &Memory, sheet: u64, answer: u8, other: u8) -> Proposed {
    swapped(Reference.hydrogens(memory, sheet), answer, other)
}

/// A formula of recognised symbols in order is started from although one has no weight: no count is
/// right then.
fn weightless(memory: &Memory, sheet: u64) -> Proposed {
    let right = Reference.hydrogens(memory, sheet);
    let rows = Reference.report(memory, sheet, 0).rows;
    let fits = rows[0].level == 0 && rows[1].level == 0 && rows[3].reason == 2;
    if right.answer == NO_START && fits {
        Proposed { count: 0, answer: NO_RIGHT_COUNT }
    } else {
        right
    }
}
