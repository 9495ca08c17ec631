//! Faulty programs for the twelve rows.

use super::Wrong;
use crate::boundary::{Memory, Reported, Row};
use crate::by_reference::Reference;
use crate::desks::{in_memory, sheet};
use crate::memory::held;
use crate::old_build::OLD_LIMIT;
use crate::points::{multiplier, Pointed, Side};
use crate::program::Program;
use reference::desk::values;
use reference::formula::{self, symbols};
use reference::line::ACCEPTED;
use reference::names::ITEMS;
use reference::number::number;
use reference::rows::{Values, RATIO_BOUNDS};
use reference::value::{form, text, Form};

pub const FAULTS: [(&str, Wrong); 12] = [
    (
        "RW is rounded to hundredths",
        Wrong::Report(|m, sheet, profile| by_ratio(m, sheet, profile, rounded)),
    ),
    (
        "RW is a quotient of 32-bit floats",
        Wrong::Report(|m, sheet, profile| by_ratio(m, sheet, profile, float)),
    ),
    (
        "F is matched before F^2^",
        Wrong::Report(|m, sheet, profile| changed(m, sheet, profile, f_first)),
    ),
    (
        "row 6's last bound passed decides",
        Wrong::Report(|m, sheet, profile| changed(m, sheet, profile, last_bound)),
    ),
    (
        "the old name is judged first",
        Wrong::Report(|m, sheet, profile| of_others(m, sheet, profile, old_first)),
    ),
    (
        "two spaces count as one",
        Wrong::Report(|m, sheet, profile| of_others(m, sheet, profile, two_spaces)),
    ),
    (
        "plain ASCII order",
        Wrong::Report(|m, sheet, profile| changed(m, sheet, profile, ascii_order)),
    ),
    (
        "not judgeable before missing",
        Wrong::Report(|m, sheet, profile| changed(m, sheet, profile, not_judgeable_first)),
    ),
    (
        "row 12 wants a digit on each side",
        Wrong::Report(|m, sheet, profile| changed(m, sheet, profile, on_each_side)),
    ),
    (
        "row 12 judges a point alone as zero",
        Wrong::Report(|m, sheet, profile| changed(m, sheet, profile, point_alone)),
    ),
    (
        "a sum is cut to 32 bits",
        Wrong::Report(|m, sheet, profile| by_ratio(m, sheet, profile, cut_sum)),
    ),
    (
        "a formula ends where a line of 80 did",
        Wrong::Report(|m, sheet, profile| of_others(m, sheet, profile, cut_formula)),
    ),
];

/// The right rows of a sound desk, changed.
fn changed(
    memory: &Memory,
    sheet: u64,
    profile: u64,
    change: impl Fn(&Values, &mut Reported),
) -> Reported {
    let mut right = Reference.report(memory, sheet, profile);
    if let (ACCEPTED, Some((desk, _))) = (right.answer, held(memory)) {
        change(&values(&desk.sheets[sheet as usize]), &mut right);
    }
    right
}

/// The right rows of other values than a sound desk has.
fn of_others(memory: &Memory, asked: u64, profile: u64, other: fn(&mut [Vec<u8>])) -> Reported {
    changed(memory, asked, profile, |values, right| {
        let mut values = values.map(Vec::from);
        other(&mut values);
        *right = Reference.report(&in_memory(&sheet(values)), 0, profile);
    })
}

/// Row 4 by a test of the weight and the sum against each bound in hundredths: below, above.
fn by_ratio(
    memory: &Memory,
    sheet: u64,
    profile: u64,
    outside: fn(i128, i128, i128, i128) -> bool,
) -> Reported {
    changed(memory, sheet, profile, |&[formula, weight, ..], right| {
        let sum = formula::sum(text(formula)).filter(|_| !formula.is_empty());
        if let (Some(weight), Some(sum)) = (number(weight), sum) {
            let (weight, sum) = (weight.into(), 1000 * sum);
            let passed =
                RATIO_BOUNDS.iter().find(|(low, high, _)| outside(weight, sum, *low, *high));
            right.rows[3].level = passed.map_or(0, |(_, _, level)| *level);
        }
    })
}

fn rounded(weight: i128, sum: i128, low: i128, high: i128) -> bool {
    let ratio = (100 * weight + sum / 2) / sum;
    ratio < low || ratio > high
}

fn float(weight: i128, sum: i128, low: i128, high: i128) -> bool {
    let ratio = weight as f32 / sum as f32;
    ratio < low as f32 / 100.0 || ratio > high as f32 / 100.0
}

/// The sum in thousandths without its bits beyond 32.
fn cut_sum(weight: i128, sum: i128, low: i128, high: i128) -> bool {
    let sum = 1000 * (sum / 1000 % (1 << 32));
    100 * weight < low * sum || 100 * weight > high * sum
}

/// The terms of a quoted formula that stand within the old limit.
fn cut_formula(values: &mut [Vec<u8>]) {
    let most = OLD_LIMIT - ITEMS[0].0.len() - 1;
    if values[0].len() > most && values[0].starts_with(b"'") {
        let end = values[0][..most].iter().rposition(|&byte| byte == b' ').unwrap_or(1);
        values[0].truncate(end);
        values[0].push(b'\'');
    }
}

/// Row 12 of F^2^ with the bounds of F.
fn f_first(values: &Values, right: &mut Reported) {
    let row = &mut right.rows[11];
    if text(values[9]).starts_with(b"F^2^ > ") && row.reason == 0 {
        row.level = 0;
    }
}

/// Whether row 12's multiplier has a point on this side.
fn has_point(values: &Values, on: fn(Side) -> bool) -> bool {
    let pointed = multiplier(text(values[9])).and_then(Pointed::read);
    pointed.is_some_and(|pointed| on(pointed.side))
}

fn on_each_side(values: &Values, right: &mut Reported) {
    if has_point(values, |side| side != Side::Alone) && right.rows[11].reason == 0 {
        right.rows[11] = Row { level: 2, reason: 2 };
    }
}

fn point_alone(values: &Values, right: &mut Reported) {
    if has_point(values, |side| side == Side::Alone) && right.rows[11].reason == 2 {
        right.rows[11] = Row { level: 0, reason: 0 };
    }
}

fn last_bound(_: &Values, right: &mut Reported) {
    right.rows[5].level = right.rows[5].level.min(2);
}

/// Rows 6, 8 and 10 by the old names where these are assigned.
fn old_first(values: &mut [Vec<u8>]) {
    for new in [4, 6, 8] {
        let old = values[new].clone();
        if !old.is_empty() && form(&old) != Some(Form::Unassigned) {
            values[new - 1] = old;
        }
    }
}

/// The first two spaces of the formula are one.
fn two_spaces(values: &mut [Vec<u8>]) {
    if let Some(at) = values[0].windows(2).position(|pair| pair == b"  ") {
        values[0].remove(at);
    }
}

fn ascii_order(values: &Values, right: &mut Reported) {
    if right.rows[1].reason == 0 {
        let rising = symbols(text(values[0])).is_sorted_by(|before, after| before < after);
        right.rows[1].level = if rising { 0 } else { 3 };
    }
}

/// Rows 3 and 4 with reason 2 although the other item is missing.
fn not_judgeable_first(_: &Values, right: &mut Reported) {
    if right.rows[0] == (Row { level: 4, reason: 0 }) {
        right.rows[2].reason = 2;
        right.rows[3].reason = 2;
    }
}
