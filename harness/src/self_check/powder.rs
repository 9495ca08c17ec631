//! Faulty programs for rows 13 to 24 and for profiles.

use super::Wrong;
use crate::boundary::{Memory, Reported, Row};
use crate::by_reference::Reference;
use crate::memory::held;
use crate::points::{Pointed, Side};
use crate::powder::COMPARED;
use crate::program::Program;
use reference::desk::{values, NOT_SOUND, NO_SUCH_SHEET};
use reference::line::ACCEPTED;
use reference::number::number;
use reference::powder::{NOT_FOR_POWDER, NO_SUCH_PROFILE, PROFILES};
use reference::rows::{assigned, Values, ROWS};

const NOTHING: Row = Row { level: 0, reason: 0 };
const FIRED: Row = Row { level: 2, reason: 0 };
const LACKING: Row = Row { level: 0, reason: 1 };

pub const FAULTS: [(&str, Wrong); 22] = [
    ("row 22 compares total with gt", Wrong::Report(|m, s, p| compared(m, s, p, 22, 12, 13))),
    (
        "row 22 compares gt with the measured",
        Wrong::Report(|m, s, p| compared(m, s, p, 22, 13, 11)),
    ),
    (
        "row 23 compares the measured with gt",
        Wrong::Report(|m, s, p| compared(m, s, p, 23, 13, 11)),
    ),
    ("not above is taken as below", Wrong::Report(|m, s, p| equal_fires(m, s, p, 22, 11))),
    ("not below is taken as above", Wrong::Report(|m, s, p| equal_fires(m, s, p, 23, 13))),
    (
        "sizes run from max to min",
        Wrong::Report(|m, s, p| sizes(m, s, p, |[a, b, c]| a < b || b < c)),
    ),
    ("equal sizes fire", Wrong::Report(|m, s, p| sizes(m, s, p, |[a, b, c]| a >= b || b >= c))),
    (
        "the middle size is not looked at",
        Wrong::Report(|m, s, p| sizes(m, s, p, |[a, _, c]| a > c)),
    ),
    ("row 20 fires with a missing total", Wrong::Report(missing_total)),
    ("row 21 without item 14 is judged", Wrong::Report(judged_without)),
    ("row 21 wants the text 0", Wrong::Report(zero_by_text)),
    ("uncertainties are compared too", Wrong::Report(uncertainties)),
    (
        "rows 20 to 24 do not read a point first",
        Wrong::Report(|m, s, p| unread(m, s, p, Side::First)),
    ),
    (
        "rows 20 to 24 do not read a point last",
        Wrong::Report(|m, s, p| unread(m, s, p, Side::Last)),
    ),
    (
        "row 13 has reason 0",
        Wrong::Report(|m, s, p| changed(m, s, p, |_, rows| rows[12].reason = 0)),
    ),
    ("powder keeps row 13", Wrong::Report(|m, s, p| kept(m, s, p, 13))),
    ("powder keeps row 20", Wrong::Report(|m, s, p| kept(m, s, p, 20))),
    ("powder leaves out row 19", Wrong::Report(left_out)),
    ("21 is looked at after 2", Wrong::Report(after_2)),
    ("21 is looked at before 12", Wrong::Report(before_12)),
    ("profiles count modulo 256", Wrong::Report(|m, s, p| Reference.report(m, s, p % 256))),
    ("any other profile is powder", Wrong::Report(|m, s, p| Reference.report(m, s, p.min(1)))),
];

/// The right rows of a sheet, changed.
fn changed(
    memory: &Memory,
    sheet: u64,
    profile: u64,
    change: impl Fn(&Values, &mut [Row; ROWS]),
) -> Reported {
    let mut right = Reference.report(memory, sheet, profile);
    if let (ACCEPTED, Some((desk, _))) = (right.answer, held(memory)) {
        change(&values(&desk.sheets[sheet as usize]), &mut right.rows);
    }
    right
}

fn of(values: &Values, item: usize) -> Option<i64> {
    assigned(values, item).and_then(number)
}

/// A row fires where the one item is above the other.
fn compared(
    m: &Memory,
    sheet: u64,
    profile: u64,
    row: usize,
    above: usize,
    of_item: usize,
) -> Reported {
    changed(m, sheet, profile, |values, rows| {
        rows[row - 1] = match of(values, above).zip(of(values, of_item)) {
            None => LACKING,
            Some((above, of)) if above > of => FIRED,
            Some(_) => NOTHING,
        };
    })
}

/// A row fires where total and this item are equal too.
fn equal_fires(m: &Memory, sheet: u64, profile: u64, row: usize, item: usize) -> Reported {
    changed(m, sheet, profile, |values, rows| {
        if of(values, 12).is_some() && of(values, 12) == of(values, item) {
            rows[row - 1] = FIRED;
        }
    })
}

/// Row 24 by another test of min, mid and max.
fn sizes(m: &Memory, sheet: u64, profile: u64, falls: fn([i64; 3]) -> bool) -> Reported {
    changed(m, sheet, profile, |values, rows| {
        if let [Some(min), Some(mid), Some(max)] = [17, 16, 15].map(|item| of(values, item)) {
            rows[23] = if falls([min, mid, max]) { FIRED } else { NOTHING };
        }
    })
}

fn missing_total(memory: &Memory, sheet: u64, profile: u64) -> Reported {
    changed(memory, sheet, profile, |values, rows| {
        let [total, gt, equivalents] = [12, 13, 14].map(|item| of(values, item));
        if profile == 0 && total != gt && equivalents.is_none() {
            rows[19] = FIRED;
        }
    })
}

fn judged_without(memory: &Memory, sheet: u64, profile: u64) -> Reported {
    changed(memory, sheet, profile, |values, rows| {
        let [total, gt, equivalents] = [12, 13, 14].map(|item| of(values, item));
        if equivalents.is_none() && total.is_some() && gt.is_some() {
            rows[20] = NOTHING;
        }
    })
}

fn zero_by_text(memory: &Memory, sheet: u64, profile: u64) -> Reported {
    changed(memory, sheet, profile, |values, rows| {
        let agree = of(values, 12).is_some() && of(values, 12) == of(values, 13);
        if profile == 0 && agree && of(values, 14).is_some() && values[13] != b"0" {
            rows[20] = FIRED;
        }
    })
}

/// Rows 20 and 21 take total and gt for different where only one has an uncertainty.
fn uncertainties(memory: &Memory, sheet: u64, profile: u64) -> Reported {
    changed(memory, sheet, profile, |values, rows| {
        let uncertain = |item: usize| values[item - 1].contains(&b'(');
        if profile == 0 && rows[20].reason == 0 && uncertain(12) != uncertain(13) {
            rows[20] = NOTHING;
        }
    })
}

/// A row that compares a number with the point on this side takes it for missing.
fn unread(memory: &Memory, sheet: u64, profile: u64, side: Side) -> Reported {
    changed(memory, sheet, profile, |values, rows| {
        let so = |item: &usize| Pointed::read(values[item - 1]).is_some_and(|at| at.side == side);
        for (row, _) in COMPARED.iter().filter(|(_, items)| items.iter().any(so)) {
            if profile == 0 || !NOT_FOR_POWDER.contains(row) {
                rows[row - 1] = LACKING;
            }
        }
    })
}

/// Powder has this row as single-crystal has it.
fn kept(memory: &Memory, sheet: u64, profile: u64, row: usize) -> Reported {
    assert!(NOT_FOR_POWDER.contains(&row));
    let crystal = Reference.report(memory, sheet, 0);
    changed(memory, sheet, profile, |_, rows| rows[row - 1] = crystal.rows[row - 1])
}

fn left_out(memory: &Memory, sheet: u64, profile: u64) -> Reported {
    changed(memory, sheet, profile, |_, rows| {
        if profile == 1 {
            rows[18] = NOTHING;
        }
    })
}

fn after_2(memory: &Memory, sheet: u64, profile: u64) -> Reported {
    let right = Reference.report(memory, sheet, profile);
    match Reference.report(memory, sheet, 0) {
        unsound if unsound.answer == NOT_SOUND => unsound,
        _ => right,
    }
}

fn before_12(memory: &Memory, sheet: u64, profile: u64) -> Reported {
    let mut right = Reference.report(memory, sheet, profile);
    if right.answer == NO_SUCH_SHEET && profile >= PROFILES {
        right.answer = NO_SUCH_PROFILE;
    }
    right
}
