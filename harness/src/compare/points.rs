//! Counts what came of numbers with a point at either end, so that each case has to be seen.

use super::calls::of_sheet;
use super::Comparison;
use crate::boundary::{Memory, Row, DESK_ITEMS, DESK_ITEMS_SLOT, DESK_LINE};
use crate::points::{multiplier, Pointed, Side};
use crate::powder::COMPARED;
use crate::tally::Question;
use reference::line::{ACCEPTED, WRONG_KIND};
use reference::names::{Kind, ITEMS};
use reference::number::{DIGITS, PLACES};
use reference::rows::{Values, ROWS};

impl Comparison<'_> {
    /// A text that was read as a number or not.
    pub(super) fn note_number(&mut self, text: &[u8], found: bool) {
        let Some(Pointed { side, digits, signed, uncertain }) = Pointed::read(text) else {
            return;
        };
        let around = usize::from(signed) + 2 * usize::from(uncertain);
        match (side, found) {
            (Side::First, true) => self.tally.note(Question::PointFirst, around),
            (Side::Last, true) => self.tally.note(Question::PointLast, around),
            (Side::Alone, false) => self.tally.note(Question::PointAlone, around),
            _ => {}
        }
        let limit = match (side, digits) {
            (Side::Last, DIGITS) if found => 0,
            (Side::Last, _) if digits == DIGITS + 1 && !found => 1,
            (Side::First, PLACES) if found => 2,
            (Side::First, _) if digits == PLACES + 1 && !found => 3,
            _ => return,
        };
        self.tally.note(Question::PointLimits, limit);
    }

    /// A line that names a number item.
    pub(super) fn note_line(&mut self, item: u64, value: &[u8], answer: u8) {
        let Some(pointed) = Pointed::read(value).filter(|_| is_number_item(item as usize)) else {
            return;
        };
        let place = match (pointed.side, answer) {
            (Side::First, ACCEPTED) => 0,
            (Side::Last, ACCEPTED) => 1,
            (Side::Alone, ACCEPTED) => 2,
            (Side::Alone, WRONG_KIND) => 3,
            _ => return,
        };
        self.tally.note(Question::PointLine, place);
    }

    /// An accepted entry of a sheet's item, 1 to 19.
    pub(super) fn note_entry(&mut self, after: &Memory, sheet: usize, item: usize) {
        let place = match Pointed::read(value(after, sheet, item)).map(|pointed| pointed.side) {
            Some(Side::First) => 0,
            Some(Side::Last) => 1,
            _ => return,
        };
        if is_number_item(item) {
            self.tally.note(Question::PointEntry, place);
        }
    }

    /// Rows 20 to 24 where they compare these values.
    pub(super) fn note_compared(&mut self, values: &Values, rows: &[Row; ROWS]) {
        let judged = COMPARED.iter().enumerate().filter(|(_, (row, _))| rows[row - 1].reason == 0);
        for (at, item) in judged.flat_map(|(at, (_, items))| items.iter().map(move |n| (at, n))) {
            match Pointed::read(values[item - 1]).map(|pointed| pointed.side) {
                Some(Side::First) => self.tally.note(Question::PointCompared, 2 * at),
                Some(Side::Last) => self.tally.note(Question::PointCompared, 2 * at + 1),
                _ => {}
            }
        }
    }

    /// Row 12 of the text in item 10.
    pub(super) fn note_multiplier(&mut self, text: &[u8], row: &Row) {
        let pointed = multiplier(text).and_then(Pointed::read);
        let Some(pointed) = pointed.filter(|pointed| !pointed.signed && !pointed.uncertain) else {
            return;
        };
        let place = match (pointed.side, row.level, row.reason) {
            (Side::First, 0, 0) => 0,
            (Side::Last, 0, 0) => 1,
            (Side::Last, level @ 2..=4, 0) => level.into(),
            (Side::Alone, 2, 2) => 5,
            _ => return,
        };
        self.tally.note(Question::PointMultiplier, place);
    }
}

fn is_number_item(item: usize) -> bool {
    (1..=ITEMS.len()).contains(&item) && ITEMS[item - 1].1 == Kind::Number
}

/// The value of a sheet's item in memory, empty where its length is none.
pub(super) fn value(memory: &Memory, sheet: usize, item: usize) -> &[u8] {
    let at = DESK_ITEMS_SLOT + DESK_ITEMS * sheet + item - 1;
    let slot = &memory.texts[at * DESK_LINE..][..DESK_LINE];
    slot.get(..of_sheet(&memory.numbers, sheet)[item - 1][0]).unwrap_or(&[])
}
