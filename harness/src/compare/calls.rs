//! One call of desk.h by both programs: the answers and all that was lent held equal.

use super::files::file_place;
use super::{hex, Comparison};
use crate::boundary::{
    Filed, Memory, Reported, Told, DESK_COUNT_AT, DESK_ITEMS, DESK_ITEMS_AT, DESK_ITEM_NUMBERS,
    DESK_SHEET_NUMBERS,
};
use crate::desks::OF_SHEET;
use crate::program::{Answer, Call};
use crate::tally::Question;
use reference::desk::{
    EMPTY, ENTER, ERASE, NOT_OWNER, NOT_SOUND, NO_BENCH, NO_SUCH_ITEM, NO_SUCH_SHEET,
};
use reference::line::ACCEPTED;
use reference::powder::NO_SUCH_PROFILE;
use std::fmt::Display;

/// Bytes after the lent ones, which nobody lends.
const GUARD: usize = 16;

/// The same memory in the hands of both programs.
pub(super) struct Both {
    pub tested: Memory,
    pub expected: Memory,
}

impl Both {
    pub fn new(memory: Memory) -> Self {
        Both { tested: memory.clone(), expected: memory }
    }
}

impl Comparison<'_> {
    /// A key or a question. The answer, where nothing was different.
    pub(super) fn call(
        &mut self,
        both: &mut Both,
        call: &Call,
        place: &dyn Display,
    ) -> Option<Answer> {
        let line = line_length(&both.tested, call);
        let tested = self.tested.call(&mut both.tested, call);
        let expected = self.expected.call(&mut both.expected, call);
        if !self.equal(both, &tested, &expected, &format_args!("{place}, {call:?}")) {
            return None;
        }
        self.note_call(&both.tested, call, &tested, line);
        Some(tested)
    }

    /// The memory made a fresh desk. Whether nothing was different.
    pub(super) fn fresh(&mut self, both: &mut Both, place: &dyn Display) -> bool {
        let tested = self.tested.fresh(&mut both.tested);
        let expected = self.expected.fresh(&mut both.expected);
        self.tally.note(Question::Fresh, asked_place(tested));
        self.equal(both, &tested, &expected, &format_args!("{place}, fresh"))
    }

    /// A sheet's file on so many lent bytes. What was written, where nothing was different.
    pub(super) fn file(
        &mut self,
        both: &Both,
        sheet: u64,
        block: &[u8],
        room: usize,
        place: &dyn Display,
    ) -> Option<(Filed, Vec<u8>)> {
        let (mut tested_out, mut expected_out) = (pattern(room), pattern(room));
        let tested = self.tested.file(&both.tested, sheet, block, &mut tested_out[..room]);
        let expected = self.expected.file(&both.expected, sheet, block, &mut expected_out[..room]);
        let block = hex(block);
        let place = format_args!("{place}, file, sheet {sheet}, block name {block}, {room} bytes");
        if !self.equal(both, &tested, &expected, &place) {
            return None;
        }
        if let Some(what) = first("out", &tested_out, &expected_out) {
            self.different(|| format!("{place}: {what}"));
            return None;
        }
        self.tally.note(Question::File, file_place(&tested));
        self.note_sheet(2, sheet, tested.answer);
        Some((tested, tested_out))
    }

    /// Holds two answers and both memories equal.
    pub(super) fn equal<T: PartialEq + std::fmt::Debug>(
        &mut self,
        both: &Both,
        tested: &T,
        expected: &T,
        place: &dyn Display,
    ) -> bool {
        self.group().answers += 1;
        let same = tested == expected && both.tested == both.expected;
        if !same {
            let what = || difference(&both.tested, &both.expected);
            let answers = || format!("{tested:?}, reference {expected:?}");
            self.different(|| {
                let what = if tested == expected { what() } else { answers() };
                format!("{place}: {what}")
            });
        }
        same
    }

    /// Counts what one call came to; its line had this length.
    fn note_call(&mut self, after: &Memory, call: &Call, answer: &Answer, line: usize) {
        match (*call, answer) {
            (Call::Key { bench, byte }, Answer::Key(answer)) => {
                self.tally.note(Question::Key, (*answer).into());
                match *answer {
                    ACCEPTED => self.note_accepted(after, bench as usize, byte, line),
                    NOT_OWNER => self.note_not_owner(after, bench as usize),
                    _ => {}
                }
            }
            (Call::Report { sheet, profile }, Answer::Report(Reported { answer, rows })) => {
                self.tally.note(Question::Report, asked_place(*answer));
                self.note_sheet(0, sheet, *answer);
                if *answer == ACCEPTED {
                    self.tally.note_rows(profile, rows);
                }
            }
            (Call::Who { sheet, .. }, Answer::Who(told)) => {
                self.tally.note(Question::Who, who_place(told));
                self.note_sheet(1, sheet, told.answer);
            }
            _ => {}
        }
    }

    /// Counts a question that was answered, 0 Report, 1 Who or 2 a file, by its sheet.
    fn note_sheet(&mut self, question: usize, sheet: u64, answer: u8) {
        if answer == ACCEPTED {
            self.tally.note(Question::AskedSheet, 2 * question + sheet as usize);
        }
    }

    fn note_accepted(&mut self, after: &Memory, bench: usize, byte: u8, line: usize) {
        let accepted = match byte {
            ERASE => 1 + usize::from(line == 0),
            EMPTY => 3,
            ENTER => 4,
            _ => 0,
        };
        self.tally.note(Question::KeyAccepted, accepted);
        if byte == ENTER {
            self.tally.note(Question::EntryBench, bench);
            let sheet = bench / OF_SHEET;
            let item = entered(&after.numbers, sheet);
            self.tally.note(Question::EntryItem, item.unwrap_or(usize::MAX));
            if let Some(place) = item {
                self.note_entry(after, sheet, place + 1);
                let other = of_sheet(&after.numbers, 1 - sheet)[place][0] > 0;
                self.tally.note(Question::OnOtherSheet, other.into());
            }
        }
    }
}

/// The numbers of each item of a sheet: length, entry number, bench and how many entries named it.
pub(super) fn of_sheet(numbers: &[usize], sheet: usize) -> &[[usize; DESK_ITEM_NUMBERS]] {
    &numbers[DESK_ITEMS_AT + DESK_SHEET_NUMBERS * sheet..].as_chunks().0[..DESK_ITEMS]
}

/// The place of the item of a sheet's last entry.
pub(super) fn entered(numbers: &[usize], sheet: usize) -> Option<usize> {
    let count = numbers[DESK_COUNT_AT + DESK_SHEET_NUMBERS * sheet];
    of_sheet(numbers, sheet).iter().position(|held| held[1] == count)
}

/// Lent bytes and those after them, which nobody lends: such as stand in no file.
fn pattern(room: usize) -> Vec<u8> {
    (0..room + GUARD).map(|at| 128 | (room + 7 * at) as u8).collect()
}

/// The length of the line that a key goes to.
fn line_length(memory: &Memory, call: &Call) -> usize {
    match *call {
        Call::Key { bench, .. } => usize::try_from(bench)
            .ok()
            .and_then(|bench| memory.numbers.get(bench))
            .map_or(0, |n| *n),
        _ => 0,
    }
}

/// The place of an answer that is 0, 2, 12 or 21 in its list.
fn asked_place(answer: u8) -> usize {
    match answer {
        ACCEPTED => 0,
        NOT_SOUND => 1,
        NO_SUCH_SHEET => 2,
        NO_SUCH_PROFILE => 3,
        _ => usize::MAX,
    }
}

/// The place of an answer of Who in its list.
pub(super) fn who_place(told: &Told) -> usize {
    match (told.answer, told.bench) {
        (ACCEPTED, NO_BENCH) => 4,
        (ACCEPTED, bench) => bench.into(),
        (NO_SUCH_ITEM, _) => 5,
        (NO_SUCH_SHEET, _) => 6,
        (NOT_SOUND, _) => 7,
        _ => usize::MAX,
    }
}

/// What two memories differ in, the first of it.
pub(super) fn difference(tested: &Memory, expected: &Memory) -> String {
    first("texts", &tested.texts, &expected.texts)
        .or_else(|| first("numbers", &tested.numbers, &expected.numbers))
        .or_else(|| first("the log", &tested.log, &expected.log))
        .unwrap_or_default()
}

fn first<T: PartialEq + Display>(what: &str, tested: &[T], expected: &[T]) -> Option<String> {
    let at = tested.iter().zip(expected).position(|(tested, expected)| tested != expected)?;
    Some(format!("place {at} of {what} is {}, reference {}", tested[at], expected[at]))
}
