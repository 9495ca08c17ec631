//! How often an item was typed, and by whom it may be: document 02, requests No. 7 and 8.

use super::calls::{entered, of_sheet};
use super::points::value;
use super::Comparison;
use crate::boundary::{Memory, DESK_LINE, DESK_USED_AT};
use crate::desks::OF_SHEET;
use crate::program::{Answer, Call};
use crate::records::named;
use crate::tally::Question;
use reference::desk::{ENTER, LOG_FULL, NOT_OWNER, RECORD_HEAD, SHEETS};
use reference::line::{split, ACCEPTED, WRONG_KIND};
use reference::names::{item, ITEMS};
use std::fmt::Display;

/// The item and the value of a line whose Enter was refused for neither its form nor its name.
fn refused_line(memory: &Memory, bench: usize) -> (usize, &[u8]) {
    let line = &memory.texts[DESK_LINE * bench..][..memory.numbers[bench]];
    let (name, value) = split(line).expect("the line has its form");
    (item(name).expect("the line names an item"), value)
}

impl Comparison<'_> {
    /// "on any desk grown from a fresh one, its records in the used log", and "No. 7 counts its own sheet's
    /// records": what each item holds after an accepted Enter, and what Who tells. Whether that is so.
    pub(super) fn same_as_records(
        &mut self,
        memory: &Memory,
        call: &Call,
        answer: &Answer,
        place: &dyn Display,
    ) -> bool {
        let records = || memory.log.get(..memory.numbers[DESK_USED_AT]).and_then(named);
        let same = match (call, answer) {
            (Call::Key { byte: ENTER, .. }, Answer::Key(ACCEPTED)) => {
                let held = |sheet| of_sheet(&memory.numbers, sheet).iter().map(|held| held[3]);
                let all = |records: [_; SHEETS]| {
                    (0..).zip(records).all(|(sheet, records)| held(sheet).eq(records))
                };
                records().is_some_and(all)
            }
            (Call::Who { sheet, item }, Answer::Who(told)) if told.answer == ACCEPTED => {
                let told = |records: [[usize; ITEMS.len()]; SHEETS]| {
                    records[*sheet as usize][*item as usize - 1] == told.times
                };
                records().is_some_and(told)
            }
            _ => return true,
        };
        self.group().answers += 1;
        if !same {
            self.different(|| format!("{place}, {call:?}: not as many as records in the log"));
        }
        same
    }

    /// Counts an Enter of a sequence by what the item that its line names held before: these numbers.
    pub(super) fn note_entered(
        &mut self,
        before: &[usize],
        memory: &Memory,
        bench: u64,
        answer: u8,
    ) {
        let sheet = bench as usize / OF_SHEET;
        match answer {
            ACCEPTED => {
                let Some(entered) = entered(&memory.numbers, sheet) else { return };
                let filled = of_sheet(before, sheet)[entered][0] > 0;
                self.tally.note(Question::Entered, filled.into());
            }
            WRONG_KIND | LOG_FULL | NOT_OWNER => {
                let (named, _) = refused_line(memory, bench as usize);
                let place = match (of_sheet(before, sheet)[named - 1], answer) {
                    ([0, ..], _) => return,
                    ([_, _, of, _], WRONG_KIND) if of as u64 == bench => 0,
                    (_, LOG_FULL) => 1,
                    (_, WRONG_KIND) => 2,
                    _ => 3,
                };
                self.tally.note(Question::FilledRefused, place);
            }
            _ => {}
        }
    }

    /// Counts an Enter that another's item refused, by the room that its record would have had, and by
    /// what stands there.
    pub(super) fn note_not_owner(&mut self, memory: &Memory, bench: usize) {
        let (named, typed) = refused_line(memory, bench);
        let room = memory.log.len() - memory.numbers[DESK_USED_AT];
        let place = match room as isize - (RECORD_HEAD + typed.len()) as isize {
            1.. => 0,
            0 => 1,
            -1 => 2,
            _ => 3,
        };
        self.tally.note(Question::NotOwnerRoom, place);
        let place = match value(memory, bench / OF_SHEET, named) {
            b"?" => 1,
            b"." => 2,
            _ => 0,
        };
        self.tally.note(Question::NotOwnerValue, place);
    }

    /// Counts how often an item was typed, by Who.
    pub(super) fn note_times(&mut self, times: usize) {
        let place = match times {
            0..=3 => times,
            4..=9 => 4,
            _ => 5,
        };
        self.tally.note(Question::PlayedTimes, place);
    }
}
