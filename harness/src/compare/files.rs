//! The comparison of the sheet written as a CIF file, and its lines typed back.

use super::calls::Both;
use super::{from_seeds, hex, Comparison, Plan};
use crate::boundary::{Filed, DESK_FILE};
use crate::desks::{changed_over, holding, in_memory, State, OF_SHEET};
use crate::files::{self, length, Files};
use crate::memory::held;
use crate::program::Program;
use crate::tally::Question;
use reference::cif_file::{BAD_BLOCK_NAME, BLOCK_LENGTHS, LINE_END, NO_ROOM};
use reference::desk::{
    Desk, Sheet, BENCHES, FRESH, LOG_LIMIT, NOT_SOUND, NO_SUCH_SHEET, RECORD_HEAD,
};
use reference::line::ACCEPTED;
use std::fmt::Display;

/// One sheet for each ten lines, one with every room for each twenty thousand, one file typed back
/// for each five hundred.
const FILES_ONE_IN: u64 = 10;
const ROOMS_ONE_IN: u64 = 20_000;
const TYPED_ONE_IN: u64 = 500;

impl Comparison<'_> {
    pub(super) fn some_files(&mut self, plan: &Plan) {
        self.seeded(plan, from_seeds!("files"), FILES_ONE_IN, Self::generated_files);
        self.every_room("every room for a file", plan.new_seed, 2 * plan.half(ROOMS_ONE_IN));
        self.seeded(plan, from_seeds!("typed back"), TYPED_ONE_IN, Self::files_typed_back);
        self.names("block names, every length", files::names_by_length());
    }

    pub(super) fn listed_files(&mut self) {
        self.names("block names, every byte", files::names_by_byte());
        self.files("subsets of items", files::subsets());
        self.files("single values", files::single_values());
    }

    fn generated_files(&mut self, name: &'static str, seed: u64, count: u64) {
        self.begin(name);
        let mut files = Files::new(seed);
        for number in 0..count {
            let (desk, sheet, block) = (files.desk(), files.sheet(), files.block());
            let rooms = files.rooms(length(&desk, sheet, &block));
            self.written(&desk, sheet, &block, rooms, &format_args!("{name}, desk {number}"));
        }
    }

    fn every_room(&mut self, name: &'static str, seed: u64, count: u64) {
        self.begin(name);
        let mut files = Files::new(!seed);
        for number in 0..count {
            let (desk, block) = (files.desk(), files.name_of(1 + number as usize % 32));
            let (sheet, place) = (number % 2, format_args!("{name}, desk {number}"));
            let rooms = 0..length(&desk, sheet, &block) + 3;
            self.written(&desk, sheet, &block, rooms, &place);
        }
    }

    /// Names on an empty sheet without enough room, and on a filled one with the exact room.
    fn names(&mut self, name: &'static str, blocks: impl Iterator<Item = Vec<u8>>) {
        self.begin(name);
        let (empty, filled) = (holding::<&[u8]>([]), holding([(4, "0.16"), (7, "0.2")]));
        for (block, sheet) in blocks.zip([0, 1].into_iter().cycle()) {
            self.written(&empty, sheet, &block, [length(&empty, sheet, &block) - 1], &name);
            self.written(&filled, sheet, &block, [length(&filled, sheet, &block)], &name);
        }
    }

    /// Files of sheet 0 of each desk, every second one after it was made sheet 1.
    fn files(&mut self, name: &'static str, desks: impl IntoIterator<Item = Desk>) {
        self.begin(name);
        let mut files = Files::new(0);
        for (number, desk) in (1..).zip(desks) {
            let (block, sheet) = (files.name_of(1 + number % 32), (number % 2) as u64);
            let desk = if sheet == 0 { desk } else { changed_over(&desk) };
            let rooms = files.rooms(length(&desk, sheet, &block));
            self.written(&desk, sheet, &block, rooms, &format_args!("{name}, desk {number}"));
        }
    }

    fn files_typed_back(&mut self, name: &'static str, seed: u64, count: u64) {
        self.begin(name);
        let mut files = Files::new(seed.rotate_left(48));
        for number in 0..count {
            let (desk, block) = (files.desk(), files.name_of(1));
            let bench = (number + number / 4) as usize % BENCHES;
            let (sheet, place) = (number % 2, format_args!("{name}, desk {number}"));
            let Some(file) = self.written(&desk, sheet, &block, [DESK_FILE], &place) else {
                continue;
            };
            let logs = [Some(0), Some(1), Some(100), None];
            let log = number as usize % logs.len();
            let typed = &desk.sheets[sheet as usize];
            let fault = typed_back(self.tested, typed, &file, bench, logs[log]);
            self.group().answers += 1;
            self.tally.note(Question::TypedLog, log);
            self.tally.note(Question::TypedBench, bench);
            if let Some(fault) = fault {
                self.different(|| format!("{place}, bench {bench}: {fault}"));
            }
        }
    }

    /// A sheet's file by both programs, in each room. The last one, where nothing was different.
    fn written(
        &mut self,
        desk: &Desk,
        sheet: u64,
        block: &[u8],
        rooms: impl IntoIterator<Item = usize>,
        place: &dyn Display,
    ) -> Option<Vec<u8>> {
        self.group().inputs += 1;
        let both = Both::new(in_memory(desk));
        let mut last = None;
        for room in rooms {
            last = self.file(&both, sheet, block, room, place).map(|(filed, mut out)| {
                self.note_file(desk, sheet, block, room, &filed);
                out.truncate(filed.count);
                out
            });
        }
        last
    }

    /// Counts what one writing came to.
    fn note_file(&mut self, desk: &Desk, sheet: u64, block: &[u8], room: usize, filed: &Filed) {
        let longest = *BLOCK_LENGTHS.end();
        let lengths = [0..=0, 1..=1, 2..=longest - 2, longest - 1..=longest - 1];
        let place = lengths.iter().position(|lengths| lengths.contains(&block.len()));
        let place = place.unwrap_or_else(|| (block.len() - longest).min(2) + lengths.len());
        self.tally.note(Question::BlockName, place);
        if ![ACCEPTED, NO_ROOM].contains(&filed.answer) {
            return;
        }
        let items = &desk.sheets[sheet as usize].items;
        let filled = items.iter().filter(|item| item.len > 0).count();
        self.tally.note(Question::FilledItems, filled);
        let exact = length(desk, sheet, block);
        let place = match room {
            0 => 0,
            _ if room + 1 < exact => 1,
            _ => (room + 3 - exact).min(5),
        };
        self.tally.note(Question::Room, place);
    }
}

/// The place of a file's answer in its list.
pub(super) fn file_place(filed: &Filed) -> usize {
    let answers = [ACCEPTED, NOT_SOUND, NO_ROOM, BAD_BLOCK_NAME, NO_SUCH_SHEET];
    answers.iter().position(|&known| known == filed.answer).unwrap_or(usize::MAX)
}

/// Types the lines of a sheet's file after its first into a fresh desk by one bench. The log has exactly
/// enough room, or so many bytes more, or none is a log of the limit. What is wrong: a call that is
/// not accepted, a value that is not there again on the bench's sheet, or something on another sheet.
fn typed_back(
    program: &dyn Program,
    sheet: &Sheet,
    file: &[u8],
    bench: usize,
    more: Option<usize>,
) -> Option<String> {
    let filled = sheet.items.iter().filter(|item| item.len > 0);
    let records: usize = filled.map(|item| RECORD_HEAD + item.len as usize).sum();
    let mut memory = State::fresh(more.map_or(LOG_LIMIT, |more| records + more), 1).memory();
    let start = 1 + file.iter().position(|&byte| byte == LINE_END)?;
    for (place, &byte) in file.iter().enumerate().skip(start) {
        let answer = program.key(&mut memory, bench as u64, byte);
        if answer != ACCEPTED {
            return Some(format!("key {place}, byte {byte}, gets {answer}"));
        }
    }
    let (again, used) = held(&memory)?;
    let own = bench / OF_SHEET;
    let mut others = (0..).zip(&again.sheets).filter(|(at, _)| *at != own);
    if let Some((at, _)) = others.find(|(_, other)| **other != FRESH.sheets[0]) {
        return Some(format!("sheet {at} is not empty"));
    }
    let again = again.sheets[own].items;
    for (number, (again, typed)) in (1..).zip(again.iter().zip(sheet.items)) {
        if (again.len, again.value) != (typed.len, typed.value) {
            return Some(format!("item {number} is {}", hex(&again.value)));
        }
    }
    (used != records as u64).then(|| format!("used is {used}, not {records}"))
}
