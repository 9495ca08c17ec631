//! Desks with their logs: fresh, and generated sound ones.

use crate::boundary::Memory;
use crate::inputs::Inputs;
use crate::memory::put;
use crate::random::Random;
use crate::sheets::Sheets;
use reference::desk::{
    key, Desk, Item, Line, Sheet, BENCHES, FRESH, LOG_LIMIT, RECORD_HEAD, SHEETS,
};
use reference::line::{split, BYTES, LIMIT};
use reference::names::ITEMS;

/// A desk, its log and the used number, as the reference holds them.
#[derive(Clone)]
pub struct State {
    pub desk: Desk,
    pub log: Vec<u8>,
    pub used: u64,
}

impl State {
    /// A fresh desk and a log whose byte i is (seed + 7 * i) mod 256, none used.
    pub fn fresh(length: usize, seed: u64) -> Self {
        let byte = |at: u64| seed.wrapping_add(at.wrapping_mul(7)) as u8;
        State { desk: FRESH, log: (0..length as u64).map(byte).collect(), used: 0 }
    }

    /// The same in memory.
    pub fn memory(&self) -> Memory {
        let mut memory = Memory::zeros(&self.log);
        put(&mut memory, &self.desk, self.used);
        memory
    }

    pub fn key(&mut self, bench: u64, byte: u8) -> u8 {
        key(&mut self.desk, &mut self.log, &mut self.used, bench, byte)
    }

    /// The lengths of the benches' lines.
    pub fn lengths(&self) -> [usize; BENCHES] {
        self.desk.lines.map(|line| line.len as usize)
    }
}

/// How many benches each sheet has.
pub const OF_SHEET: usize = BENCHES / SHEETS;

/// A desk on whose sheet 0 these values are, none longer than a line, entered in turn by its benches.
pub fn holding<T: AsRef<[u8]>>(values: impl IntoIterator<Item = (usize, T)>) -> Desk {
    let mut desk = FRESH;
    let Sheet { items, count } = &mut desk.sheets[0];
    for (entry, (item, value)) in (1..).zip(values) {
        let (bench, times) = (entry % OF_SHEET as u64, items[item - 1].times + 1);
        items[item - 1] = Item::holding(value.as_ref(), entry, bench, times);
        *count = entry;
    }
    desk
}

/// The same desk with the camps changed over: each has the lines and the sheet of the other.
pub fn changed_over(desk: &Desk) -> Desk {
    let mut other = *desk;
    other.sheets.reverse();
    other.lines.rotate_left(OF_SHEET);
    for item in other.sheets.iter_mut().flat_map(|sheet| &mut sheet.items) {
        if item.len > 0 && item.bench < BENCHES as u64 {
            item.bench = (item.bench + OF_SHEET as u64) % BENCHES as u64;
        }
    }
    other
}

/// The same for the values of all items, of which some are empty.
pub fn sheet<T: AsRef<[u8]>>(values: [T; ITEMS.len()]) -> Desk {
    holding((1..).zip(values).filter(|(_, value)| !value.as_ref().is_empty()))
}

/// A desk in memory, without a log.
pub fn in_memory(desk: &Desk) -> Memory {
    let mut memory = Memory::zeros(&[]);
    put(&mut memory, desk, 0);
    memory
}

/// The longest value that an item takes: with its name and one space a line at the limit.
pub const fn longest_value(item: usize) -> usize {
    LIMIT - ITEMS[item - 1].0.len() - 1
}

pub struct Desks {
    random: Random,
    inputs: Inputs,
    sheets: Sheets,
}

impl Desks {
    pub fn new(seed: u64) -> Self {
        let sheets = Sheets::new(seed.rotate_left(16));
        Desks { random: Random::new(seed), inputs: Inputs::new(!seed), sheets }
    }

    /// A line that Enter often accepts.
    pub fn line(&mut self) -> Vec<u8> {
        if self.random.once_in(4) {
            return self.inputs.line();
        }
        if self.random.once_in(3) {
            return self.inputs.good_line();
        }
        let item = 1 + self.random.below(ITEMS.len());
        let name = ITEMS[item - 1].0.as_bytes();
        let spaces = vec![b' '; self.random.pick(&[1, 1, 1, 1, 2, 5])];
        [name, &spaces, &self.sheets.value(item)].concat()
    }

    /// The same, of bytes that a line may hold and at most as long.
    fn typed_line(&mut self) -> Vec<u8> {
        let mut line = self.line();
        line.retain(|byte| BYTES.contains(byte));
        if self.random.once_in(16) {
            line.resize(LIMIT, b'x');
        }
        line.truncate(LIMIT);
        line
    }

    /// A sound desk, not always one that keys can reach, and a sound log. The room left is often
    /// just what the record of one bench's line takes, or a byte less.
    pub fn sound(&mut self) -> State {
        let mut desk = FRESH;
        desk.sheets = std::array::from_fn(|sheet| self.sound_sheet(sheet));
        let lines: [Vec<u8>; BENCHES] = std::array::from_fn(|_| match self.random.below(4) {
            0 => vec![],
            _ => self.typed_line(),
        });
        desk.lines = std::array::from_fn(|bench| Line::holding(&lines[bench]));
        let extra = self.random.pick(&[0, 0, 1, 7, 90]);
        let count: u64 = desk.sheets.iter().map(|sheet| sheet.count).sum();
        let used = RECORD_HEAD * count as usize + extra;
        let line = &lines[self.random.below(BENCHES)];
        let record = RECORD_HEAD + split(line).map_or(0, |(_, value)| value.len());
        let room = self.random.pick(&[record - 1, record, record, record + 1, 100, 100, 1000]);
        let length = if self.random.once_in(200) { LOG_LIMIT } else { used + room };
        let log = State::fresh(length, self.random.next()).log;
        State { desk, log, used: used as u64 }
    }

    /// A sheet of that number, as it may stand on a sound desk.
    fn sound_sheet(&mut self, number: usize) -> Sheet {
        let Sheet { mut items, .. } = FRESH.sheets[number];
        let count = self.random.pick(&[0, 1, 1, 2, 3, 10, 10, 40, 600]);
        let filled = self.random.pick(&[0, 1, 2, 2]);
        for (place, value) in self.sheets.values().into_iter().enumerate() {
            let short = (1..=longest_value(place + 1)).contains(&value.len());
            if short && count > 0 && self.random.below(3) <= filled {
                let bench = (OF_SHEET * number + self.random.below(OF_SHEET)) as u64;
                let (entry, times) = (self.entry(count), self.entry(count));
                items[place] = Item::holding(&value, entry, bench, times);
            }
        }
        Sheet { items, count }
    }

    /// A desk and a log of random bytes, with random numbers, many of them small.
    pub fn random(&mut self) -> State {
        let mut desk = FRESH;
        for line in &mut desk.lines {
            *line = Line { bytes: self.bytes(), len: self.number() };
        }
        for Sheet { items, count } in &mut desk.sheets {
            for item in items {
                let (value, len, entry) = (self.bytes(), self.number(), self.number());
                *item = Item { value, len, entry, bench: self.number(), times: self.number() };
            }
            *count = self.number();
        }
        let log = (0..self.random.below(300)).map(|_| self.random.byte()).collect();
        State { desk, log, used: self.number() }
    }

    /// A number of 1 to the count, often one of the two.
    fn entry(&mut self, count: u64) -> u64 {
        let any = 1 + self.random.next() % count;
        self.random.pick(&[1, count, any, any])
    }

    fn bytes(&mut self) -> [u8; LIMIT] {
        std::array::from_fn(|_| self.random.byte())
    }

    fn number(&mut self) -> u64 {
        self.random.next() >> self.random.below(64)
    }
}
