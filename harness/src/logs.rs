//! Logs to be read: generated, grown, damaged, of before requests No. 6 to 9, and ways to cut them.

use crate::boundary::{Memory, Stick};
use crate::broken::{each_way, DESK_WAYS, WAYS};
use crate::desks::{longest_value, Desks, State, OF_SHEET};
use crate::files::Files;
use crate::memory::{held, put, put_reader};
use crate::random::Random;
use crate::sheets::Sheets;
use reference::desk::{record, BENCHES, LOG_LIMIT, RECORD_HEAD, SHEETS};
use reference::line::{ACCEPTED, BYTES, LIMIT};
use reference::names::{passes, Kind, ITEMS};
use reference::reader::{Reader, BAD_SHAPE, END_INSIDE, FOREIGN_OVERWRITE, LENGTHS};
use reference::value::form;

/// How a reading may stand, in turn: going on, or over with an answer.
const OVER: [Option<u8>; 6] =
    [None, Some(ACCEPTED), Some(BAD_SHAPE), None, Some(FOREIGN_OVERWRITE), Some(END_INSIDE)];
/// What a record can lack.
pub const FAULTS: [&str; 9] =
    ["length", "kind", "bench", "item", "form", "item's kind", "byte", "line", "limit"];

pub struct Logs {
    random: Random,
    sheets: Sheets,
    files: Files,
    desks: Desks,
}

impl Logs {
    pub fn new(seed: u64) -> Self {
        Logs {
            random: Random::new(seed.rotate_left(12)),
            sheets: Sheets::new(seed),
            files: Files::new(seed),
            desks: Desks::new(seed.rotate_left(20)),
        }
    }

    /// A log of up to so many records, now and then damaged, cut off or with foreign overwrites.
    pub fn log(&mut self, most: usize) -> Vec<u8> {
        let mut log = self.records(most);
        match self.random.below(8) {
            0 | 1 => self.damage(&mut log),
            2 => log.truncate(self.random.below(log.len() + 1)),
            3 => {
                let at = self.random.below(log.len() + 1);
                let byte = self.random.byte();
                log.insert(at, byte);
            }
            _ => {}
        }
        log
    }

    /// Whole records, in which each item has one owner of each sheet; of every fourth log not.
    pub fn records(&mut self, most: usize) -> Vec<u8> {
        let owners: [[usize; ITEMS.len()]; SHEETS] =
            std::array::from_fn(|_| std::array::from_fn(|_| self.random.below(OF_SHEET)));
        let foreign = self.random.pick(&[usize::MAX, usize::MAX, usize::MAX, 6]);
        let mut log = vec![];
        for _ in 0..self.random.below(most + 1) {
            let (sheet, item) = (self.random.below(SHEETS), 1 + self.random.below(ITEMS.len()));
            let own = owners[sheet][item - 1];
            let bench = if self.random.once_in(foreign) { OF_SHEET - 1 - own } else { own };
            log.extend(record((OF_SHEET * sheet + bench) as u8, item as u8, &self.value(item)));
        }
        log
    }

    /// A value that may be typed for an item.
    fn value(&mut self, item: usize) -> Vec<u8> {
        loop {
            let value = match ITEMS[item - 1].1 {
                Kind::Text if self.random.once_in(3) => self.files.text(item),
                _ => self.sheets.value(item),
            };
            if value.len() <= longest_value(item) {
                return value;
            }
        }
    }

    /// One or two bytes changed.
    fn damage(&mut self, log: &mut [u8]) {
        let no_item = ITEMS.len() as u8 + 1;
        let telling = [0, 1, 2, 3, 4, 6, 7, no_item, 206, 207, b' ', b'\'', 127];
        for _ in 0..self.random.pick(&[1, 1, 2]) {
            if !log.is_empty() {
                let at = self.random.below(log.len());
                log[at] = match self.random.below(3) {
                    0 => self.random.byte(),
                    1 => log[at] ^ 1 << self.random.below(8),
                    _ => self.random.pick(&telling),
                };
            }
        }
    }

    /// A log about as long as one may be: short records up to near the limit, then one that ends so many
    /// bytes before it, or beyond.
    pub fn about_limit(&mut self, past: isize) -> Vec<u8> {
        let (bench, last) = (self.random.below(BENCHES) as u8, 8 + self.random.below(90));
        let end = (LOG_LIMIT as isize + past) as usize;
        let mut log = vec![];
        while log.len() + last + 2 * LENGTHS.start() <= end {
            let most = (end - log.len() - last - LENGTHS.start()).min(60);
            let length = LENGTHS.start() + self.random.below(most - LENGTHS.start() + 1);
            log.extend(record(bench, 1, &vec![b'C'; length - RECORD_HEAD]));
        }
        log.extend(record(bench, 1, &vec![b'N'; end - log.len() - RECORD_HEAD]));
        log
    }

    /// A log of the limit: as many records of all items as it takes, none of them refused.
    pub fn longest(&mut self) -> Vec<u8> {
        let owners: [[usize; ITEMS.len()]; SHEETS] =
            std::array::from_fn(|_| std::array::from_fn(|_| self.random.below(OF_SHEET)));
        let (first, last) = (*LENGTHS.start(), longest_value(1) + RECORD_HEAD);
        let mut log = vec![];
        while LOG_LIMIT - log.len() > last {
            let (sheet, item) = (self.random.below(SHEETS), 1 + self.random.below(ITEMS.len()));
            let bench = (OF_SHEET * sheet + owners[sheet][item - 1]) as u8;
            let record = record(bench, item as u8, &self.value(item));
            let left = LOG_LIMIT - log.len() - record.len().min(LOG_LIMIT - log.len());
            if left == 0 || left >= first {
                log.extend(record);
            }
        }
        if log.len() < LOG_LIMIT {
            let value = vec![b'C'; LOG_LIMIT - log.len() - RECORD_HEAD];
            log.extend(record(owners[0][0] as u8, 1, &value));
        }
        log
    }

    /// The log cut into parts, some of them empty.
    pub fn parts<'a>(&mut self, log: &'a [u8]) -> Vec<&'a [u8]> {
        let most = self.random.pick(&[1, 3, 8, 40, 300, LOG_LIMIT]);
        let (mut parts, mut left) = (vec![], log);
        while !left.is_empty() {
            if self.random.once_in(6) {
                parts.push(&left[..0]);
            }
            let (part, rest) = left.split_at(left.len().min(1 + self.random.below(most)));
            parts.push(part);
            left = rest;
        }
        parts
    }

    /// A reader in the middle of a log, on a sound desk. By its number it is over or not; one that is over
    /// has kept bytes too.
    fn reader(&mut self, number: u64) -> (State, Stick) {
        let (State { desk, used, .. }, mut stick) = (self.desks.sound(), Stick::zeros());
        let next = record(3, 4, b"0.123456");
        let kept = &next[..self.random.below(next.len())];
        let over = OVER[number as usize % OVER.len()];
        let reader = Reader { desk, start: used, kept: kept.to_vec(), over };
        put_reader(&mut State::fresh(0, 0).memory(), &mut stick, &reader);
        (State { desk, log: vec![], used }, stick)
    }

    /// Such a reader that has kept the first bytes of a log, with anything behind them, and the log's rest.
    pub fn begun(&mut self, number: u64) -> (Memory, Stick, Vec<u8>) {
        let (state, mut stick) = self.reader(number);
        let (log, most) = (self.log(6), self.random.below(30));
        let kept = log.len().min(most);
        let kept = (0..=kept).rev().find(|&end| is_undecided(&log[..end])).unwrap_or(0);
        stick.kept.iter_mut().for_each(|byte| *byte = self.random.byte());
        stick.kept[..kept].copy_from_slice(&log[..kept]);
        stick.state[0] = kept;
        (state.memory(), stick, log[kept..].to_vec())
    }
}

/// Whether the first bytes of a record do not decide it.
fn is_undecided(bytes: &[u8]) -> bool {
    let [low, high, ..] = *bytes else { return true };
    let length = usize::from(u16::from_le_bytes([low, high]));
    bytes.len() < RECORD_HEAD || LENGTHS.contains(&length) && bytes.len() < length
}

/// What is wrong with the record at a place of a log that is refused with 18.
pub fn fault(log: &[u8], place: usize) -> usize {
    let bytes = &log[place..];
    let length = usize::from(u16::from_le_bytes([bytes[0], bytes[1]]));
    if !LENGTHS.contains(&length) {
        return 0;
    }
    let (item, value) = (usize::from(bytes[5]), &bytes[RECORD_HEAD..length]);
    let known = (1..=ITEMS.len()).contains(&item);
    let tests = [
        bytes[2..4] == [1, 0],
        usize::from(bytes[4]) < BENCHES,
        known,
        form(value).is_some(),
        known && passes(item, value),
        value.iter().all(|byte| BYTES.contains(byte)),
        known && ITEMS[item - 1].0.len() + 1 + value.len() <= LIMIT,
        place + length <= LOG_LIMIT,
    ];
    1 + tests.iter().position(|holds| !holds).unwrap_or(FAULTS.len())
}

/// What each byte of a log is changed to.
pub const OTHER_BYTES: [u8; 8] = [0, 1, BENCHES as u8, 7, ITEMS.len() as u8 + 1, b'x', 0x80, 0xff];

type Break = fn(&mut Memory, &mut Stick, &mut Random);

/// Ways to break a reader beside those that break its desk, which are told first.
pub const READER_WAYS: [(&str, Break); 15] = [
    ("start below six times the counts", |memory, _, _| {
        let (desk, _) = held(memory).expect("it is a desk");
        let count: u64 = desk.sheets.iter().map(|sheet| sheet.count).sum();
        put(memory, &desk, RECORD_HEAD as u64 * count - 1);
    }),
    ("start beyond the limit", |memory, _, random| {
        let (desk, _) = held(memory).expect("it is a desk");
        let start = random.pick(&[LOG_LIMIT as u64 + 1, 1 << 32, 1 << 63, u64::MAX]);
        put(memory, &desk, start);
    }),
    ("kept bytes with a bad length", |_, stick, random| {
        let length: u16 = random.pick(&[0, 1, 6, 207, 256, 263, 0xffff]);
        stick.kept[..2].copy_from_slice(&length.to_le_bytes());
        stick.state[0] = RECORD_HEAD + random.below(20);
    }),
    ("kept bytes of a whole record", |_, stick, _| keep(stick, &record(0, 4, b"0.16"), 0)),
    ("kept bytes beyond a record", |_, stick, random| {
        keep(stick, &record(0, 4, b"0.16"), 1 + random.below(9));
    }),
    ("kept bytes of a record that is none", |_, stick, random| {
        let mut record = record(0, 4, b"0.16");
        record[random.pick(&[2, 3, 4, 5, 6])] = 99;
        keep(stick, &record, 0);
    }),
    ("the longest record kept", |_, stick, _| {
        keep(stick, &record(0, 1, &[b'x'; LIMIT]), 0);
    }),
    ("more bytes kept than there are", |_, stick, random| {
        keep(
            stick,
            &record(0, 1, &[b'x'; LIMIT]),
            random.pick(&[1, 50, 1 << 32, usize::MAX - 206]),
        );
    }),
    ("a reading that stands nowhere", |_, stick, random| {
        stick.state[1] = random.pick(&[2, 3, 17, 21, 255, 256 + 18, 1 << 32, usize::MAX]);
    }),
    ("kept one byte short", |_, stick, _| resize(&mut stick.kept, -1)),
    ("kept one byte long", |_, stick, _| resize(&mut stick.kept, 1)),
    ("kept of none", |_, stick, _| stick.kept = [].into()),
    ("state one number short", |_, stick, _| resize(&mut stick.state, -1)),
    ("state one number long", |_, stick, _| resize(&mut stick.state, 1)),
    ("numbers one short", |memory, _, _| resize(&mut memory.numbers, -1)),
];

/// How many ways there are to break a reader.
pub const BROKEN: usize = DESK_WAYS + READER_WAYS.len();

/// The name of a way.
pub fn way(at: usize) -> &'static str {
    if at < DESK_WAYS {
        WAYS[at].0
    } else {
        READER_WAYS[at - DESK_WAYS].0
    }
}

/// So many readers, each broken in every way.
pub fn each_broken_reader(
    seed: u64,
    count: u64,
    mut given: impl FnMut(u64, usize, Memory, Stick, &mut Random),
) {
    let (mut logs, mut random) = (Logs::new(seed), Random::new(!seed));
    for number in 0..count {
        each_way(&mut Desks::new(seed.wrapping_add(number)), &mut random, |way, state, random| {
            if way < DESK_WAYS {
                let (_, stick) = logs.reader(seed.wrapping_add(number + way as u64));
                given(number, way, state.memory(), stick, random);
            }
        });
        for (at, (_, change)) in (DESK_WAYS..).zip(&READER_WAYS) {
            let (state, mut stick) = loop {
                let (state, stick) = logs.reader(seed.wrapping_add(number + at as u64));
                if state.desk.sheets.iter().any(|sheet| sheet.count > 0) {
                    break (state, stick);
                }
            };
            let mut memory = state.memory();
            change(&mut memory, &mut stick, &mut random);
            given(number, at, memory, stick, &mut random);
        }
    }
}

/// Keeps a record and so many bytes that were there after it.
fn keep(stick: &mut Stick, record: &[u8], more: usize) {
    stick.kept[..record.len()].copy_from_slice(record);
    stick.state[0] = record.len() + more;
}

/// A run longer or shorter by so much.
fn resize<T: Clone + Default>(run: &mut Box<[T]>, by: isize) {
    let mut other = run.to_vec();
    other.resize((run.len() as isize + by) as usize, T::default());
    *run = other.into();
}

/// The refusals of a log, in the order of their list.
pub const REFUSALS: [u8; 3] = [BAD_SHAPE, FOREIGN_OVERWRITE, END_INSIDE];
