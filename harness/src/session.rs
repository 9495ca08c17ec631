//! Generated sessions: four benches at their keys at once, with slips and corrections.

use crate::desks::Desks;
use crate::random::Random;
use reference::desk::{BENCHES, EMPTY, ENTER, ERASE, LOG_LIMIT};
use reference::line::LIMIT;
use std::collections::{HashMap, VecDeque};

/// Bench numbers that are none: neighbours, and what a cut-off number would turn into one.
pub const OTHER_BENCHES: [u64; 14] = [
    4,
    5,
    7,
    8,
    127,
    255,
    256,
    257,
    1 << 16,
    1 << 32,
    (1 << 32) + 1,
    1 << 63,
    u64::MAX - 3,
    u64::MAX,
];

/// Sheet numbers that are none, likewise.
pub const OTHER_SHEETS: [u64; 12] =
    [2, 3, 4, 127, 255, 256, 257, 1 << 16, 1 << 32, (1 << 32) + 1, 1 << 63, u64::MAX];

/// Benches at their keys. What each presses next depends on what its line holds.
pub struct Session {
    random: Random,
    desks: Desks,
    /// The keys that each bench presses next.
    waiting: HashMap<u64, VecDeque<u8>>,
}

impl Session {
    pub fn new(seed: u64) -> Self {
        let (random, desks) = (Random::new(seed), Desks::new(!seed));
        Session { random, desks, waiting: HashMap::new() }
    }

    /// How long the log is; most often a few records long, at times at the limit and beyond.
    pub fn log_length(&mut self) -> usize {
        match self.random.below(200) {
            0 => LOG_LIMIT - self.random.below(3),
            1 => LOG_LIMIT + 1 + self.random.pick(&[0, 0, 1, 4464]),
            2 => self.random.below(LOG_LIMIT),
            3..=9 => 4096,
            10..=19 => 0,
            20..=99 => self.random.below(60),
            _ => self.random.below(600),
        }
    }

    /// How many calls are made.
    pub fn calls(&mut self) -> usize {
        match self.random.below(100) {
            0 => 2000,
            1..=9 => 400,
            _ => 40 + self.random.below(160),
        }
    }

    /// The next call, bench and byte, where the benches' lines have these lengths.
    pub fn call(&mut self, lengths: &[usize]) -> (u64, u8) {
        match self.random.below(60) {
            0 => (self.random.pick(&OTHER_BENCHES), self.any_byte()),
            1 => (self.random.below(BENCHES) as u64, self.any_byte()),
            _ => {
                let bench = self.random.below(BENCHES);
                let held = lengths[bench];
                (bench as u64, self.key(bench as u64, |session| session.next_line(held)))
            }
        }
    }

    pub fn any_byte(&mut self) -> u8 {
        if self.random.once_in(2) {
            self.random.byte()
        } else {
            self.random.pick(&[ENTER, ERASE, EMPTY, b' ', b'~', 31, 127, 9, 11])
        }
    }

    /// Forgets the keys that wait.
    pub fn begin(&mut self) {
        self.waiting.clear();
    }

    /// The next key of one bench; where none waits, the first of a next line.
    pub fn key(&mut self, bench: u64, next_line: impl FnOnce(&mut Self) -> Vec<u8>) -> u8 {
        if self.waiting.get(&bench).is_none_or(VecDeque::is_empty) {
            let line = next_line(self);
            self.waiting.insert(bench, line.into());
        }
        self.waiting.get_mut(&bench).and_then(VecDeque::pop_front).unwrap_or(ENTER)
    }

    /// The keys that clear what is left of a refused line, or correct it, and type the next one.
    pub fn next_line(&mut self, length: usize) -> Vec<u8> {
        let mut keys = match self.random.below(6) {
            _ if length == 0 && !self.random.once_in(10) => vec![],
            0 => vec![ERASE; length + 1],
            1 => return [ERASE, self.random.printable(), ENTER].into(),
            2 => return [ERASE, ERASE, ENTER].into(),
            3 => vec![],
            _ => vec![EMPTY],
        };
        let mut line = self.desks.line();
        if self.random.once_in(40) {
            line.resize(LIMIT + self.random.below(3), b'x');
        }
        if self.random.once_in(12) {
            keys.extend(&line[..self.random.below(line.len() + 1)]);
            keys.push(EMPTY);
        }
        for byte in line {
            if self.random.once_in(40) {
                keys.extend([self.random.printable(), ERASE]);
            }
            keys.push(byte);
        }
        keys.push(ENTER);
        keys
    }
}
