//! Generated lines and values: well formed, nearly so, and random.

use crate::points::writings;
use crate::random::Random;
use reference::grade::bounds;
use reference::line::LIMIT;
use reference::names::{Kind, CATEGORIES, ITEMS};
use reference::number::{DIGITS, PLACES, UNCERTAINTY_DIGITS};

/// The rows that judge one value.
pub const ROWS: [u64; 3] = [6, 8, 10];
/// The longest random text.
pub const LONGEST: usize = 300;
/// The bytes that decide about numbers, quotes and bare values, and neighbours of theirs.
pub const TELLING: &[u8] = b"0159+-.(),e?'\"_#$[] aD`~/:\x1f\x7f";
/// Reserved words, and words close to them.
pub const WORDS: [&str; 12] = [
    "data_", "save_", "loop_", "stop_", "global_", "data_x", "save_1", "loop_x", "stop_1",
    "global_0", "data", "loop",
];

pub struct Inputs {
    random: Random,
}

impl Inputs {
    pub fn new(seed: u64) -> Self {
        Inputs { random: Random::new(seed) }
    }

    /// One line to ask about.
    pub fn line(&mut self) -> Vec<u8> {
        match self.random.below(10) {
            0..=3 => self.good_line(),
            4..=6 => self.damaged(Self::good_line),
            7 => self.sized_line(),
            8 => self.random_line(Random::printable),
            _ => self.random_line(Random::byte),
        }
    }

    /// One typed value to ask about.
    pub fn value(&mut self) -> Vec<u8> {
        match self.random.below(10) {
            0..=3 => self.good_value(),
            4..=6 => self.damaged(Self::good_value),
            7 => self.random_text(|random| random.pick(TELLING)),
            8 => self.random_text(Random::printable),
            _ => self.random_text(Random::byte),
        }
    }

    pub fn row(&mut self) -> u64 {
        if self.random.once_in(4) {
            return self.random.next() >> self.random.below(64);
        }
        self.random.pick(&ROWS)
    }

    pub fn good_line(&mut self) -> Vec<u8> {
        let (name, kind) = self.random.pick(&ITEMS);
        let mut line = self.recased(name);
        let spaces = self.random.pick(&[1, 1, 1, 2, 3, 9]);
        line.resize(line.len() + spaces, b' ');
        line.extend(self.value_of(kind));
        line
    }

    /// A line of an exact length, most often about the limit.
    fn sized_line(&mut self) -> Vec<u8> {
        let length = match self.random.below(4) {
            0 => self.random.below(LONGEST + 1),
            at => LIMIT + at - 2,
        };
        let name = self.random.pick(&ITEMS).0.as_bytes();
        let value = self.good_value();
        let room = length.saturating_sub(name.len() + value.len());
        let (spaces, letters) =
            if self.random.once_in(2) { (room, 0) } else { (1, room.saturating_sub(1)) };
        let mut line = [name, &vec![b' '; spaces], &vec![b'x'; letters], &value].concat();
        line.truncate(length);
        line
    }

    fn random_line(&mut self, byte: fn(&mut Random) -> u8) -> Vec<u8> {
        let mut line = self.random_text(byte);
        if self.random.once_in(2) {
            line.splice(..0, *b"_a 1");
        }
        line
    }

    fn random_text(&mut self, byte: fn(&mut Random) -> u8) -> Vec<u8> {
        let longest = self.random.pick(&[4, 8, 12, 12, LIMIT + 1, LONGEST]);
        (0..self.random.below(longest + 1)).map(|_| byte(&mut self.random)).collect()
    }

    fn good_value(&mut self) -> Vec<u8> {
        let kind = self.random.pick(&[
            Kind::Number,
            Kind::Number,
            Kind::Number,
            Kind::Category,
            Kind::Text,
        ]);
        self.value_of(kind)
    }

    /// Most often a value of the kind.
    fn value_of(&mut self, kind: Kind) -> Vec<u8> {
        if self.random.once_in(12) {
            return vec![self.random.pick(b"?.")];
        }
        let other = self.random.pick(&[Kind::Number, Kind::Category, Kind::Text]);
        match if self.random.once_in(6) { other } else { kind } {
            Kind::Number if self.random.once_in(2) => self.number_near_limits(),
            Kind::Number => {
                let row = self.random.pick(&ROWS);
                self.number_near_bound(row)
            }
            Kind::Category => self.category(),
            Kind::Text => self.text(),
        }
    }

    pub fn category(&mut self) -> Vec<u8> {
        let name = self.random.pick(&CATEGORIES);
        match self.random.below(5) {
            0 => self.recased(name),
            1 => self.quoted(name.as_bytes()),
            _ => name.into(),
        }
    }

    fn text(&mut self) -> Vec<u8> {
        match self.random.below(4) {
            0 => {
                let word = self.random.pick(&WORDS);
                self.recased(word)
            }
            1 => {
                let text = self.random_text(|random| random.pick(b"CHO12 >\\s(I)"));
                self.quoted(&text)
            }
            2 => {
                let text = self.value();
                self.quoted(&text)
            }
            _ => (0..=self.random.below(9)).map(|_| self.random.pick(b"CHONdq129>^(?.")).collect(),
        }
    }

    pub fn quoted(&mut self, text: &[u8]) -> Vec<u8> {
        let mark = self.random.pick(b"'\"");
        [&[mark], text, &[mark]].concat()
    }

    /// A number with few digits, or as many as are allowed, or one more.
    pub fn number_near_limits(&mut self) -> Vec<u8> {
        let total = self.random.pick(&[1, 2, 3, DIGITS - 1, DIGITS, DIGITS + 1]);
        let places = self.random.pick(&[0, 0, 1, 2, PLACES - 1, PLACES, PLACES + 1]);
        let point = places > 0 || self.random.once_in(4);
        let mut number = self.sign();
        number.extend(self.digits(total.saturating_sub(places)));
        number.extend(point.then_some(b'.'));
        number.extend(self.digits(places));
        number.extend(self.uncertainty());
        number
    }

    /// A bound of a row, or one unit in the last place beside it.
    pub fn number_near_bound(&mut self, row: u64) -> Vec<u8> {
        let bound = self.random.pick(&bounds(row).expect("each row has bounds"));
        let places = 1 + self.random.below(PLACES);
        let unit = 10_i64.pow((PLACES - places) as u32);
        let mut number = self.sign();
        number.extend(self.random.pick(&["", "", "", "0", "00"]).bytes());
        let near = decimal(bound + unit * self.random.pick(&[-1, 0, 1]), places);
        number.extend(self.written(&near).bytes());
        number.extend(self.uncertainty());
        number
    }

    /// A decimal, now and then with its point first or last.
    pub fn written(&mut self, decimal: &str) -> String {
        let all = writings(decimal);
        let at = if self.random.once_in(4) { self.random.below(all.len()) } else { 0 };
        all[at].clone()
    }

    fn sign(&mut self) -> Vec<u8> {
        self.random.pick(&["", "", "-", "+"]).into()
    }

    fn digits(&mut self, count: usize) -> Vec<u8> {
        let from: &[u8] = self.random.pick(&[b"0123456789", b"9", b"0", b"01"]);
        (0..count).map(|_| self.random.pick(from)).collect()
    }

    pub fn uncertainty(&mut self) -> Vec<u8> {
        if !self.random.once_in(3) {
            return vec![];
        }
        let count = self.random.pick(&[
            0,
            1,
            1,
            2,
            UNCERTAINTY_DIGITS - 1,
            UNCERTAINTY_DIGITS,
            UNCERTAINTY_DIGITS + 1,
        ]);
        [b"(", &self.digits(count)[..], b")"].concat()
    }

    fn recased(&mut self, word: &str) -> Vec<u8> {
        match self.random.below(4) {
            0 => word.to_ascii_uppercase().into(),
            1 => word.into(),
            _ => word.bytes().map(|byte| self.recased_byte(byte)).collect(),
        }
    }

    fn recased_byte(&mut self, byte: u8) -> u8 {
        if self.random.once_in(2) {
            byte.to_ascii_uppercase()
        } else {
            byte.to_ascii_lowercase()
        }
    }

    fn damaged(&mut self, source: fn(&mut Self) -> Vec<u8>) -> Vec<u8> {
        let mut text = source(self);
        for _ in 0..self.random.pick(&[1, 1, 1, 2]) {
            self.damage(&mut text);
        }
        text
    }

    /// One byte changed, inserted, removed or doubled.
    pub fn damage(&mut self, text: &mut Vec<u8>) {
        let byte = self.other_byte();
        if text.is_empty() {
            return text.push(byte);
        }
        let at = self.random.below(text.len());
        match self.random.below(6) {
            0 => text[at] = byte,
            1 => text[at] ^= 1 << self.random.below(8),
            2 => text.insert(at, byte),
            3 => text.push(byte),
            4 => drop(text.remove(at)),
            _ => text.insert(at, text[at]),
        }
    }

    fn other_byte(&mut self) -> u8 {
        match self.random.below(3) {
            0 => self.random.byte(),
            1 => self.random.printable(),
            _ => self.random.pick(TELLING),
        }
    }
}

/// Millionths without their sign, written with so many places; further places are cut off.
pub fn decimal(millionths: i64, places: usize) -> String {
    let (size, scale) = (millionths.abs(), 10_i64.pow(PLACES as u32));
    let mut text = format!("{}.{:0width$}", size / scale, size % scale, width = PLACES);
    text.truncate(text.len() - PLACES + places);
    text.trim_end_matches('.').into()
}

/// A number as many units in the last of so many places away from the given one.
pub fn near(millionths: i64, places: usize, units: i64) -> i64 {
    let unit = 10_i64.pow((PLACES - places) as u32);
    millionths.div_euclid(unit) * unit + units * unit
}
