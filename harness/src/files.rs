//! Sheets to be written as files, block names, and rooms for them.

use crate::boundary::DESK_FILE;
use crate::desks::{holding, longest_value, Desks, OF_SHEET};
use crate::inputs::WORDS;
use crate::lists::numbers_at_limits;
use crate::random::Random;
use crate::session::OTHER_SHEETS;
use crate::sheets::fits;
use reference::cif_file::{file, BLOCK_LENGTHS};
use reference::desk::{is_sound, Desk, Item, SHEETS};
use reference::line::BYTES;
use reference::names::{Kind, CATEGORIES, ITEMS};

/// The items of the kind text.
const TEXT_ITEMS: [usize; 3] = [1, 10, 19];
/// The items of which every subset is filled.
const FIRST_ITEMS: usize = 10;
/// The letters, digits and `-` of a block name.
const BLOCK_BYTES: &[u8] = b"abcdefghijklmnopqrstuvwxyzABCDEFGHIJKLMNOPQRSTUVWXYZ0123456789-";
/// Lengths of names in which each byte stands at each place.
const SEARCHED_LENGTHS: [usize; 7] = [1, 2, 3, 8, 31, 32, 33];
/// Lengths of names that would be allowed ones if cut down to 8 or 16 bits.
const CUT_LENGTHS: [usize; 6] = [256, 257, 256 + 32, 65_536, 65_536 + 1, 65_536 + 32];
/// Marks and words that a reader of CIF may take for more than text, where a value may hold them.
const AWKWARD: [&str; 44] = [
    ";", ";x", ";x;", "a;", "loop", "loop_x", "LOOP_1", "stop_x", "Stop_1", "global_x", "GLOBAL_1",
    "data", "data-1", "save", "a_b", "a#b", "a$", "a[1]", "a]", "{", "{a}", "}", "(", "a'b", "a'",
    "a\"b", "a\"", "?x", "??", "..", ".x", "-", "\\", "~", "'?'", "\".\"", "''", "\"\"", "'loop_'",
    "'_a'", "'# a'", "'; a'", "'a\" b'", "\"a' b\"",
];

/// How long the file of a sound desk's sheet would be with this name; of an unsound one, and of a sheet
/// that is not there, there is none.
pub fn length(desk: &Desk, sheet: u64, block: &[u8]) -> usize {
    desk.sheet(sheet).filter(|_| is_sound(desk)).map_or(DESK_FILE, |sheet| file(sheet, block).len())
}

/// Generated desks, names and rooms.
pub struct Files {
    random: Random,
    desks: Desks,
}

impl Files {
    pub fn new(seed: u64) -> Self {
        Files { random: Random::new(seed.rotate_left(24)), desks: Desks::new(seed) }
    }

    /// A sound desk; its text items often hold long or awkward values.
    pub fn desk(&mut self) -> Desk {
        let mut desk = self.desks.sound().desk;
        for (at, sheet) in desk.sheets.iter_mut().enumerate() {
            for item in TEXT_ITEMS {
                if sheet.count > 0 && self.random.once_in(2) {
                    let bench = (OF_SHEET * at + self.random.below(OF_SHEET)) as u64;
                    sheet.items[item - 1] = Item::holding(&self.text(item), sheet.count, bench, 1);
                }
            }
        }
        desk
    }

    /// Any text that a text item takes, bare or quoted, often as long as it may be.
    pub fn text(&mut self, item: usize) -> Vec<u8> {
        let longest = longest_value(item);
        loop {
            let length = match self.random.below(4) {
                0 => longest,
                1 => 1 + self.random.below(longest),
                _ => 1 + self.random.below(8),
            };
            let mut text: Vec<u8> = (0..length).map(|_| self.random.printable()).collect();
            let value = match self.random.below(4) {
                0 => self.random.pick(&AWKWARD).into(),
                1 => text,
                _ => {
                    let mark = self.random.pick(b"'\"");
                    text.retain(|&byte| byte != mark);
                    text.truncate(longest - 2);
                    [&[mark], &text[..], &[mark]].concat()
                }
            };
            if fits(item, &value) {
                return value;
            }
        }
    }

    /// A block name, one in four with a fault.
    pub fn block(&mut self) -> Vec<u8> {
        let length = match self.random.below(8) {
            0 => 1,
            1 => 31,
            2 | 3 => 32,
            _ => 1 + self.random.below(32),
        };
        let mut block = self.name_of(length);
        match self.random.below(16) {
            0 => block[self.random.below(length)] = self.random.byte(),
            1 => block[self.random.below(length)] = self.random.printable(),
            2 => block = self.name_of(33),
            3 => {
                let length = self.random.pick(&[0, 0, 34, 40, 64, 257]);
                block = self.name_of(length);
            }
            _ => {}
        }
        block
    }

    /// So many bytes that a block name may hold.
    pub fn name_of(&mut self, length: usize) -> Vec<u8> {
        (0..length).map(|_| self.random.pick(BLOCK_BYTES)).collect()
    }

    /// Rooms about the length of a file: none, less, one byte less, exact, one byte more and more.
    pub fn rooms(&mut self, length: usize) -> [usize; 6] {
        let much = if self.random.once_in(200) { 70_000 } else { 2 + self.random.below(1500) };
        [0, self.random.below(length), length - 1, length, length + 1, length + much]
    }

    /// A sheet's number, now and then one that is none.
    pub fn sheet(&mut self) -> u64 {
        match self.random.below(8) {
            0 => self.random.pick(&OTHER_SHEETS),
            _ => self.random.below(SHEETS) as u64,
        }
    }
}

/// Every single byte as a name, and every byte at every place of names of some lengths.
pub fn names_by_byte() -> impl Iterator<Item = Vec<u8>> {
    SEARCHED_LENGTHS.into_iter().flat_map(|length| {
        (0..length).flat_map(move |at| {
            (0..=u8::MAX).map(move |byte| {
                let mut name: Vec<u8> = BLOCK_BYTES.iter().copied().cycle().take(length).collect();
                name[at] = byte;
                name
            })
        })
    })
}

/// Names of every length up to beyond twice the longest, of letters, digits and `-`.
pub fn names_by_length() -> impl Iterator<Item = Vec<u8>> {
    let lengths = (0..=2 * BLOCK_LENGTHS.end() + 2).chain(CUT_LENGTHS);
    lengths.flat_map(|length| b"aZ09-".map(|byte| vec![byte; length]))
}

/// Every subset of items 1 to 10 filled, and of the items from 11 on those that stand at its places; and
/// the first items up to each: with short values, with the longest in either quotes, and unassigned. So
/// also every number of filled items.
pub fn subsets() -> impl Iterator<Item = Desk> {
    let sets = [short_values(), longest_values(b'\''), longest_values(b'"'), unassigned_values()];
    sets.into_iter().flat_map(|values| {
        let first = (0..1_usize << FIRST_ITEMS).map(|subset| subset * (1 | 1 << FIRST_ITEMS));
        let others = (0..=ITEMS.len()).map(|filled| !(usize::MAX << filled));
        first.chain(others).map(move |subset| {
            let filled = (1..=ITEMS.len()).filter(|item| subset >> (item - 1) & 1 == 1);
            holding(filled.map(|item| (item, &values[item - 1])))
        })
    })
}

fn short_values() -> [Vec<u8>; ITEMS.len()] {
    ITEMS.map(|(_, kind)| match kind {
        Kind::Text => b"C".into(),
        Kind::Number => b"1".into(),
        Kind::Category => b"FO".into(),
    })
}

/// The longest value of each item's kind, texts and category in this mark.
fn longest_values(mark: u8) -> [Vec<u8>; ITEMS.len()] {
    let quoted = |text: &[u8]| [&[mark], text, &[mark]].concat();
    std::array::from_fn(|place| match ITEMS[place].1 {
        Kind::Text => quoted(&vec![b' '; longest_value(place + 1) - 2]),
        Kind::Number => b"-123.456789(1234)".into(),
        Kind::Category => quoted(b"CM"),
    })
}

fn unassigned_values() -> [Vec<u8>; ITEMS.len()] {
    std::array::from_fn(|place| vec![b"?."[place % 2]])
}

/// Each item alone, with values of every form and length that it takes.
pub fn single_values() -> Vec<Desk> {
    let numbers = numbers_at_limits();
    let mut desks = vec![];
    for (item, (_, kind)) in (1..).zip(ITEMS) {
        let values = match kind {
            Kind::Text => text_values(item),
            Kind::Number => numbers.iter().skip(item).step_by(ITEMS.len()).cloned().collect(),
            Kind::Category => CATEGORIES.iter().flat_map(|name| quotes(name.as_bytes())).collect(),
        };
        let values = values.into_iter().chain([b"?".into(), b".".into()]);
        desks
            .extend(values.filter(|value| fits(item, value)).map(|value| holding([(item, value)])));
    }
    desks
}

/// Values of a text item: of each length, of each byte, and those that readers may take for more.
pub fn text_values(item: usize) -> Vec<Vec<u8>> {
    let lengths = (0..=longest_value(item)).flat_map(|length| quotes(&vec![b'x'; length]));
    let bytes = BYTES.flat_map(|byte| quotes(&[byte]).into_iter().chain(quotes(&[b'x', byte])));
    let words = WORDS.iter().chain(&AWKWARD).map(|word| word.as_bytes().to_vec());
    let fit = |value: &Vec<u8>| value.len() <= longest_value(item) && fits(item, value);
    lengths.chain(bytes).chain(words).filter(fit).collect()
}

/// A text bare and in either quotes.
fn quotes(text: &[u8]) -> [Vec<u8>; 3] {
    [text.into(), [b"'", text, b"'"].concat(), [b"\"", text, b"\""].concat()]
}
