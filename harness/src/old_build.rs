//! Desks as earlier builds saved them: document 02, request No. 6, "A desk saved by the old build is
//! not taken over." Lines had 80 bytes then; up to request No. 7 an item had three numbers, up to No. 9
//! there was one sheet, up to No. 11 a sheet had ten items and up to No. 12 eighteen.

use crate::boundary::{Memory, DESK_BENCHES, DESK_ITEM_NUMBERS, DESK_LINE, DESK_SHEETS};
use crate::desks::{Desks, State};
use crate::memory::put;
use reference::desk::{Item, Sheet, FRESH};
use reference::names::ITEMS;
use std::array::from_fn;

/// The bytes of the longest line, and of a slot of texts, in the build before No. 6.
pub const OLD_LIMIT: usize = 80;
/// The numbers of an item before No. 7: length, entry number and bench.
const OLD_ITEM_NUMBERS: usize = 3;
/// How many items a sheet had before No. 11.
const OLD_ITEMS: usize = 10;

/// An earlier build: how many bytes a line and how many numbers an item had, how many items there were on
/// how many sheets.
#[derive(Clone, Copy, PartialEq, Eq)]
pub struct Build {
    pub limit: usize,
    item_numbers: usize,
    items: usize,
    sheets: usize,
}

pub const BEFORE_LINES_OF_200: Build =
    Build { limit: OLD_LIMIT, item_numbers: OLD_ITEM_NUMBERS, items: OLD_ITEMS, sheets: 1 };
pub const BEFORE_TIMES: Build = Build { limit: DESK_LINE, ..BEFORE_LINES_OF_200 };
pub const BEFORE_SHEETS: Build = Build { item_numbers: DESK_ITEM_NUMBERS, ..BEFORE_TIMES };
pub const BEFORE_POWDER: Build = Build { sheets: DESK_SHEETS, ..BEFORE_SHEETS };
pub const BEFORE_MOIETIES: Build = Build { items: 18, ..BEFORE_POWDER };
pub const BUILDS: [Build; 5] =
    [BEFORE_LINES_OF_200, BEFORE_TIMES, BEFORE_SHEETS, BEFORE_POWDER, BEFORE_MOIETIES];

/// The lengths of each, in numbers.
const _: () = assert!(
    matches!(BEFORE_LINES_OF_200.lengths(), (1120, 36))
        && matches!(BEFORE_TIMES.lengths(), (2800, 36))
        && matches!(BEFORE_SHEETS.lengths(), (2800, 46))
        && matches!(BEFORE_POWDER.lengths(), (4800, 87))
        && matches!(BEFORE_MOIETIES.lengths(), (8000, 151))
);

impl Build {
    /// How many texts and numbers its desk had: after the items of a sheet its count, at last the used
    /// number.
    const fn lengths(self) -> (usize, usize) {
        let slots = DESK_BENCHES + self.sheets * self.items;
        let of_sheet = self.items * self.item_numbers + 1;
        (slots * self.limit, DESK_BENCHES + self.sheets * of_sheet + 1)
    }

    /// A sound desk of this build, with its log.
    pub fn saved(self, desks: &mut Desks) -> Memory {
        loop {
            let state = desks.sound();
            let lines = state.desk.lines.iter().map(|line| line.len as usize);
            let sheets = &state.desk.sheets[..self.sheets];
            let entries = sheets.iter().flat_map(|sheet| ITEMS.iter().zip(self.items_of(sheet)));
            let entries = entries.map(|((name, _), item)| name.len() + 1 + item.len as usize);
            if lines.chain(entries).all(|length| length <= self.limit) {
                return self.narrowed(&state);
            }
        }
    }

    fn items_of(self, sheet: &Sheet) -> &[Item] {
        &sheet.items[..self.items]
    }

    /// The first items of the first sheets, with slots and numbers as they were then.
    fn narrowed(self, State { desk, log, used }: &State) -> Memory {
        let sheets = &desk.sheets[..self.sheets];
        let values = sheets.iter().flat_map(|sheet| self.items_of(sheet)).map(|item| &item.value);
        let slots = desk.lines.iter().map(|line| &line.bytes).chain(values);
        let lines = desk.lines.iter().map(|line| line.len);
        let sheets = sheets.iter().flat_map(|sheet| {
            let numbers = |item: &Item| [item.len, item.entry, item.bench, item.times];
            let items = self.items_of(sheet).iter().map(numbers);
            items.flat_map(|held| held.into_iter().take(self.item_numbers)).chain([sheet.count])
        });
        let numbers = lines.chain(sheets).chain([*used]);
        Memory {
            texts: slots.flat_map(|slot| &slot[..self.limit]).copied().collect(),
            numbers: numbers.map(|number| number as usize).collect(),
            log: log[..].into(),
        }
    }

    /// Such a memory in today's form, where an item did not tell it typed once, with all else empty.
    fn widened(self, Memory { texts, numbers, log }: &Memory) -> Memory {
        let mut slots = texts.chunks(self.limit);
        let mut put_slot = |slot: &mut [u8]| {
            let old = slots.next().expect("it has its texts");
            slot[..self.limit].copy_from_slice(old);
        };
        let mut numbers = numbers.iter().map(|&number| number as u64);
        let mut next = || numbers.next().expect("it has its numbers");
        let mut desk = FRESH;
        for line in &mut desk.lines {
            put_slot(&mut line.bytes);
            line.len = next();
        }
        for sheet in &mut desk.sheets[..self.sheets] {
            for item in &mut sheet.items[..self.items] {
                put_slot(&mut item.value);
                let [len, entry, bench] = from_fn(|_| next());
                let times = if self.item_numbers > OLD_ITEM_NUMBERS { next() } else { len.min(1) };
                *item = Item { len, entry, bench, times, ..*item };
            }
            sheet.count = next();
        }
        let mut now = Memory::zeros(log);
        put(&mut now, &desk, next());
        now
    }
}

/// The memory of an earlier build in today's form.
pub fn taken_over(memory: &Memory) -> Option<Memory> {
    let lengths = (memory.texts.len(), memory.numbers.len());
    BUILDS.into_iter().find(|build| build.lengths() == lengths).map(|build| build.widened(memory))
}
