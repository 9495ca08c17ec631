//! Lent memory and the reference's own desk, each made from the other, by the layout of
//! include/desk.h. `mutants/` compiles this file a second time, with a changed copy of the reference.

use crate::boundary::{
    Memory, Stick, DESK_COUNT_AT, DESK_ITEMS, DESK_ITEMS_AT, DESK_ITEMS_SLOT, DESK_ITEM_NUMBERS,
    DESK_KEPT, DESK_LINE, DESK_NUMBERS, DESK_SHEET_NUMBERS, DESK_STATE, DESK_TEXTS, DESK_USED_AT,
};
use reference::desk::{Desk, FRESH};
use reference::line::ACCEPTED;
use reference::reader::{Reader, BAD_SHAPE, END_INSIDE, FOREIGN_OVERWRITE};
use std::array::from_fn;
use std::ops::Range;

/// The desk that memory holds, sound or not, and how many bytes of the log are used; none where the
/// memory is no desk. It is filled where it lies: a desk is long, and this is asked for with each call.
pub fn held(memory: &Memory) -> Option<(Box<Desk>, u64)> {
    let Memory { texts, numbers, .. } = memory;
    if (texts.len(), numbers.len()) != (DESK_TEXTS, DESK_NUMBERS) {
        return None;
    }
    let number = |at: usize| numbers[at] as u64;
    let mut desk = Box::new(FRESH);
    for (bench, line) in desk.lines.iter_mut().enumerate() {
        line.bytes.copy_from_slice(&texts[slot(bench)]);
        line.len = number(bench);
    }
    for (at, sheet) in desk.sheets.iter_mut().enumerate() {
        for (place, item) in sheet.items.iter_mut().enumerate() {
            item.value.copy_from_slice(&texts[slot(slot_of(at, place))]);
            [item.len, item.entry, item.bench, item.times] = numbers_of(at, place).map(number);
        }
        sheet.count = number(count_of(at));
    }
    Some((desk, number(DESK_USED_AT)))
}

/// Puts a desk, sound or not, into memory of a desk's lengths.
pub fn put(memory: &mut Memory, desk: &Desk, used: u64) {
    let Memory { texts, numbers, .. } = memory;
    for (bench, line) in desk.lines.iter().enumerate() {
        texts[slot(bench)].copy_from_slice(&line.bytes);
        numbers[bench] = line.len as usize;
    }
    for (at, sheet) in desk.sheets.iter().enumerate() {
        for (place, item) in sheet.items.iter().enumerate() {
            texts[slot(slot_of(at, place))].copy_from_slice(&item.value);
            let held = [item.len, item.entry, item.bench, item.times];
            for (at, number) in numbers_of(at, place).into_iter().zip(held) {
                numbers[at] = number as usize;
            }
        }
        numbers[count_of(at)] = sheet.count as usize;
    }
    numbers[DESK_USED_AT] = used as usize;
}

/// How a reading stands, and with which answer it is over.
const STANDS: [(usize, Option<u8>); 5] = [
    (0, None),
    (1, Some(ACCEPTED)),
    (18, Some(BAD_SHAPE)),
    (19, Some(FOREIGN_OVERWRITE)),
    (20, Some(END_INSIDE)),
];

/// The reader that memory holds, sound or not; none where the memory is no reader.
pub fn held_reader(memory: &Memory, Stick { kept, state }: &Stick) -> Option<Reader> {
    let (desk, start) = held(memory)?;
    if (kept.len(), state.len()) != (DESK_KEPT, DESK_STATE) {
        return None;
    }
    let (_, over) = STANDS.into_iter().find(|(number, _)| *number == state[1])?;
    let kept = kept[..state[0].min(DESK_KEPT)].to_vec();
    Some(Reader { desk: *desk, start, kept, over })
}

/// Puts a reader into memory of a reader's lengths; behind the kept bytes are zeros.
pub fn put_reader(memory: &mut Memory, stick: &mut Stick, reader: &Reader) {
    put(memory, &reader.desk, reader.start);
    stick.kept.fill(0);
    stick.kept[..reader.kept.len()].copy_from_slice(&reader.kept);
    let stands = STANDS.into_iter().find(|(_, over)| *over == reader.over);
    stick.state[0] = reader.kept.len();
    stick.state[1] = stands.expect("no other answer ends a reading").0;
}

/// The places of a slot's bytes.
fn slot(at: usize) -> Range<usize> {
    DESK_LINE * at..DESK_LINE * (at + 1)
}

/// The slot of a sheet's item.
fn slot_of(sheet: usize, place: usize) -> usize {
    DESK_ITEMS_SLOT + DESK_ITEMS * sheet + place
}

/// The places of an item's length, entry number and bench, and of how many entries named it.
fn numbers_of(sheet: usize, place: usize) -> [usize; DESK_ITEM_NUMBERS] {
    from_fn(|at| DESK_ITEMS_AT + DESK_SHEET_NUMBERS * sheet + DESK_ITEM_NUMBERS * place + at)
}

/// The place of a sheet's count.
fn count_of(sheet: usize) -> usize {
    DESK_COUNT_AT + DESK_SHEET_NUMBERS * sheet
}
