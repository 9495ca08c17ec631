//! Faulty writers of files.

use super::Wrong;
use crate::boundary::{Filed, Memory};
use crate::by_reference::Reference;
use crate::memory::held;
use crate::program::Program;
use reference::cif_file::{self, is_block_name, BAD_BLOCK_NAME, LINE_END, NO_ROOM};
use reference::desk::{values, Sheet, NOT_SOUND};
use reference::line::ACCEPTED;
use reference::names::ITEMS;
use reference::value;

pub const FAULTS: [(&str, Wrong); 8] = [
    (
        "a block name's length is cut to 8 bits",
        Wrong::File(|memory, sheet, block, out| {
            let taken = is_block_name(&block[..block.len() % 256]);
            instead_of(BAD_BLOCK_NAME, memory, sheet, block, out, |sheet, out| {
                taken.then(|| put(&cif_file::file(sheet, block), out))
            })
        }),
    ),
    (
        "quotes are dropped",
        Wrong::File(|memory, sheet, block, out| {
            changed(memory, sheet, block, out, |name, typed| line(name, value::text(typed)))
        }),
    ),
    (
        "empty items are written as ?",
        Wrong::File(|memory, sheet, block, out| {
            changed(memory, sheet, block, out, |name, typed| {
                line(name, if typed.is_empty() { b"?" } else { typed })
            })
        }),
    ),
    ("items in the order of their entries", Wrong::File(by_entry)),
    ("a room one byte too small is taken", Wrong::File(cut_off)),
    (
        "a byte is written with refusal 10",
        Wrong::File(|memory, sheet, block, out| {
            let right = Reference.file(memory, sheet, block, out);
            if right.answer == NO_ROOM {
                out.iter_mut().take(1).for_each(|first| *first = b'd');
            }
            right
        }),
    ),
    ("no room is looked at before the name", Wrong::File(room_first)),
    (
        "the name is looked at before soundness",
        Wrong::File(|memory, sheet, block, out| {
            instead_of(NOT_SOUND, memory, sheet, block, out, |_, _| {
                (!is_block_name(block)).then_some(Filed { answer: BAD_BLOCK_NAME, count: 0 })
            })
        }),
    ),
];

/// Puts a file where there is room for it.
fn put(file: &[u8], out: &mut [u8]) -> Filed {
    let Some(written) = out.get_mut(..file.len()) else {
        return Filed { answer: NO_ROOM, count: 0 };
    };
    written.copy_from_slice(file);
    Filed { answer: ACCEPTED, count: file.len() }
}

/// The right answer, but in place of one refusal another, where there is another.
fn instead_of(
    refusal: u8,
    memory: &Memory,
    sheet: u64,
    block: &[u8],
    out: &mut [u8],
    other: impl FnOnce(&Sheet, &mut [u8]) -> Option<Filed>,
) -> Filed {
    let right = Reference.file(memory, sheet, block, out);
    let desk = held(memory).filter(|_| right.answer == refusal);
    let sheet = desk.and_then(|(desk, _)| desk.sheet(sheet).copied());
    sheet.and_then(|sheet| other(&sheet, out)).unwrap_or(right)
}

fn line(name: &[u8], value: &[u8]) -> Vec<u8> {
    match value {
        b"" => vec![],
        _ => [name, b" ", value, &[LINE_END]].concat(),
    }
}

/// The right answer to another file of these lines of a sound desk.
fn rewritten(
    memory: &Memory,
    sheet: u64,
    block: &[u8],
    out: &mut [u8],
    lines: impl Fn(&Sheet) -> Vec<Vec<u8>>,
) -> Filed {
    match (Reference.file(memory, sheet, block, &mut out.to_vec()), held(memory)) {
        (Filed { answer: ACCEPTED | NO_ROOM, .. }, Some((desk, _))) => {
            let head = [b"data_", block, &[LINE_END]].concat();
            put(&[head, lines(&desk.sheets[sheet as usize]).concat()].concat(), out)
        }
        (right, _) => right,
    }
}

/// The same, where each item's line is made otherwise, from its name and value.
fn changed(
    memory: &Memory,
    sheet: u64,
    block: &[u8],
    out: &mut [u8],
    made: fn(&[u8], &[u8]) -> Vec<u8>,
) -> Filed {
    rewritten(memory, sheet, block, out, |sheet| {
        let names = ITEMS.iter().map(|(name, _)| name.as_bytes());
        names.zip(values(sheet)).map(|(name, value)| made(name, value)).collect()
    })
}

fn by_entry(memory: &Memory, sheet: u64, block: &[u8], out: &mut [u8]) -> Filed {
    rewritten(memory, sheet, block, out, |sheet| {
        let names = ITEMS.iter().map(|(name, _)| name.as_bytes());
        let lines = names.zip(values(sheet)).map(|(name, value)| line(name, value));
        let mut entries: Vec<_> = sheet.items.iter().map(|item| item.entry).zip(lines).collect();
        entries.sort();
        entries.into_iter().map(|(_, line)| line).collect()
    })
}

/// Where one byte is lacking, all bytes but the last are written.
fn cut_off(memory: &Memory, sheet: u64, block: &[u8], out: &mut [u8]) -> Filed {
    instead_of(NO_ROOM, memory, sheet, block, out, |sheet, out| {
        let file = cif_file::file(sheet, block);
        (file.len() == out.len() + 1).then(|| put(&file[..out.len()], out))
    })
}

fn room_first(memory: &Memory, sheet: u64, block: &[u8], out: &mut [u8]) -> Filed {
    instead_of(BAD_BLOCK_NAME, memory, sheet, block, out, |sheet, out| {
        let no_room = cif_file::file(sheet, block).len() > out.len();
        no_room.then_some(Filed { answer: NO_ROOM, count: 0 })
    })
}
