//! Programs that are wrong about whose an item is.

use super::{change, Wrong};
use crate::boundary::Memory;
use crate::by_reference::Reference;
use crate::memory::held;
use crate::program::Program;
use reference::desk::{sheet_of, Item, ENTER, LOG_FULL, NOT_OWNER, RECORD_HEAD};
use reference::line::{split, ACCEPTED, WRONG_KIND};
use reference::names;
use reference::value::{form, Form};

pub const FAULTS: [(&str, Wrong); 7] = [
    ("9 is looked at before 7", Wrong::Key(before_7)),
    ("9 is looked at after 8", Wrong::Key(after_8)),
    (
        "an unassigned first value leaves the item free",
        Wrong::Key(|memory, bench, byte| free(memory, bench, byte, is_unassigned)),
    ),
    (
        "the last bench owns the item, and any may write it",
        Wrong::Key(|memory, bench, byte| free(memory, bench, byte, |_| true)),
    ),
    (
        "an item typed once is still free",
        Wrong::Key(|memory, bench, byte| free(memory, bench, byte, |item| item.times == 1)),
    ),
    (
        "9 is given to the owner",
        Wrong::Key(|memory, bench, byte| owned(memory, bench, byte, |item, _| item.len > 0)),
    ),
    (
        "an empty item belongs to the first bench of its sheet",
        Wrong::Key(|memory, bench, byte| {
            owned(memory, bench, byte, |item, bench| item.len == 0 && bench % 2 != 0)
        }),
    ),
];

/// The item that a bench's line names, its number and what its sheet holds of it, and the value typed.
pub fn named(memory: &Memory, bench: u64) -> Option<(usize, Item, Vec<u8>)> {
    let (desk, _) = held(memory)?;
    let line = desk.lines.get(usize::try_from(bench).ok()?)?;
    let (name, value) = split(line.bytes.get(..line.len as usize)?)?;
    let number = names::item(name)?;
    Some((number, desk.sheets[sheet_of(bench)].items[number - 1], value.to_vec()))
}

fn before_7(memory: &mut Memory, bench: u64, byte: u8) -> u8 {
    let right = Reference.key(memory, bench, byte);
    match named(memory, bench) {
        Some((_, item, _)) if right == WRONG_KIND && item.len > 0 && item.bench != bench => {
            NOT_OWNER
        }
        _ => right,
    }
}

fn after_8(memory: &mut Memory, bench: u64, byte: u8) -> u8 {
    let right = Reference.key(memory, bench, byte);
    let used = held(memory).map_or(0, |(_, used)| used as usize);
    match named(memory, bench) {
        Some((_, _, value))
            if right == NOT_OWNER && used + RECORD_HEAD + value.len() > memory.log.len() =>
        {
            LOG_FULL
        }
        _ => right,
    }
}

fn is_unassigned(item: &Item) -> bool {
    form(&item.value[..item.len as usize]) == Some(Form::Unassigned)
}

/// Another's item, if it is such a one, is written as if it were the bench's own.
fn free(memory: &mut Memory, bench: u64, byte: u8, is_free: fn(&Item) -> bool) -> u8 {
    let right = Reference.key(memory, bench, byte);
    match named(memory, bench).filter(|(_, item, _)| right == NOT_OWNER && is_free(item)) {
        Some((number, item, _)) => {
            let sheet = sheet_of(bench);
            change(memory, |desk| desk.sheets[sheet].items[number - 1].bench = bench);
            let answer = Reference.key(memory, bench, byte);
            if answer != ACCEPTED {
                change(memory, |desk| desk.sheets[sheet].items[number - 1] = item);
            }
            answer
        }
        None => right,
    }
}

/// An Enter that is accepted is refused where the item was such a one.
fn owned(memory: &mut Memory, bench: u64, byte: u8, is_owned: fn(&Item, u64) -> bool) -> u8 {
    let before = memory.clone();
    let right = Reference.key(memory, bench, byte);
    let item = named(&before, bench).filter(|_| byte == ENTER && right == ACCEPTED);
    if item.is_some_and(|(_, item, _)| is_owned(&item, bench)) {
        *memory = before;
        return NOT_OWNER;
    }
    right
}
