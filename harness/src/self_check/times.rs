//! Programs that are wrong about how often an item was typed.

use super::{change, Wrong};
use crate::boundary::Memory;
use crate::by_reference::Reference;
use crate::memory::held;
use crate::old_build::taken_over;
use crate::program::Program;
use reference::desk::{sheet_of, Item, Sheet, ENTER, LOG_FULL, NOT_OWNER, NOT_SOUND};
use reference::line::{split, ACCEPTED, WRONG_KIND};
use reference::names::{item, ITEMS};

pub const FAULTS: [(&str, Wrong); 14] = [
    ("an item is never counted beyond 1", Wrong::Key(never_beyond_1)),
    ("an entry is counted for the item after its own", Wrong::Key(for_the_next)),
    ("entries are counted for all items together", Wrong::Key(together)),
    ("a fresh desk keeps how often", Wrong::Fresh(kept)),
    ("a refused Enter is counted", Wrong::Key(refused_counted)),
    ("a key takes 0 in a filled item", Wrong::Key(|m, bench, byte| key(m, bench, byte, zero))),
    ("a key takes more than the count", Wrong::Key(|m, bench, byte| key(m, bench, byte, beyond))),
    (
        "a key takes a number in an empty item",
        Wrong::Key(|m, bench, byte| key(m, bench, byte, in_empty)),
    ),
    (
        "Report takes 0 in a filled item",
        Wrong::Report(|m, sheet, profile| Reference.report(&mended(m, zero), sheet, profile)),
    ),
    (
        "Who takes more than the count",
        Wrong::Who(|m, sheet, item| Reference.who(&mended(m, beyond), sheet, item)),
    ),
    (
        "Who takes a number in an empty item",
        Wrong::Who(|m, sheet, item| Reference.who(&mended(m, in_empty), sheet, item)),
    ),
    (
        "a file is written with 0 in a filled item",
        Wrong::File(|m, sheet, block, out| Reference.file(&mended(m, zero), sheet, block, out)),
    ),
    (
        "Who takes a desk of 36 numbers",
        Wrong::Who(|m, sheet, item| {
            Reference.who(&taken_over(m).unwrap_or_else(|| m.clone()), sheet, item)
        }),
    ),
    (
        "Who tells 1 of an empty item",
        Wrong::Who(|m, sheet, item| {
            let mut told = Reference.who(m, sheet, item);
            told.times += usize::from(told.answer == ACCEPTED && told.times == 0);
            told
        }),
    ),
];

/// The right answer; after an accepted Enter the items of its sheet are changed, of which the one at
/// this place was entered.
fn entered(memory: &mut Memory, bench: u64, byte: u8, changed: fn(&mut [Item], usize)) -> u8 {
    let answer = Reference.key(memory, bench, byte);
    if byte == ENTER && answer == ACCEPTED {
        change(memory, |desk| {
            let Sheet { items, count } = &mut desk.sheets[sheet_of(bench)];
            let at = items.iter().position(|item| item.entry == *count);
            changed(items, at.expect("the last entry is there"));
        });
    }
    answer
}

fn never_beyond_1(memory: &mut Memory, bench: u64, byte: u8) -> u8 {
    entered(memory, bench, byte, |items, at| items[at].times = 1)
}

/// Where that is filled too.
fn for_the_next(memory: &mut Memory, bench: u64, byte: u8) -> u8 {
    entered(memory, bench, byte, |items, at| {
        let next = (at + 1) % ITEMS.len();
        if items[at].times > 1 && items[next].times > 0 {
            items[at].times -= 1;
            items[next].times += 1;
        }
    })
}

fn together(memory: &mut Memory, bench: u64, byte: u8) -> u8 {
    entered(memory, bench, byte, |items, at| items[at].times = items[at].entry)
}

fn kept(memory: &mut Memory) -> u8 {
    let before = held(memory).map(|(desk, _)| desk.sheets);
    let answer = Reference.fresh(memory);
    change(memory, |desk| {
        let before = before.expect("it is a desk");
        for (sheet, before) in desk.sheets.iter_mut().zip(before) {
            let both = sheet.items.iter_mut().zip(before.items);
            both.for_each(|(item, before)| item.times = before.times);
        }
    });
    answer
}

fn refused_counted(memory: &mut Memory, bench: u64, byte: u8) -> u8 {
    let answer = Reference.key(memory, bench, byte);
    if byte == ENTER && [WRONG_KIND, LOG_FULL, NOT_OWNER].contains(&answer) {
        change(memory, |desk| {
            let line = desk.lines[bench as usize];
            let named = split(&line.bytes[..line.len as usize]).and_then(|(name, _)| item(name));
            let Sheet { items, count } = &mut desk.sheets[sheet_of(bench)];
            let named = &mut items[named.expect("the line names an item") - 1];
            named.times += u64::from(named.times > 0 && named.times < *count);
        });
    }
    answer
}

/// Makes an item sound, but for how often; its sheet has this count.
type Mend = fn(&mut Item, u64);

fn zero(item: &mut Item, _: u64) {
    item.times += u64::from(item.len > 0 && item.times == 0);
}

fn beyond(item: &mut Item, count: u64) {
    if item.len > 0 {
        item.times = item.times.min(count);
    }
}

fn in_empty(item: &mut Item, _: u64) {
    if item.len == 0 {
        item.times = 0;
    }
}

/// The same memory with such items mended.
fn mended(memory: &Memory, mend: Mend) -> Memory {
    let mut memory = memory.clone();
    change(&mut memory, |desk| {
        for Sheet { items, count } in &mut desk.sheets {
            items.iter_mut().for_each(|item| mend(item, *count));
        }
    });
    memory
}

/// A key on a desk that would be sound if it were mended is taken so.
fn key(memory: &mut Memory, bench: u64, byte: u8, mend: Mend) -> u8 {
    match Reference.key(memory, bench, byte) {
        NOT_SOUND => {
            let mut mended = mended(memory, mend);
            let answer = Reference.key(&mut mended, bench, byte);
            if answer == ACCEPTED {
                *memory = mended;
            }
            answer
        }
        right => right,
    }
}
