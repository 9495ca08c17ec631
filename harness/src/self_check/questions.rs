//! Faulty programs for Report and Who, and wrong orders of calls.

use super::Wrong;
use crate::boundary::{Memory, Reported, Row, Told, DESK_COUNT_AT, DESK_NUMBERS, DESK_USED_AT};
use crate::by_reference::{gathered, Reference};
use crate::compare::Gather;
use crate::desks::{in_memory, longest_value, sheet};
use crate::memory::{held, put};
use crate::old_build::{taken_over, OLD_LIMIT};
use crate::program::{Call, Program};
use reference::desk::{
    sheet_of, values, Item, Sheet, ENTER, NOT_SOUND, NO_BENCH, NO_SUCH_ITEM, RECORD_HEAD, SHEETS,
};
use reference::line::{classify, split, ACCEPTED, LIMIT};
use reference::names::{item, ITEMS};
use reference::powder::PROFILES;
use reference::rows::ROWS;
use std::cell::Cell;

pub const FAULTS: [(&str, Wrong); 13] = [
    ("Report reads an unfinished line", Wrong::Report(unfinished_read)),
    ("Report keeps its first answer", Wrong::Report(first_kept)),
    ("Report looks at the log", Wrong::Report(log_looked_at)),
    ("Report tells an unsound desk's rows", Wrong::Report(unsound_told)),
    ("Report takes memory one number short", Wrong::Report(short_taken)),
    ("Who answers the first entry", Wrong::Who(first_entry)),
    ("Who answers on an unsound desk", Wrong::Who(unsound_answered)),
    ("Who looks at the item before soundness", Wrong::Who(item_first)),
    (
        "Who counts items modulo 2^32",
        Wrong::Who(|m, sheet, item| Reference.who(m, sheet, item % (1 << 32))),
    ),
    ("Report wants lines of at most 80", Wrong::Report(old_limit)),
    (
        "Report tests a value's length without its name and space",
        Wrong::Report(|m, sheet, profile| Reference.report(&shortened(m), sheet, profile)),
    ),
    (
        "Who tests a value's length without its name and space",
        Wrong::Who(|memory, sheet, item| Reference.who(&shortened(memory), sheet, item)),
    ),
    ("Report takes a desk of the old build", Wrong::Report(old_taken)),
];

/// Wrong orders of calls.
pub const ORDERS: [(&str, Gather); 2] = [
    ("questions are gathered too", questions_moved),
    ("keys are gathered in turned order", keys_turned),
];

/// Lines that Enter would accept are on the sheet already.
fn unfinished_read(memory: &Memory, sheet: u64, profile: u64) -> Reported {
    let (right, mut read) = (Reference.report(memory, sheet, profile), memory.clone());
    if let (ACCEPTED, Some((mut desk, used))) = (right.answer, held(memory)) {
        for (line, bench) in desk.lines.into_iter().zip(0..) {
            let typed = &line.bytes[..line.len as usize];
            if let (ACCEPTED, Some((name, value))) = (classify(typed), split(typed)) {
                let number = item(name).expect("an accepted line names an item");
                let Sheet { items, count } = &mut desk.sheets[sheet_of(bench)];
                items[number - 1] = Item::holding(value, 1, bench, 1);
                *count = (*count).max(1);
            }
        }
        put(&mut read, &desk, used);
    }
    Reference.report(&read, sheet, profile)
}

/// Until the next fresh desk.
fn first_kept(memory: &Memory, sheet: u64, profile: u64) -> Reported {
    thread_local!(static FIRST: Cell<Option<Reported>> = const { Cell::new(None) });
    let kept = FIRST.get().filter(|_| memory.numbers.get(DESK_COUNT_AT).is_some_and(|&n| n > 0));
    let told = kept.unwrap_or_else(|| Reference.report(memory, sheet, profile));
    FIRST.set(Some(told));
    told
}

/// Six times the count is more than the used number.
fn log_looked_at(memory: &Memory, sheet: u64, profile: u64) -> Reported {
    let right = Reference.report(memory, sheet, profile);
    let few = |numbers: &[usize]| {
        numbers[DESK_COUNT_AT] as u128 * RECORD_HEAD as u128 > numbers[DESK_USED_AT] as u128
    };
    match right.answer {
        ACCEPTED if memory.numbers.len() == DESK_NUMBERS && few(&memory.numbers) => refusal(),
        _ => right,
    }
}

fn old_limit(memory: &Memory, sheet: u64, profile: u64) -> Reported {
    let long = held(memory)
        .is_some_and(|(desk, _)| desk.lines.iter().any(|line| line.len > OLD_LIMIT as u64));
    if long && sheet < SHEETS as u64 && profile < PROFILES {
        refusal()
    } else {
        Reference.report(memory, sheet, profile)
    }
}

/// The same desk with no value longer than its name and a space allow, so that only the limit of the
/// value itself is left.
fn shortened(memory: &Memory) -> Memory {
    let mut memory = memory.clone();
    if let Some((mut desk, used)) = held(&memory) {
        for (number, item) in desk.sheets.iter_mut().flat_map(|sheet| (1..).zip(&mut sheet.items)) {
            let longest = longest_value(number);
            if (longest as u64 + 1..=LIMIT as u64).contains(&item.len) {
                item.len = longest as u64;
                item.value[longest..].fill(0);
            }
        }
        put(&mut memory, &desk, used);
    }
    memory
}

fn old_taken(memory: &Memory, sheet: u64, profile: u64) -> Reported {
    Reference.report(&taken_over(memory).unwrap_or_else(|| memory.clone()), sheet, profile)
}

fn refusal() -> Reported {
    Reported { answer: NOT_SOUND, rows: [Row { level: 0, reason: 0 }; ROWS] }
}

/// The rows of the values of a desk whose lines alone are broken.
fn unsound_told(memory: &Memory, asked: u64, profile: u64) -> Reported {
    let right = Reference.report(memory, asked, profile);
    let Some((desk, _)) = held(memory).filter(|_| right.answer == NOT_SOUND) else {
        return right;
    };
    let asked = &desk.sheets[asked as usize];
    if asked.items.iter().any(|item| item.len > LIMIT as u64) {
        return right;
    }
    Reference.report(&in_memory(&sheet(values(asked))), 0, profile)
}

fn short_taken(memory: &Memory, sheet: u64, profile: u64) -> Reported {
    let mut longer = memory.clone();
    if memory.numbers.len() == DESK_NUMBERS - 1 {
        longer.numbers = [&memory.numbers[..], &[0]].concat().into();
    }
    Reference.report(&longer, sheet, profile)
}

/// Who keeps the first answer that names a bench, until the next fresh desk.
fn first_entry(memory: &Memory, sheet: u64, item: u64) -> Told {
    type First = [[Option<Told>; ITEMS.len()]; SHEETS];
    thread_local!(static FIRST: Cell<First> = const { Cell::new([[None; ITEMS.len()]; SHEETS]) });
    let right = Reference.who(memory, sheet, item);
    let named = right.answer == ACCEPTED && right.bench != NO_BENCH;
    let mut first = if named { FIRST.get() } else { return right };
    let told = &mut first[sheet as usize][item as usize - 1];
    let kept = told.filter(|kept| kept.entry <= right.entry).unwrap_or(right);
    *told = Some(kept);
    FIRST.set(first);
    kept
}

fn unsound_answered(memory: &Memory, sheet: u64, item: u64) -> Told {
    let right = Reference.who(memory, sheet, item);
    let desk = held(memory).filter(|_| right.answer == NOT_SOUND);
    let place = (item as usize).wrapping_sub(1);
    let items = desk.map(|(desk, _)| desk.sheets[sheet as usize].items);
    match items.and_then(|items| items.get(place).copied()) {
        Some(item) if item.len > 0 => {
            let (entry, times) = (item.entry as usize, item.times as usize);
            Told { entry, times, answer: ACCEPTED, bench: item.bench as u8 }
        }
        _ => right,
    }
}

fn item_first(memory: &Memory, sheet: u64, item: u64) -> Told {
    let right = Reference.who(memory, sheet, item);
    if (1..=ITEMS.len() as u64).contains(&item) || sheet >= SHEETS as u64 {
        right
    } else {
        Told { answer: NO_SUCH_ITEM, ..right }
    }
}

/// Questions go where the key before them goes, or to the end.
fn questions_moved(calls: &[Call]) -> Vec<usize> {
    let mut last = 0;
    let as_key = |call: &Call| match *call {
        Call::Key { bench, .. } => {
            last = bench;
            *call
        }
        _ => Call::Key { bench: last, byte: 0 },
    };
    gathered(&calls.iter().map(as_key).collect::<Vec<_>>())
}

/// The keys before each Enter, and those at the end, in turned order.
fn keys_turned(calls: &[Call]) -> Vec<usize> {
    let mut order = gathered(calls);
    let is_moved = |at: &usize| matches!(calls[*at], Call::Key { byte, .. } if byte != ENTER);
    order.chunk_by_mut(|a, b| is_moved(a) && is_moved(b)).for_each(|part| part.reverse());
    order
}
