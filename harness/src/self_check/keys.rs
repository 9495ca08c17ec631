//! Faulty programs for a fresh desk and for the key call.

use super::{change, Wrong};
use crate::boundary::{Memory, DESK_COUNT_AT, DESK_TEXTS, DESK_USED_AT};
use crate::by_reference::Reference;
use crate::memory::held;
use crate::old_build::{taken_over, OLD_LIMIT};
use crate::points::Pointed;
use crate::program::Program;
use reference::desk::{
    sheet_of, Item, Line, Sheet, BENCHES, ENTER, ERASE, LINE_FULL, NOT_SOUND, NO_SUCH_BENCH,
    NO_SUCH_KEY, RECORD_HEAD,
};
use reference::line::{split, ACCEPTED, BYTES, WRONG_KIND};
use reference::names::{item, Kind, ITEMS};
use reference::value;
use std::cell::Cell;

pub const FAULTS: [(&str, Wrong); 21] = [
    ("a fresh desk keeps its lines", Wrong::Fresh(lines_kept)),
    ("fresh takes longer memory", Wrong::Fresh(longer_taken)),
    ("one shared line", Wrong::Key(shared_line)),
    ("one shared line with a current bench", Wrong::Key(current_bench)),
    ("the bench of the first key after a refused Enter", Wrong::Key(after_refused_enter)),
    ("a byte after the record is written", Wrong::Key(byte_after)),
    ("the value loses its quotes", Wrong::Key(quotes_lost)),
    ("the item keeps bytes of its last value", Wrong::Key(bytes_kept)),
    ("a refused Enter empties the line", Wrong::Key(refused_empties)),
    ("a refused Enter leaves the copied value", Wrong::Key(refused_copies)),
    ("erasing leaves the byte behind", Wrong::Key(byte_left)),
    ("key 81 is still refused", Wrong::Key(key_81)),
    ("key 201 is passed over", Wrong::Key(key_201)),
    ("a desk with a line of 81 is not sound", Wrong::Key(line_of_81)),
    ("fresh takes a desk of the old build", Wrong::Fresh(old_taken)),
    (
        "benches count modulo 256",
        Wrong::Key(|memory, bench, byte| Reference.key(memory, bench % 256, byte)),
    ),
    ("soundness is looked at before the bench", Wrong::Key(soundness_first)),
    ("the key is looked at before soundness", Wrong::Key(key_first)),
    ("six times the count is cut to 64 bits", Wrong::Key(cut_product)),
    ("memory one byte short is taken", Wrong::Key(short_taken)),
    ("Enter wants a digit on each side of the point", Wrong::Key(digit_on_each_side)),
];

fn lines_kept(memory: &mut Memory) -> u8 {
    let lines = held(memory).map(|(desk, _)| desk.lines);
    let answer = Reference.fresh(memory);
    change(memory, |desk| desk.lines = lines.expect("it is a desk"));
    answer
}

fn longer_taken(memory: &mut Memory) -> u8 {
    if memory.texts.len() == DESK_TEXTS + 1 {
        memory.texts.fill(0);
        memory.numbers.fill(0);
        return ACCEPTED;
    }
    Reference.fresh(memory)
}

/// All benches type into line 0, and Enter takes it from there.
fn shared_line(memory: &mut Memory, bench: u64, byte: u8) -> u8 {
    let typed_on = if byte == ENTER || bench >= BENCHES as u64 { bench } else { 0 };
    Reference.key(memory, typed_on, byte)
}

/// Whether a sequence may begin here: nothing is counted yet and no line begun.
fn is_fresh(memory: &Memory) -> bool {
    memory.numbers.iter().all(|&number| number == 0)
}

/// The keys of all benches go to the bench of the first key after each Enter.
fn current_bench(memory: &mut Memory, bench: u64, byte: u8) -> u8 {
    thread_local!(static CURRENT: Cell<Option<u64>> = const { Cell::new(None) });
    if bench >= BENCHES as u64 {
        return Reference.key(memory, bench, byte);
    }
    let taken = CURRENT.get().filter(|_| !is_fresh(memory)).unwrap_or(bench);
    CURRENT.set((byte != ENTER).then_some(taken));
    Reference.key(memory, taken, byte)
}

/// After a refused Enter the bench of the first key of another is taken for the keys up to the
/// next Enter.
fn after_refused_enter(memory: &mut Memory, bench: u64, byte: u8) -> u8 {
    thread_local!(static REFUSED: Cell<[Option<u64>; 2]> = const { Cell::new([None; 2]) });
    if bench >= BENCHES as u64 {
        return Reference.key(memory, bench, byte);
    }
    let [mut refused, mut taken] = if is_fresh(memory) { [None; 2] } else { REFUSED.get() };
    if refused.is_some_and(|of| of != bench) {
        (refused, taken) = (None, Some(bench));
    }
    let answer = Reference.key(memory, taken.unwrap_or(bench), byte);
    if byte == ENTER {
        (refused, taken) = ((answer != ACCEPTED).then_some(bench), None);
    }
    REFUSED.set([refused, taken]);
    answer
}

fn byte_after(memory: &mut Memory, bench: u64, byte: u8) -> u8 {
    let answer = Reference.key(memory, bench, byte);
    if byte == ENTER && answer == ACCEPTED {
        let used = memory.numbers[DESK_USED_AT];
        memory.log.iter_mut().skip(used).take(1).for_each(|after| *after = 0);
    }
    answer
}

fn quotes_lost(memory: &mut Memory, bench: u64, byte: u8) -> u8 {
    let answer = Reference.key(memory, bench, byte);
    if byte == ENTER && answer == ACCEPTED {
        change(memory, |desk| {
            let Sheet { items, count } = &mut desk.sheets[sheet_of(bench)];
            for item in items.iter_mut().filter(|item| item.entry == *count) {
                let typed = item.value;
                let text = value::text(&typed[..item.len as usize]);
                *item = Item::holding(text, *count, item.bench, item.times);
            }
        });
    }
    answer
}

fn bytes_kept(memory: &mut Memory, bench: u64, byte: u8) -> u8 {
    let before = held(memory);
    let answer = Reference.key(memory, bench, byte);
    if let (ENTER, ACCEPTED, Some((before, _))) = (byte, answer, before) {
        change(memory, |desk| {
            for (new, old) in desk.sheets.iter_mut().zip(&before.sheets) {
                for (new, old) in new.items.iter_mut().zip(&old.items) {
                    let len = new.len as usize;
                    new.value[len..].copy_from_slice(&old.value[len..]);
                }
            }
        });
    }
    answer
}

fn refused_empties(memory: &mut Memory, bench: u64, byte: u8) -> u8 {
    let answer = Reference.key(memory, bench, byte);
    if byte == ENTER && answer > LINE_FULL {
        change(memory, |desk| desk.lines[bench as usize] = Line::holding(b""));
    }
    answer
}

/// The line of a refused Enter stands in item 10's slot.
fn refused_copies(memory: &mut Memory, bench: u64, byte: u8) -> u8 {
    let answer = Reference.key(memory, bench, byte);
    if byte == ENTER && answer > LINE_FULL {
        change(memory, |desk| {
            desk.sheets[sheet_of(bench)].items[9].value = desk.lines[bench as usize].bytes;
        });
    }
    answer
}

fn byte_left(memory: &mut Memory, bench: u64, byte: u8) -> u8 {
    let before = memory.texts.clone();
    let answer = Reference.key(memory, bench, byte);
    if byte == ERASE && answer == ACCEPTED {
        memory.texts = before;
    }
    answer
}

/// The length of the line that a key is typed on.
fn line_length(memory: &Memory, bench: u64) -> usize {
    let line = held(memory).and_then(|(desk, _)| desk.lines.get(bench as usize).copied());
    line.map_or(0, |line| line.len as usize)
}

fn key_81(memory: &mut Memory, bench: u64, byte: u8) -> u8 {
    let before = memory.clone();
    match Reference.key(memory, bench, byte) {
        ACCEPTED if BYTES.contains(&byte) && line_length(&before, bench) >= OLD_LIMIT => {
            *memory = before;
            LINE_FULL
        }
        right => right,
    }
}

fn key_201(memory: &mut Memory, bench: u64, byte: u8) -> u8 {
    match Reference.key(memory, bench, byte) {
        LINE_FULL => ACCEPTED,
        right => right,
    }
}

fn line_of_81(memory: &mut Memory, bench: u64, byte: u8) -> u8 {
    if (0..BENCHES as u64).all(|line| line_length(memory, line) <= OLD_LIMIT) {
        return Reference.key(memory, bench, byte);
    }
    if bench < BENCHES as u64 {
        NOT_SOUND
    } else {
        NO_SUCH_BENCH
    }
}

fn old_taken(memory: &mut Memory) -> u8 {
    if taken_over(memory).is_some() {
        memory.texts.fill(0);
        memory.numbers.fill(0);
        return ACCEPTED;
    }
    Reference.fresh(memory)
}

fn soundness_first(memory: &mut Memory, bench: u64, byte: u8) -> u8 {
    match Reference.key(memory, bench, byte) {
        NO_SUCH_BENCH if Reference.key(memory, 0, 0) == NOT_SOUND => NOT_SOUND,
        right => right,
    }
}

fn key_first(memory: &mut Memory, bench: u64, byte: u8) -> u8 {
    match Reference.key(memory, bench, byte) {
        NOT_SOUND if byte > 126 => NO_SUCH_KEY,
        right => right,
    }
}

fn cut_product(memory: &mut Memory, bench: u64, byte: u8) -> u8 {
    let right = Reference.key(memory, bench, byte);
    let (Some(&count), Some(&used)) =
        (memory.numbers.get(DESK_COUNT_AT), memory.numbers.get(DESK_USED_AT))
    else {
        return right;
    };
    if right != NOT_SOUND || count.wrapping_mul(RECORD_HEAD) > used {
        return right;
    }
    memory.numbers[DESK_COUNT_AT] = count.min(used / RECORD_HEAD);
    Reference.key(memory, bench, byte)
}

fn short_taken(memory: &mut Memory, bench: u64, byte: u8) -> u8 {
    if memory.texts.len() != DESK_TEXTS - 1 {
        return Reference.key(memory, bench, byte);
    }
    memory.texts = [&memory.texts[..], &[0]].concat().into();
    let answer = Reference.key(memory, bench, byte);
    memory.texts = memory.texts[..DESK_TEXTS - 1].into();
    answer
}

fn digit_on_each_side(memory: &mut Memory, bench: u64, byte: u8) -> u8 {
    let before = memory.clone();
    let answer = Reference.key(memory, bench, byte);
    let held = held(&before).filter(|_| byte == ENTER && answer == ACCEPTED);
    let line = held.map(|(desk, _)| desk.lines[bench as usize]);
    let Some((name, value)) =
        line.as_ref().and_then(|line| split(&line.bytes[..line.len as usize]))
    else {
        return answer;
    };
    let number = item(name).is_some_and(|item| ITEMS[item - 1].1 == Kind::Number);
    if number && value.len() > 1 && Pointed::read(value).is_some() {
        *memory = before;
        return WRONG_KIND;
    }
    answer
}
