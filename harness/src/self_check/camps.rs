//! Programs that mix up the camps: their sheets, counts and owners.

use super::owners::named;
use super::{change, Wrong};
use crate::boundary::{Memory, Reported, Told};
use crate::by_reference::Reference;
use crate::desks::OF_SHEET;
use crate::memory::{held, put};
use crate::program::Program;
use reference::desk::{
    is_sound, sheet_of, Desk, Item, Line, Sheet, BENCHES, ENTER, FRESH, LOG_FULL, LOG_LIMIT,
    NOT_OWNER, NOT_SOUND, NO_SUCH_SHEET, RECORD_HEAD, SHEETS,
};
use reference::line::ACCEPTED;

pub const FAULTS: [(&str, Wrong); 23] = [
    ("one count for both sheets", Wrong::Key(one_count)),
    ("bench 2 writes sheet 0", Wrong::Key(bench_2_on_sheet_0)),
    ("the owner is looked up on the other sheet", Wrong::Key(other_owner)),
    ("an item has one owner on both sheets", Wrong::Key(one_owner)),
    ("how often counts both sheets' entries", Wrong::Key(both_counted)),
    ("an item of the other sheet is emptied", Wrong::Key(other_emptied)),
    ("Report looks at the sheet after soundness", Wrong::Report(report_sheet_last)),
    ("Who looks at the sheet after soundness", Wrong::Who(who_sheet_last)),
    (
        "the writer looks at the sheet after soundness",
        Wrong::File(|m, sheet, block, out| {
            let mut right = Reference.file(m, sheet, block, out);
            right.answer = sheet_last(m, right.answer);
            right
        }),
    ),
    ("soundness looks at sheet 0's count alone", Wrong::Key(|m, b, k| by_count(m, b, k, |c| c[0]))),
    ("soundness looks at sheet 1's count alone", Wrong::Key(|m, b, k| by_count(m, b, k, |c| c[1]))),
    (
        "soundness looks at the larger count",
        Wrong::Key(|m, b, k| by_count(m, b, k, |c| c[0].max(c[1]))),
    ),
    (
        "the sum of both counts is cut to 64 bits",
        Wrong::Key(|m, b, k| by_count(m, b, k, |c| u64::wrapping_add(c[0], c[1]))),
    ),
    (
        "Report tells sheet 0 twice",
        Wrong::Report(|m, sheet, profile| {
            Reference.report(m, if sheet == 1 { 0 } else { sheet }, profile)
        }),
    ),
    (
        "Report takes sheets modulo 2",
        Wrong::Report(|m, sheet, profile| Reference.report(m, sheet % 2, profile)),
    ),
    (
        "Report tells sheet 0's rows with 12",
        Wrong::Report(|m, sheet, profile| match Reference.report(m, sheet, profile) {
            Reported { answer: NO_SUCH_SHEET, .. } => {
                Reported { answer: NO_SUCH_SHEET, ..Reference.report(m, 0, profile) }
            }
            right => right,
        }),
    ),
    (
        "Who takes sheets modulo 2^32",
        Wrong::Who(|m, sheet, item| Reference.who(m, sheet % (1 << 32), item)),
    ),
    (
        "Who tells the other sheet where the own is empty",
        Wrong::Who(|m, sheet, item| match Reference.who(m, sheet, item) {
            Told { answer: ACCEPTED, times: 0, .. } => Reference.who(m, 1 - sheet, item),
            right => right,
        }),
    ),
    (
        "a file is written of sheet 0 for any sheet",
        Wrong::File(|m, _, block, out| Reference.file(m, 0, block, out)),
    ),
    ("Report takes another camp's bench on a sheet", Wrong::Report(any_bench)),
    ("Who takes an entry within the other's count", Wrong::Who(any_count)),
    (
        "Report looks at its own sheet alone",
        Wrong::Report(|m, sheet, profile| match (Reference.report(m, sheet, profile), held(m)) {
            (Reported { answer: NOT_SOUND, .. }, Some((desk, used))) => {
                let mut other = desk;
                other.sheets[1 - sheet as usize] = FRESH.sheets[0];
                let mut mended = m.clone();
                put(&mut mended, &other, used);
                Reference.report(&mended, sheet, profile)
            }
            (right, _) => right,
        }),
    ),
    ("a fresh desk keeps the visitors' sheet", Wrong::Fresh(visitors_kept)),
];

/// A camp sees the other camp's Enter that gets 8: its lines are emptied.
pub const EMPTIED_BY_8: (&str, Wrong) =
    ("an Enter that gets 8 empties the other camp's lines", Wrong::Key(emptied_by_8));
/// What one camp types is on its sheet, and something on the other.
pub const OTHER_COUNTED: (&str, Wrong) =
    ("an Enter is counted on the other sheet too", Wrong::Key(other_counted));

fn emptied_by_8(memory: &mut Memory, bench: u64, byte: u8) -> u8 {
    let answer = Reference.key(memory, bench, byte);
    if (byte, answer) == (ENTER, LOG_FULL) {
        let own = sheet_of(bench);
        change(memory, |desk| {
            for (bench, line) in (0..).zip(&mut desk.lines) {
                if sheet_of(bench) != own {
                    *line = Line::holding(b"");
                }
            }
        });
    }
    answer
}

/// An Enter is counted twice where the desk stays sound with its log.
fn other_counted(memory: &mut Memory, bench: u64, byte: u8) -> u8 {
    let answer = Reference.key(memory, bench, byte);
    if let (ENTER, ACCEPTED, Some((mut desk, used))) = (byte, answer, held(memory)) {
        let count: u64 = desk.sheets.iter().map(|sheet| sheet.count).sum();
        if RECORD_HEAD as u64 * (count + 1) <= used {
            desk.sheets[1 - sheet_of(bench)].count += 1;
            put(memory, &desk, used);
        }
    }
    answer
}

/// The right answer; after an accepted Enter the desk is changed, of which the item at this place of the
/// bench's sheet was entered.
fn entered(memory: &mut Memory, bench: u64, byte: u8, changed: fn(&mut Desk, usize, usize)) -> u8 {
    let answer = Reference.key(memory, bench, byte);
    if byte == ENTER && answer == ACCEPTED {
        change(memory, |desk| {
            let at = sheet_of(bench);
            let Sheet { items, count } = &desk.sheets[at];
            let place = items.iter().position(|item| item.entry == *count);
            changed(desk, at, place.expect("the last entry is there"));
        });
    }
    answer
}

fn one_count(memory: &mut Memory, bench: u64, byte: u8) -> u8 {
    entered(memory, bench, byte, |desk, at, place| {
        let count = desk.sheets[at].count.max(desk.sheets[1 - at].count + 1);
        desk.sheets[at].count = count;
        desk.sheets[at].items[place].entry = count;
    })
}

fn bench_2_on_sheet_0(memory: &mut Memory, bench: u64, byte: u8) -> u8 {
    let before = held(memory);
    let answer = Reference.key(memory, bench, byte);
    if let (2, ENTER, ACCEPTED, Some((before, _))) = (bench, byte, answer, before) {
        change(memory, |desk| {
            let Sheet { items, count } = desk.sheets[1];
            let place = items.iter().position(|item| item.entry == count);
            let place = place.expect("the last entry is there");
            desk.sheets[1] = before.sheets[1];
            desk.sheets[0].items[place] = items[place];
            desk.sheets[0].count += 1;
        });
    }
    answer
}

/// An Enter by what the other sheet holds of the item: refused where that is another bench's.
fn refused_by(memory: &mut Memory, bench: u64, byte: u8, refused: fn(&Item, &Item) -> bool) -> u8 {
    let before = memory.clone();
    let right = Reference.key(memory, bench, byte);
    let other = held(&before).filter(|_| byte == ENTER && right == ACCEPTED);
    let both = other.zip(named(&before, bench)).map(|((desk, _), (number, own, _))| {
        (own, desk.sheets[1 - sheet_of(bench)].items[number - 1])
    });
    if both.is_some_and(|(own, other)| refused(&own, &other)) {
        *memory = before;
        return NOT_OWNER;
    }
    right
}

fn other_owner(memory: &mut Memory, bench: u64, byte: u8) -> u8 {
    refused_by(memory, bench, byte, |own, other| own.len == 0 && other.len > 0)
}

fn one_owner(memory: &mut Memory, bench: u64, byte: u8) -> u8 {
    refused_by(memory, bench, byte, |_, other| other.len > 0)
}

fn both_counted(memory: &mut Memory, bench: u64, byte: u8) -> u8 {
    entered(memory, bench, byte, |desk, at, place| {
        let more = desk.sheets[1 - at].items[place].times;
        let Sheet { items, count } = &mut desk.sheets[at];
        items[place].times = (items[place].times + more).min(*count);
    })
}

fn other_emptied(memory: &mut Memory, bench: u64, byte: u8) -> u8 {
    entered(memory, bench, byte, |desk, at, place| {
        desk.sheets[1 - at].items[place] = Item::holding(b"", 0, 0, 0);
    })
}

/// Refusal 2 in place of 12 where the desk is not sound.
fn sheet_last(memory: &Memory, right: u8) -> u8 {
    let sound = held(memory).is_some_and(|(desk, _)| is_sound(&desk));
    match right {
        NO_SUCH_SHEET if !sound => NOT_SOUND,
        right => right,
    }
}

fn report_sheet_last(memory: &Memory, sheet: u64, profile: u64) -> Reported {
    let right = Reference.report(memory, sheet, profile);
    Reported { answer: sheet_last(memory, right.answer), ..right }
}

fn who_sheet_last(memory: &Memory, sheet: u64, item: u64) -> Told {
    let right = Reference.who(memory, sheet, item);
    Told { answer: sheet_last(memory, right.answer), ..right }
}

/// A key whose desk is taken for sound with its log by another number than the sum of both counts.
fn by_count(memory: &mut Memory, bench: u64, byte: u8, counted: fn([u64; SHEETS]) -> u64) -> u8 {
    let right = Reference.key(memory, bench, byte);
    let (NOT_SOUND, Some((desk, used))) = (right, held(memory)) else {
        return right;
    };
    let counts = desk.sheets.map(|sheet| sheet.count);
    let length = memory.log.len() as u64;
    let few = u128::from(counted(counts)) * RECORD_HEAD as u128 <= u128::from(used);
    if !is_sound(&desk) || length > LOG_LIMIT as u64 || used > length || !few || byte == ENTER {
        return right;
    }
    // Any other key looks at no count.
    let mut lower = desk;
    lower.sheets.iter_mut().for_each(|sheet| *sheet = FRESH.sheets[0]);
    let mut taken = memory.clone();
    put(&mut taken, &lower, used);
    let answer = Reference.key(&mut taken, bench, byte);
    if let (ACCEPTED, Some((after, _))) = (answer, held(&taken)) {
        change(memory, |desk| desk.lines = after.lines);
    }
    answer
}

/// The same memory with every item's bench one of its sheet's.
fn any_bench(memory: &Memory, sheet: u64, profile: u64) -> Reported {
    let mut mended = memory.clone();
    change(&mut mended, |desk| {
        for (at, sheet) in desk.sheets.iter_mut().enumerate() {
            let filled = sheet.items.iter_mut().filter(|item| item.len > 0);
            for item in filled.filter(|item| item.bench < BENCHES as u64) {
                item.bench = item.bench % OF_SHEET as u64 + (OF_SHEET * at) as u64;
            }
        }
    });
    Reference.report(&mended, sheet, profile)
}

/// The same memory with both counts the larger one.
fn any_count(memory: &Memory, sheet: u64, item: u64) -> Told {
    let mut mended = memory.clone();
    change(&mut mended, |desk| {
        let most = desk.sheets.iter().map(|sheet| sheet.count).max().unwrap_or(0);
        desk.sheets.iter_mut().for_each(|sheet| sheet.count = most);
    });
    Reference.who(&mended, sheet, item)
}

fn visitors_kept(memory: &mut Memory) -> u8 {
    let visitors = held(memory).map(|(desk, _)| desk.sheets[1]);
    let answer = Reference.fresh(memory);
    change(memory, |desk| desk.sheets[1] = visitors.expect("it is a desk"));
    answer
}
