//! Faulty readers of logs.

use super::Wrong;
use crate::boundary::{Fed, Memory, Stick};
use crate::by_reference::Reference;
use crate::memory::{held_reader, put_reader};
use crate::program::Program;
use reference::desk::{
    sheet_of, store, Desk, Item, BENCHES, FRESH, LOG_LIMIT, NOT_SOUND, RECORD_HEAD,
};
use reference::line::{ACCEPTED, BYTES, LIMIT};
use reference::names::{passes, ITEMS};
use reference::reader::{Reader, BAD_SHAPE, END_INSIDE, FOREIGN_OVERWRITE};

/// What a reader goes by, and what it forgets.
#[derive(Clone, Copy)]
struct Rules {
    shortest: usize,
    longest: usize,
    /// The numbers of the items that are known end here.
    items: usize,
    /// A record ends at this byte at the latest.
    limit: u64,
    /// Missing bytes are refused before the last part too.
    early: bool,
    /// The place told is where the part starts that has the record's end.
    of_part: bool,
    /// A record that was kept in part is stored twice.
    twice: bool,
    /// Entry numbers are the other sheet's.
    other_numbers: bool,
    /// Whose an item is, is looked up on both sheets, or on none.
    across: bool,
    unowned: bool,
    /// A shape fault is told before bytes that are missing.
    shape_first: bool,
    /// 19 is looked at before the shape.
    owner_first: bool,
    /// A refused part takes back what it stored.
    taken_back: bool,
    /// The start stays where the last part began.
    start_stays: bool,
    /// An empty part ends the reading.
    empty_ends: bool,
}

const RIGHT: Rules = Rules {
    shortest: 7,
    longest: 206,
    items: ITEMS.len(),
    limit: LOG_LIMIT as u64,
    early: false,
    of_part: false,
    twice: false,
    other_numbers: false,
    across: false,
    unowned: false,
    shape_first: false,
    owner_first: false,
    taken_back: false,
    start_stays: false,
    empty_ends: false,
};

/// A faulty reader by its rules.
macro_rules! by {
    ($($field:ident: $value:expr),+) => {
        Wrong::Feed(|m, s, part, last| feed(m, s, part, last, Rules { $($field: $value,)+ ..RIGHT }))
    };
}

pub const FAULTS: [(&str, Wrong); 25] = [
    ("a record of length 6 is taken", by!(shortest: 6)),
    ("a record of length 207 is taken", by!(longest: 207)),
    ("a record of length 8 is the shortest", by!(shortest: 8)),
    ("a record of length 205 is the longest", by!(longest: 205)),
    ("items 11 to 19 are unknown", by!(items: 10)),
    ("item 19 is unknown", by!(items: ITEMS.len() - 1)),
    ("item 20 is known", by!(items: ITEMS.len() + 1)),
    ("a record that ends at byte 65,537 is taken", by!(limit: LOG_LIMIT as u64 + 1)),
    ("a record that ends at byte 65,536 is refused", by!(limit: LOG_LIMIT as u64 - 1)),
    ("20 is given before the last part", by!(early: true)),
    ("the place is that of the part", by!(of_part: true)),
    ("a kept record is stored twice", by!(twice: true)),
    ("entry numbers are the other sheet's", by!(other_numbers: true)),
    ("19 is given between sheets", by!(across: true)),
    ("19 is never given", by!(unowned: true)),
    ("18 is given before missing bytes", by!(shape_first: true)),
    ("19 is given before 18", by!(owner_first: true)),
    ("a refused part takes back what it stored", by!(taken_back: true)),
    ("the start of a record stays", by!(start_stays: true)),
    ("an empty part ends the reading", by!(empty_ends: true)),
    ("a part after the end is read", Wrong::Feed(read_on)),
    ("a part after a refusal empties the sheets", Wrong::Feed(emptied)),
    (
        "only a mark of 1 is the last part",
        Wrong::Feed(|m, s, part, last| Reference.feed(m, s, part, u8::from(last == 1))),
    ),
    ("kept bytes that decide a record are read", Wrong::Feed(kept_read)),
    ("a reader that is over and not sound repeats its answer", Wrong::Feed(repeated)),
];

/// What a reader by such rules makes of the first bytes.
enum Next<'a> {
    More,
    Taken { bench: u64, item: usize, value: &'a [u8] },
    Refused(u8),
}

/// A reader by such rules; of one that is not sound, or over, the right answer.
fn feed(memory: &mut Memory, stick: &mut Stick, part: &[u8], last: u8, rules: Rules) -> Fed {
    let read = held_reader(memory, stick);
    let right = Reference.feed(memory, stick, part, last);
    let going_on = read.filter(|read| right.answer != NOT_SOUND && read.over.is_none());
    let Some(mut reader) = going_on else { return right };
    let (begun, kept) = (reader.clone(), reader.kept.len());
    let bytes = [&reader.kept[..], part].concat();
    let mut left = &bytes[..];
    let answer = loop {
        match next(&reader.desk, reader.start, left, rules) {
            Next::Taken { bench, item, value } => {
                let was_kept = left.len() == bytes.len() && kept > 0;
                let length = RECORD_HEAD + value.len();
                for _ in 0..=usize::from(rules.twice && was_kept) {
                    put(&mut reader.desk, bench, item, value, rules);
                }
                reader.start += length as u64;
                left = &left[length..];
            }
            Next::More if (last != 0 || rules.early) && !left.is_empty() => break END_INSIDE,
            Next::More => break ACCEPTED,
            Next::Refused(answer) => break answer,
        }
    };
    let place = if rules.of_part { begun.start + kept as u64 } else { reader.start };
    if answer != ACCEPTED && rules.taken_back {
        (reader.desk, reader.start) = (begun.desk, begun.start);
    }
    if rules.start_stays {
        reader.start = begun.start;
    }
    let over = last != 0 || answer != ACCEPTED || rules.empty_ends && part.is_empty();
    reader.over = over.then_some(answer);
    reader.kept = if over { vec![] } else { left.to_vec() };
    put_reader(memory, stick, &reader);
    Fed { place: if answer == ACCEPTED { 0 } else { place as usize }, answer }
}

fn next<'a>(desk: &Desk, start: u64, bytes: &'a [u8], rules: Rules) -> Next<'a> {
    if bytes.len() < RECORD_HEAD {
        return Next::More;
    }
    let length = usize::from(u16::from_le_bytes([bytes[0], bytes[1]]));
    if !(rules.shortest..=rules.longest).contains(&length) {
        return Next::Refused(BAD_SHAPE);
    }
    let (bench, item) = (u64::from(bytes[4]), usize::from(bytes[5]));
    let known = (1..=rules.items).contains(&item) && bench < BENCHES as u64;
    // One that is known beyond the last is taken for that.
    let item = item.min(ITEMS.len());
    let head = bytes[2..4] == [1, 0] && known && start + length as u64 <= rules.limit;
    if !head && rules.shape_first {
        return Next::Refused(BAD_SHAPE);
    }
    let Some(record) = bytes.get(..length) else {
        return Next::More;
    };
    let value = &record[RECORD_HEAD..];
    let owned = known && !rules.unowned && is_owned(desk, bench, item, rules.across);
    if owned && rules.owner_first {
        return Next::Refused(FOREIGN_OVERWRITE);
    }
    let typed = head
        && (passes(item, value) || length < 7)
        && value.iter().all(|byte| BYTES.contains(byte))
        && (ITEMS[item - 1].0.len() + 1 + value.len() <= LIMIT || length > 206);
    match (typed, owned) {
        (false, _) => Next::Refused(BAD_SHAPE),
        (_, true) => Next::Refused(FOREIGN_OVERWRITE),
        _ => Next::Taken { bench, item, value },
    }
}

fn is_owned(desk: &Desk, bench: u64, item: usize, across: bool) -> bool {
    let owned = |item: &Item| item.len > 0 && item.bench != bench;
    let own = sheet_of(bench);
    owned(&desk.sheets[own].items[item - 1])
        || across && owned(&desk.sheets[1 - own].items[item - 1])
}

/// Stores an entry; one that is longer than a slot is cut.
fn put(desk: &mut Desk, bench: u64, item: usize, value: &[u8], rules: Rules) {
    let own = sheet_of(bench);
    store(&mut desk.sheets[own], bench, item, &value[..value.len().min(LIMIT)]);
    if rules.other_numbers {
        let count = desk.sheets[1 - own].count + 1;
        let sheet = &mut desk.sheets[own];
        sheet.items[item - 1].entry = count.min(sheet.count);
    }
}

/// After the last part the next one is read as if the log went on.
fn read_on(memory: &mut Memory, stick: &mut Stick, part: &[u8], last: u8) -> Fed {
    match held_reader(memory, stick) {
        Some(reader @ Reader { over: Some(ACCEPTED), .. }) if !part.is_empty() => {
            let (memory_before, stick_before) = (memory.clone(), stick.clone());
            put_reader(memory, stick, &Reader { over: None, ..reader });
            let fed = Reference.feed(memory, stick, part, last);
            if fed.answer == NOT_SOUND {
                (*memory, *stick) = (memory_before, stick_before);
            }
            fed
        }
        _ => Reference.feed(memory, stick, part, last),
    }
}

fn emptied(memory: &mut Memory, stick: &mut Stick, part: &[u8], last: u8) -> Fed {
    let fed = Reference.feed(memory, stick, part, last);
    if let Some(mut reader) = held_reader(memory, stick) {
        if part.is_empty() && reader.over.is_some_and(|answer| answer != ACCEPTED) {
            reader.desk.sheets = FRESH.sheets;
            put_reader(memory, stick, &reader);
        }
    }
    fed
}

/// A reader that is not sound for its kept bytes alone gets them with the part.
fn kept_read(memory: &mut Memory, stick: &mut Stick, part: &[u8], last: u8) -> Fed {
    let fed = Reference.feed(memory, stick, part, last);
    match held_reader(memory, stick) {
        Some(mut reader) if fed.answer == NOT_SOUND && reader.over.is_none() => {
            let bytes = [std::mem::take(&mut reader.kept), part.to_vec()].concat();
            let (answer, place) = reader.feed(&bytes, last != 0);
            if answer != NOT_SOUND {
                put_reader(memory, stick, &reader);
            }
            Fed { place: place as usize, answer }
        }
        _ => fed,
    }
}

/// Whether the reading is over is looked at before the reader is sound.
fn repeated(memory: &mut Memory, stick: &mut Stick, part: &[u8], last: u8) -> Fed {
    let fed = Reference.feed(memory, stick, part, last);
    match held_reader(memory, stick) {
        Some(Reader { over: Some(answer), start, .. }) if fed.answer == NOT_SOUND => {
            Fed { place: if answer == ACCEPTED { 0 } else { start as usize }, answer }
        }
        _ => fed,
    }
}
