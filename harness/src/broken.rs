//! Ways to break a sound desk, each in one place.

use crate::desks::{longest_value, Desks, State, OF_SHEET};
use crate::random::Random;
use reference::desk::{Item, Line, Sheet, BENCHES, LOG_LIMIT, RECORD_HEAD, SHEETS};
use reference::line::LIMIT;
use reference::names::ITEMS;

/// Bytes that neither a line nor a value may hold.
const BAD_BYTES: [u8; 8] = [0, 1, 9, 10, 31, 127, 128, 255];
/// Lengths beyond the limit, and what a cut-off number would turn into one within it.
const BAD_LENGTHS: [u64; 7] =
    [LIMIT as u64 + 1, LIMIT as u64 + 20, 255, 256, (1 << 32) + 1, 1 << 63, u64::MAX];
/// Values that have no form, of bytes that a value may hold.
const NO_VALUES: [&str; 9] = ["a b", "'", "'a'b'", "_a", "#1", "loop_", "DATA_x", " 1", "1 "];

type Break = fn(&mut State, &mut Random);

/// So many ways break the desk itself; those after them only its agreement with the log, which
/// questions and the writer of files do not look at.
pub const DESK_WAYS: usize = 42;

/// Each way by name.
pub const WAYS: [(&str, Break); 50] = [
    ("line longer than the limit", |state, random| {
        line(state, random).len = random.pick(&BAD_LENGTHS);
    }),
    ("line of the limit with zeros", |state, random| filled_line(state, random).len = LIMIT as u64),
    ("line one byte longer", |state, random| filled_line(state, random).len += 1),
    ("line one byte shorter", |state, random| filled_line(state, random).len -= 1),
    ("line's first byte out of range", |state, random| {
        filled_line(state, random).bytes[0] = random.pick(&BAD_BYTES);
    }),
    ("line's last byte out of range", |state, random| {
        let line = filled_line(state, random);
        line.bytes[line.len as usize - 1] = random.pick(&BAD_BYTES);
    }),
    ("line's first unused byte", |state, random| {
        let line = filled_line(state, random);
        line.bytes[line.len as usize] = 1 + random.byte() % 255;
    }),
    ("line's last unused byte", |state, random| {
        filled_line(state, random).bytes[LIMIT - 1] = 1 + random.byte() % 255;
    }),
    ("item's bench one too high", |state, random| {
        filled_item(state, random).bench = BENCHES as u64;
    }),
    ("item's bench of the other sheet", |state, random| {
        let item = filled_item(state, random);
        item.bench = (item.bench + OF_SHEET as u64) % BENCHES as u64;
    }),
    ("an item on the other sheet too", |state, random| {
        let [mine, other] = some_sheets(state, random);
        let place = mine.items.iter().position(|item| item.len > 0).expect("an item is filled");
        other.items[place] = Item { entry: 1, times: 1, ..mine.items[place] };
    }),
    ("sheets exchanged", |state, _| state.desk.sheets.reverse()),
    ("item's bench 255", |state, random| filled_item(state, random).bench = 255),
    ("item's bench beyond 8 bits", |state, random| {
        filled_item(state, random).bench += random.pick(&[1 << 8, 1 << 32]);
    }),
    ("item's entry 0", |state, random| filled_item(state, random).entry = 0),
    ("item's entry one above the count", |state, random| {
        let (item, count) = filled_and_count(state, random);
        item.entry = *count + 1;
    }),
    ("item's entry largest", |state, random| filled_item(state, random).entry = u64::MAX),
    ("item's entry beyond 32 bits", |state, random| filled_item(state, random).entry += 1 << 32),
    ("item's times 0", |state, random| filled_item(state, random).times = 0),
    ("item's times one above the count", |state, random| {
        let (item, count) = filled_and_count(state, random);
        item.times = *count + 1;
    }),
    ("item's times largest", |state, random| filled_item(state, random).times = u64::MAX),
    ("item's times beyond 32 bits", |state, random| filled_item(state, random).times += 1 << 32),
    ("item without form", |state, random| {
        let item = 1 + random.below(ITEMS.len());
        let value = random.pick(&NO_VALUES);
        set(state, random, item, value.as_bytes());
    }),
    ("number item without a number", |state, random| {
        let item = random.pick(&[2, 4, 5, 6, 7, 8, 9, 11, 14, 18]);
        let value = random.pick(&["x", "'1'", "-.", ".(3)", "1234567890."]);
        set(state, random, item, value.as_bytes());
    }),
    ("category item without a category", |state, random| {
        let value = random.pick(&["FX", "fo", "1", "''"]);
        set(state, random, 3, value.as_bytes());
    }),
    ("item of another kind", |state, random| {
        let (item, value) = random.pick(&[(3, "0.1"), (2, "FO"), (9, "'C H'"), (3, "C")]);
        set(state, random, item, value.as_bytes());
    }),
    ("item one byte too long for its name", |state, random| {
        let item = random.pick(&[1, 10, 19]);
        set(state, random, item, &vec![b'x'; longest_value(item) + 1]);
    }),
    ("item as long as the limit", |state, random| {
        let item = random.pick(&[1, 10, 19]);
        set(state, random, item, &[b'x'; LIMIT]);
    }),
    ("item longer than the limit", |state, random| {
        filled_item(state, random).len = random.pick(&BAD_LENGTHS);
    }),
    ("item one byte longer", |state, random| filled_item(state, random).len += 1),
    ("item with length 0", |state, random| filled_item(state, random).len = 0),
    ("item's byte out of range", |state, random| {
        filled_item(state, random).value[0] = random.pick(&BAD_BYTES);
    }),
    ("text item's byte out of range", |state, random| {
        let item = random.pick(&[1, 10, 19]);
        let value = [b'\'', random.pick(&BAD_BYTES), b'\''];
        set(state, random, item, &value);
    }),
    ("item's first unused byte", |state, random| {
        let item = filled_item(state, random);
        item.value[item.len as usize] = 1 + random.byte() % 255;
    }),
    ("item's last unused byte", |state, random| {
        filled_item(state, random).value[LIMIT - 1] = 1 + random.byte() % 255;
    }),
    ("empty item's bench", |state, random| empty_item(state, random).bench = 1),
    ("empty item's entry", |state, random| empty_item(state, random).entry = 1),
    ("empty item's times", |state, random| empty_item(state, random).times = 1),
    ("empty item's byte", |state, random| {
        empty_item(state, random).value[random.below(LIMIT)] = b'?';
    }),
    ("empty item's length", |state, random| empty_item(state, random).len = 1),
    ("count below an entry", |state, random| {
        let (item, count) = filled_and_count(state, random);
        item.entry = *count;
        *count -= 1;
    }),
    ("item's entry counted on the other sheet", |state, random| {
        let [mine, other] = some_sheets(state, random);
        some(&mut mine.items, random, |item| item.len > 0).entry = mine.count + 1;
        other.count = other.count.max(mine.count + 1);
    }),
    ("count above a sixth of used", |state, random| {
        let count = state.used / RECORD_HEAD as u64 + 1;
        let [mine, other] = some_sheets(state, random);
        mine.count = random.pick(&[count - other.count, count, u64::MAX]);
    }),
    ("each count a sixth of used, and not their sum", |state, _| {
        let most = state.used / RECORD_HEAD as u64;
        for sheet in &mut state.desk.sheets {
            sheet.count = sheet.count.max(most / SHEETS as u64 + 1);
        }
    }),
    ("six times the count beyond 64 bits", |state, random| {
        let [mine, _] = some_sheets(state, random);
        mine.count = random.pick(&[u64::MAX.div_ceil(RECORD_HEAD as u64), 1 << 63]);
    }),
    ("both counts beyond 64 bits", |state, random| {
        let [mine, other] = some_sheets(state, random);
        (mine.count, other.count) = random.pick(&[(1 << 63, 1 << 63), (u64::MAX, other.count + 1)]);
    }),
    ("used none of some entries", |state, _| state.used = 0),
    ("used one below six times the count", |state, _| {
        let count: u64 = state.desk.sheets.iter().map(|sheet| sheet.count).sum();
        state.used = RECORD_HEAD as u64 * count - 1;
    }),
    ("used above the log's length", |state, random| {
        let length = state.log.len() as u64;
        state.used = random.pick(&[length + 1, length + (1 << 32), 1 << 63, u64::MAX]);
    }),
    ("log longer than the limit", |state, random| {
        state.log.resize(LOG_LIMIT + random.pick(&[1, 2, 4464]), 0x5a);
    }),
];

/// So many sound desks, each broken in every way: the desk's number, the way's, and the desk.
pub fn each_broken(seed: u64, count: u64, mut given: impl FnMut(u64, usize, State, &mut Random)) {
    let (mut desks, mut random) = (Desks::new(!seed), Random::new(seed));
    for number in 0..count {
        each_way(&mut desks, &mut random, |way, state, random| given(number, way, state, random));
    }
}

/// One sound desk broken in every way.
pub fn each_way(
    desks: &mut Desks,
    random: &mut Random,
    mut given: impl FnMut(usize, State, &mut Random),
) {
    let sound = breakable(desks);
    for (way, (_, change)) in WAYS.iter().enumerate() {
        let mut state = sound.clone();
        change(&mut state, random);
        given(way, state, random);
    }
}

/// A sound desk with something in it to break: a line that is neither empty nor full, on each sheet a
/// filled and an empty item, entries counted.
fn breakable(desks: &mut Desks) -> State {
    loop {
        let state = desks.sound();
        let part = |sheet: &Sheet| {
            sheet.items.iter().any(|item| item.len > 0)
                && sheet.items.iter().any(|item| item.len == 0)
        };
        if state.desk.lines.iter().any(is_partly_filled) && state.desk.sheets.iter().all(part) {
            return state;
        }
    }
}

fn is_partly_filled(line: &Line) -> bool {
    (1..LIMIT as u64).contains(&line.len)
}

fn line<'a>(state: &'a mut State, random: &mut Random) -> &'a mut Line {
    &mut state.desk.lines[random.below(BENCHES)]
}

fn filled_line<'a>(state: &'a mut State, random: &mut Random) -> &'a mut Line {
    some(&mut state.desk.lines, random, is_partly_filled)
}

fn filled_item<'a>(state: &'a mut State, random: &mut Random) -> &'a mut Item {
    filled_and_count(state, random).0
}

/// A filled item, and the count of its sheet.
fn filled_and_count<'a>(state: &'a mut State, random: &mut Random) -> (&'a mut Item, &'a mut u64) {
    let Sheet { items, count } = &mut state.desk.sheets[random.below(SHEETS)];
    (some(items, random, |item| item.len > 0), count)
}

fn empty_item<'a>(state: &'a mut State, random: &mut Random) -> &'a mut Item {
    some(&mut state.desk.sheets[random.below(SHEETS)].items, random, |item| item.len == 0)
}

/// Both sheets, in any order.
fn some_sheets<'a>(state: &'a mut State, random: &mut Random) -> [&'a mut Sheet; SHEETS] {
    let mut sheets = state.desk.sheets.each_mut();
    sheets.rotate_left(random.below(SHEETS));
    sheets
}

/// One of those that are so; there is one.
fn some<'a, T>(from: &'a mut [T], random: &mut Random, is_so: fn(&T) -> bool) -> &'a mut T {
    let mut so: Vec<&mut T> = from.iter_mut().filter(|part| is_so(part)).collect();
    let at = random.below(so.len());
    so.swap_remove(at)
}

/// Fills an item with a value that may be wrong for it.
fn set(state: &mut State, random: &mut Random, item: usize, value: &[u8]) {
    let sheet = random.below(SHEETS);
    let bench = (OF_SHEET * sheet + random.below(OF_SHEET)) as u64;
    let Sheet { items, count } = &mut state.desk.sheets[sheet];
    items[item - 1] = Item::holding(value, *count, bench, 1);
}
