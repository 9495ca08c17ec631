//! The whole desk: document 01, "What the desk holds", "Keys and their refusals" and "The log", and
//! from document 02 how often an item was rewritten, request No. 7, whose it is, request No. 8, and the
//! sheets of two camps, request No. 9.

use crate::line::{classify, split, ACCEPTED, BYTES, LIMIT};
use crate::names::{item, passes, ITEMS};
use crate::powder::{Profile, NO_SUCH_PROFILE};
use crate::rows::{rows, Row, Values, ROWS};

/// "Four benches, 0 to 3"
pub const BENCHES: usize = 4;
/// "Benches 0 and 1 fill sheet 0, benches 2 and 3 sheet 1"
pub const SHEETS: usize = 2;
/// "bytes lent by the caller, at most 65,536"
pub const LOG_LIMIT: usize = 65_536;
/// "Length is 6 plus the value's."
pub const RECORD_HEAD: usize = 6;
/// "kind 1"
pub const RECORD_KIND: u16 = 1;

/// "8 erases"
pub const ERASE: u8 = 8;
/// "10 is Enter"
pub const ENTER: u8 = 10;
/// "24 empties the line"
pub const EMPTY: u8 = 24;

/// "the bench is not 0 to 3"
pub const NO_SUCH_BENCH: u8 = 1;
/// "the desk is not sound"
pub const NOT_SOUND: u8 = 2;
/// "the byte is none of those above"
pub const NO_SUCH_KEY: u8 = 3;
/// "a byte to append meets a line of [200]"
pub const LINE_FULL: u8 = 4;
/// *Who*: "6 if not 1 to 10"; No. 12: "Item numbers up to 19 amend 6."
pub const NO_SUCH_ITEM: u8 = 6;
/// "the record is longer than the unused part of the log"
pub const LOG_FULL: u8 = 8;
/// "item owned by another bench, after 7 and before 8"
pub const NOT_OWNER: u8 = 9;
/// "12, no such sheet, before 2"
pub const NO_SUCH_SHEET: u8 = 12;
/// *Who*: "For an empty item, and with any refusal, bench is 255 and entry 0."
pub const NO_BENCH: u8 = 255;

/// One bench's unfinished line.
#[derive(Clone, Copy, Debug, PartialEq, Eq)]
pub struct Line {
    pub bytes: [u8; LIMIT],
    pub len: u64,
}

impl Line {
    pub fn holding(text: &[u8]) -> Self {
        Line { bytes: padded(text), len: text.len() as u64 }
    }
}

/// One item of the sheet; empty where its length is 0.
#[derive(Clone, Copy, Debug, PartialEq, Eq)]
pub struct Item {
    pub value: [u8; LIMIT],
    pub len: u64,
    pub entry: u64,
    pub bench: u64,
    /// "the number of accepted entries that named it"
    pub times: u64,
}

impl Item {
    pub fn holding(value: &[u8], entry: u64, bench: u64, times: u64) -> Self {
        Item { value: padded(value), len: value.len() as u64, entry, bench, times }
    }
}

/// The items that one camp fills, and the count of its accepted entries: "ownership and entry counts
/// are per sheet".
#[derive(Clone, Copy, Debug, PartialEq, Eq)]
pub struct Sheet {
    pub items: [Item; ITEMS.len()],
    pub count: u64,
}

/// The desk without its log. Any values may stand in the fields, those of an unsound desk too.
#[derive(Clone, Copy, Debug, PartialEq, Eq)]
pub struct Desk {
    pub lines: [Line; BENCHES],
    pub sheets: [Sheet; SHEETS],
}

impl Desk {
    /// The sheet of that number, where there is one.
    pub fn sheet(&self, number: u64) -> Option<&Sheet> {
        self.sheets.get(usize::try_from(number).ok()?)
    }
}

/// The sheet that a bench fills.
pub fn sheet_of(bench: u64) -> usize {
    match bench {
        0 | 1 => 0,
        _ => 1,
    }
}

const EMPTY_LINE: Line = Line { bytes: [0; LIMIT], len: 0 };
const EMPTY_ITEM: Item = Item { value: [0; LIMIT], len: 0, entry: 0, bench: 0, times: 0 };

const EMPTY_SHEET: Sheet = Sheet { items: [EMPTY_ITEM; ITEMS.len()], count: 0 };

/// "A fresh desk has all of this empty."
pub const FRESH: Desk = Desk { lines: [EMPTY_LINE; BENCHES], sheets: [EMPTY_SHEET; SHEETS] };

/// The used bytes, where there are so many and the unused ones are zero.
fn used_bytes(bytes: &[u8; LIMIT], len: u64) -> Option<&[u8]> {
    let (used, unused) = bytes.split_at_checked(usize::try_from(len).ok()?)?;
    unused.iter().all(|&byte| byte == 0).then_some(used)
}

fn printable(text: &[u8]) -> bool {
    text.iter().all(|byte| BYTES.contains(byte))
}

/// The text with zeros after it.
fn padded(text: &[u8]) -> [u8; LIMIT] {
    let mut bytes = [0; LIMIT];
    bytes[..text.len()].copy_from_slice(text);
    bytes
}

/// "each line is at most [200] bytes, all 32 to 126"
fn line_is_sound(line: &Line) -> bool {
    used_bytes(&line.bytes, line.len).is_some_and(printable)
}

/// "each filled item has bench 0 to 3, an entry number from 1 to the count and a value of the form
/// below, bytes 32 to 126, that passes its kind and makes, after its name and one space, a line of
/// at most [200] bytes; empty items are zero"; No. 7: "On a sound desk it is 1 to the entry count where
/// filled, else 0."; No. 9: "A filled item's bench is one of its sheet's."
fn item_is_sound(sheet: usize, number: usize, item: &Item, count: u64) -> bool {
    if item.len == 0 {
        return *item == EMPTY_ITEM;
    }
    let Some(value) = used_bytes(&item.value, item.len) else {
        return false;
    };
    item.bench < BENCHES as u64
        && sheet_of(item.bench) == sheet
        && (1..=count).contains(&item.entry)
        && (1..=count).contains(&item.times)
        && printable(value)
        && passes(number, value)
        && ITEMS[number - 1].0.len() + 1 + value.len() <= LIMIT
}

/// Soundness without the log's part.
pub fn is_sound(desk: &Desk) -> bool {
    desk.lines.iter().all(line_is_sound)
        && desk.sheets.iter().enumerate().all(|(place, sheet)| sheet_is_sound(place, sheet))
}

fn sheet_is_sound(place: usize, Sheet { items, count }: &Sheet) -> bool {
    (1..).zip(items).all(|(number, item)| item_is_sound(place, number, item, *count))
}

/// "the log is at most 65,536 bytes long, used is not more than its length, and six times the
/// count is not more than used"; No. 9: "Soundness compares six times the sum of both counts with
/// used."
pub fn log_is_sound(desk: &Desk, length: usize, used: u64) -> bool {
    let count: u128 = desk.sheets.iter().map(|sheet| u128::from(sheet.count)).sum();
    let used = u128::from(used);
    length <= LOG_LIMIT && used <= length as u128 && RECORD_HEAD as u128 * count <= used
}

/// A key call. The first answer that applies; a refused call changes nothing.
pub fn key(desk: &mut Desk, log: &mut [u8], used: &mut u64, bench: u64, byte: u8) -> u8 {
    if bench >= BENCHES as u64 {
        return NO_SUCH_BENCH;
    }
    if !is_sound(desk) || !log_is_sound(desk, log.len(), *used) {
        return NOT_SOUND;
    }
    let line = &mut desk.lines[bench as usize];
    let len = line.len as usize;
    match byte {
        ENTER => return enter(desk, log, used, bench),
        EMPTY => *line = EMPTY_LINE,
        ERASE if len == 0 => {}
        ERASE => *line = Line::holding(&line.bytes[..len - 1]),
        _ if !BYTES.contains(&byte) => return NO_SUCH_KEY,
        _ if len == LIMIT => return LINE_FULL,
        _ => {
            line.bytes[len] = byte;
            line.len += 1;
        }
    }
    ACCEPTED
}

/// "An accepted Enter stores the value, writes the log record and empties that line."
fn enter(desk: &mut Desk, log: &mut [u8], used: &mut u64, bench: u64) -> u8 {
    let Line { bytes, len } = desk.lines[bench as usize];
    let typed = &bytes[..len as usize];
    let refusal = classify(typed);
    let (ACCEPTED, Some((name, value))) = (refusal, split(typed)) else {
        return refusal;
    };
    let number = item(name).expect("an accepted line names an item");
    let sheet = &mut desk.sheets[sheet_of(bench)];
    if is_owned_by_another(&sheet.items[number - 1], bench) {
        return NOT_OWNER;
    }
    let record = record(bench as u8, number as u8, value);
    let free = &mut log[*used as usize..];
    if record.len() > free.len() {
        return LOG_FULL;
    }
    free[..record.len()].copy_from_slice(&record);
    *used += record.len() as u64;
    store(sheet, bench, number, value);
    desk.lines[bench as usize] = EMPTY_LINE;
    ACCEPTED
}

/// One accepted entry more on its sheet: the value, its bench and number.
pub fn store(sheet: &mut Sheet, bench: u64, number: usize, value: &[u8]) {
    sheet.count += 1;
    let item = &mut sheet.items[number - 1];
    *item = Item::holding(value, sheet.count, bench, item.times + 1);
}

/// "The bench whose entry first fills an item owns it, also if that value was unassigned; nobody else
/// may write it." So the bench that a filled item holds is its owner's.
pub fn is_owned_by_another(item: &Item, bench: u64) -> bool {
    item.len > 0 && item.bench != bench
}

/// "length of the whole record (two bytes), kind 1 (two bytes), bench, item, the value as typed;
/// numbers little-endian"
pub fn record(bench: u8, item: u8, value: &[u8]) -> Vec<u8> {
    let length = (RECORD_HEAD + value.len()) as u16;
    [&length.to_le_bytes(), &RECORD_KIND.to_le_bytes(), &[bench, item][..], value].concat()
}

/// The values of a sheet whose lengths are at most a line's, as typed.
pub fn values(sheet: &Sheet) -> Values<'_> {
    sheet.items.each_ref().map(|item| &item.value[..item.len as usize])
}

/// The sheet that a question or the writer of files names: "12, no such sheet, before 2".
pub fn asked(desk: &Desk, sheet: u64) -> Result<&Sheet, u8> {
    let asked = desk.sheet(sheet).ok_or(NO_SUCH_SHEET)?;
    if is_sound(desk) {
        Ok(asked)
    } else {
        Err(NOT_SOUND)
    }
}

/// The question *Report*: "on an unsound desk it gives 2 and rows all level 0, reason 0"; No. 9: "12,
/// no such sheet, before 2, with the report as with 2"; No. 11: "21, no such profile, after 12 and
/// before 2; with 21 too the report is as with 2".
pub fn report(desk: &Desk, sheet: u64, profile: u64) -> (u8, [Row; ROWS]) {
    match reported(desk, sheet, profile) {
        Ok(rows) => (ACCEPTED, rows),
        Err(answer) => (answer, [Row::default(); ROWS]),
    }
}

fn reported(desk: &Desk, sheet: u64, profile: u64) -> Result<[Row; ROWS], u8> {
    desk.sheet(sheet).ok_or(NO_SUCH_SHEET)?;
    let profile = Profile::numbered(profile).ok_or(NO_SUCH_PROFILE)?;
    Ok(rows(&values(asked(desk, sheet)?), profile))
}

/// What *Who* answers.
#[derive(Clone, Copy, Debug, PartialEq, Eq)]
pub struct Told {
    pub answer: u8,
    pub bench: u8,
    pub entry: u64,
    pub times: u64,
}

impl Told {
    /// "For an empty item, and with any refusal, bench is 255 and entry 0."; No. 7: "0 for empty items
    /// and refusals"
    pub fn nobody(answer: u8) -> Self {
        Told { answer, bench: NO_BENCH, entry: 0, times: 0 }
    }
}

/// The question *Who*: bench and entry number, and how many of its sheet's entries named the item.
pub fn who(desk: &Desk, sheet: u64, item: u64) -> Told {
    let sheet = match asked(desk, sheet) {
        Ok(sheet) => sheet,
        Err(answer) => return Told::nobody(answer),
    };
    if !(1..=ITEMS.len() as u64).contains(&item) {
        return Told::nobody(NO_SUCH_ITEM);
    }
    match sheet.items[item as usize - 1] {
        EMPTY_ITEM => Told::nobody(ACCEPTED),
        Item { bench, entry, times, .. } => {
            Told { answer: ACCEPTED, bench: bench as u8, entry, times }
        }
    }
}

#[cfg(test)]
mod tests {
    use super::*;

    /// A desk with its log, and every call's answer checked for changing nothing when refused.
    struct Run {
        desk: Desk,
        log: Vec<u8>,
        used: u64,
    }

    impl Run {
        fn new(length: usize) -> Self {
            Run { desk: FRESH, log: vec![0xee; length], used: 0 }
        }

        fn key(&mut self, bench: u64, byte: u8) -> u8 {
            let before = (self.desk, self.log.clone(), self.used);
            let answer = key(&mut self.desk, &mut self.log, &mut self.used, bench, byte);
            if answer != ACCEPTED {
                assert_eq!(before, (self.desk, self.log.clone(), self.used));
            }
            answer
        }

        fn text(&mut self, bench: u64, text: &str) {
            for byte in text.bytes() {
                assert_eq!(self.key(bench, byte), ACCEPTED);
            }
        }

        fn enter(&mut self, bench: u64, text: &str) -> u8 {
            self.text(bench, text);
            self.key(bench, ENTER)
        }

        fn typed(&self, bench: usize) -> &[u8] {
            let line = &self.desk.lines[bench];
            &line.bytes[..line.len as usize]
        }

        /// How many records of the used log have this item and a bench of this sheet, by walking their
        /// lengths.
        fn records(&self, sheet: usize, item: usize) -> u64 {
            let (mut left, mut count) = (&self.log[..self.used as usize], 0);
            while let [low, high, _, _, bench, of, ..] = *left {
                let of_sheet = sheet_of(bench.into()) == sheet;
                count += u64::from(of_sheet && usize::from(of) == item);
                left = &left[usize::from(u16::from_le_bytes([low, high]))..];
            }
            assert_eq!(left, [0; 0]);
            count
        }
    }

    fn told(bench: u8, entry: u64, times: u64) -> Told {
        Told { answer: ACCEPTED, bench, entry, times }
    }

    const ENTRY: &str = "_refine_ls_R_factor_gt 0.16";
    const RECORD: [u8; 10] = [0x0a, 0, 1, 0, 0, 4, 0x30, 0x2e, 0x31, 0x36];

    #[test]
    fn the_record_of_the_measured_examples() {
        let mut run = Run::new(4096);
        assert_eq!(run.enter(0, ENTRY), ACCEPTED);
        assert_eq!((run.used, &run.log[..10]), (10, &RECORD[..]));
        assert!(run.log[10..].iter().all(|&byte| byte == 0xee));
        assert_eq!(run.desk.lines[0], EMPTY_LINE);
        assert_eq!(run.desk.sheets.map(|sheet| sheet.count), [1, 0]);
        assert_eq!(who(&run.desk, 0, 4), told(0, 1, 1));
        assert_eq!(who(&run.desk, 1, 4), Told::nobody(ACCEPTED));
    }

    #[test]
    fn exact_room_and_one_byte_less() {
        let mut run = Run::new(10);
        assert_eq!((run.enter(0, ENTRY), run.used), (ACCEPTED, 10));
        assert_eq!(run.log, RECORD);
        let mut run = Run::new(9);
        assert_eq!((run.enter(0, ENTRY), run.used), (LOG_FULL, 0));
        assert_eq!(run.typed(0), ENTRY.as_bytes());
    }

    #[test]
    fn key_200_and_key_201() {
        let mut run = Run::new(0);
        run.text(2, &"x".repeat(200));
        assert_eq!(run.key(2, b'x'), LINE_FULL);
        assert_eq!(run.key(2, 3), NO_SUCH_KEY);
        assert_eq!(run.key(1, b'x'), ACCEPTED);
        assert_eq!(run.key(2, ERASE), ACCEPTED);
        assert_eq!(run.key(2, b'y'), ACCEPTED);
        assert_eq!(run.typed(2), [&[b'x'; 199][..], b"y"].concat());
    }

    #[test]
    fn a_line_of_every_length_at_each_bench() {
        for bench in 0..BENCHES as u64 {
            let mut run = Run::new(0);
            for length in 0..=201 {
                let line = &run.desk.lines[bench as usize];
                assert_eq!((line.len, is_sound(&run.desk)), (length.min(200), true));
                let expected = if length < 200 { ACCEPTED } else { LINE_FULL };
                assert_eq!(run.key(bench, b'x'), expected, "key {} of bench {bench}", length + 1);
            }
        }
    }

    #[test]
    fn entries_of_199_and_200_bytes() {
        for (length, item, name) in [
            (81, 1, "_chemical_formula_sum"),
            (199, 1, "_chemical_formula_sum"),
            (200, 1, "_chemical_formula_sum"),
            (200, 10, "_reflns_threshold_expression"),
        ] {
            let mut run = Run::new(LOG_LIMIT);
            let value = format!("'{}'", "y".repeat(length - name.len() - 3));
            assert_eq!(run.enter(1, &format!("{name} {value}")), ACCEPTED);
            // "Log records keep their form"
            let written = record(1, item, value.as_bytes());
            assert_eq!((run.used, &run.log[..written.len()]), (written.len() as u64, &written[..]));
            assert_eq!(written[..6], [(6 + value.len()) as u8, 0, 1, 0, 1, item]);
            assert_eq!(written[6..], *value.as_bytes());
            assert!(is_sound(&run.desk));
        }
    }

    #[test]
    fn refusals_of_enter_keep_the_line() {
        let mut run = Run::new(100);
        for (text, answer) in [("", 5), ("_a 1", 6), ("_chemical_formula_weight x", 7)] {
            assert_eq!(run.enter(3, text), answer);
            assert_eq!(run.typed(3), text.as_bytes());
            assert_eq!(run.key(3, EMPTY), ACCEPTED);
            assert_eq!(run.typed(3), b"");
        }
        assert_eq!(run.enter(3, "_chemical_formula_weight 1x"), 7);
        assert_eq!(run.key(3, ERASE), ACCEPTED);
        assert_eq!(run.key(3, ENTER), ACCEPTED);
        assert_eq!(run.log[..7], [7, 0, 1, 0, 3, 2, b'1']);
    }

    #[test]
    fn erasing_nothing_is_accepted() {
        let mut run = Run::new(0);
        assert_eq!(run.key(0, ERASE), ACCEPTED);
        assert_eq!(run.key(0, EMPTY), ACCEPTED);
        assert_eq!(run.desk, FRESH);
    }

    #[test]
    fn every_byte() {
        for byte in 0..=u8::MAX {
            let expected = match byte {
                8 | 24 | 32..=126 => ACCEPTED,
                10 => 5,
                _ => NO_SUCH_KEY,
            };
            assert_eq!(Run::new(0).key(1, byte), expected, "{byte}");
        }
    }

    #[test]
    fn no_such_bench_stands_first() {
        let mut run = Run::new(LOG_LIMIT + 1);
        for bench in [4, 5, 255, 256, 1 << 32, (1 << 32) + 1, 1 << 63, u64::MAX] {
            for byte in [0, ENTER, b'a'] {
                assert_eq!(run.key(bench, byte), NO_SUCH_BENCH);
            }
        }
        assert_eq!(run.key(0, 0), NOT_SOUND);
        assert_eq!(Run::new(LOG_LIMIT).key(0, 0), NO_SUCH_KEY);
    }

    #[test]
    fn entries_replace_and_count() {
        let mut run = Run::new(4096);
        assert_eq!(run.enter(3, "_chemical_formula_sum 'C10 H20'"), ACCEPTED);
        assert_eq!(run.enter(3, "_CHEMICAL_formula_SUM    ?"), ACCEPTED);
        assert_eq!(run.enter(2, "_refine_ls_shift/su_max -0.06(1)"), ACCEPTED);
        assert_eq!(who(&run.desk, 1, 1), told(3, 2, 2));
        assert_eq!(who(&run.desk, 1, 8), told(2, 3, 1));
        assert_eq!(run.desk.sheets[1].items[0].value, padded(b"?"));
        let records =
            [record(3, 1, b"'C10 H20'"), record(3, 1, b"?"), record(2, 8, b"-0.06(1)")].concat();
        assert_eq!(run.log[..run.used as usize], records);
        let (answer, rows) = report(&run.desk, 1, 0);
        assert_eq!((answer, rows[0].reason, rows[9].level), (0, 1, 2));
        assert_eq!(report(&run.desk, 0, 0), report(&FRESH, 0, 0));
    }

    #[test]
    fn who_answers() {
        for sheet in [0, 1] {
            for item in [0, 20, 21, 256, 257, u64::MAX] {
                assert_eq!(who(&FRESH, sheet, item), Told::nobody(NO_SUCH_ITEM));
            }
            for item in 1..=19 {
                assert_eq!(who(&FRESH, sheet, item), Told::nobody(ACCEPTED));
            }
        }
        assert_eq!(Told::nobody(7), Told { answer: 7, bench: 255, entry: 0, times: 0 });
    }

    #[test]
    fn each_item_counts_the_entries_that_named_it() {
        let lines = [
            "_chemical_formula_sum 'C10 H20'",
            "_refine_ls_R_factor_gt ?",
            "_chemical_formula_sum  .",
            "_REFINE_LS_R_FACTOR_GT 0.16",
            "_chemical_formula_sum 'C10 H20'",
            "_refine_ls_R_factor_gt 0.16",
            "_refine_ls_R_factor_gt 0.16",
        ];
        let mut run = Run::new(400);
        for (entry, line) in (1..).zip(lines) {
            let name = line.split(' ').next().expect("a name");
            let number = item(name.as_bytes()).expect("a known name");
            let bench = (number % 2) as u64;
            let before = who(&run.desk, 0, number as u64).times;
            assert_eq!(run.enter(bench, line), ACCEPTED);
            assert_eq!(who(&run.desk, 0, number as u64), told(bench as u8, entry, before + 1));
            // The other camp types the same between.
            assert_eq!(run.enter(bench + 2, line), ACCEPTED);
            let both = run.desk.sheets.iter().enumerate();
            for (sheet, held) in both {
                for number in 1..=ITEMS.len() {
                    assert_eq!(held.items[number - 1].times, run.records(sheet, number), "{line}");
                }
            }
        }
        for sheet in [0, 1] {
            assert_eq!([1, 4, 2].map(|item| who(&run.desk, sheet, item).times), [3, 4, 0]);
        }
    }

    #[test]
    fn a_refused_enter_is_not_counted() {
        let mut run = Run::new(20);
        assert_eq!(run.enter(0, ENTRY), ACCEPTED);
        for (line, answer) in [
            ("_refine_ls_R_factor_gt", 5),
            ("_refine_ls_R_factor_g 0.16", 6),
            ("_refine_ls_R_factor_gt x", 7),
            ("_refine_ls_R_factor_gt 0.16000", LOG_FULL),
        ] {
            assert_eq!(run.enter(0, line), answer);
            assert_eq!(who(&run.desk, 0, 4), told(0, 1, 1));
            assert_eq!(run.key(0, EMPTY), ACCEPTED);
        }
        assert_eq!(run.enter(1, ENTRY), NOT_OWNER);
        assert_eq!(run.enter(0, ENTRY), ACCEPTED);
        assert_eq!((who(&run.desk, 0, 4), run.records(0, 4)), (told(0, 2, 2), 2));
    }

    #[test]
    fn the_first_bench_owns_the_item() {
        for first in ["0.16", "?", "."] {
            for (owner, other) in (0..4).flat_map(|owner| (0..4).map(move |other| (owner, other))) {
                let mut run = Run::new(100);
                assert_eq!(run.enter(owner, &format!("_refine_ls_R_factor_gt {first}")), ACCEPTED);
                let answer = run.enter(other, "_REFINE_LS_R_FACTOR_GT 0.2");
                let one_camp = sheet_of(owner) == sheet_of(other);
                let refused = one_camp && owner != other;
                assert_eq!(answer, if refused { NOT_OWNER } else { ACCEPTED });
                assert_eq!(run.key(other, EMPTY), ACCEPTED);
                assert_eq!(run.enter(owner, "_refine_ls_R_factor_gt ?"), ACCEPTED);
                let entries = 2 + u64::from(owner == other);
                let sheet = sheet_of(owner) as u64;
                assert_eq!(who(&run.desk, sheet, 4), told(owner as u8, entries, entries));
                if !one_camp {
                    assert_eq!(who(&run.desk, 1 - sheet, 4), told(other as u8, 1, 1));
                }
                assert_eq!(run.enter(other, "_refine_ls_R_factor_obs 0.2"), ACCEPTED);
            }
        }
    }

    /// The answer to an Enter of bench 1, in a log with so much room after the entry of an owner.
    fn answer_with_room(owner: u64, value: &str, room: usize) -> u8 {
        let mut run = Run::new(10 + room);
        assert_eq!(run.enter(owner, ENTRY), ACCEPTED);
        run.enter(1, &format!("_refine_ls_R_factor_gt {value}"))
    }

    #[test]
    fn refusal_9_stands_after_7_and_before_8() {
        for room in [0, 6, 8, 9, 10, 50] {
            assert_eq!(answer_with_room(0, "0.x", room), 7, "room {room}");
            assert_eq!(answer_with_room(0, "0.2", room), NOT_OWNER, "room {room}");
            assert_eq!(answer_with_room(0, "?", room), NOT_OWNER, "room {room}");
            let fits = if room < 9 { LOG_FULL } else { ACCEPTED };
            for owner in [1, 2, 3] {
                assert_eq!(answer_with_room(owner, "0.2", room), fits, "room {room}");
                assert_eq!(answer_with_room(owner, "0.x", room), 7, "room {room}");
            }
        }
    }

    #[test]
    fn a_line_refused_with_9_is_kept_for_correction() {
        let mut run = Run::new(100);
        assert_eq!(run.enter(1, ENTRY), ACCEPTED);
        assert_eq!(run.enter(0, "_refine_ls_R_factor_gt 0.2"), NOT_OWNER);
        assert_eq!(run.key(0, ENTER), NOT_OWNER);
        assert_eq!(run.typed(0), b"_refine_ls_R_factor_gt 0.2");
        for _ in 0.."gt 0.2".len() {
            assert_eq!(run.key(0, ERASE), ACCEPTED);
        }
        assert_eq!(run.enter(0, "obs 0.2"), ACCEPTED);
        assert_eq!((who(&run.desk, 0, 4), who(&run.desk, 0, 5)), (told(1, 1, 1), told(0, 2, 1)));
    }

    #[test]
    fn how_often_is_1_to_the_count() {
        for (times, sound) in [(0, false), (1, true), (2, true), (3, true), (4, false)] {
            let mut desk = FRESH;
            desk.sheets[1].count = 3;
            desk.sheets[1].items[3] = Item::holding(b"0.16", 1, 2, times);
            let expected = if sound { told(2, 1, times) } else { Told::nobody(NOT_SOUND) };
            assert_eq!((is_sound(&desk), who(&desk, 1, 4)), (sound, expected), "{times}");
        }
    }

    #[test]
    fn a_sheet_s_count_bounds_its_own_items_alone() {
        for (counts, sound) in [([1, 2], true), ([0, 2], false), ([1, 1], false), ([2, 1], false)] {
            let mut desk = FRESH;
            desk.sheets[0].items[3] = Item::holding(b"0.16", 1, 1, 1);
            desk.sheets[1].items[3] = Item::holding(b"0.2", 2, 3, 1);
            desk.sheets[0].count = counts[0];
            desk.sheets[1].count = counts[1];
            assert_eq!(is_sound(&desk), sound, "{counts:?}");
        }
    }

    #[test]
    fn a_filled_item_s_bench_is_one_of_its_sheet_s() {
        for (sheet, bench) in (0..SHEETS).flat_map(|sheet| (0..5).map(move |bench| (sheet, bench)))
        {
            let mut desk = FRESH;
            desk.sheets[sheet].count = 1;
            desk.sheets[sheet].items[3] = Item::holding(b"0.16", 1, bench, 1);
            let own = bench / 2 == sheet as u64;
            assert_eq!(is_sound(&desk), own, "sheet {sheet}, bench {bench}");
        }
    }

    #[test]
    fn no_such_sheet_stands_before_2() {
        let mut unsound = FRESH;
        unsound.lines[0].len = 201;
        for desk in [&FRESH, &unsound] {
            for sheet in [2, 3, 255, 256, 1 << 32, (1 << 32) + 1, 1 << 63, u64::MAX] {
                assert_eq!(report(desk, sheet, 0), (NO_SUCH_SHEET, [Row::default(); ROWS]));
                for item in [0, 1, 19, 20] {
                    assert_eq!(who(desk, sheet, item), Told::nobody(NO_SUCH_SHEET));
                }
            }
        }
    }

    #[test]
    fn the_camps_keep_apart() {
        let mut run = Run::new(100);
        assert_eq!(run.enter(2, "_refine_ls_R_factor_gt 0.3"), ACCEPTED);
        assert_eq!(run.enter(0, ENTRY), ACCEPTED);
        assert_eq!(run.enter(3, "_refine_ls_wR_factor_ref 0.1"), ACCEPTED);
        assert_eq!(run.enter(1, "_refine_ls_wR_factor_ref ?"), ACCEPTED);
        assert_eq!(run.enter(3, "_refine_ls_R_factor_gt 0.2"), NOT_OWNER);
        assert_eq!(run.desk.sheets.map(|sheet| sheet.count), [2, 2]);
        assert_eq!([4, 6].map(|item| who(&run.desk, 0, item)), [told(0, 1, 1), told(1, 2, 1)]);
        assert_eq!([4, 6].map(|item| who(&run.desk, 1, item)), [told(2, 1, 1), told(3, 2, 1)]);
        let records =
            [record(2, 4, b"0.3"), record(0, 4, b"0.16"), record(3, 6, b"0.1"), record(1, 6, b"?")];
        assert_eq!(run.log[..run.used as usize], records.concat());
        assert_eq!([0, 1].map(|sheet| report(&run.desk, sheet, 0).1[5].level), [3, 4]);
    }

    #[test]
    fn unsound_desks() {
        let mut run = Run::new(100);
        assert_eq!(run.enter(1, ENTRY), ACCEPTED);
        run.text(0, "_a");
        let grown = run.desk;
        let changes: [fn(&mut Desk); 37] = [
            |desk| desk.lines[0].len = 201,
            |desk| desk.lines[0].len = 200,
            |desk| desk.lines[0].len = 3,
            |desk| desk.lines[0].len = 1,
            |desk| desk.lines[3].len = u64::MAX,
            |desk| desk.lines[0].bytes[0] = 31,
            |desk| desk.lines[0].bytes[1] = 127,
            |desk| desk.lines[1].bytes[199] = 1,
            |desk| desk.sheets[0].items[3].bench = 4,
            |desk| desk.sheets[0].items[3].bench = 1 + 256,
            |desk| desk.sheets[0].items[3].entry = 0,
            |desk| desk.sheets[0].items[3].entry = 2,
            |desk| desk.sheets[0].items[3].times = 0,
            |desk| desk.sheets[0].items[3].times = 2,
            |desk| desk.sheets[0].items[3].times = 1 + (1 << 32),
            |desk| desk.sheets[0].items[3].len = 5,
            |desk| desk.sheets[0].items[3].len = 200,
            |desk| desk.sheets[0].items[3].len = 201,
            |desk| desk.sheets[0].items[3].len = 3 + (1 << 32),
            |desk| desk.sheets[0].items[3].len = 0,
            |desk| desk.sheets[0].items[3].value[0] = b'x',
            |desk| desk.sheets[0].items[3].value[4] = 255,
            |desk| desk.sheets[0].items[3].value[199] = b' ',
            |desk| desk.sheets[0].items[2] = desk.sheets[0].items[3],
            |desk| desk.sheets[0].items[9].bench = 1,
            |desk| desk.sheets[0].items[9].entry = 1,
            |desk| desk.sheets[0].items[9].times = 1,
            |desk| desk.sheets[0].items[9].value[0] = b'?',
            |desk| desk.sheets[0].items[9].len = 1,
            |desk| desk.sheets[0].count = 0,
            |desk| {
                let filled = desk.sheets[0].items[3];
                desk.sheets[0].items[0] = Item { value: padded(b"a b"), len: 3, ..filled };
            },
            |desk| desk.sheets[0].items[3].bench = 2,
            |desk| desk.sheets[0].items[3].bench = 3,
            |desk| desk.sheets.swap(0, 1),
            |desk| desk.sheets[1].items[3] = desk.sheets[0].items[3],
            |desk| desk.sheets[1].items[9].bench = 2,
            |desk| desk.sheets[1].items[0].value[199] = 1,
        ];
        for (place, change) in changes.into_iter().enumerate() {
            run.desk = grown;
            change(&mut run.desk);
            for byte in [0, ERASE, ENTER, b'a'] {
                assert_eq!(run.key(0, byte), NOT_SOUND, "change {place}");
            }
            assert_eq!(run.key(4, ENTER), NO_SUCH_BENCH, "change {place}");
            for sheet in [0, 1] {
                let none = (NOT_SOUND, [Row::default(); ROWS]);
                for profile in [0, 1] {
                    assert_eq!(report(&run.desk, sheet, profile), none, "change {place}");
                }
                let no_profile = (NO_SUCH_PROFILE, [Row::default(); ROWS]);
                assert_eq!(report(&run.desk, sheet, 2), no_profile, "change {place}");
                for item in [4, 20] {
                    assert_eq!(
                        who(&run.desk, sheet, item),
                        Told::nobody(NOT_SOUND),
                        "change {place}"
                    );
                }
            }
        }
    }

    #[test]
    fn a_report_for_each_profile() {
        let mut run = Run::new(100);
        assert_eq!(run.enter(1, ENTRY), ACCEPTED);
        for (profile, crystal) in [(0, true), (1, false)] {
            let (answer, rows) = report(&run.desk, 0, profile);
            assert_eq!((answer, rows[5].level, rows[18]), (ACCEPTED, 3, rows[0]));
            assert_eq!(rows[12] == rows[0], crystal);
        }
        for profile in [2, 3, 256, 257, 1 << 32, u64::MAX] {
            for (sheet, answer) in [(0, 21), (1, 21), (2, 12), (u64::MAX, 12)] {
                let refused = (answer, [Row::default(); ROWS]);
                assert_eq!(report(&run.desk, sheet, profile), refused);
            }
        }
    }

    #[test]
    fn a_value_as_long_as_its_line_allows() {
        for (name, length) in
            [("_chemical_formula_sum", 178), ("_reflns_threshold_expression", 171)]
        {
            let number = item(name.as_bytes()).expect("a known name");
            let filled = |length: usize| {
                let mut desk = FRESH;
                desk.sheets[1].count = 1;
                desk.sheets[1].items[number - 1] =
                    Item::holding("x".repeat(length).as_bytes(), 1, 3, 1);
                desk
            };
            assert!(is_sound(&filled(length)));
            assert!(!is_sound(&filled(length + 1)));
        }
    }

    #[test]
    fn the_log_s_part_of_soundness() {
        for (counts, length, used, sound) in [
            ([0, 0], 0, 0, true),
            ([0, 0], LOG_LIMIT, LOG_LIMIT as u64, true),
            ([0, 0], LOG_LIMIT + 1, 0, false),
            ([0, 0], 10, 11, false),
            ([0, 0], 10, u64::MAX, false),
            ([1, 0], 10, 6, true),
            ([0, 1], 10, 6, true),
            ([1, 0], 10, 5, false),
            ([0, 1], 10, 5, false),
            ([1, 1], 20, 12, true),
            ([1, 1], 20, 11, false),
            ([2, 1], 20, 18, true),
            ([1, 2], 20, 17, false),
            ([u64::MAX, 0], 10, 10, false),
            ([u64::MAX, 1], 10, 10, false),
            ([1, u64::MAX], 10, 10, false),
            ([1 << 63, 1 << 63], 10, 10, false),
            ([u64::MAX.div_ceil(6), 0], 10, 10, false),
        ] {
            let mut desk = FRESH;
            desk.sheets[0].count = counts[0];
            desk.sheets[1].count = counts[1];
            assert_eq!(log_is_sound(&desk, length, used), sound, "{counts:?} {length}");
            let answer = key(&mut desk, &mut vec![0; length], &mut { used }, 0, ERASE);
            assert_eq!(answer, if sound { ACCEPTED } else { NOT_SOUND });
            // "Questions test soundness without the log's part."
            assert_eq!([0, 1].map(|sheet| report(&desk, sheet, 0).0), [ACCEPTED; SHEETS]);
        }
    }
}
