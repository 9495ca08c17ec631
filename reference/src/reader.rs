//! Reading a log from the stick: document 02, request No. 10. Quoted sentences are that request's.

use crate::desk::{
    is_owned_by_another, is_sound, log_is_sound, sheet_of, store, Desk, Sheet, BENCHES, FRESH,
    LOG_LIMIT, NOT_SOUND, RECORD_HEAD, RECORD_KIND, SHEETS,
};
use crate::line::{ACCEPTED, BYTES, LIMIT};
use crate::names::{passes, ITEMS};
use std::ops::RangeInclusive;

/// "18 record shape"
pub const BAD_SHAPE: u8 = 18;
/// "19 foreign overwrite"
pub const FOREIGN_OVERWRITE: u8 = 19;
/// "20 end inside a record"
pub const END_INSIDE: u8 = 20;
/// "length is 7 to 206"
pub const LENGTHS: RangeInclusive<usize> = 7..=206;

/// An answer and a place: "each with the byte where the record starts, the log's first being 0; else
/// that number is 0".
pub type Answer = (u8, u64);

/// What a record says.
#[derive(Clone, Copy, Debug, PartialEq, Eq)]
pub struct Entry<'a> {
    pub bench: u64,
    pub item: usize,
    pub value: &'a [u8],
}

/// What the first bytes of a run come to.
enum Next<'a> {
    /// They are a record's, and do not decide it.
    More,
    /// A record, of that length.
    Taken(Entry<'a>, usize),
    Refused(u8),
}

/// The log read whole into a fresh desk: both sheets, and the answer. "For each record: fewer than six
/// bytes left, 20; a bad length, 18; fewer bytes left than the length, 20; any other shape fault, 18;
/// then 19."
pub fn read_whole(log: &[u8]) -> ([Sheet; SHEETS], Answer) {
    let Reader { desk: Desk { mut sheets, .. }, start, .. } = Reader::fresh();
    let (taken, refused) = take(&mut sheets, start, log);
    let answer = refused.unwrap_or(if taken < log.len() { END_INSIDE } else { ACCEPTED });
    (sheets, told(answer, taken as u64))
}

/// Takes records from the first of these bytes on, up to one that they do not decide or that is refused:
/// how many bytes they have, and the refusal.
fn take(sheets: &mut [Sheet; SHEETS], start: u64, bytes: &[u8]) -> (usize, Option<u8>) {
    let mut taken = 0;
    // There are not more records than bytes.
    for _ in bytes {
        match next(sheets, start + taken as u64, &bytes[taken..]) {
            Next::Taken(entry, length) => {
                put(sheets, &entry);
                taken += length;
            }
            Next::More => break,
            Next::Refused(answer) => return (taken, Some(answer)),
        }
    }
    (taken, None)
}

fn told(answer: u8, start: u64) -> Answer {
    (answer, if answer == ACCEPTED { 0 } else { start })
}

/// A reader between two parts. Any values may stand in the fields.
#[derive(Clone, Debug, PartialEq, Eq)]
pub struct Reader {
    pub desk: Desk,
    /// Where the record starts that is being read.
    pub start: u64,
    /// Its bytes so far.
    pub kept: Vec<u8>,
    /// The answer after a refusal, and after the last part.
    pub over: Option<u8>,
}

impl Reader {
    pub fn fresh() -> Self {
        Reader { desk: FRESH, start: 0, kept: vec![], over: None }
    }

    /// "2 first (not sound with the record's start as used in a log of 65,536, or kept bytes that already
    /// decide a record)"
    fn is_sound(&self) -> bool {
        is_sound(&self.desk)
            && log_is_sound(&self.desk, LOG_LIMIT, self.start)
            && matches!(next(&self.desk.sheets, self.start, &self.kept), Next::More)
    }

    /// The next part. "The caller marks the last part: 20 is given only there, and any part without a
    /// refusal gets 0."; "parts after it, or after the last part, change nothing and repeat its answer";
    /// "with 2 the whole part changes nothing".
    pub fn feed(&mut self, part: &[u8], last: bool) -> Answer {
        if !self.is_sound() {
            return (NOT_SOUND, 0);
        }
        if let Some(answer) = self.over {
            return told(answer, self.start);
        }
        let bytes = [&self.kept[..], part].concat();
        let (taken, refused) = take(&mut self.desk.sheets, self.start, &bytes);
        let left = &bytes[taken..];
        let answer = match refused {
            Some(answer) => answer,
            None if last && !left.is_empty() => END_INSIDE,
            None => ACCEPTED,
        };
        self.start += taken as u64;
        let over = last || answer != ACCEPTED;
        self.over = over.then_some(answer);
        self.kept = if over { vec![] } else { left.to_vec() };
        told(answer, self.start)
    }
}

/// What the bytes after a record's start come to. Under six bytes nothing is decided, six decide only a
/// bad length, all else needs the whole record.
fn next<'a>(sheets: &[Sheet; SHEETS], start: u64, bytes: &'a [u8]) -> Next<'a> {
    let [low, high, ..] = *bytes else {
        return Next::More;
    };
    if bytes.len() < RECORD_HEAD {
        return Next::More;
    }
    let length = usize::from(u16::from_le_bytes([low, high]));
    if !LENGTHS.contains(&length) {
        return Next::Refused(BAD_SHAPE);
    }
    let Some(record) = bytes.get(..length) else {
        return Next::More;
    };
    let end = start + length as u64;
    match entry(record).filter(|_| end <= LOG_LIMIT as u64) {
        None => Next::Refused(BAD_SHAPE),
        Some(entry) => {
            let held = &sheets[sheet_of(entry.bench)].items[entry.item - 1];
            if is_owned_by_another(held, entry.bench) {
                return Next::Refused(FOREIGN_OVERWRITE);
            }
            Next::Taken(entry, length)
        }
    }
}

/// A whole record's entry: "kind 1, bench 0 to 3, item known, the value well formed, of its kind, of
/// bytes 32 to 126 and with its name and one space a line of at most 200".
fn entry(record: &[u8]) -> Option<Entry<'_>> {
    let [_, _, low, high, bench, item, value @ ..] = record else {
        return None;
    };
    let (bench, item) = (u64::from(*bench), usize::from(*item));
    let (name, _) = ITEMS.get(item.checked_sub(1)?)?;
    let taken = u16::from_le_bytes([*low, *high]) == RECORD_KIND
        && bench < BENCHES as u64
        && passes(item, value)
        && value.iter().all(|byte| BYTES.contains(byte))
        && name.len() + 1 + value.len() <= LIMIT;
    taken.then_some(Entry { bench, item, value })
}

fn put(sheets: &mut [Sheet; SHEETS], entry: &Entry) {
    store(&mut sheets[sheet_of(entry.bench)], entry.bench, entry.item, entry.value);
}

#[cfg(test)]
mod tests {
    use super::*;
    use crate::desk::{key, record, Item};

    const NAME: &str = "_refine_ls_R_factor_gt";

    /// A log of these records of item 4.
    fn log(records: &[(u8, &str)]) -> Vec<u8> {
        records.iter().flat_map(|(bench, value)| record(*bench, 4, value.as_bytes())).collect()
    }

    /// The sheets after these entries.
    fn sheets(entries: &[(u64, &str)]) -> [Sheet; SHEETS] {
        let mut sheets = FRESH.sheets;
        for &(bench, value) in entries {
            put(&mut sheets, &Entry { bench, item: 4, value: value.as_bytes() });
        }
        sheets
    }

    /// Read whole and in parts, cut at every one place and at every byte, with empty parts between.
    fn read(log: &[u8]) -> ([Sheet; SHEETS], Answer) {
        let whole = read_whole(log);
        let cuts = (0..=log.len()).map(|at| vec![&log[..at], &[], &log[at..]]);
        let bytes = log.chunks(1).flat_map(|byte| [byte, &[]]).collect();
        for parts in cuts.chain([bytes]) {
            let mut reader = Reader::fresh();
            let mut told = (ACCEPTED, 0);
            for part in &parts {
                let before = reader.clone();
                told = reader.feed(part, false);
                assert!(matches!(told, (ACCEPTED | BAD_SHAPE | FOREIGN_OVERWRITE, _)));
                if before.over.is_some() {
                    assert_eq!(before, reader);
                }
            }
            let refused = told;
            told = reader.feed(&[], true);
            if refused.0 != ACCEPTED {
                assert_eq!(told, refused);
            }
            assert_eq!((reader.desk.sheets, told), whole, "{log:?}, {parts:?}");
            let ended = reader.clone();
            for (part, last) in [(log, false), (&[], true), (&[7, 0], true)] {
                assert_eq!(reader.feed(part, last), told);
                assert_eq!(reader, ended);
            }
            assert_eq!((reader.desk.lines, reader.kept), (FRESH.lines, vec![]));
        }
        whole
    }

    #[test]
    fn a_log_of_both_camps() {
        let log = log(&[(0, "0.16"), (2, "0.3"), (0, "?"), (3, "0.2"), (2, "1")]);
        let (read, answer) = read(&log);
        assert_eq!(answer, (FOREIGN_OVERWRITE, 10 + 9 + 7));
        assert_eq!(read, sheets(&[(0, "0.16"), (2, "0.3"), (0, "?")]));
        assert_eq!(read[0].items[3], Item::holding(b"?", 2, 0, 2));
        assert_eq!(read[1].items[3], Item::holding(b"0.3", 1, 2, 1));
    }

    #[test]
    fn no_bytes_and_some() {
        assert_eq!(read(&[]), (FRESH.sheets, (ACCEPTED, 0)));
        let log = log(&[(1, "0.16")]);
        assert_eq!(read(&log), (sheets(&[(1, "0.16")]), (ACCEPTED, 0)));
        for end in 1..log.len() {
            assert_eq!(read(&log[..end]), (FRESH.sheets, (END_INSIDE, 0)), "{end}");
        }
    }

    #[test]
    fn every_length_that_is_told() {
        for length in 0..=300_u16 {
            let mut log = log(&[(0, "0.16"), (1, "0.16")]);
            log[10..12].copy_from_slice(&length.to_le_bytes());
            // A shorter value is a number too, and another's.
            let expected = match length {
                7..=10 => FOREIGN_OVERWRITE,
                11..=206 => END_INSIDE,
                _ => BAD_SHAPE,
            };
            assert_eq!(read(&log).1, (expected, 10), "{length}");
        }
    }

    #[test]
    fn each_shape_fault() {
        let good = record(0, 4, b"0.16");
        let changes: [(usize, u8); 12] = [
            (2, 0),
            (2, 2),
            (3, 1),
            (4, 4),
            (4, 255),
            (5, 0),
            (5, 20),
            (5, 255),
            (6, b'x'),
            (7, 31),
            (8, 127),
            (9, b' '),
        ];
        for (at, byte) in changes {
            let mut log = [good.clone(), good.clone()].concat();
            log[10 + at] = byte;
            assert_eq!(read(&log).1, (BAD_SHAPE, 10), "{at} {byte}");
            // "fewer bytes left than the length, 20; any other shape fault, 18"
            log.pop();
            assert_eq!(read(&log).1, (END_INSIDE, 10), "{at} {byte}");
        }
    }

    #[test]
    fn the_longest_values() {
        for (item, name) in [(1, "_chemical_formula_sum"), (10, "_reflns_threshold_expression")] {
            let most = 200 - 1 - name.len();
            for (length, answer) in [(most, (ACCEPTED, 0)), (most + 1, (BAD_SHAPE, 0))] {
                let log = record(3, item, "x".repeat(length).as_bytes());
                assert_eq!(read(&log).1, answer, "{name} {length}");
            }
        }
        let log = record(3, 1, "x".repeat(200).as_bytes());
        assert_eq!((log.len(), read(&log).1), (206, (BAD_SHAPE, 0)));
    }

    #[test]
    fn the_first_65536_bytes() {
        // 9361 records of 7 bytes, and one of 9 that ends at the limit, or one of 10 that does not.
        let short: Vec<u8> = record(2, 4, b"1").repeat(9361);
        assert_eq!(short.len() + 9, LOG_LIMIT);
        for (value, answer) in [("0.1", (ACCEPTED, 0)), ("0.16", (BAD_SHAPE, short.len() as u64))] {
            let log = [short.clone(), record(2, 4, value.as_bytes())].concat();
            let (sheets, told) = read_whole(&log);
            assert_eq!((told, sheets[1].count), (answer, 9361 + u64::from(told.0 == ACCEPTED)));
            for size in [512, 1000, LOG_LIMIT] {
                let mut reader = Reader::fresh();
                let fed: Vec<Answer> =
                    log.chunks(size).map(|part| reader.feed(part, false)).collect();
                assert!(fed[..fed.len() - 1].iter().all(|told| *told == (ACCEPTED, 0)));
                assert_eq!((reader.feed(&[], true), reader.desk.sheets), (told, sheets));
            }
            assert_eq!(read_whole(&log[..log.len() - 1]).1, (END_INSIDE, short.len() as u64));
            let more = [log.clone(), vec![7]].concat();
            let expected =
                if answer.0 == ACCEPTED { (END_INSIDE, LOG_LIMIT as u64) } else { answer };
            assert_eq!(read_whole(&more).1, expected);
        }
    }

    #[test]
    fn a_grown_desk_is_read_back() {
        let (mut desk, mut log, mut used) = (FRESH, [0xee; 300], 0);
        for (bench, value) in
            [(0, "0.16"), (3, "?"), (1, "0.2"), (0, "0.045"), (3, "0.1"), (2, "1")]
        {
            for byte in format!("{NAME} {value}\n").bytes() {
                key(&mut desk, &mut log, &mut used, bench, byte);
            }
        }
        assert_eq!(read(&log[..used as usize]), (desk.sheets, (ACCEPTED, 0)));
        assert_eq!(desk.sheets.map(|sheet| sheet.count), [2, 2]);
    }

    #[test]
    fn a_reader_that_is_none_gets_2() {
        let mut reader = Reader::fresh();
        assert_eq!(reader.feed(&log(&[(0, "0.16"), (1, "2")])[..13], false), (ACCEPTED, 0));
        assert_eq!((reader.start, &reader.kept[..]), (10, &[7, 0, 1][..]));
        let changes: [fn(&mut Reader); 12] = [
            |reader| reader.start = 5,
            |reader| reader.start = LOG_LIMIT as u64 + 1,
            |reader| reader.start = u64::MAX,
            |reader| reader.desk.sheets[0].count = 2,
            |reader| reader.desk.sheets[1].count = 1,
            |reader| reader.desk.sheets[0].items[3].bench = 2,
            |reader| reader.desk.sheets[0].items[3].entry = 0,
            |reader| reader.desk.lines[3].len = 201,
            |reader| reader.kept = vec![7, 0, 1, 0, 1, 4, b'2'],
            |reader| reader.kept = vec![6, 0, 1, 0, 1, 4],
            |reader| reader.kept = vec![207, 0, 1, 0, 1, 4],
            |reader| reader.kept = [&[206, 0, 1, 0, 1, 4][..], &[b'x'; 200]].concat(),
        ];
        for (place, change) in changes.into_iter().enumerate() {
            for over in [None, Some(ACCEPTED), Some(BAD_SHAPE)] {
                let mut changed = reader.clone();
                changed.over = over;
                change(&mut changed);
                let before = changed.clone();
                for (part, last) in [(&[][..], false), (&[], true), (&[0, 1, 4], true)] {
                    assert_eq!(changed.feed(part, last), (NOT_SOUND, 0), "change {place}");
                    assert_eq!(changed, before, "change {place}");
                }
            }
        }
        for kept in
            [vec![], vec![6], vec![0xff; 5], vec![206, 0, 0, 0, 0, 0], vec![7, 0, 9, 9, 9, 9]]
        {
            reader.kept = kept;
            assert_eq!(reader.clone().feed(&[], false), (ACCEPTED, 0));
        }
    }

    #[test]
    fn lines_stay() {
        let mut reader = Reader::fresh();
        reader.desk.lines[2] = crate::desk::Line::holding(b"_a");
        let lines = reader.desk.lines;
        assert_eq!(reader.feed(&log(&[(2, "0.16")]), true), (ACCEPTED, 0));
        assert_eq!((reader.desk.lines, reader.start), (lines, 10));
    }
}
