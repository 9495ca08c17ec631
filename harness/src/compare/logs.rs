//! The comparison of the log's reader: document 02, request No. 10. "However it is cut, with parts of no
//! bytes too, the sheets and the final answer agree with reading it whole."

use super::calls::difference;
use super::{from_seeds, hex, Comparison, Plan};
use crate::boundary::{Fed, Memory, Stick, DESK_USED_AT};
use crate::desks::longest_value;
use crate::logs::{each_broken_reader, fault, way, Logs, OTHER_BYTES, REFUSALS};
use crate::memory::held;
use crate::program::Program;
use crate::random::Random;
use crate::sequences::{Sequence, Sequences};
use crate::tally::Question;
use reference::desk::{record, Sheet, NOT_SOUND, SHEETS};
use reference::line::{ACCEPTED, LIMIT};
use reference::reader::{BAD_SHAPE, END_INSIDE, FOREIGN_OVERWRITE};
use std::fmt::Display;

/// One log for each thousand lines, one that is read byte by byte or cut and damaged everywhere, one about
/// the limit and one reader broken in every way for each twenty thousand; one grown log for each five
/// hundred, one sound reader for each hundred.
const LOGS_ONE_IN: u64 = 1000;
const LONG_ONE_IN: u64 = 20_000;
const GROWN_ONE_IN: u64 = 500;
const READERS_ONE_IN: u64 = 100;
/// What marks the last part.
const LAST: [u8; 3] = [1, 2, 255];

/// A reader in the hands of both programs.
pub(super) struct Readers {
    pub tested: (Memory, Stick),
    expected: (Memory, Stick),
}

impl Readers {
    pub fn new(memory: Memory, stick: Stick) -> Self {
        Readers { tested: (memory.clone(), stick.clone()), expected: (memory, stick) }
    }

    fn fresh() -> Self {
        Self::new(Memory::zeros(&[]), Stick::zeros())
    }
}

/// The final answer and all that is lent then.
type Read = (Fed, (Memory, Stick));

impl Comparison<'_> {
    pub(super) fn some_logs(&mut self, plan: &Plan) {
        self.seeded(plan, from_seeds!("logs"), LOGS_ONE_IN, Self::generated_logs);
        self.seeded(plan, from_seeds!("logs byte by byte"), LONG_ONE_IN, Self::byte_by_byte);
        self.seeded(plan, from_seeds!("logs about the limit"), LONG_ONE_IN, Self::about_limit);
        self.seeded(plan, from_seeds!("grown logs"), GROWN_ONE_IN, Self::grown_logs);
        self.seeded(plan, from_seeds!("readers"), READERS_ONE_IN, Self::sound_readers);
        self.seeded(plan, from_seeds!("broken readers"), LONG_ONE_IN, Self::broken_readers);
    }

    pub(super) fn listed_logs(&mut self, plan: &Plan) {
        self.every_cut("every cut of short logs", plan.fixed_seed);
        self.every_damage("every byte damaged", plan.fixed_seed);
        self.old_logs("logs of earlier builds");
        self.record_limits("records at their limits");
    }

    /// Each log whole and cut at random, three times.
    fn generated_logs(&mut self, name: &'static str, seed: u64, count: u64) {
        self.begin(name);
        let mut logs = Logs::new(seed);
        for number in 0..count {
            let log = logs.log([4, 12, 40, 200][number as usize % 4]);
            let place = format_args!("{name}, log {number}");
            let Some(whole) = self.in_one_part(&log, &place) else { continue };
            for cuts in 0..3 {
                let parts = logs.parts(&log);
                self.in_parts(&log, &parts, &whole, cuts, &place);
            }
        }
    }

    fn byte_by_byte(&mut self, name: &'static str, seed: u64, count: u64) {
        self.begin(name);
        let mut logs = Logs::new(seed.rotate_left(2));
        for number in 0..count {
            let (log, place) = (logs.log(30), format_args!("{name}, log {number}"));
            let Some(whole) = self.in_one_part(&log, &place) else { continue };
            let parts: Vec<&[u8]> = log.chunks(1).collect();
            self.in_parts(&log, &parts, &whole, number as usize, &place);
        }
    }

    /// Logs that end about byte 65,536, whole and in parts of 512.
    fn about_limit(&mut self, name: &'static str, seed: u64, count: u64) {
        self.begin(name);
        let mut logs = Logs::new(seed.rotate_left(6));
        for number in 0..count {
            for past in [-1, 0, 1, 40] {
                let log = logs.about_limit(past);
                let place = format_args!("{name}, log {number}, {past} past the limit");
                let Some(whole) = self.in_one_part(&log, &place) else { continue };
                let parts: Vec<&[u8]> = log.chunks(512).collect();
                self.in_parts(&log, &parts, &whole, number as usize, &place);
            }
        }
    }

    /// "The used log of any desk grown by these rules gives back its sheets exactly."
    fn grown_logs(&mut self, name: &'static str, seed: u64, count: u64) {
        self.begin(name);
        let (mut seeds, mut logs) = (Random::new(!seed), Logs::new(seed));
        for number in 0..count {
            let seed = seeds.next();
            let place = format_args!("{name}, sequence {seed}");
            let Sequence { mut calls, log } = Sequences::new(seed).sequence();
            if number == 0 {
                calls.clear();
            }
            let Some((_, grown)) = self.play(&calls, &log, &place) else { continue };
            let used = &grown.log[..grown.numbers[DESK_USED_AT]];
            let Some(whole) = self.in_one_part(used, &place) else { continue };
            let (fed, (read, _)) = &whole;
            self.group().answers += 1;
            if (fed.answer, fed.place, sheets(read)) != (ACCEPTED, 0, sheets(&grown)) {
                self.different(|| format!("{place}: read back {fed:?}, or other sheets"));
            }
            self.tally.note(Question::Grown, usize::from(!used.is_empty()));
            let parts = logs.parts(used);
            self.in_parts(used, &parts, &whole, seed as usize, &place);
        }
    }

    /// Readers in the middle of a log or over, on any sound desk, with anything behind their kept bytes: some
    /// parts of the log's rest.
    fn sound_readers(&mut self, name: &'static str, seed: u64, count: u64) {
        self.begin(name);
        let mut logs = Logs::new(seed.rotate_left(14));
        for number in 0..count {
            self.group().inputs += 1;
            let (memory, stick, rest) = logs.begun(number);
            if stick.state[0] > 0 {
                self.note_stands(Question::KeptStands, &stick);
            }
            let (mut readers, place) =
                (Readers::new(memory, stick), format_args!("{name}, reader {number}"));
            let parts = logs.parts(&rest);
            for (at, part) in (1..).zip(&parts) {
                let last = u8::from(at == parts.len());
                if self.feed(&mut readers, part, last, &place).is_none() {
                    break;
                }
            }
        }
    }

    /// Each reader that is none gets 2, whatever the part, and nothing changes.
    fn broken_readers(&mut self, name: &'static str, seed: u64, count: u64) {
        self.begin(name);
        each_broken_reader(seed, count, |number, at, memory, stick, random| {
            self.group().inputs += 1;
            let part = record(random.below(5) as u8, 4, b"0.16");
            let mut refused = true;
            for end in [0, random.below(part.len()), part.len()] {
                for last in [0, 1] {
                    let mut readers = Readers::new(memory.clone(), stick.clone());
                    let place = format_args!("{name}, reader {number}, {}", way(at));
                    let fed = self.feed(&mut readers, &part[..end], last, &place);
                    let same = readers.tested == (memory.clone(), stick.clone());
                    let told = fed.is_some_and(|fed| (fed.answer, fed.place) == (NOT_SOUND, 0));
                    refused &= same && told;
                }
            }
            if !refused {
                self.different(|| format!("{name}, reader {number}, {}: not refused", way(at)));
            }
            self.tally.note_reader(at, refused);
            self.note_stands(Question::BrokenStands, &stick);
        });
    }

    /// Short logs, whole, damaged and foreign, cut at every one and at every two places.
    fn every_cut(&mut self, name: &'static str, seed: u64) {
        self.begin(name);
        let mut logs = Logs::new(!seed);
        for number in 0..12 {
            let mut log = if number % 2 == 0 { logs.log(4) } else { logs.records(4) };
            log.truncate(60);
            let place = format_args!("{name}, log {number}");
            let Some(whole) = self.in_one_part(&log, &place) else { continue };
            for one in 0..=log.len() {
                for other in one..=log.len() {
                    let parts = [&log[..one], &log[one..other], &log[other..]];
                    self.in_parts(&log, &parts, &whole, one + other, &place);
                }
            }
        }
    }

    /// Every byte of some logs changed to several others, each then read whole and in two parts.
    fn every_damage(&mut self, name: &'static str, seed: u64) {
        self.begin(name);
        let mut logs = Logs::new(seed.rotate_left(10));
        for number in 0..6 {
            let right = logs.records(8);
            for at in 0..right.len() {
                let bits = [1, 128].map(|bit| right[at] ^ bit);
                for byte in OTHER_BYTES.into_iter().chain(bits) {
                    let mut log = right.clone();
                    log[at] = byte;
                    let place = format_args!("{name}, log {number}, byte {at} made {byte}");
                    let Some(whole) = self.in_one_part(&log, &place) else { continue };
                    let parts = [&log[..at], &log[at..]];
                    self.in_parts(&log, &parts, &whole, at, &place);
                }
            }
        }
    }

    /// Logs from before request No. 8, in which benches type over each other's items, and from before No. 6
    /// and 9, which are read as they are; also with a last value that no number is.
    fn old_logs(&mut self, name: &'static str) {
        self.begin(name);
        for number in 0..2 * 4_u32.pow(4) {
            let benches = [0, 1, 2, 3].map(|at| (number / 4_u32.pow(at) % 4) as u8);
            let last: &[u8] = if number < 4_u32.pow(4) { b"." } else { b"0.x" };
            let values = [&b"0.16"[..], b"?", b"0.2", last];
            let records: Vec<Vec<u8>> =
                benches.iter().zip(values).map(|(bench, value)| record(*bench, 4, value)).collect();
            let (log, place) = (records.concat(), format_args!("{name}, benches {benches:?}"));
            let Some(whole) = self.in_one_part(&log, &place) else { continue };
            let foreign = |at: usize| {
                let owner = benches[..at].iter().find(|bench| **bench / 2 == benches[at] / 2);
                owner.is_some_and(|owner| *owner != benches[at])
            };
            let refused = (0..4).find(|&at| foreign(at) || values[at] == b"0.x");
            let expected = refused.map_or((ACCEPTED, 0), |at| {
                let bad = values[at] == b"0.x";
                let answer = if bad { BAD_SHAPE } else { FOREIGN_OVERWRITE };
                (answer, records[..at].iter().map(Vec::len).sum())
            });
            self.group().answers += 1;
            if (whole.0.answer, whole.0.place) != expected {
                self.different(|| format!("{place}: {:?}, not {expected:?}", whole.0));
            }
            let at = [ACCEPTED, FOREIGN_OVERWRITE, BAD_SHAPE].iter().position(|a| *a == expected.0);
            self.tally.note(Question::OldLog, at.unwrap_or(usize::MAX));
            self.in_parts(&log, &[&log[..9], &[], &log[9..]], &whole, number as usize, &place);
        }
    }

    /// Records of every length about the shortest and the longest, with values about the longest that their
    /// items take; alone and after another, whole, one byte short and with one more.
    fn record_limits(&mut self, name: &'static str) {
        self.begin(name);
        let before = record(1, 2, b"1");
        for item in [1, 10, 19] {
            let lengths = (0..4).chain(longest_value(item) - 2..=LIMIT + 2);
            for (length, first) in lengths.flat_map(|length| [(length, &[][..]), (length, &before)])
            {
                let log = [first, &record(2, item as u8, &vec![b'C'; length])].concat();
                let place = format_args!("{name}, item {item}, {length} bytes");
                let logs = [&log[..], &log[..log.len() - 1], &[&log[..], &[7]].concat()];
                for log in logs {
                    let Some(whole) = self.in_one_part(log, &place) else { continue };
                    for at in [first.len() + 5, first.len() + 6, log.len() - 1] {
                        let (one, other) = log.split_at(at.min(log.len()));
                        self.in_parts(log, &[one, other], &whole, at, &place);
                    }
                }
            }
        }
    }

    /// A log in one part by both programs, held to reading it whole by the reference. What the tested one
    /// came to, where nothing was different.
    fn in_one_part(&mut self, log: &[u8], place: &dyn Display) -> Option<Read> {
        self.group().inputs += 1;
        let mut readers = Readers::fresh();
        let fed = self.feed(&mut readers, log, LAST[log.len() % 3], place)?;
        let (whole, read) = self.expected.whole(log);
        self.group().answers += 1;
        if fed != whole || sheets(&readers.tested.0) != sheets(&read) {
            let log = hex(log);
            self.different(|| format!("{place}, log {log}: {fed:?}, whole {whole:?}"));
            return None;
        }
        self.note_whole(log, &fed);
        Some((fed, readers.tested))
    }

    /// The same log in parts: "any part without a refusal gets 0", 20 only with the last; in the end the
    /// answer, the desk and the reader are those of reading it whole, and so they stay.
    fn in_parts(
        &mut self,
        log: &[u8],
        parts: &[&[u8]],
        (whole, read): &Read,
        number: usize,
        place: &dyn Display,
    ) {
        self.group().inputs += 1;
        let (mut readers, mut told) = (Readers::fresh(), None);
        // The mark stands on the last bytes, or on an empty part after them.
        let (last, before) = match parts.split_last() {
            Some((last, before)) if number.is_multiple_of(2) => (*last, before),
            _ => (&[][..], parts),
        };
        let more = [(&b"\x07\0\x01\0\0\x04"[..], 0), (&[], 1), (log, 0), (&[], 0)];
        let marked = (last, LAST[number % 3]);
        let calls = before.iter().map(|part| (*part, 0)).chain([marked]).chain(more);
        for (at, (part, mark)) in calls.enumerate() {
            let place = format_args!("{place}, part {} of {}", at + 1, parts.len());
            let Some(fed) = self.feed(&mut readers, part, mark, &place) else { return };
            self.note_fed(&readers.tested.1, &fed, told, at > before.len());
            let refused = fed.answer != ACCEPTED;
            let ended = told.is_some() || refused || at >= before.len();
            if at < before.len() && fed.answer == END_INSIDE || ended && fed != *whole {
                let log = hex(log);
                return self.different(|| format!("{place}, log {log}: {fed:?}, whole {whole:?}"));
            }
            if ended && readers.tested != *read {
                let what = difference(&readers.tested.0, &read.0);
                return self.different(|| format!("{place}: as against reading it whole, {what}"));
            }
            told = told.or(refused.then_some(fed.answer));
        }
        self.group().answers += 1;
    }

    /// One part by both programs: the answers and all that is lent held equal.
    pub(super) fn feed(
        &mut self,
        readers: &mut Readers,
        part: &[u8],
        last: u8,
        place: &dyn Display,
    ) -> Option<Fed> {
        let feed = |program: &dyn Program, (memory, stick): &mut (Memory, Stick)| {
            program.feed(memory, stick, part, last)
        };
        let tested = feed(self.tested, &mut readers.tested);
        let expected = feed(self.expected, &mut readers.expected);
        self.group().answers += 1;
        let same = tested == expected && readers.tested == readers.expected;
        if !same {
            let what = difference(&readers.tested.0, &readers.expected.0);
            let part = hex(part);
            self.different(|| {
                format!(
                    "{place}, part {part}, last {last}: {tested:?}, reference {expected:?} {what}"
                )
            });
        }
        same.then_some(tested)
    }

    /// Counts how a reading stands.
    fn note_stands(&mut self, question: Question, stick: &Stick) {
        let stands = stick.state.get(1).copied();
        let place = [0, 1, 18, 19, 20].iter().position(|number| Some(*number) == stands);
        self.tally.note(question, place.unwrap_or(usize::MAX));
    }

    /// Counts what a whole log came to.
    fn note_whole(&mut self, log: &[u8], fed: &Fed) {
        match fed.answer {
            BAD_SHAPE => self.tally.note(Question::BadShape, fault(log, fed.place)),
            END_INSIDE => {
                let left = log.len() - fed.place;
                self.tally.note(Question::EndInside, usize::from(left >= 6));
            }
            _ => {}
        }
    }

    /// Counts one part of a cut log, by what was told before, and whether it comes after the end.
    fn note_fed(&mut self, stick: &Stick, fed: &Fed, told: Option<u8>, after: bool) {
        let place = REFUSALS.iter().position(|&refusal| refusal == fed.answer);
        let again = usize::from(told.is_some() || after);
        self.tally.note(Question::Fed, 2 * place.map_or(0, |place| place + 1) + again);
        if fed.answer == ACCEPTED && !after {
            let kept = match stick.state[0] {
                0 => 0,
                1..6 => 1,
                _ => 2,
            };
            self.tally.note(Question::Kept, kept);
        }
    }
}

fn sheets(memory: &Memory) -> [Sheet; SHEETS] {
    held(memory).expect("the memory is a desk's").0.sheets
}
