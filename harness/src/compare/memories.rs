//! The comparison on memory that is no sound desk: every call, on desks broken in every way, on
//! random ones, and on memory of other lengths.

use super::calls::Both;
use super::logs::Readers;
use super::{from_seeds, Comparison, Plan};
use crate::boundary::{Fed, Memory, Proposed, Stick, DESK_FILE, DESK_NUMBERS, DESK_TEXTS};
use crate::broken::{each_broken, WAYS};
use crate::desks::Desks;
use crate::old_build::BUILDS;
use crate::powder::OTHER_PROFILES;
use crate::program::Call;
use crate::random::Random;
use crate::session::{OTHER_BENCHES, OTHER_SHEETS};
use crate::tally::{Question, CALLS};
use reference::desk::{
    record, BENCHES, EMPTY, ENTER, ERASE, NOT_SOUND, NO_SUCH_BENCH, NO_SUCH_SHEET, SHEETS,
};
use reference::names::ITEMS;
use reference::powder::{NO_SUCH_PROFILE, PROFILES};
use std::fmt::Display;

/// One desk to be broken in every way, and one lent with every other length, for each two thousand
/// lines, one random desk for each fifty.
const BROKEN_ONE_IN: u64 = 2000;
const RANDOM_ONE_IN: u64 = 50;
/// Keys that each bench presses at a desk of the old build: all that change something, and none.
const KEYS: [u8; 5] = [ENTER, ERASE, EMPTY, b'a', 0];

impl Comparison<'_> {
    pub(super) fn some_memories(&mut self, plan: &Plan) {
        self.seeded(plan, from_seeds!("broken desks"), BROKEN_ONE_IN, Self::broken_desks);
        self.seeded(plan, from_seeds!("random desks"), RANDOM_ONE_IN, Self::random_desks);
        self.seeded(plan, from_seeds!("other lengths"), BROKEN_ONE_IN, Self::other_lengths);
        self.seeded(plan, from_seeds!("old build's desks"), BROKEN_ONE_IN, Self::old_desks);
    }

    fn broken_desks(&mut self, name: &'static str, seed: u64, count: u64) {
        self.begin(name);
        each_broken(seed, count, |number, way, state, random| {
            let place = format_args!("{name}, desk {number}, {}", WAYS[way].0);
            let refused = self.every_call(state.memory(), random, &place);
            self.tally.note_unsound(way, refused);
        });
    }

    fn random_desks(&mut self, name: &'static str, seed: u64, count: u64) {
        self.begin(name);
        let (mut desks, mut random) = (Desks::new(seed), Random::new(seed));
        for number in 0..count {
            let memory = desks.random().memory();
            self.every_call(memory, &mut random, &format_args!("{name}, desk {number}"));
        }
    }

    /// Sound desks lent with fewer or more texts and numbers than a desk has.
    fn other_lengths(&mut self, name: &'static str, seed: u64, count: u64) {
        self.begin(name);
        let (mut desks, mut random) = (Desks::new(seed.rotate_left(40)), Random::new(!seed));
        for number in 0..count {
            let memory = desks.sound().memory();
            for (texts, texts_length) in lengths(DESK_TEXTS, &mut random) {
                for (numbers, numbers_length) in lengths(DESK_NUMBERS, &mut random) {
                    let place = format_args!(
                        "{name}, desk {number}, {texts_length} texts, {numbers_length} numbers"
                    );
                    self.tally.note(Question::Lengths, 3 * texts + numbers);
                    let memory = resized(&memory, texts_length, numbers_length);
                    let mut both = Both::new(memory.clone());
                    self.every_call(memory, &mut random, &place);
                    self.fresh(&mut both, &place);
                }
            }
        }
    }

    /// Desks saved by earlier builds, lent as they are. The first has nothing in it.
    fn old_desks(&mut self, name: &'static str, seed: u64, count: u64) {
        self.begin(name);
        let mut desks = Desks::new(seed.rotate_left(56));
        for number in 0..count {
            for (build, question) in BUILDS.into_iter().zip([
                Question::OldBuild,
                Question::OldNumbers,
                Question::OneSheet,
                Question::TenItems,
                Question::EighteenItems,
            ]) {
                let mut saved = build.saved(&mut desks);
                if number == 0 {
                    saved.texts.fill(0);
                    saved.numbers.fill(0);
                }
                self.old_desk(saved, question, &format_args!("{name}, desk {number}"));
            }
        }
    }

    /// Every call on such a desk is refused as its list says, and nothing is changed.
    fn old_desk(&mut self, saved: Memory, question: Question, place: &dyn Display) {
        self.group().inputs += 1;
        let mut both = Both::new(saved.clone());
        let mut refused = vec![(0, self.fresh(&mut both, place))];
        for (at, number, call) in every_call() {
            let answer = self.call(&mut both, &call, place);
            refused.push((at, answer.is_some_and(|answer| answer.number() == number)));
        }
        for (block, room) in [(&b"camp-1"[..], DESK_FILE), (b"camp-1", 0), (b"_", DESK_FILE)] {
            for (sheet, at, number) in of_sheets(5) {
                let filed = self.file(&both, sheet, block, room, place);
                refused.push((at, filed.is_some_and(|(filed, _)| filed.answer == number)));
            }
        }
        let is_refusal =
            |told: Option<Proposed>, number| told.is_some_and(|told| told.answer == number);
        for (sheet, at, number) in of_sheets(9) {
            refused.push((at, is_refusal(self.proposed(&both, sheet, place), number)));
        }
        for (sheet, at, number) in of_sheets(10) {
            refused.push((at, is_refusal(self.checked(&both, sheet, 20, place), number)));
        }
        let (part, stick) = (record(0, 4, b"0.16"), Stick::zeros());
        for (part, last) in [(&part[..0], 0), (&part[..5], 0), (&part[..], 0), (&part[..], 1)] {
            let mut readers = Readers::new(saved.clone(), stick.clone());
            let fed = self.feed(&mut readers, part, last, place);
            let same = readers.tested == (saved.clone(), stick.clone());
            refused.push((8, same && fed == Some(Fed { place: 0, answer: NOT_SOUND })));
        }
        if both.tested != saved || refused.iter().any(|(_, so)| !so) {
            return self.different(|| format!("{place}: a desk of the old build is taken over"));
        }
        for (at, _) in refused {
            self.tally.note(question, at);
        }
    }

    /// Keys, questions and files on one memory; which of the calls were refused with 2.
    fn every_call(
        &mut self,
        memory: Memory,
        random: &mut Random,
        place: &dyn Display,
    ) -> [bool; CALLS.len()] {
        self.group().inputs += 1;
        let mut both = Both::new(memory);
        let mut refused = [false; CALLS.len()];
        let benches = [random.below(BENCHES) as u64, random.pick(&OTHER_BENCHES)];
        let bytes = [ENTER, random.pick(&[ERASE, EMPTY, b'a']), random.byte()];
        let keys = benches.into_iter().flat_map(|bench| bytes.map(|byte| (bench, byte)));
        let keys = keys.map(|(bench, byte)| (0, Call::Key { bench, byte }));
        let items = [0, 1 + random.below(ITEMS.len()) as u64, random.next()];
        let sheets = [0, 1, random.pick(&OTHER_SHEETS)];
        let other_profile = random.pick(&OTHER_PROFILES);
        let questions = sheets.into_iter().flat_map(|sheet| {
            let who = items.map(|item| (2, Call::Who { sheet, item }));
            let profiles =
                [0, 1, other_profile].map(|profile| (1, Call::Report { sheet, profile }));
            profiles.into_iter().chain(who)
        });
        let calls: Vec<_> = questions.chain(keys).collect();
        for (at, call) in calls {
            let answer = self.call(&mut both, &call, place);
            refused[at] |= answer.is_some_and(|answer| answer.number() == NOT_SOUND);
        }
        for sheet in sheets {
            let refusal =
                |told: Option<Proposed>| told.is_some_and(|told| told.answer == NOT_SOUND);
            refused[4] |= refusal(self.proposed(&both, sheet, place));
            refused[5] |= refusal(self.checked(&both, sheet, random.below(30) as u64, place));
        }
        for block in [&b"camp-1"[..], b"_", b""] {
            for room in [DESK_FILE, random.below(DESK_FILE), 0] {
                let sheet = random.pick(&sheets);
                let written = self.file(&both, sheet, block, room, place);
                refused[3] |= written.is_some_and(|(filed, _)| filed.answer == NOT_SOUND);
            }
        }
        refused
    }
}

/// Keys and questions, each with the answer that memory gets which is no desk, and with its place in
/// the list of those.
fn every_call() -> impl Iterator<Item = (usize, u8, Call)> {
    let keys = (0..=BENCHES as u64).flat_map(|bench| {
        let (at, number) = if bench < BENCHES as u64 { (1, NOT_SOUND) } else { (2, NO_SUCH_BENCH) };
        KEYS.map(|byte| (at, number, Call::Key { bench, byte }))
    });
    let items = 0..=ITEMS.len() as u64 + 1;
    let who = items.flat_map(|item| {
        of_sheets(4).map(move |(sheet, at, number)| (at, number, Call::Who { sheet, item }))
    });
    let reports = of_sheets(3).flat_map(|(sheet, at, number)| {
        (0..=PROFILES).map(move |profile| {
            let refused = if number == NOT_SOUND && profile == PROFILES {
                (7, NO_SUCH_PROFILE)
            } else {
                (at, number)
            };
            (refused.0, refused.1, Call::Report { sheet, profile })
        })
    });
    keys.chain(reports).chain(who)
}

/// The sheets and one that is none, each with the answer that memory gets which is no desk, and with its
/// place in the list of those: of a sheet this one, otherwise the last.
fn of_sheets(place: usize) -> impl Iterator<Item = (u64, usize, u8)> {
    (0..=SHEETS as u64).map(move |sheet| {
        let (at, number) =
            if sheet < SHEETS as u64 { (place, NOT_SOUND) } else { (6, NO_SUCH_SHEET) };
        (sheet, at, number)
    })
}

/// Lengths about a right one, each with 0 for less, 1 for as much and 2 for more.
fn lengths(right: usize, random: &mut Random) -> [(usize, usize); 7] {
    [
        (0, 0),
        (0, random.below(right)),
        (0, right - 1),
        (1, right),
        (2, right + 1),
        (2, right + 1 + random.below(right)),
        (2, 2 * right),
    ]
}

/// The same memory cut off, or with zeros after it.
fn resized(memory: &Memory, texts: usize, numbers: usize) -> Memory {
    let (mut all_texts, mut all_numbers) = (memory.texts.to_vec(), memory.numbers.to_vec());
    all_texts.resize(texts, 0);
    all_numbers.resize(numbers, 0);
    Memory { texts: all_texts.into(), numbers: all_numbers.into(), log: memory.log.clone() }
}
