//! The comparison of key calls on sound desks.

use super::calls::Both;
use super::{from_seeds, Comparison, Plan};
use crate::desks::{longest_value, Desks, State};
use crate::program::Call;
use crate::random::Random;
use crate::session::{Session, OTHER_BENCHES};
use crate::tally::Question;
use reference::desk::{
    sheet_of, Item, Line, BENCHES, EMPTY, ENTER, ERASE, LINE_FULL, LOG_LIMIT, RECORD_HEAD,
};
use reference::line::{ACCEPTED, LIMIT, NOT_A_LINE};
use reference::names::ITEMS;
use std::fmt::Display;

/// One session for each fifty lines, one single call for each five.
const SESSIONS_ONE_IN: u64 = 50;
const CALLS_ONE_IN: u64 = 5;

impl Comparison<'_> {
    pub(super) fn some_keys(&mut self, plan: &Plan) {
        self.seeded(plan, from_seeds!("sessions"), SESSIONS_ONE_IN, Self::sessions);
        self.seeded(plan, from_seeds!("single calls"), CALLS_ONE_IN, Self::single_calls);
        self.room("room in the log");
    }

    pub(super) fn listed_keys(&mut self, plan: &Plan) {
        self.every_byte("every byte", plan.fixed_seed);
        self.every_length("lines of every length");
    }

    /// Whole sessions from a fresh desk.
    fn sessions(&mut self, name: &'static str, seed: u64, count: u64) {
        self.begin(name);
        let mut seeds = Random::new(seed);
        for _ in 0..count {
            self.group().inputs += 1;
            let seed = seeds.next();
            self.session(seed);
        }
    }

    fn session(&mut self, seed: u64) {
        let mut session = Session::new(seed);
        let length = session.log_length();
        let mut both = Both::new(State::fresh(length, seed).memory());
        for number in 1..=session.calls() {
            let (bench, byte) = session.call(&both.tested.numbers);
            let place = format_args!("session {seed}, call {number}");
            if self.call(&mut both, &Call::Key { bench, byte }, &place).is_none() {
                return;
            }
        }
    }

    /// One key on memory of its own.
    fn key(&mut self, state: &State, bench: u64, byte: u8, place: &dyn Display) {
        self.group().inputs += 1;
        self.call(&mut Both::new(state.memory()), &Call::Key { bench, byte }, place);
    }

    /// One call on each of many sound desks.
    fn single_calls(&mut self, name: &'static str, seed: u64, count: u64) {
        self.begin(name);
        let (mut desks, mut random) = (Desks::new(seed), Random::new(!seed));
        for number in 0..count {
            let (state, bench) = (desks.sound(), random.below(BENCHES) as u64);
            let byte = match random.below(8) {
                0 => random.byte(),
                1 => ERASE,
                2 => EMPTY,
                3 => random.printable(),
                _ => ENTER,
            };
            self.key(&state, bench, byte, &format_args!("{name}, call {number}"));
        }
    }

    /// Every byte from every bench, and from numbers that are none, on desks of three kinds.
    fn every_byte(&mut self, name: &'static str, seed: u64) {
        self.begin(name);
        let mut desks = Desks::new(seed.rotate_left(8));
        for _ in 0..3 {
            let sound = desks.sound();
            for bench in (0..BENCHES as u64).chain(OTHER_BENCHES) {
                for byte in 0..=u8::MAX {
                    self.key(&sound, bench, byte, &name);
                }
            }
        }
    }

    /// Lines of every length up to one more than the limit, typed at each bench and entered: a name and
    /// a value, or spaces.
    fn every_length(&mut self, name: &'static str) {
        self.begin(name);
        for length in 0..=LIMIT + 1 {
            let value = "x".repeat(length.saturating_sub(ITEMS[0].0.len() + 1));
            for line in [format!("{} {value}", ITEMS[0].0), " ".repeat(length)] {
                for bench in 0..BENCHES as u64 {
                    let place = format_args!("{name}, {length} bytes");
                    let answers = self.entered(bench, &line.as_bytes()[..length], &place);
                    self.note_length(length, &answers);
                }
            }
        }
    }

    /// A line typed on a fresh desk, and its Enter: the answers, up to the first that differs.
    fn entered(&mut self, bench: u64, line: &[u8], place: &dyn Display) -> Vec<u8> {
        self.group().inputs += 1;
        let mut both = Both::new(State::fresh(LOG_LIMIT, line.len() as u64).memory());
        let keys = line.iter().chain([&ENTER]).map(|&byte| Call::Key { bench, byte });
        keys.map_while(|call| Some(self.call(&mut both, &call, place)?.number())).collect()
    }

    /// Counts lines about the limit: the answers of the last key and of Enter.
    fn note_length(&mut self, length: usize, answers: &[u8]) {
        let place = match (length, answers) {
            (0, [NOT_A_LINE]) => 0,
            (_, [.., ACCEPTED, ACCEPTED]) if length + 1 < LIMIT => 1,
            (_, [.., ACCEPTED, ACCEPTED]) if length + 1 == LIMIT => 2,
            (LIMIT, [.., ACCEPTED, ACCEPTED]) => 3,
            (_, [.., LINE_FULL, ACCEPTED]) if length == LIMIT + 1 => 4,
            (_, [.., LINE_FULL, NOT_A_LINE]) if length == LIMIT + 1 => 5,
            _ => return,
        };
        self.tally.note(Question::TypedLength, place);
    }

    /// Enter with each room about what the record takes, after some records and at the log's limit; on an
    /// empty item, and on one that the bench owns, or another of its camp, or one of the other.
    fn room(&mut self, name: &'static str) {
        self.begin(name);
        let longest = format!("{} '{}'", ITEMS[0].0, "x".repeat(longest_value(1) - 2));
        let lines = [
            (4, "_refine_ls_R_factor_gt 0.16"),
            (2, "_chemical_formula_weight   1"),
            (3, "_publ_requested_category 'FO'"),
            (1, "_chemical_formula_sum 'C18 H19 N7 O8 S'"),
            (1, &longest),
        ];
        for (item, line) in lines {
            let value = line.trim_start_matches(|sign| sign != ' ').trim_start();
            let record = RECORD_HEAD + value.len();
            for used in [0, 7, 260, LOG_LIMIT - record - 1, LOG_LIMIT - record, LOG_LIMIT - 6] {
                for room in
                    (0..record + 3).chain([2 * record]).filter(|room| used + room <= LOG_LIMIT)
                {
                    let (mut state, bench) = (State::fresh(used + room, 1), room % BENCHES);
                    state.used = used as u64;
                    // The counts of both sheets are as large as they may be.
                    let count = state.used / RECORD_HEAD as u64;
                    state.desk.sheets[0].count = count.div_ceil(2);
                    state.desk.sheets[1].count = count / 2;
                    state.desk.lines[bench] = Line::holding(line.as_bytes());
                    let place = format_args!("{name}, {line}, {room} bytes");
                    self.key(&state, bench as u64, ENTER, &place);
                    for owner in 0..BENCHES as u64 {
                        let (first, mut state) = ([&b"?"[..], b"."][used % 2], state.clone());
                        let sheet = &mut state.desk.sheets[sheet_of(owner)];
                        if sheet.count > 0 {
                            sheet.items[item - 1] = Item::holding(first, 1, owner, 1);
                            self.key(&state, bench as u64, ENTER, &place);
                        }
                    }
                }
            }
        }
    }
}
