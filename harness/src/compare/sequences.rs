//! The comparison of whole sequences, each played as it is and gathered.

use super::calls::{difference, who_place, Both};
use super::{from_seeds, Comparison, Plan};
use crate::boundary::Memory;
use crate::program::{Answer, Call};
use crate::random::Random;
use crate::sequences::{
    contended, desk_sessions, few_calls, log_lengths, measured_examples, rewritten, Sequence,
    Sequences,
};
use crate::tally::Question;
use reference::desk::{ENTER, LOG_LIMIT};
use reference::line::ACCEPTED;
use std::fmt::Display;

/// One sequence for each fifty lines.
const SEQUENCES_ONE_IN: u64 = 50;
/// What stands in memory before it is made a fresh desk.
const LEFT_OVER: u8 = 0xa5;

/// Each call's answer, and the memory at the end.
pub(super) type Played = (Vec<Answer>, Memory);

impl Comparison<'_> {
    pub(super) fn some_sequences(&mut self, plan: &Plan) {
        self.seeded(plan, from_seeds!("sequences"), SEQUENCES_ONE_IN, Self::generated_sequences);
        self.sequences("measured examples typed", measured_examples());
        self.sequences("lengths of the log", log_lengths());
        self.sequences("items rewritten", rewritten());
        self.sequences("items contended", contended());
    }

    pub(super) fn listed_sequences(&mut self) {
        self.sequences("sessions of desk", desk_sessions());
        self.sequences("orders of few calls", few_calls());
    }

    fn generated_sequences(&mut self, name: &'static str, seed: u64, count: u64) {
        self.begin(name);
        let mut seeds = Random::new(seed);
        for _ in 0..count {
            let seed = seeds.next();
            self.sequence(&Sequences::new(seed).sequence(), &format_args!("sequence {seed}"));
        }
    }

    fn sequences(&mut self, name: &'static str, sequences: impl Iterator<Item = Sequence>) {
        self.begin(name);
        for (number, sequence) in (1..).zip(sequences) {
            self.sequence(&sequence, &format_args!("{name}, sequence {number}"));
        }
    }

    /// One sequence by both programs, as it is and gathered; and its answers, desk and log as it is
    /// held equal to those when gathered.
    fn sequence(&mut self, sequence: &Sequence, place: &dyn Display) {
        self.group().inputs += 1;
        let Sequence { calls, log } = sequence;
        let order = (self.gather)(calls);
        let gathered: Vec<Call> = order.iter().map(|&at| calls[at]).collect();
        let first = self.play(calls, log, place);
        let second = self.play(&gathered, log, &format_args!("{place} gathered"));
        if let (Some(first), Some(second)) = (first, second) {
            self.note_gathered(&order, log.len());
            self.same_gathered(&first, &second, &order, place);
        }
    }

    /// Calls by both programs on memory that is made a fresh desk. What the tested one came to,
    /// where nothing was different.
    pub(super) fn play(
        &mut self,
        calls: &[Call],
        log: &[u8],
        place: &dyn Display,
    ) -> Option<Played> {
        let mut memory = Memory::zeros(log);
        memory.texts.fill(LEFT_OVER);
        memory.numbers.fill(LEFT_OVER.into());
        let mut both = Both::new(memory);
        if !self.fresh(&mut both, place) {
            return None;
        }
        let mut answers = vec![];
        for (number, call) in (1..).zip(calls) {
            let place = format_args!("{place}, call {number}");
            let before = matches!(call, Call::Key { byte: ENTER, .. })
                .then(|| both.tested.numbers.clone())
                .unwrap_or_default();
            let answer = self.call(&mut both, call, &place)?;
            if !self.same_as_records(&both.tested, call, &answer, &place) {
                return None;
            }
            self.note_played(call, &answer);
            if let (Call::Key { bench, byte: ENTER }, Answer::Key(answer)) = (*call, answer) {
                self.note_entered(&before, &both.tested, bench, answer);
            }
            answers.push(answer);
        }
        Some((answers, both.tested))
    }

    /// "Equal are each call's whole answer and, at the end, the whole desk, the used number and
    /// every byte of the log."
    fn same_gathered(
        &mut self,
        first: &Played,
        second: &Played,
        order: &[usize],
        place: &dyn Display,
    ) {
        let ((answers, memory), (moved_answers, moved_memory)) = (first, second);
        let mut moved = (1..).zip(order).zip(moved_answers);
        if let Some(((to, from), moved)) = moved.find(|((_, from), got)| answers[**from] != **got) {
            let (from, answer) = (from + 1, answers[*from]);
            self.different(|| {
                format!("{place}: call {from} answers {answer:?}, gathered as call {to} {moved:?}")
            });
        } else if memory != moved_memory {
            self.different(|| format!("{place}, gathered: {}", difference(moved_memory, memory)));
        }
    }

    fn note_gathered(&mut self, order: &[usize], log: usize) {
        self.tally.note(Question::Gathering, usize::from(!order.is_sorted()));
        let length = match log {
            0 => 0,
            1..LOG_LIMIT => 1,
            LOG_LIMIT => 2,
            _ => 3,
        };
        self.tally.note(Question::PlayedLog, length);
    }

    /// Counts what one call came to.
    fn note_played(&mut self, call: &Call, answer: &Answer) {
        match answer {
            Answer::Key(answer) => self.tally.note(Question::PlayedKey, (*answer).into()),
            Answer::Report(reported) => {
                if let (ACCEPTED, Call::Report { profile, .. }) = (reported.answer, call) {
                    self.tally.note_played_rows(*profile, &reported.rows);
                }
            }
            Answer::Who(told) => {
                self.tally.note(Question::PlayedWho, who_place(told));
                self.note_times(told.times);
            }
        }
    }
}
