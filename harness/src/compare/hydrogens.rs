//! The comparison of the hydrogen helper and of its check.

use super::calls::Both;
use super::{from_seeds, hex, Comparison, Plan};
use crate::boundary::Proposed;
use crate::desks::{changed_over, holding, in_memory};
use crate::hydrogens::{at_edges, by_arithmetic, few, first_edges, no_starts, Hydrogens, Typed};
use crate::tally::Question;
use reference::desk::{values, Desk, NOT_SOUND, NO_SUCH_SHEET};
use reference::formula::symbols;
use reference::hydrogen::{Start, MOST, NOT_RIGHT, NO_RIGHT_COUNT, NO_START};
use reference::line::ACCEPTED;
use reference::value::text;
use std::fmt::Display;

/// One formula with a weight for each five hundred lines: the reference tries every count.
const ONE_IN: u64 = 500;

impl Comparison<'_> {
    pub(super) fn some_hydrogens(&mut self, plan: &Plan) {
        self.seeded(plan, from_seeds!("hydrogens"), ONE_IN, Self::generated_hydrogens);
        self.hydrogens("hydrogens, no start", no_starts(), 3);
        self.hydrogens("hydrogens, first edges", first_edges(), 2);
    }

    pub(super) fn listed_hydrogens(&mut self) {
        self.hydrogens("hydrogens at the edges", at_edges(), 1);
        self.every_count("hydrogens, every count");
    }

    fn generated_hydrogens(&mut self, name: &'static str, seed: u64, count: u64) {
        let mut source = Hydrogens::new(seed);
        self.hydrogens(name, (0..count).map(|_| source.typed()), seed);
    }

    /// The helper's count, and the check of counts about the right ones.
    fn hydrogens(&mut self, name: &'static str, typed: impl IntoIterator<Item = Typed>, seed: u64) {
        self.begin(name);
        let mut source = Hydrogens::new(!seed);
        for (number, typed) in (0..).zip(typed) {
            self.group().inputs += 1;
            let sheet = number % 2;
            let (desk, both) = on_sheet(&typed, sheet);
            let place = format_args!("{name}, {}", told(&typed));
            let right = right_counts(&desk, sheet);
            if let Some(proposed) = self.proposed(&both, sheet, &place) {
                self.note_start(&typed, &proposed);
                let timed = by_arithmetic(&desk, sheet);
                self.same(
                    &"by arithmetic",
                    &typed.0,
                    timed,
                    (proposed.answer, proposed.count as u64),
                );
                self.accepted(&both, sheet, &proposed, &place);
            }
            for count in source.counts(&right) {
                let answer = self.checked(&both, sheet, count, &place);
                self.note_checked(&right, count, answer);
            }
        }
    }

    /// The check of every count, and some beyond the last.
    fn every_count(&mut self, name: &'static str) {
        self.begin(name);
        for typed in few() {
            self.group().inputs += 1;
            let (_, both) = on_sheet(&typed, 0);
            for count in 0..=MOST + 100 {
                self.checked(&both, 0, count, &format_args!("{name}, {}", told(&typed)));
            }
        }
    }

    /// The helper by both programs.
    pub(super) fn proposed(
        &mut self,
        both: &Both,
        sheet: u64,
        place: &dyn Display,
    ) -> Option<Proposed> {
        let tested = self.tested.hydrogens(&both.tested, sheet);
        let expected = self.expected.hydrogens(&both.expected, sheet);
        let place = format_args!("{place}, hydrogens of sheet {sheet}");
        if !self.equal(both, &tested, &expected, &place) {
            return None;
        }
        let answers = [ACCEPTED, NOT_SOUND, NO_SUCH_SHEET, NO_START, NO_RIGHT_COUNT];
        self.tally.note(Question::Hydrogens, among(&answers, tested.answer));
        Some(tested)
    }

    /// The check of a count by both programs.
    pub(super) fn checked(
        &mut self,
        both: &Both,
        sheet: u64,
        count: u64,
        place: &dyn Display,
    ) -> Option<Proposed> {
        let tested = self.tested.hydrogens_right(&both.tested, sheet, count);
        let expected = self.expected.hydrogens_right(&both.expected, sheet, count);
        let place = format_args!("{place}, hydrogens of sheet {sheet} right, {count}");
        if !self.equal(both, &tested, &expected, &place) {
            return None;
        }
        let answers = [ACCEPTED, NOT_SOUND, NO_SUCH_SHEET, NO_START, NOT_RIGHT];
        self.tally.note(Question::HydrogensRight, among(&answers, tested.answer));
        Some(tested)
    }

    /// "a small check accepts only what is right, whoever proposes": the helper's count is accepted, and
    /// the one below it is not.
    fn accepted(&mut self, both: &Both, sheet: u64, proposed: &Proposed, place: &dyn Display) {
        if proposed.answer != ACCEPTED {
            return;
        }
        let count = proposed.count as u64;
        let check = |count| self.tested.hydrogens_right(&both.tested, sheet, count).answer;
        if check(count) != ACCEPTED || count.checked_sub(1).is_some_and(|n| check(n) == ACCEPTED) {
            self.different(|| format!("{place}: the check does not agree with the helper"));
        }
        self.group().answers += 1;
    }

    /// Counts the formula that was started from, and the helper's count.
    fn note_start(&mut self, (formula, _): &Typed, proposed: &Proposed) {
        if ![ACCEPTED, NO_RIGHT_COUNT].contains(&proposed.answer) {
            return;
        }
        let symbols: Vec<&[u8]> = symbols(text(formula)).collect();
        let place = match (symbols.contains(&&b"C"[..]), symbols.contains(&&b"H"[..])) {
            (true, true) => 0,
            (true, false) => 1,
            (false, true) if symbols.len() > 1 => 2,
            (false, false) => 3,
            _ => 4,
        };
        self.tally.note(Question::HydrogenStart, place);
        if proposed.answer == ACCEPTED {
            let place = match proposed.count {
                0 | 1 => proposed.count,
                2..=9 => 2,
                10..=99 => 3,
                100..=999 => 4,
                1000..=9998 => 5,
                _ => 6,
            };
            self.tally.note(Question::HydrogenCount, place);
        }
    }

    /// Counts where a checked count stands among the right ones.
    fn note_checked(&mut self, right: &[u64], count: u64, answer: Option<Proposed>) {
        let [first, .., last] = *right else { return };
        let place = match (answer.map(|told| told.answer), count) {
            (Some(NOT_RIGHT), _) if count + 1 == first => 0,
            (Some(ACCEPTED), _) if count == first => 1,
            (Some(ACCEPTED), MOST) => 4,
            (Some(ACCEPTED), _) if count == last => 2,
            (Some(NOT_RIGHT), _) if count > MOST && last == MOST => 5,
            (Some(NOT_RIGHT), _) if count == last + 1 => 3,
            _ => return,
        };
        self.tally.note(Question::HydrogenEdge, place);
    }
}

/// A desk with formula and weight on this sheet, in the hands of both programs.
fn on_sheet((formula, weight): &Typed, sheet: u64) -> (Desk, Both) {
    let filled = [(1, formula), (2, weight)].into_iter().filter(|(_, value)| !value.is_empty());
    let desk = holding(filled);
    let desk = if sheet == 0 { desk } else { changed_over(&desk) };
    (desk, Both::new(in_memory(&desk)))
}

/// The right counts, by trying each.
fn right_counts(desk: &Desk, sheet: u64) -> Vec<u64> {
    let start = desk.sheet(sheet).and_then(|sheet| Start::of(&values(sheet)));
    start.map_or(vec![], |start| (0..=MOST).filter(|&count| start.is_right(count)).collect())
}

fn told((formula, weight): &Typed) -> String {
    format!("formula {}, weight {}", hex(formula), hex(weight))
}

/// The place of an answer in its list.
fn among(answers: &[u8], answer: u8) -> usize {
    answers.iter().position(|&known| known == answer).unwrap_or(usize::MAX)
}
