//! The comparison of moiety formulas: row 25.

use super::calls::Both;
use super::{from_seeds, hex, Comparison, Plan};
use crate::boundary::{Reported, Row};
use crate::desks::{holding, in_memory};
use crate::lists::short_texts;
use crate::moieties::{self, formula_of, Moieties, FAULTS, ITEM, OF_MOIETIES, REAL, SHORT};
use crate::program::{Answer, Call};
use crate::tally::Question;
use reference::formula::all_recognised;
use reference::line::ACCEPTED;
use reference::moiety::{read, Moiety, Part};
use reference::rows::ROWS;

/// One text for each ten lines, one with each fault for each two thousand.
const ONE_IN: u64 = 10;
const FAULTS_ONE_IN: u64 = 2_000;
/// Row 25 where it cannot be judged.
const NOT_JUDGEABLE: Row = Row { level: 2, reason: 2 };

impl Comparison<'_> {
    pub(super) fn some_moieties(&mut self, plan: &Plan) {
        self.seeded(plan, from_seeds!("moieties"), ONE_IN, Self::generated_moieties);
        self.seeded(plan, from_seeds!("faulty moieties"), FAULTS_ONE_IN, Self::faulty_moieties);
        self.moieties("moieties, real", REAL.map(|(formula, text)| (formula.into(), text.into())));
    }

    pub(super) fn listed_moieties(&mut self) {
        self.moieties("moieties, deep and long", moieties::deep_and_long());
        self.short_moieties(SHORT);
    }

    /// Every short text with the formula of its totals, and where it is read with another one.
    pub fn short_moieties(&mut self, longest: usize) {
        self.begin("moieties, short texts");
        for text in short_texts(OF_MOIETIES, longest) {
            self.group().inputs += 1;
            if self.moiety(&formula_of(&text), &text).is_some_and(|row| row != NOT_JUDGEABLE) {
                self.moiety(b"C2 H O", &text);
            }
        }
    }

    fn generated_moieties(&mut self, name: &'static str, seed: u64, count: u64) {
        let mut source = Moieties::new(seed);
        self.moieties(
            name,
            (0..count).map(|_| {
                let text = source.text();
                (source.formula(&text), text)
            }),
        );
    }

    /// Texts with each kind of fault, none of which is read.
    fn faulty_moieties(&mut self, name: &'static str, seed: u64, count: u64) {
        self.begin(name);
        let mut source = Moieties::new(!seed);
        for _ in 0..count {
            for (fault, (what, _)) in FAULTS.iter().enumerate() {
                self.group().inputs += 1;
                let text = source.with_fault(fault);
                match self.moiety(b"C10 H20", &text) {
                    Some(NOT_JUDGEABLE) => self.tally.note_moiety_fault(fault),
                    Some(_) => self.different(|| format!("{name}, {what}: {} is read", hex(&text))),
                    None => {}
                }
            }
        }
    }

    fn moieties(
        &mut self,
        name: &'static str,
        pairs: impl IntoIterator<Item = (Vec<u8>, Vec<u8>)>,
    ) {
        self.begin(name);
        for (formula, text) in pairs {
            self.group().inputs += 1;
            self.moiety(&formula, &text);
        }
    }

    /// Row 25 of a formula and moieties by both programs, under a profile that the length chooses.
    fn moiety(&mut self, formula: &[u8], text: &[u8]) -> Option<Row> {
        let quoted = |text: &[u8]| [b"'", text, b"'"].concat();
        let desk = holding([(1, quoted(formula)), (ITEM, quoted(text))]);
        let profile = text.len() as u64 % 2;
        let place = format_args!("formula {}, moieties {}", hex(formula), hex(text));
        let call = Call::Report { sheet: 0, profile };
        match self.call(&mut Both::new(in_memory(&desk)), &call, &place)? {
            Answer::Report(Reported { answer: ACCEPTED, rows }) => {
                self.note_moiety(formula, text, &rows[ROWS - 1]);
                Some(rows[ROWS - 1])
            }
            _ => None,
        }
    }

    /// Counts what row 25 came to, and the shape of a text that is read.
    fn note_moiety(&mut self, formula: &[u8], text: &[u8], row: &Row) {
        let place = match (all_recognised(formula), read(text), row.level) {
            (true, Some(_), 0) => 0,
            (true, Some(_), 3) => 1,
            (true, None, 2) => 2,
            (false, Some(_), 2) => 3,
            (false, None, 2) => 4,
            _ => usize::MAX,
        };
        self.tally.note(Question::Moiety, place);
        if let (0 | 3, Some(moieties)) = (row.level, read(text)) {
            self.tally.note(Question::MoietyCount, moieties.len().min(4) - 1);
            let deep = moieties.iter().map(|moiety| depth(moiety)).max().unwrap_or(0);
            self.tally.note(Question::MoietyDepth, deep);
            for moiety in &moieties {
                self.note_groups(moiety);
            }
        }
    }

    /// Counts brackets by their count.
    fn note_groups(&mut self, moiety: &[Part]) {
        for part in moiety {
            if let Part::Group(inside, count) = part {
                let place = match count {
                    1 => 0,
                    2..=9 => 1,
                    10..=98 => 2,
                    _ => 3,
                };
                self.tally.note(Question::GroupCount, place);
                self.note_groups(inside);
            }
        }
    }
}

/// How many brackets are open at once.
fn depth(moiety: &Moiety) -> usize {
    let deep = moiety.iter().map(|part| match part {
        Part::Term(_) => 0,
        Part::Group(inside, _) => 1 + depth(inside),
    });
    deep.max().unwrap_or(0)
}
