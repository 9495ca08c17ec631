//! The comparison of symmetry operators: texts read, and lists checked.

use super::{from_seeds, Comparison, Plan};
use crate::boundary::{Checked, Operator};
use crate::groups::{self, Groups, DAMAGES};
use crate::operators::{self, Operators, PART_FAULTS};
use crate::tally::Question;
use reference::group::{
    determinant, BAD_DETERMINANT, EQUAL_ROWS, IDENTITY, MOST, NO_IDENTITY, NO_PRODUCT,
};
use reference::operator::{Row, FACTORS, NOT_READ, NUMBERS, TAKEN, WHOLE};
use std::hint::black_box;

/// One text with each fault for each fifty lines, three lists for each hundred.
const FAULTS_ONE_IN: u64 = 50;
const LISTS_ONE_IN: u64 = 100;
/// The values of fractions, in 24ths.
const TRANSLATIONS: [i8; 12] = [0, 3, 4, 6, 8, 9, 12, 15, 16, 18, 20, 21];

impl Comparison<'_> {
    pub(super) fn some_symmetry(&mut self, plan: &Plan) {
        self.seeded(plan, from_seeds!("operators"), 1, Self::generated_operators);
        self.seeded(plan, from_seeds!("faulty texts"), FAULTS_ONE_IN, Self::faulty_operators);
        self.read_all("operators, lengths", operators::lengths());
        self.read_all("operators one byte off", operators::one_byte_off());
        self.check_all("lists of few rows", groups::few_rows());
        self.check_all("lists, every translation", groups::every_translation());
        self.check_all("lists, every number", groups::every_number());
        self.seeded(plan, from_seeds!("lists"), LISTS_ONE_IN, Self::generated_lists);
    }

    pub(super) fn listed_symmetry(&mut self) {
        self.read_all("operators, every part", operators::every_part());
        self.check_all("lists, lengths", groups::lengths());
        self.check_all("lists, every matrix", groups::every_matrix());
        self.check_all("lists, rows damaged", groups::rows_damaged());
        self.read_all("operators, short texts", operators::short_texts());
        self.read_all("operators, short parts", operators::short_parts());
    }

    fn generated_operators(&mut self, name: &'static str, seed: u64, count: u64) {
        let mut source = Operators::new(seed);
        self.read_all(name, (0..count).map(|_| source.text()));
    }

    /// Texts with each kind of fault.
    fn faulty_operators(&mut self, name: &'static str, seed: u64, count: u64) {
        self.begin(name);
        let mut source = Operators::new(!seed);
        for _ in 0..count {
            for fault in 0..PART_FAULTS.len() {
                self.group().inputs += 1;
                if self.read(&source.with_fault(fault)).answer == NOT_READ {
                    self.tally.note_text_fault(fault);
                }
            }
            self.group().inputs += 1;
            if self.read(&source.other_parts()).answer == NOT_READ {
                self.tally.note_text_fault(PART_FAULTS.len());
            }
        }
    }

    /// Groups, groups damaged once, and lists damaged in any way.
    fn generated_lists(&mut self, name: &'static str, seed: u64, count: u64) {
        self.begin(name);
        let mut source = Groups::new(seed);
        for number in 0..count {
            let damage = number as usize % DAMAGES.len();
            self.tally.note_damage(damage);
            for list in [source.group(), source.damaged(damage), source.list()] {
                self.group().inputs += 1;
                self.check(&list);
            }
        }
    }

    fn read_all(&mut self, name: &'static str, texts: impl IntoIterator<Item = Vec<u8>>) {
        self.begin(name);
        for text in texts {
            self.group().inputs += 1;
            self.read(&text);
        }
    }

    fn check_all(&mut self, name: &'static str, lists: impl IntoIterator<Item = Vec<i8>>) {
        self.begin(name);
        for list in lists {
            self.group().inputs += 1;
            self.check(&list);
        }
    }

    /// A text read by both programs.
    fn read(&mut self, text: &[u8]) -> Operator {
        let (tested, expected) = (self.tested, self.expected);
        let read =
            self.same(&"symmetry_read", text, tested.operator(text), expected.operator(text));
        match read.answer {
            TAKEN => self.note_operator(text, &read.row),
            NOT_READ => self.tally.note(Question::Operator, 1),
            _ => {}
        }
        read
    }

    /// A list checked by both programs, which must not alter it.
    fn check(&mut self, list: &[i8]) {
        let (tested, expected) = (self.tested, self.expected);
        let lent = black_box(list.to_vec());
        let (answer, right) = (tested.group(&lent), expected.group(list));
        let bytes: Vec<u8> = list.iter().map(|&number| number as u8).collect();
        self.same(&"symmetry_check", &bytes, answer, right);
        self.same(&"a list after symmetry_check", &bytes, &black_box(lent)[..], list);
        self.note_list(list, &answer);
    }

    /// Counts the branches of the grammar that an operator's text took.
    fn note_operator(&mut self, text: &[u8], row: &Row) {
        self.tally.note(Question::Operator, 0);
        for part in text.split(|&byte| byte == b',') {
            let letters = part.iter().filter(|byte| byte.is_ascii_lowercase()).count();
            self.tally.note(Question::PartLetters, letters.wrapping_sub(1));
            let begins = match part {
                [b'+', ..] => 1,
                [b'-', ..] => 2,
                _ => 0,
            };
            self.tally.note(Question::PartBegins, begins);
            let fraction = match part.iter().position(|&byte| byte == b'/') {
                None => 0,
                Some(at) => 1 + usize::from(at > 2),
            };
            self.tally.note(Question::PartFraction, fraction);
        }
        for translation in &row[FACTORS..] {
            let place = TRANSLATIONS.iter().position(|known| known == translation);
            self.tally.note(Question::Translation, place.unwrap_or(usize::MAX));
        }
    }

    /// Counts what a list came to, and where.
    fn note_list(&mut self, list: &[i8], checked: &Checked) {
        let (rows, part_row) = list.as_chunks();
        let answers = [TAKEN, NOT_READ, BAD_DETERMINANT, NO_IDENTITY, EQUAL_ROWS, NO_PRODUCT];
        let place = answers.iter().position(|&known| known == checked.answer);
        self.tally.note(Question::List, place.unwrap_or(usize::MAX));
        match checked.answer {
            TAKEN => self.note_group(rows),
            NOT_READ => self.note_shape(rows, part_row),
            NO_PRODUCT => self.note_pair(rows.len() as u64, checked.pairs),
            _ => {}
        }
        if checked.answer != NOT_READ {
            for row in rows {
                self.tally.note(Question::Determinant, (determinant(row) + 4) as usize);
            }
        }
    }

    /// Counts a group by its size, and where its identity stands.
    fn note_group(&mut self, rows: &[Row]) {
        let sizes = [1, 2, 6, 16, 48, MOST - 1, MOST];
        let place = sizes.iter().position(|&size| rows.len() <= size);
        self.tally.note(Question::GroupSize, place.unwrap_or(usize::MAX));
        let identity = rows.iter().position(|row| *row == IDENTITY);
        let place = identity.map_or(usize::MAX, |at| first_or_last(at as u64, rows.len() as u64));
        self.tally.note(Question::IdentityAt, place);
    }

    /// Counts the shape faults of a list: a part row, too many rows, a number out of range.
    fn note_shape(&mut self, rows: &[Row], part_row: &[i8]) {
        if !part_row.is_empty() {
            self.tally.note(Question::Shape, 0);
        } else if rows.len() == MOST + 1 {
            self.tally.note(Question::Shape, 1);
        } else if rows.len() > MOST {
            self.tally.note(Question::Shape, 2);
        } else {
            self.tally.note(Question::Shape, 3);
        }
        for (at, &number) in rows.as_flattened().iter().enumerate() {
            let place = at % NUMBERS;
            let range = if place < FACTORS { -1..=1 } else { 0..=WHOLE - 1 };
            if number < *range.start() {
                self.tally.note(Question::Below, place);
            } else if number > *range.end() {
                self.tally.note(Question::Above, place);
            }
        }
    }

    /// Counts where the first pair without its product stands.
    fn note_pair(&mut self, rows: u64, pairs: u64) {
        self.tally.note(Question::MissingPair, first_or_last(pairs.saturating_sub(1), rows * rows));
    }
}

/// Whether a place is the first of so many, between, or the last.
fn first_or_last(at: u64, count: u64) -> usize {
    match at {
        0 => 0,
        _ if at + 1 < count => 1,
        _ => 2,
    }
}
