//! The comparison: the same inputs to two programs, and every answer held equal.

mod calls;
mod camps;
mod files;
mod hydrogens;
mod keys;
mod logs;
mod memories;
mod moieties;
mod points;
mod sequences;
mod sheets;
mod symmetry;
mod times;

use crate::boundary::{Graded, NumberResult};
use crate::by_reference::gathered;
use crate::inputs::{Inputs, ROWS, TELLING};
use crate::lists;
use crate::old_build::OLD_LIMIT;
use crate::program::{Call, Program};
use crate::tally::{Question, Tally};
use reference::line::{ACCEPTED, LIMIT, NOT_A_LINE};
use std::fmt::Debug;
use std::panic::{catch_unwind, resume_unwind, AssertUnwindSafe};

/// Rows that judge no single value: neighbours of 6, 8 and 10, and what a cut-off number would
/// turn into one of them.
pub const OTHER_ROWS: [u64; 22] = [
    0,
    1,
    2,
    3,
    4,
    5,
    7,
    9,
    11,
    12,
    13,
    255,
    256,
    262,
    264,
    266,
    (1 << 16) + 6,
    (1 << 32) + 6,
    (1 << 32) + 8,
    (1 << 32) + 10,
    (1 << 63) + 6,
    u64::MAX,
];
/// What such a row is answered with.
const NO_GRADE: Graded = Graded { answer: 6, level: 0 };
/// How many differences are printed.
const SHOWN: usize = 10;

/// What is generated, beside the fixed lists.
pub struct Plan {
    pub fixed_seed: u64,
    pub new_seed: u64,
    /// Lines, and values; half from each seed.
    pub count: u64,
    /// The long fixed lists too, and with them every possible answer has to be seen.
    pub lists: bool,
}

impl Plan {
    /// One input for each so many lines: the half that comes from each seed, at least one.
    fn half(&self, one_in: u64) -> u64 {
        (self.count / one_in).div_ceil(2).max(1)
    }
}

/// What is compared for one subject: generated inputs and fixed lists.
#[derive(Clone, Copy, Debug, PartialEq, Eq)]
pub enum Part {
    Texts,
    Sheets,
    Keys,
    Memories,
    Sequences,
    Camps,
    Files,
    Logs,
    Symmetry,
    Moieties,
    Hydrogens,
}

/// All of them.
pub const PARTS: [Part; 11] = [
    Part::Texts,
    Part::Sheets,
    Part::Keys,
    Part::Memories,
    Part::Sequences,
    Part::Camps,
    Part::Files,
    Part::Logs,
    Part::Symmetry,
    Part::Moieties,
    Part::Hydrogens,
];

/// One named check and what it compared.
pub struct Group {
    pub name: &'static str,
    inputs: u64,
    answers: u64,
    pub different: u64,
}

impl Group {
    /// Something was compared, and nothing was different.
    fn passed(&self) -> bool {
        self.inputs > 0 && self.different == 0
    }
}

/// The places of calls in gathered order.
pub type Gather = fn(&[Call]) -> Vec<usize>;

pub struct Comparison<'a> {
    tested: &'a dyn Program,
    expected: &'a dyn Program,
    gather: Gather,
    pub groups: Vec<Group>,
    pub tally: Tally,
    examples: Vec<String>,
    lists: bool,
    /// Whether the first difference ends the run.
    ends: bool,
}

/// Runs the whole comparison.
pub fn compare<'a>(
    tested: &'a dyn Program,
    expected: &'a dyn Program,
    plan: &Plan,
) -> Comparison<'a> {
    let mut run = Comparison::new(tested, expected, gathered, plan);
    run.some(plan, &PARTS);
    run
}

/// Every moiety text over a few bytes up to a length.
pub fn moieties<'a>(
    tested: &'a dyn Program,
    expected: &'a dyn Program,
    longest: usize,
) -> Comparison<'a> {
    let plan = Plan { fixed_seed: 0, new_seed: 0, count: 0, lists: false };
    let mut run = Comparison::new(tested, expected, gathered, &plan);
    run.short_moieties(longest);
    run
}

/// What unwinds a run that its first difference ends.
struct Difference(String);

/// The first difference in these parts, or that a program panicked, or, of all parts, an answer that was
/// never seen; none where the comparison passes.
pub fn first_difference(
    tested: &dyn Program,
    expected: &dyn Program,
    gather: Gather,
    plan: &Plan,
    parts: &[Part],
) -> Option<String> {
    let run = AssertUnwindSafe(|| {
        let mut run = Comparison::new(tested, expected, gather, plan);
        run.ends = true;
        run.some(plan, parts);
        let missing = if parts == PARTS { run.missing() } else { vec![] };
        missing.first().map(|answer| format!("never seen: {answer}"))
    });
    catch_unwind(run).unwrap_or_else(|panic| match panic.downcast::<Difference>() {
        Ok(difference) => Some(difference.0),
        Err(_) => Some("a panic".into()),
    })
}

/// The names of a check from the fixed seed and from the new one.
macro_rules! from_seeds {
    ($name:literal) => {
        [concat!($name, ", fixed seed"), concat!($name, ", new seed")]
    };
}
use from_seeds;

impl<'a> Comparison<'a> {
    fn new(
        tested: &'a dyn Program,
        expected: &'a dyn Program,
        gather: Gather,
        plan: &Plan,
    ) -> Self {
        Comparison {
            tested,
            expected,
            gather,
            groups: vec![],
            tally: Tally::default(),
            examples: vec![],
            lists: plan.lists,
            ends: false,
        }
    }

    /// A check of inputs from both seeds, one for each so many lines.
    fn seeded(
        &mut self,
        plan: &Plan,
        names: [&'static str; 2],
        one_in: u64,
        check: fn(&mut Self, &'static str, u64, u64),
    ) {
        for (name, seed) in names.into_iter().zip([plan.fixed_seed, plan.new_seed]) {
            check(self, name, seed, plan.half(one_in));
        }
    }

    /// Of some parts first what is generated, then the fixed lists.
    fn some(&mut self, plan: &Plan, parts: &[Part]) {
        for part in parts {
            match part {
                Part::Texts => self.some_texts(plan),
                Part::Sheets => self.some_sheets(plan),
                Part::Keys => self.some_keys(plan),
                Part::Memories => self.some_memories(plan),
                Part::Sequences => self.some_sequences(plan),
                Part::Camps => self.some_camps(plan),
                Part::Files => self.some_files(plan),
                Part::Logs => self.some_logs(plan),
                Part::Symmetry => self.some_symmetry(plan),
                Part::Moieties => self.some_moieties(plan),
                Part::Hydrogens => self.some_hydrogens(plan),
            }
        }
        for part in parts.iter().filter(|_| plan.lists) {
            match part {
                Part::Texts => self.listed_texts(),
                Part::Sheets => self.listed_sheets(),
                Part::Keys => self.listed_keys(plan),
                Part::Memories | Part::Camps => {}
                Part::Sequences => self.listed_sequences(),
                Part::Files => self.listed_files(),
                Part::Logs => self.listed_logs(plan),
                Part::Symmetry => self.listed_symmetry(),
                Part::Moieties => self.listed_moieties(),
                Part::Hydrogens => self.listed_hydrogens(),
            }
        }
    }

    /// The readers of a line.
    fn some_texts(&mut self, plan: &Plan) {
        self.seeded(plan, from_seeds!("lines"), 1, Self::generated_lines);
        self.seeded(plan, from_seeds!("values"), 1, Self::generated_values);
        self.values("single bytes", lists::single_bytes());
        self.lines("line lengths", lists::line_lengths());
    }

    fn listed_texts(&mut self) {
        self.values("numbers at the limits", lists::numbers_at_limits());
        self.values("numbers at the bounds", lists::numbers_at_bounds());
        self.lines("items with values", lists::items_with_values());
        self.lines("names one byte off", lists::names_one_byte_off());
        self.values("reserved words as values", lists::reserved_words());
        self.lines("reserved words in lines", lists::in_lines(lists::reserved_words()));
        let short_numbers = || lists::short_texts(lists::OF_NUMBERS, lists::SHORT_NUMBER);
        self.values("short numbers", short_numbers());
        self.lines("short numbers in lines", lists::in_lines(short_numbers()));
        self.lines(
            "short texts in lines",
            lists::in_lines(lists::short_texts(TELLING, lists::SHORT_IN_LINE)),
        );
        self.values("short texts as values", lists::short_texts(TELLING, lists::SHORT_VALUE));
    }

    pub fn differences(&self) -> u64 {
        self.groups.iter().map(|group| group.different).sum()
    }

    /// Prints the table; answers how many checks passed and failed.
    pub fn print(&self) -> (usize, usize) {
        println!("{:<26} {:>9} {:>9} {:>9}", "check", "inputs", "answers", "different");
        for group in &self.groups {
            let Group { name, inputs, answers, different } = group;
            println!("{name:<26} {inputs:>9} {answers:>9} {different:>9}");
        }
        self.tally.print();
        let missing = self.missing();
        missing.iter().for_each(|answer| println!("NEVER SEEN {answer}"));
        self.examples.iter().for_each(|example| println!("DIFFERENT {example}"));
        let groups = self.groups.iter().filter(|group| group.passed()).count();
        let passed = groups + usize::from(missing.is_empty());
        (passed, self.groups.len() + 1 - passed)
    }

    /// The possible answers never given.
    pub fn missing(&self) -> Vec<String> {
        if !self.lists {
            return vec![];
        }
        self.tally.missing()
    }

    fn generated_lines(&mut self, name: &'static str, seed: u64, count: u64) {
        let mut inputs = Inputs::new(seed);
        self.lines(name, (0..count).map(|_| inputs.line()));
    }

    fn generated_values(&mut self, name: &'static str, seed: u64, count: u64) {
        let mut inputs = Inputs::new(!seed);
        self.values(name, (0..count).map(|_| inputs.value()));
    }

    fn begin(&mut self, name: &'static str) {
        self.groups.push(Group { name, inputs: 0, answers: 0, different: 0 });
    }

    fn group(&mut self) -> &mut Group {
        self.groups.last_mut().expect("a group was begun")
    }

    fn lines(&mut self, name: &'static str, lines: impl IntoIterator<Item = Vec<u8>>) {
        self.begin(name);
        for line in lines {
            self.group().inputs += 1;
            self.line(&line);
        }
    }

    fn values(&mut self, name: &'static str, values: impl IntoIterator<Item = Vec<u8>>) {
        self.begin(name);
        for (value, other_row) in values.into_iter().zip(OTHER_ROWS.into_iter().cycle()) {
            self.group().inputs += 1;
            self.value(&value, other_row);
        }
    }

    fn line(&mut self, line: &[u8]) {
        let (tested, expected) = (self.tested, self.expected);
        let answer =
            self.same(&"wall_classify", line, tested.classify(line), expected.classify(line));
        let place = [0, 5, 6, 7].iter().position(|&known| known == answer);
        self.tally.note(Question::Line, place.unwrap_or(usize::MAX));
        if let Some(place) = length_place(line.len(), answer) {
            self.tally.note(Question::AskedLength, place);
        }

        let form = self.same(&"probe_line", line, tested.line(line), expected.line(line));
        self.tally.note(Question::Form, form.found as usize);

        let name = line.split(|&byte| byte == b' ').next().unwrap_or(line);
        let item = self.same(&"probe_item", name, tested.item(name), expected.item(name));
        self.tally.note(Question::Item, item as usize);
        self.note_line(item, &line[form.value_start as usize..], answer);
    }

    fn value(&mut self, value: &[u8], other_row: u64) {
        let (tested, expected) = (self.tested, self.expected);
        let number =
            self.same(&"probe_number", value, tested.number(value), expected.number(value));
        self.tally.note(Question::Number, number_place(number));
        self.note_number(value, number.found != 0);

        let form = self.same(&"probe_value", value, tested.value(value), expected.value(value));
        self.tally.note(Question::Value, form as usize);

        let questions = [Question::Row6, Question::Row8, Question::Row10];
        for (row, question) in ROWS.into_iter().zip(questions) {
            let graded = self.grade(row, value);
            self.tally.note(question, grade_place(graded));
        }
        let graded = self.grade(other_row, value);
        let place = if graded == NO_GRADE { 0 } else { usize::MAX };
        self.tally.note(Question::OtherRow, place);
    }

    fn grade(&mut self, row: u64, value: &[u8]) -> Graded {
        let (tested, expected) = (self.tested, self.expected);
        self.same(
            &format_args!("wall_grade row {row}"),
            value,
            tested.grade(row, value),
            expected.grade(row, value),
        )
    }

    /// Holds one answer equal to the expected one, and hands it on.
    fn same<T: PartialEq + Debug>(
        &mut self,
        question: &dyn std::fmt::Display,
        input: &[u8],
        tested: T,
        expected: T,
    ) -> T {
        self.group().answers += 1;
        if tested != expected {
            self.different(|| {
                let input = hex(input);
                format!("{question}, input {input}: {tested:?}, reference {expected:?}")
            });
        }
        tested
    }

    /// Counts one difference; the first ones are shown.
    fn different(&mut self, example: impl FnOnce() -> String) {
        if self.ends {
            resume_unwind(Box::new(Difference(example())));
        }
        self.group().different += 1;
        if self.examples.len() < SHOWN {
            self.examples.push(example());
        }
    }
}

/// The place of a line's length in its list, where the line is accepted within the limit, and refused
/// beyond it.
fn length_place(length: usize, answer: u8) -> Option<usize> {
    match (length, answer) {
        (0, NOT_A_LINE) => Some(0),
        (OLD_LIMIT, ACCEPTED) => Some(1),
        (LIMIT, ACCEPTED) => Some(4),
        (_, ACCEPTED) if length == OLD_LIMIT + 1 => Some(2),
        (_, ACCEPTED) if length + 1 == LIMIT => Some(3),
        (_, NOT_A_LINE) if length == LIMIT + 1 => Some(5),
        (_, NOT_A_LINE) if length > LIMIT + 1 => Some(6),
        _ => None,
    }
}

fn number_place(number: NumberResult) -> usize {
    match number {
        NumberResult { found: 0, .. } => 0,
        NumberResult { millionths, .. } => (2 + millionths.signum()) as usize,
    }
}

fn grade_place(graded: Graded) -> usize {
    match (graded.answer, graded.level) {
        (0, 0) => 0,
        (0, level @ 2..=4) => level as usize - 1,
        (7, 0) => 4,
        _ => usize::MAX,
    }
}

/// Bytes in hexadecimal, `-` for none.
pub fn hex(bytes: &[u8]) -> String {
    if bytes.is_empty() {
        return "-".into();
    }
    bytes.iter().map(|byte| format!("{byte:02x}")).collect()
}
