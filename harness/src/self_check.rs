//! Shows that the comparison can fail: programs with one known fault each must be found different.
//! These are errors of thought; `mutants/` has slips of the pen.

mod camps;
mod files;
mod hydrogens;
mod keys;
mod logs;
mod moieties;
mod owners;
mod powder;
mod questions;
mod rows;
mod symmetry;
mod texts;
mod times;

use crate::boundary::{
    Checked, Fed, Filed, Graded, LineResult, Memory, NumberResult, Operator, Proposed, Reported,
    Stick, Told,
};
use crate::by_reference::{gathered, Reference};
use crate::compare::{compare, first_difference, Part, Plan};
use crate::memory::{held, put};
use crate::program::Program;
use crate::tally::Tally;
use reference::desk::Desk;

const PLAN: Plan = Plan { fixed_seed: 1, new_seed: 2, count: 6_000, lists: true };

/// The reference program with one answer replaced.
enum Wrong {
    Classify(fn(&[u8]) -> u8),
    Grade(fn(u64, &[u8]) -> Graded),
    Number(fn(&[u8]) -> NumberResult),
    Value(fn(&[u8]) -> u64),
    Item(fn(&[u8]) -> u64),
    Fresh(fn(&mut Memory) -> u8),
    Key(fn(&mut Memory, u64, u8) -> u8),
    Report(fn(&Memory, u64, u64) -> Reported),
    Who(fn(&Memory, u64, u64) -> Told),
    File(fn(&Memory, u64, &[u8], &mut [u8]) -> Filed),
    Feed(fn(&mut Memory, &mut Stick, &[u8], u8) -> Fed),
    Hydrogens(fn(&Memory, u64) -> Proposed),
    HydrogensRight(fn(&Memory, u64, u64) -> Proposed),
    Operator(fn(&[u8]) -> Operator),
    Group(fn(&[i8]) -> Checked),
}

/// A method that the fault of one variant replaces.
macro_rules! answers {
    ($variant:ident, $method:ident($($argument:ident: $type:ty),+) -> $answer:ty) => {
        fn $method(&self, $($argument: $type),+) -> $answer {
            match self {
                Wrong::$variant(wrong) => wrong($($argument),+),
                _ => Reference.$method($($argument),+),
            }
        }
    };
}

impl Program for Wrong {
    answers!(Classify, classify(line: &[u8]) -> u8);
    answers!(Grade, grade(row: u64, value: &[u8]) -> Graded);
    answers!(Number, number(text: &[u8]) -> NumberResult);
    answers!(Value, value(text: &[u8]) -> u64);
    answers!(Item, item(name: &[u8]) -> u64);
    answers!(Fresh, fresh(memory: &mut Memory) -> u8);
    answers!(Key, key(memory: &mut Memory, bench: u64, byte: u8) -> u8);
    answers!(Report, report(memory: &Memory, sheet: u64, profile: u64) -> Reported);
    answers!(Who, who(memory: &Memory, sheet: u64, item: u64) -> Told);
    answers!(File, file(memory: &Memory, sheet: u64, block: &[u8], out: &mut [u8]) -> Filed);
    answers!(Feed, feed(memory: &mut Memory, stick: &mut Stick, part: &[u8], last: u8) -> Fed);
    answers!(Hydrogens, hydrogens(memory: &Memory, sheet: u64) -> Proposed);
    answers!(HydrogensRight, hydrogens_right(memory: &Memory, sheet: u64, count: u64) -> Proposed);
    answers!(Operator, operator(text: &[u8]) -> Operator);
    answers!(Group, group(numbers: &[i8]) -> Checked);

    fn line(&self, text: &[u8]) -> LineResult {
        Reference.line(text)
    }
}

/// Changes the desk in memory.
fn change(memory: &mut Memory, change: impl FnOnce(&mut Desk)) {
    if let Some((mut desk, used)) = held(memory) {
        change(&mut desk);
        put(memory, &desk, used);
    }
}

/// Faults that must be found in these parts of the comparison, and no others are run.
type Faults = (&'static [Part], &'static [(&'static str, Wrong)]);

const FAULTS: [Faults; 13] = [
    (&[Part::Texts], &texts::FAULTS),
    (&[Part::Sheets], &rows::FAULTS),
    (&[Part::Memories, Part::Sheets], &powder::FAULTS),
    (&[Part::Moieties, Part::Sheets], &moieties::FAULTS),
    (&[Part::Hydrogens, Part::Memories], &hydrogens::FAULTS),
    (&[Part::Keys, Part::Memories, Part::Sequences], &keys::FAULTS),
    (&[Part::Memories, Part::Sequences], &questions::FAULTS),
    (&[Part::Memories, Part::Sequences, Part::Files], &times::FAULTS),
    (&[Part::Sequences], &owners::FAULTS),
    (&[Part::Memories, Part::Sequences, Part::Files], &camps::FAULTS),
    (&[Part::Files, Part::Memories], &files::FAULTS),
    (&[Part::Logs], &logs::FAULTS),
    (&[Part::Symmetry], &symmetry::FAULTS),
];

/// Faults of both programs at once, each of which only this part tells: the log's bytes, two runs held side
/// by side, or a file typed back.
const IN_BOTH: [(Part, &str, &Wrong); 4] = [
    (Part::Sequences, times::FAULTS[0].0, &times::FAULTS[0].1),
    (Part::Camps, camps::FAULTS[0].0, &camps::FAULTS[0].1),
    (Part::Camps, camps::EMPTIED_BY_8.0, &camps::EMPTIED_BY_8.1),
    (Part::Files, camps::OTHER_COUNTED.0, &camps::OTHER_COUNTED.1),
];

/// Prints one line for each fault; answers how many were found and how many not.
pub fn run() -> (usize, usize) {
    let mut results = vec![];
    for (parts, faults) in FAULTS {
        results.extend(faults.iter().map(|(name, wrong)| {
            told(name, first_difference(wrong, &Reference, gathered, &PLAN, parts))
        }));
    }
    results.extend(questions::ORDERS.map(|(name, order)| {
        told(name, first_difference(&Reference, &Reference, order, &PLAN, &[Part::Sequences]))
    }));
    results.extend(IN_BOTH.map(|(part, name, wrong)| {
        let name = format!("{name}, in both");
        told(&name, first_difference(wrong, wrong, gathered, &PLAN, &[part]))
    }));
    let none = compare(&Reference, &Reference, &PLAN);
    let same = none.differences() == 0 && none.missing().is_empty();
    let never =
        none.missing().iter().map(|answer| format!(", never seen {answer}")).collect::<String>();
    results.push((format!("the reference equals itself{never}"), same));
    results.push(("answers never seen are told".into(), !Tally::default().missing().is_empty()));
    for (name, passed) in &results {
        println!("{} {name}", if *passed { "ok" } else { "FAIL" });
    }
    let passed = results.iter().filter(|(_, passed)| *passed).count();
    (passed, results.len() - passed)
}

fn told(name: &str, difference: Option<String>) -> (String, bool) {
    let passed = difference.as_ref().is_some_and(|told| told != "a panic");
    (format!("{name}: {}", difference.unwrap_or_else(|| "not found".into())), passed)
}
