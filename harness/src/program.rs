//! The questions that both programs answer, in the form of the C boundary.

use crate::boundary::{
    Checked, Fed, Filed, Graded, LineResult, Memory, NumberResult, Operator, Proposed, Reported,
    Stick, Told, DESK_USED_AT,
};
pub use reference::sequence::Call;

/// A program under comparison.
pub trait Program {
    fn classify(&self, line: &[u8]) -> u8;
    fn grade(&self, row: u64, value: &[u8]) -> Graded;
    fn number(&self, text: &[u8]) -> NumberResult;
    fn value(&self, text: &[u8]) -> u64;
    fn line(&self, text: &[u8]) -> LineResult;
    fn item(&self, name: &[u8]) -> u64;
    fn fresh(&self, memory: &mut Memory) -> u8;
    fn key(&self, memory: &mut Memory, bench: u64, byte: u8) -> u8;
    fn report(&self, memory: &Memory, sheet: u64, profile: u64) -> Reported;
    fn who(&self, memory: &Memory, sheet: u64, item: u64) -> Told;
    /// Writes a sheet as a CIF file with this block name.
    fn file(&self, memory: &Memory, sheet: u64, block: &[u8], out: &mut [u8]) -> Filed;
    /// Reads the next part of a log; any last but 0 marks the last.
    fn feed(&self, memory: &mut Memory, stick: &mut Stick, part: &[u8], last: u8) -> Fed;
    /// The hydrogen helper, and the check of a proposed count.
    fn hydrogens(&self, memory: &Memory, sheet: u64) -> Proposed;
    fn hydrogens_right(&self, memory: &Memory, sheet: u64, count: u64) -> Proposed;
    /// Reads the text of a symmetry operator.
    fn operator(&self, text: &[u8]) -> Operator;
    /// Checks a list of operators, rows of numbers one after the other.
    fn group(&self, numbers: &[i8]) -> Checked;

    /// Reads a log whole into a fresh desk: the answer, and the memory then, with its used number left out.
    fn whole(&self, log: &[u8]) -> (Fed, Memory) {
        let (mut memory, mut stick) = (Memory::zeros(&[]), Stick::zeros());
        let fed = self.feed(&mut memory, &mut stick, log, 1);
        memory.numbers[DESK_USED_AT] = 0;
        (fed, memory)
    }

    /// One call of a sequence.
    fn call(&self, memory: &mut Memory, call: &Call) -> Answer {
        match *call {
            Call::Key { bench, byte } => Answer::Key(self.key(memory, bench, byte)),
            Call::Report { sheet, profile } => Answer::Report(self.report(memory, sheet, profile)),
            Call::Who { sheet, item } => Answer::Who(self.who(memory, sheet, item)),
        }
    }
}

/// A call's whole answer.
#[derive(Clone, Copy, Debug, PartialEq, Eq)]
pub enum Answer {
    Key(u8),
    Report(Reported),
    Who(Told),
}

impl Answer {
    /// The answer's number.
    pub fn number(&self) -> u8 {
        match *self {
            Answer::Key(answer) => answer,
            Answer::Report(Reported { answer, .. }) | Answer::Who(Told { answer, .. }) => answer,
        }
    }
}
