//! A program that is lent each run of bytes in a block of the heap of exactly its length, so that a
//! tool that watches the memory sees every access beyond it. Lent memory is always so.

use crate::boundary::{
    Checked, Fed, Filed, Graded, LineResult, Memory, NumberResult, Operator, Proposed, Reported,
    Stick, Told,
};
use crate::program::Program;

pub struct Exact<P>(pub P);

/// A block of its own.
fn block<T: Copy>(run: &[T]) -> Box<[T]> {
    run.into()
}

impl<P: Program> Program for Exact<P> {
    fn classify(&self, line: &[u8]) -> u8 {
        self.0.classify(&block(line))
    }

    fn grade(&self, row: u64, value: &[u8]) -> Graded {
        self.0.grade(row, &block(value))
    }

    fn number(&self, text: &[u8]) -> NumberResult {
        self.0.number(&block(text))
    }

    fn value(&self, text: &[u8]) -> u64 {
        self.0.value(&block(text))
    }

    fn line(&self, text: &[u8]) -> LineResult {
        self.0.line(&block(text))
    }

    fn item(&self, name: &[u8]) -> u64 {
        self.0.item(&block(name))
    }

    fn fresh(&self, memory: &mut Memory) -> u8 {
        self.0.fresh(memory)
    }

    fn key(&self, memory: &mut Memory, bench: u64, byte: u8) -> u8 {
        self.0.key(memory, bench, byte)
    }

    fn report(&self, memory: &Memory, sheet: u64, profile: u64) -> Reported {
        self.0.report(memory, sheet, profile)
    }

    fn who(&self, memory: &Memory, sheet: u64, item: u64) -> Told {
        self.0.who(memory, sheet, item)
    }

    fn file(&self, memory: &Memory, sheet: u64, name: &[u8], out: &mut [u8]) -> Filed {
        let (name, mut lent) = (block(name), block(out));
        let filed = self.0.file(memory, sheet, &name, &mut lent);
        out.copy_from_slice(&lent);
        filed
    }

    fn feed(&self, memory: &mut Memory, stick: &mut Stick, part: &[u8], last: u8) -> Fed {
        self.0.feed(memory, stick, &block(part), last)
    }

    fn hydrogens(&self, memory: &Memory, sheet: u64) -> Proposed {
        self.0.hydrogens(memory, sheet)
    }

    fn hydrogens_right(&self, memory: &Memory, sheet: u64, count: u64) -> Proposed {
        self.0.hydrogens_right(memory, sheet, count)
    }

    fn operator(&self, text: &[u8]) -> Operator {
        self.0.operator(&block(text))
    }

    fn group(&self, numbers: &[i8]) -> Checked {
        self.0.group(&block(numbers))
    }
}
