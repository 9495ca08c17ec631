//! The proved library through its C boundary.

use crate::boundary::{
    Checked, Fed, Filed, Graded, LineResult, Memory, NumberResult, Operator, Proposed, Reported,
    Stick, Told,
};
use crate::program::Program;

extern "C" {
    fn wall_classify(line: *const u8, length: usize) -> u8;
    fn wall_grade(row: u64, value: *const u8, length: usize) -> Graded;
    fn probe_number(text: *const u8, length: usize) -> NumberResult;
    fn probe_value(text: *const u8, length: usize) -> u64;
    fn probe_line(text: *const u8, length: usize) -> LineResult;
    fn probe_item(name: *const u8, length: usize) -> u64;
    fn desk_fresh(
        texts: *mut u8,
        texts_length: usize,
        numbers: *mut usize,
        numbers_length: usize,
    ) -> u8;
    fn desk_key(
        texts: *mut u8,
        texts_length: usize,
        numbers: *mut usize,
        numbers_length: usize,
        log: *mut u8,
        log_length: usize,
        bench: u64,
        byte: u8,
    ) -> u8;
    fn desk_report(
        texts: *const u8,
        texts_length: usize,
        numbers: *const usize,
        numbers_length: usize,
        sheet: u64,
        profile: u64,
    ) -> Reported;
    fn desk_who(
        texts: *const u8,
        texts_length: usize,
        numbers: *const usize,
        numbers_length: usize,
        sheet: u64,
        item: u64,
    ) -> Told;
    fn desk_file(
        texts: *const u8,
        texts_length: usize,
        numbers: *const usize,
        numbers_length: usize,
        sheet: u64,
        name: *const u8,
        name_length: usize,
        out: *mut u8,
        out_length: usize,
    ) -> Filed;
    fn desk_feed(
        texts: *mut u8,
        texts_length: usize,
        numbers: *mut usize,
        numbers_length: usize,
        kept: *mut u8,
        kept_length: usize,
        state: *mut usize,
        state_length: usize,
        part: *const u8,
        part_length: usize,
        last: u8,
    ) -> Fed;
    fn desk_hydrogens(
        texts: *const u8,
        texts_length: usize,
        numbers: *const usize,
        numbers_length: usize,
        sheet: u64,
    ) -> Proposed;
    fn desk_hydrogens_right(
        texts: *const u8,
        texts_length: usize,
        numbers: *const usize,
        numbers_length: usize,
        sheet: u64,
        count: u64,
    ) -> Proposed;
    fn symmetry_read(text: *const u8, length: usize) -> Operator;
    fn symmetry_check(rows: *const i8, length: usize) -> Checked;
}

/// The proved library.
pub struct Proved;

// Every call lends live slices for the call, which do not overlap; a slice's pointer is never null.
impl Program for Proved {
    fn classify(&self, line: &[u8]) -> u8 {
        unsafe { wall_classify(line.as_ptr(), line.len()) }
    }

    fn grade(&self, row: u64, value: &[u8]) -> Graded {
        unsafe { wall_grade(row, value.as_ptr(), value.len()) }
    }

    fn number(&self, text: &[u8]) -> NumberResult {
        unsafe { probe_number(text.as_ptr(), text.len()) }
    }

    fn value(&self, text: &[u8]) -> u64 {
        unsafe { probe_value(text.as_ptr(), text.len()) }
    }

    fn line(&self, text: &[u8]) -> LineResult {
        unsafe { probe_line(text.as_ptr(), text.len()) }
    }

    fn item(&self, name: &[u8]) -> u64 {
        unsafe { probe_item(name.as_ptr(), name.len()) }
    }

    fn fresh(&self, memory: &mut Memory) -> u8 {
        let Memory { texts, numbers, .. } = memory;
        unsafe { desk_fresh(texts.as_mut_ptr(), texts.len(), numbers.as_mut_ptr(), numbers.len()) }
    }

    fn key(&self, memory: &mut Memory, bench: u64, byte: u8) -> u8 {
        let Memory { texts, numbers, log } = memory;
        unsafe {
            desk_key(
                texts.as_mut_ptr(),
                texts.len(),
                numbers.as_mut_ptr(),
                numbers.len(),
                log.as_mut_ptr(),
                log.len(),
                bench,
                byte,
            )
        }
    }

    fn report(&self, memory: &Memory, sheet: u64, profile: u64) -> Reported {
        let Memory { texts, numbers, .. } = memory;
        unsafe {
            desk_report(
                texts.as_ptr(),
                texts.len(),
                numbers.as_ptr(),
                numbers.len(),
                sheet,
                profile,
            )
        }
    }

    fn who(&self, memory: &Memory, sheet: u64, item: u64) -> Told {
        let Memory { texts, numbers, .. } = memory;
        unsafe {
            desk_who(texts.as_ptr(), texts.len(), numbers.as_ptr(), numbers.len(), sheet, item)
        }
    }

    fn file(&self, memory: &Memory, sheet: u64, block: &[u8], out: &mut [u8]) -> Filed {
        let Memory { texts, numbers, .. } = memory;
        unsafe {
            desk_file(
                texts.as_ptr(),
                texts.len(),
                numbers.as_ptr(),
                numbers.len(),
                sheet,
                block.as_ptr(),
                block.len(),
                out.as_mut_ptr(),
                out.len(),
            )
        }
    }

    fn feed(&self, memory: &mut Memory, stick: &mut Stick, part: &[u8], last: u8) -> Fed {
        let (Memory { texts, numbers, .. }, Stick { kept, state }) = (memory, stick);
        unsafe {
            desk_feed(
                texts.as_mut_ptr(),
                texts.len(),
                numbers.as_mut_ptr(),
                numbers.len(),
                kept.as_mut_ptr(),
                kept.len(),
                state.as_mut_ptr(),
                state.len(),
                part.as_ptr(),
                part.len(),
                last,
            )
        }
    }

    fn hydrogens(&self, memory: &Memory, sheet: u64) -> Proposed {
        let Memory { texts, numbers, .. } = memory;
        let (texts_length, numbers_length) = (texts.len(), numbers.len());
        unsafe {
            desk_hydrogens(texts.as_ptr(), texts_length, numbers.as_ptr(), numbers_length, sheet)
        }
    }

    fn hydrogens_right(&self, memory: &Memory, sheet: u64, count: u64) -> Proposed {
        let Memory { texts, numbers, .. } = memory;
        unsafe {
            desk_hydrogens_right(
                texts.as_ptr(),
                texts.len(),
                numbers.as_ptr(),
                numbers.len(),
                sheet,
                count,
            )
        }
    }

    fn operator(&self, text: &[u8]) -> Operator {
        unsafe { symmetry_read(text.as_ptr(), text.len()) }
    }

    fn group(&self, numbers: &[i8]) -> Checked {
        unsafe { symmetry_check(numbers.as_ptr(), numbers.len()) }
    }
}
