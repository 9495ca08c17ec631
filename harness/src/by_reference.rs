//! The questions answered by the reference program. `mutants/` compiles this file a second time, with
//! a changed copy of the reference in its place.

use crate::boundary::{
    Checked, Fed, Filed, Graded, LineResult, Memory, NumberResult, Operator, Proposed, Reported,
    Row, Stick, Told,
};
use crate::memory::{held, held_reader, put, put_reader};
use crate::program::{Call, Program};
use reference::desk::{self, BENCHES, FRESH, NOT_SOUND, NO_SUCH_BENCH, NO_SUCH_SHEET, SHEETS};
use reference::powder::{NO_SUCH_PROFILE, PROFILES};
use reference::{
    cif_file, grade, group, hydrogen, line, names, number, operator, reader, rows, sequence, value,
};

/// The reference program.
pub struct Reference;

impl Program for Reference {
    fn classify(&self, line: &[u8]) -> u8 {
        line::classify(line)
    }

    fn grade(&self, row: u64, value: &[u8]) -> Graded {
        let (answer, level) = grade::grade(row, value);
        Graded { answer, level }
    }

    fn number(&self, text: &[u8]) -> NumberResult {
        let number = number::number(text);
        NumberResult { millionths: number.unwrap_or(0), found: number.is_some().into() }
    }

    fn value(&self, text: &[u8]) -> u64 {
        match value::form(text) {
            None => 0,
            Some(value::Form::Unassigned) => 1,
            Some(value::Form::Bare) => 2,
            Some(value::Form::Quoted) => 3,
        }
    }

    fn line(&self, text: &[u8]) -> LineResult {
        let (found, name_end, value_start) = match line::split(text) {
            None => (0, 0, 0),
            Some((name, value)) => (1, name.len(), text.len() - value.len()),
        };
        LineResult { found, name_end: name_end as u64, value_start: value_start as u64 }
    }

    fn item(&self, name: &[u8]) -> u64 {
        names::item(name).unwrap_or(0) as u64
    }

    fn fresh(&self, memory: &mut Memory) -> u8 {
        if held(memory).is_none() {
            return NOT_SOUND;
        }
        put(memory, &FRESH, 0);
        line::ACCEPTED
    }

    fn key(&self, memory: &mut Memory, bench: u64, byte: u8) -> u8 {
        let Some((mut desk, mut used)) = held(memory) else {
            return if bench < BENCHES as u64 { NOT_SOUND } else { NO_SUCH_BENCH };
        };
        let answer = desk::key(&mut desk, &mut memory.log, &mut used, bench, byte);
        put(memory, &desk, used);
        answer
    }

    fn report(&self, memory: &Memory, sheet: u64, profile: u64) -> Reported {
        let refusal = match no_desk(sheet) {
            NOT_SOUND if profile >= PROFILES => NO_SUCH_PROFILE,
            other => other,
        };
        let none = (refusal, [rows::Row::default(); rows::ROWS]);
        let (answer, rows) =
            held(memory).map_or(none, |(desk, _)| desk::report(&desk, sheet, profile));
        Reported { answer, rows: rows.map(|row| Row { level: row.level, reason: row.reason }) }
    }

    fn who(&self, memory: &Memory, sheet: u64, item: u64) -> Told {
        let none = desk::Told::nobody(no_desk(sheet));
        let told = held(memory).map_or(none, |(desk, _)| desk::who(&desk, sheet, item));
        let desk::Told { answer, bench, entry, times } = told;
        Told { entry: entry as usize, times: times as usize, answer, bench }
    }

    fn file(&self, memory: &Memory, sheet: u64, block: &[u8], out: &mut [u8]) -> Filed {
        let (answer, count) = match held(memory) {
            Some((desk, _)) => cif_file::write_file(&desk, sheet, block, out),
            None => (no_desk(sheet), 0),
        };
        Filed { count: count as usize, answer }
    }

    fn feed(&self, memory: &mut Memory, stick: &mut Stick, part: &[u8], last: u8) -> Fed {
        let Some(mut reader) = held_reader(memory, stick) else {
            return Fed { place: 0, answer: NOT_SOUND };
        };
        let over = reader.over.is_some();
        let (answer, place) = reader.feed(part, last != 0);
        if answer != NOT_SOUND && !over {
            put_reader(memory, stick, &reader);
        }
        Fed { place: place as usize, answer }
    }

    fn hydrogens(&self, memory: &Memory, sheet: u64) -> Proposed {
        proposed(
            held(memory).map_or((no_desk(sheet), 0), |(desk, _)| hydrogen::propose(&desk, sheet)),
        )
    }

    fn hydrogens_right(&self, memory: &Memory, sheet: u64, count: u64) -> Proposed {
        let none = (no_desk(sheet), 0);
        proposed(held(memory).map_or(none, |(desk, _)| hydrogen::check(&desk, sheet, count)))
    }

    fn whole(&self, log: &[u8]) -> (Fed, Memory) {
        let (sheets, (answer, place)) = reader::read_whole(log);
        let mut memory = Memory::zeros(&[]);
        put(&mut memory, &desk::Desk { sheets, ..FRESH }, 0);
        (Fed { place: place as usize, answer }, memory)
    }

    fn operator(&self, text: &[u8]) -> Operator {
        let (answer, row) = operator::read(text);
        Operator { answer, row }
    }

    fn group(&self, numbers: &[i8]) -> Checked {
        let (answer, pairs) = group::check(numbers);
        Checked { pairs, answer }
    }
}

/// What a question about a sheet, and the writer of its file, answer where the memory is no desk: "12, no
/// such sheet, before 2".
fn no_desk(sheet: u64) -> u8 {
    if sheet < SHEETS as u64 {
        NOT_SOUND
    } else {
        NO_SUCH_SHEET
    }
}

fn proposed((answer, count): (u8, u64)) -> Proposed {
    Proposed { count: count as usize, answer }
}

/// The places of calls in gathered order.
pub fn gathered(calls: &[Call]) -> Vec<usize> {
    let own = |call: &Call| match *call {
        Call::Key { bench, byte } => sequence::Call::Key { bench, byte },
        Call::Report { sheet, profile } => sequence::Call::Report { sheet, profile },
        Call::Who { sheet, item } => sequence::Call::Who { sheet, item },
    };
    sequence::gathered(&calls.iter().map(own).collect::<Vec<_>>())
}
