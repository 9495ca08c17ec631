//! Calls of the library as bytes, and what must be answered: `crates/test_caller` reads them.
//!
//! A frame has its kind, one byte, and four numbers of 4 bytes; then the bytes that it lends. All
//! numbers are little-endian.
//!
//! Kind 0 is calls on a desk: how many calls, and the lengths of the log, of a block name and of the
//! room for a file; then log, name, room, texts, numbers (8 bytes each) and calls. A call has its
//! kind (0 key, 1 Report, 2 Who), its bench, sheet or item (8 bytes) and its byte, with a Report the
//! profile, with a Who the sheet; after them stands the sheet of the file, one byte. Answered are for each call
//! its answer's number, with a Report level and reason of each row, with a Who bench, entry and times
//! (8 bytes each); then count (8 bytes) and answer of the file; then room, texts, numbers and log. Kind 1 is
//! the same on memory that is first made a fresh desk, of which the answer comes first.
//!
//! Kind 2 is the wall screen: a row, 0, the length of a text, 0; then the text. Answered are the
//! number of the line, and answer and level of the grade.

use crate::boundary::Memory;
use crate::by_reference::Reference;
use crate::desk_sessions;
use crate::desks::{changed_over, in_memory, Desks};
use crate::files::{length, Files};
use crate::inputs::{Inputs, ROWS};
use crate::program::{Answer, Call, Program};
use crate::random::Random;
use crate::sequences::{
    contended, desk_sessions, few_calls, log_lengths, measured_examples, rewritten, Sequence,
    Sequences,
};
use crate::sheet_lists;
use crate::sheets::Sheets;
use reference::desk::{Desk, SHEETS};
use reference::program::{keys, LOG};
use std::fs;
use std::path::Path;

const CALLS: u8 = 0;
const FRESH_CALLS: u8 = 1;
const WALL: u8 = 2;
/// The most bytes of a log, of a name or text, and of a room that `crates/test_caller` takes.
const LONGEST: [usize; 3] = [131_072, 1_024, 81_920];
/// What stands in memory before it is made a fresh desk, and in a room before the call.
const FILL: u8 = 0xa5;
/// Each generated sequence comes with so many lines, values and sheets, and desks of any kind.
const OTHERS: u64 = 4;
/// A row that judges no single value.
const NO_ROW: u64 = 7;

/// Frames and their answers.
#[derive(Default)]
struct Frames {
    stdin: Vec<u8>,
    stdout: Vec<u8>,
}

impl Frames {
    fn head(&mut self, kind: u8, numbers: [usize; 4]) {
        let fits = numbers[1..].iter().zip(LONGEST).all(|(length, longest)| *length <= longest);
        assert!(fits, "{numbers:?}: more than is taken");
        self.stdin.push(kind);
        self.stdin.extend(numbers.iter().flat_map(|&number| (number as u32).to_le_bytes()));
    }

    /// Calls on a fresh desk, and its file.
    fn sequence(&mut self, Sequence { calls, log }: &Sequence) {
        let mut memory = Memory::zeros(log);
        memory.texts.fill(FILL);
        memory.numbers.fill(FILL.into());
        self.calls(FRESH_CALLS, memory, calls, b"camp-1", LOG);
    }

    /// Calls on a desk that is there, and its file.
    fn calls(&mut self, kind: u8, mut memory: Memory, calls: &[Call], block: &[u8], room: usize) {
        let mut out = vec![FILL; room];
        self.head(kind, [calls.len(), memory.log.len(), block.len(), room]);
        let calls_bytes: Vec<u8> = calls.iter().flat_map(encoded).collect();
        self.stdin.extend([&memory.log, block, &out].concat());
        // The sheets in turn, and one that is none, as the number of calls says.
        let sheet = (calls.len() % (SHEETS + 1)) as u8;
        self.stdin.extend([desk_bytes(&memory), calls_bytes, vec![sheet]].concat());
        if kind == FRESH_CALLS {
            self.stdout.push(Reference.fresh(&mut memory));
        }
        for call in calls {
            self.stdout.extend(told(&Reference.call(&mut memory, call)));
        }
        let filed = Reference.file(&memory, sheet.into(), block, &mut out);
        self.stdout.extend(filed.count.to_le_bytes());
        self.stdout.push(filed.answer);
        self.stdout.extend([out, desk_bytes(&memory), memory.log.to_vec()].concat());
    }

    fn wall(&mut self, text: &[u8], row: u64) {
        self.head(WALL, [row as usize, 0, text.len(), 0]);
        self.stdin.extend(text);
        let graded = Reference.grade(row, text);
        self.stdout.extend([Reference.classify(text), graded.answer, graded.level]);
    }

    /// Measured examples of document 01.
    fn examples(&mut self, sheets: &[Desk]) {
        for sheet in sheets {
            self.calls(CALLS, in_memory(sheet), &[Call::Report { sheet: 0, profile: 0 }], b"", 0);
        }
    }

    fn write(&self, folder: &Path) -> Result<(), String> {
        let put = |name: &str, bytes: &[u8]| fs::write(folder.join(name), bytes);
        put("stdin", &self.stdin)
            .and_then(|()| put("stdout", &self.stdout))
            .map_err(|fault| format!("{}: {fault}", folder.display()))
    }
}

/// Texts and numbers.
fn desk_bytes(memory: &Memory) -> Vec<u8> {
    let numbers = memory.numbers.iter().flat_map(|number| number.to_le_bytes());
    memory.texts.iter().copied().chain(numbers).collect()
}

fn encoded(call: &Call) -> Vec<u8> {
    let (kind, number, byte) = match *call {
        Call::Key { bench, byte } => (0, bench, byte),
        Call::Report { sheet, profile } => (1, sheet, u8::try_from(profile).unwrap_or(u8::MAX)),
        Call::Who { sheet, item } => (2, item, u8::try_from(sheet).unwrap_or(u8::MAX)),
    };
    [&[kind][..], &number.to_le_bytes(), &[byte]].concat()
}

fn told(answer: &Answer) -> Vec<u8> {
    let rest = match answer {
        Answer::Key(_) => vec![],
        Answer::Report(told) => told.rows.iter().flat_map(|row| [row.level, row.reason]).collect(),
        Answer::Who(told) => {
            [&[told.bench][..], &told.entry.to_le_bytes(), &told.times.to_le_bytes()].concat()
        }
    };
    [vec![answer.number()], rest].concat()
}

/// In how many parts the measured examples are run, each few enough for the interpreter.
const EXAMPLE_PARTS: usize = 5;

/// The measured examples, with the typed line whose record document 01 gives, in parts: each in a folder
/// of its number, from 1 on.
pub fn write_examples(folder: &Path) -> Result<(), String> {
    let sheets = sheet_lists::measured_examples();
    let calls = b"_refine_ls_R_factor_gt 0.16\n".map(|byte| Call::Key { bench: 0, byte });
    // The typed lines have parts of their own.
    let alone: &[Desk] = &[];
    let examples = sheets.chunks(sheets.len().div_ceil(EXAMPLE_PARTS));
    let parts = [alone, alone].into_iter().chain(examples);
    for (number, part) in (1..).zip(parts) {
        let mut frames = Frames::default();
        frames.examples(part);
        match number {
            1 => frames.sequence(&Sequence { calls: calls.into(), log: vec![0xee; 10] }),
            2 => frames.sequence(&Sequence { calls: calls.into(), log: vec![0xee; 9] }),
            3 => {
                frames.wall(b"0.200001", ROWS[0]);
                frames.wall(b"-0.06", ROWS[2]);
                frames.wall(b"-.06(3)", ROWS[2]);
                frames.wall(b"1.", ROWS[1]);
                frames.wall(b"-.", ROWS[0]);
                frames.wall(b"_refine_ls_R_factor_gt 0.16", NO_ROW);
            }
            _ => {}
        }
        let folder = folder.join(number.to_string());
        fs::create_dir_all(&folder).map_err(|fault| format!("{}: {fault}", folder.display()))?;
        frames.write(&folder)?;
    }
    Ok(())
}

/// The measured examples, as they are and typed, the sessions of desk with their files, and sequences
/// about the length of the log, the order of few calls, and items typed again and by another bench.
pub fn write_lists(folder: &Path) -> Result<(), String> {
    let mut frames = Frames::default();
    frames.examples(&sheet_lists::measured_examples());
    let lists = measured_examples().chain(log_lengths()).chain(desk_sessions());
    let lists = lists.chain(few_calls().step_by(9)).chain(rewritten().step_by(8));
    lists.chain(contended().step_by(10)).for_each(|sequence| frames.sequence(&sequence));
    for (number, (_, input)) in (1..).zip(desk_sessions::scripts()) {
        let calls: Vec<Call> =
            keys(&input).map(|(bench, byte)| Call::Key { bench, byte }).collect();
        let block = &b"camp-1-2-3-4-5-6-7-8-9-0-a-b-c-d"[..1 + (number - 1) % 32];
        frames.calls(FRESH_CALLS, Memory::zeros(&[0; LOG]), &calls, block, number);
    }
    frames.write(folder)
}

/// So many generated sequences, and with each sheets, desks of any kind with files, and lines and
/// values for the wall screen.
pub fn write(seed: u64, count: u64, folder: &Path) -> Result<(), String> {
    let mut frames = Frames::default();
    let (mut seeds, mut inputs, mut sheets) =
        (Random::new(seed), Inputs::new(seed), Sheets::new(seed));
    let (mut files, mut desks) = (Files::new(seed), Desks::new(seed));
    for _ in 0..count {
        let mut sequences = Sequences::new(seeds.next());
        frames.sequence(&sequences.sequence());
        for state in [desks.sound(), desks.random()] {
            let (calls, block) = (sequences.calls(OTHERS as usize, 0), files.block());
            let room = seeds.pick(&files.rooms(length(&state.desk, 0, &block)));
            frames.calls(CALLS, state.memory(), &calls, &block, room);
        }
        for _ in 0..OTHERS {
            frames.wall(&inputs.value(), seeds.pick(&[ROWS[0], ROWS[1], ROWS[2], NO_ROW]));
            frames.wall(&inputs.line(), NO_ROW);
            let desk = changed_over(&sheets.sheet());
            frames.calls(CALLS, in_memory(&desk), &[Call::Report { sheet: 1, profile: 1 }], b"", 0);
        }
    }
    frames.write(folder)
}
