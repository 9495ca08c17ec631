//! The trace: one command a line, exactly one line of answer for each.

mod commands;

pub use commands::commands;

use crate::boundary::{Memory, Proposed, Stick};
use crate::compare::hex;
use crate::desks::State;
use crate::memory::held;
use crate::program::{Answer, Call, Program};
use reference::desk::{Item, Sheet, SHEETS};
use std::fmt::Write as _;
use std::io::{BufRead, BufReader, Read, Result as IoResult, Write};

/// The longest log and the most room for a file that are made.
const LONGEST_LOG: u64 = 1 << 24;
const MOST_ROOM: u64 = 1 << 24;
/// How much input is taken at once.
const BUFFER: usize = 1 << 20;

/// The desk at which keys are pressed with its log, and the reader of another log with its desk.
struct Traced {
    desk: Memory,
    read: Memory,
    stick: Stick,
}

impl Traced {
    fn fresh() -> Self {
        Traced { desk: Memory::zeros(&[]), read: Memory::zeros(&[]), stick: Stick::zeros() }
    }
}

/// Answers every command of the input by a program. The answers are handed on whenever the input
/// pauses: when no further whole line has come with the last one.
pub fn run(program: &dyn Program, input: impl Read, mut output: impl Write) -> IoResult<()> {
    let mut input = BufReader::with_capacity(BUFFER, input);
    let (mut command, mut traced) = (vec![], Traced::fresh());
    while input.read_until(b'\n', &mut command)? > 0 {
        let reply = answer(program, &mut traced, &String::from_utf8_lossy(&command));
        writeln!(output, "{}", reply.unwrap_or_else(|fault| format!("error: {fault}")))?;
        command.clear();
        if !input.buffer().contains(&b'\n') {
            output.flush()?;
        }
    }
    output.flush()
}

/// The reply to one command; `none` for one that is not there.
fn answer(program: &dyn Program, traced: &mut Traced, command: &str) -> Result<String, String> {
    let Traced { desk: memory, read, stick } = traced;
    let words: Vec<&str> = command.split_ascii_whitespace().collect();
    let [command, ref arguments @ ..] = words[..] else {
        return Ok("none".into());
    };
    let call = match command {
        "line" => {
            let [line] = named(arguments, ["HEX"])?;
            return Ok(program.classify(&bytes(1, line)?).to_string());
        }
        "grade" => {
            let [row, value] = named(arguments, ["ROW", "HEX"])?;
            let graded = program.grade(number(1, row)?, &bytes(2, value)?);
            return Ok(format!("{} {}", graded.answer, graded.level));
        }
        "new" => {
            let [length, seed] = named(arguments, ["LEN", "SEED"])?;
            let (length, seed) = (up_to(1, length, LONGEST_LOG)?, number(2, seed)?);
            return fresh(program, memory, length as usize, seed);
        }
        "dump" => {
            let [] = named(arguments, [])?;
            return Ok(dump(memory));
        }
        "cif" => {
            let [sheet, block, room] = named(arguments, ["SHEET", "NAMEHEX", "ROOM"])?;
            let sheet = number(1, sheet)?;
            let (block, room) = (bytes(2, block)?, up_to(3, room, MOST_ROOM)? as usize);
            return Ok(file(program, memory, sheet, &block, room));
        }
        "stick" => {
            let [] = named(arguments, [])?;
            (*read, *stick) = (Memory::zeros(&[]), Stick::zeros());
            return Ok("ok".into());
        }
        "feed" => {
            let [last, part] = named(arguments, ["LAST", "HEX"])?;
            let last = up_to(1, last, u8::MAX.into())? as u8;
            let fed = program.feed(read, stick, &bytes(2, part)?, last);
            return Ok(format!("{} {}", fed.answer, fed.place));
        }
        "stickdump" => {
            let [] = named(arguments, [])?;
            let (desk, _) = held(read).expect("the memory is a desk's");
            return Ok(dumped(&desk.sheets));
        }
        "hyd" => {
            let [sheet] = named(arguments, ["SHEET"])?;
            return Ok(proposed(&program.hydrogens(memory, number(1, sheet)?)));
        }
        "hydcheck" => {
            let [sheet, count] = named(arguments, ["SHEET", "COUNT"])?;
            let (sheet, count) = (number(1, sheet)?, number(2, count)?);
            return Ok(proposed(&program.hydrogens_right(memory, sheet, count)));
        }
        "symop" => {
            let [text] = named(arguments, ["HEX"])?;
            let read = program.operator(&bytes(1, text)?);
            let numbers = read.row.map(|number| format!(" {number}")).concat();
            return Ok(format!("{}{numbers}", read.answer));
        }
        "symlist" => {
            let [list] = named(arguments, ["n,n,.."])?;
            let checked = program.group(&small_numbers(1, list)?);
            return Ok(format!("{} {}", checked.answer, checked.pairs));
        }
        "k" => {
            let [bench, byte] = named(arguments, ["BENCH", "BYTE"])?;
            let byte = up_to(2, byte, u8::MAX.into())? as u8;
            Call::Key { bench: number(1, bench)?, byte }
        }
        "report" => {
            let [sheet, profile] = named(arguments, ["SHEET", "PROFILE"])?;
            let sheet = number(1, sheet)?;
            Call::Report { sheet, profile: number(2, profile)? }
        }
        "who" => {
            let [sheet, item] = named(arguments, ["SHEET", "ITEM"])?;
            Call::Who { sheet: number(1, sheet)?, item: number(2, item)? }
        }
        _ => return Ok("none".into()),
    };
    Ok(told(&program.call(memory, &call)))
}

/// A fresh desk in the memory of the last one, and a log.
fn fresh(
    program: &dyn Program,
    memory: &mut Memory,
    length: usize,
    seed: u64,
) -> Result<String, String> {
    memory.log = State::fresh(length, seed).log.into();
    match program.fresh(memory) {
        0 => Ok("ok".into()),
        answer => Err(format!("desk_fresh gave {answer}")),
    }
}

/// The answer to a sheet as a CIF file with this block name, on so many lent bytes.
fn file(program: &dyn Program, memory: &Memory, sheet: u64, block: &[u8], room: usize) -> String {
    let mut out = vec![0; room];
    let filed = program.file(memory, sheet, block, &mut out);
    out.truncate(filed.count);
    format!("{} {} {}", filed.answer, filed.count, hex(&out))
}

/// A proposed count as it is printed.
fn proposed(told: &Proposed) -> String {
    format!("{} {}", told.answer, told.count)
}

/// An answer as it is printed.
fn told(answer: &Answer) -> String {
    match answer {
        Answer::Key(answer) => answer.to_string(),
        Answer::Report(reported) => {
            let rows = reported.rows.iter().map(|row| format!(" {}/{}", row.level, row.reason));
            format!("{}{}", reported.answer, rows.collect::<String>())
        }
        Answer::Who(told) => {
            format!("{} {} {} {}", told.answer, told.bench, told.entry, told.times)
        }
    }
}

/// The whole state.
fn dump(memory: &Memory) -> String {
    let (desk, used) = held(memory).expect("the memory is a desk's");
    let lines = desk.lines.each_ref().map(|line| shown(&line.bytes, line.len)).join(",");
    let (sheets, log) = (dumped(&desk.sheets), digits(&memory.log));
    format!("lines={lines} {sheets} used={used} log={log}")
}

/// The counts and the filled items of both sheets.
fn dumped(sheets: &[Sheet; SHEETS]) -> String {
    let counts = sheets.each_ref().map(|sheet| sheet.count.to_string()).join(",");
    let item = |at: usize, number: usize, item: &Item| {
        let (bench, entry, times) = (item.bench, item.entry, item.times);
        format!("{at}:{number}:{bench}:{entry}:{times}:{}", shown(&item.value, item.len))
    };
    let items: Vec<String> = (0..)
        .zip(sheets)
        .flat_map(|(at, sheet)| {
            let filled = (1..).zip(&sheet.items).filter(|(_, item)| item.len > 0);
            filled.map(move |(number, held)| item(at, number, held))
        })
        .collect();
    format!("counts={counts} items={}", items.join(";"))
}

/// A text of so many bytes. A length beyond the limit shows the bytes that there are.
fn shown(bytes: &[u8], len: u64) -> String {
    let len = usize::try_from(len).unwrap_or(usize::MAX).min(bytes.len());
    digits(&bytes[..len])
}

/// Bytes in hexadecimal; an empty run is nothing.
fn digits(bytes: &[u8]) -> String {
    let mut text = String::with_capacity(2 * bytes.len());
    for byte in bytes {
        write!(text, "{byte:02x}").expect("a string takes it");
    }
    text
}

/// The arguments, where there are as many as names.
fn named<'a, const COUNT: usize>(
    arguments: &[&'a str],
    names: [&str; COUNT],
) -> Result<[&'a str; COUNT], String> {
    if let Some(extra) = arguments.get(COUNT) {
        return Err(format!(
            "argument {} '{}': nothing may follow",
            COUNT + 1,
            extra.escape_debug()
        ));
    }
    let missing =
        |_| format!("argument {} missing: {}", arguments.len() + 1, names[arguments.len()]);
    arguments.try_into().map_err(missing)
}

/// A number of 0 to 2^64-1.
pub fn number(place: usize, word: &str) -> Result<u64, String> {
    let fault =
        || format!("argument {place} '{}': not a number of 0 to {}", word.escape_debug(), u64::MAX);
    let digits = word.bytes().all(|byte| byte.is_ascii_digit());
    word.parse().ok().filter(|_| digits).ok_or_else(fault)
}

/// A number of 0 to the largest allowed.
fn up_to(place: usize, word: &str, largest: u64) -> Result<u64, String> {
    let fault =
        || format!("argument {place} '{}': not a number of 0 to {largest}", word.escape_debug());
    number(place, word).ok().filter(|&number| number <= largest).ok_or_else(fault)
}

/// The bytes of a hexadecimal argument; `-` is the empty run.
fn bytes(place: usize, word: &str) -> Result<Vec<u8>, String> {
    if word == "-" {
        return Ok(vec![]);
    }
    let fault = |what: String| format!("argument {place} '{}': {what}", word.escape_debug());
    let digit = |digit: char| {
        digit
            .to_digit(16)
            .ok_or_else(|| fault(format!("'{}' is not a hexadecimal digit", digit.escape_debug())))
    };
    let digits: Vec<u32> = word.chars().map(digit).collect::<Result<_, _>>()?;
    if digits.len() % 2 == 1 {
        return Err(fault("an odd number of hexadecimal digits".into()));
    }
    Ok(digits.chunks(2).map(|pair| (16 * pair[0] + pair[1]) as u8).collect())
}

/// The numbers of a list with commas; `-` is the empty one. One that no byte holds is as far out of
/// range as the largest that one does.
fn small_numbers(place: usize, word: &str) -> Result<Vec<i8>, String> {
    let number = |number: &str| {
        let digits = number.strip_prefix('-').unwrap_or(number);
        if digits.is_empty() || !digits.bytes().all(|byte| byte.is_ascii_digit()) {
            return Err(format!("argument {place}: '{}' is not a number", number.escape_debug()));
        }
        Ok(number.parse().unwrap_or(i8::MAX))
    };
    match word {
        "-" => Ok(vec![]),
        _ => word.split(',').map(number).collect(),
    }
}
