//! The programs `desk` and `camp cif` run on generated inputs, their outputs held equal to the
//! reference's.

use crate::files::Files;
use crate::random::Random;
use crate::sequences::Sequences;
use reference::desk::SHEETS;
use reference::program::{cif_program, program};
use std::ffi::OsStr;
use std::io::{Result as IoResult, Write};
use std::os::unix::ffi::OsStrExt;
use std::path::Path;
use std::process::{Command, Output, Stdio};

/// How many runs that went wrong are shown.
const SHOWN: usize = 5;
/// The exit of a refusal.
const REFUSED: i32 = 1;

/// Runs the program `desk` on generated inputs; answers how many runs went well and how many not.
pub fn run(path: &Path, seed: u64, count: u64) -> (usize, usize) {
    each(seed, count, |input, _| printed(output(path, &[], input), program(input).as_bytes()))
}

/// Runs the command `cif` of the program `camp` on generated inputs and block names, of each sheet and,
/// for sheet 0, now and then without its number.
pub fn run_cif(path: &Path, seed: u64, count: u64) -> (usize, usize) {
    each(seed, count, |input, seed| {
        let mut block = Files::new(seed).block();
        block.retain(|&byte| byte != 0); // no argument holds one
        let sheet = seed as usize % SHEETS;
        let arguments: &[&[u8]] = match (seed >> 8) % 4 {
            0 if sheet == 0 => &[b"cif", &block],
            1 => &[b"cif", &block, b"--sheet", &[b'0' + sheet as u8]],
            _ => &[b"cif", b"--sheet", &[b'0' + sheet as u8], &block],
        };
        let output = output(path, arguments, input);
        match cif_program(input, sheet, &block) {
            Some(file) => printed(output, &file),
            None => refused(output),
        }
    })
}

/// Looks for a fault of each run, by its input and seed.
fn each(seed: u64, count: u64, fault: impl Fn(&[u8], u64) -> Option<String>) -> (usize, usize) {
    let mut seeds = Random::new(seed);
    let mut failed = 0;
    for _ in 0..count {
        let seed = seeds.next();
        let input = Sequences::new(seed).desk_input();
        if let Some(fault) = fault(&input, seed) {
            failed += 1;
            if failed <= SHOWN {
                println!("DIFFERENT desk-input {seed}, {} bytes: {fault}", input.len());
            }
        }
    }
    (count as usize - failed, failed)
}

/// What is wrong with a run that must print this.
fn printed(run: IoResult<Output>, expected: &[u8]) -> Option<String> {
    match run {
        Err(fault) => Some(fault.to_string()),
        Ok(Output { status, .. }) if !status.success() => Some(status.to_string()),
        Ok(Output { stderr, .. }) if !stderr.is_empty() => Some(format!("said {}", text(&stderr))),
        Ok(Output { stdout, .. }) if stdout != expected => {
            let (printed, expected) = (text(&stdout), text(expected));
            let lines =
                printed.lines().zip(expected.lines()).find(|(printed, wanted)| printed != wanted);
            Some(match lines {
                Some((printed, wanted)) => format!("{printed}, reference {wanted}"),
                None => format!("{} bytes, reference {}", stdout.len(), expected.len()),
            })
        }
        Ok(_) => None,
    }
}

/// What is wrong with a run that must refuse: one line on standard error alone.
fn refused(run: IoResult<Output>) -> Option<String> {
    match run {
        Err(fault) => Some(fault.to_string()),
        Ok(Output { status, .. }) if status.code() != Some(REFUSED) => Some(status.to_string()),
        Ok(Output { stdout, .. }) if !stdout.is_empty() => Some(format!("wrote {}", text(&stdout))),
        Ok(Output { stderr, .. }) => {
            let said = text(&stderr);
            let one_line = said.starts_with("camp: ") && said.find('\n') == Some(said.len() - 1);
            (!one_line).then(|| format!("said {said}"))
        }
    }
}

/// Runs the program. It may stop reading early.
fn output(path: &Path, arguments: &[&[u8]], input: &[u8]) -> IoResult<Output> {
    let piped = Stdio::piped;
    let mut command = Command::new(path);
    command.args(arguments.iter().map(|argument| OsStr::from_bytes(argument)));
    let mut run = command.stdin(piped()).stdout(piped()).stderr(piped()).spawn()?;
    let mut stdin = run.stdin.take().expect("it is piped");
    std::thread::scope(|scope| {
        scope.spawn(move || stdin.write_all(input));
        run.wait_with_output()
    })
}

fn text(bytes: &[u8]) -> String {
    String::from_utf8_lossy(bytes).into_owned()
}
