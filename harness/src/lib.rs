//! Compares the proved library with the reference program.

#![deny(warnings)]

mod bench;
pub mod boundary;
mod broken;
mod by_reference;
mod camp_hydrogen;
mod camp_symmetry;
mod cif_files;
mod client;
pub mod compare;
mod desk_runs;
pub mod desk_sessions;
mod desks;
mod exact;
mod files;
mod frames;
mod groups;
mod hydrogens;
mod inputs;
mod lists;
mod logs;
pub mod memory;
mod moieties;
mod old_build;
mod operators;
mod points;
mod powder;
pub mod program;
pub mod proved;
mod random;
mod records;
mod self_check;
mod sequences;
mod session;
mod sheet_lists;
mod sheets;
mod tally;
mod trace;
mod workloads;

use by_reference::Reference;
use compare::Plan;
use exact::Exact;
use inputs::Inputs;
use operators::Operators;
use program::Program;
use proved::Proved;
use reference::program::{cif_program, program};
use sequences::Sequences;
use std::io::{stdin, stdout, BufWriter, Read, Write};
use std::path::Path;
use std::process::ExitCode;
use workloads::Side;

const USAGE: &str = "usage: harness MODE
  compare [--seed N] [--count N]  compare both programs on N lines and N values (default 1000000),
                                  half from a fixed seed and half from a new one or the one given,
                                  and on sheets, key calls, sequences, files and operators
                                  in proportion
  memory [--seed N] [--count N]   the same on generated inputs and short lists, each run of bytes lent in a
                                  block of the heap of its exact length: for a run under valgrind
  moieties LENGTH                 compare both programs on every moiety text of C H 2 ( ) , and space up to this
                                  length; 8 takes about a minute
  self-check                      show that the comparison finds faulty programs
  trace, reference-trace          answer trace commands by the proved library, by the reference
  bench [FILE]                    speed of both programs; beside it, from a file of lines WORKLOAD INPUTS
                                  PROVED REFERENCE, the instructions that each took for the inputs
  workloads                       the names of what is measured
  count WORKLOAD PROGRAM INPUTS   one round of a workload by one program, proved or reference, in the
                                  function counted_round; prints the number of inputs
  layout                          sizes and offsets of the boundary's structs, and the headers' numbers
  desk-sessions FOLDER            write the sessions of the programs desk and camp cif, NAME.in, and
                                  what they must print for each, NAME.out and NAME.cif, and where the
                                  visitors filled something NAME.visitors.cif
  desk-runs PROGRAM SEED COUNT    run the program desk on generated inputs
  cif-runs PROGRAM SEED COUNT     run the program's command cif on generated inputs and block names
  desk-input SEED                 write one such input
  hydrogen-input SEED             write an input that types formulas and weights
  hydrogen-line SHEET             the line that camp hydrogen must propose for a sheet that the input
                                  leaves, nothing where it proposes none
  frames FOLDER, frames SEED COUNT FOLDER, example-frames FOLDER
                                  write calls for a program that reads them, fixed ones, generated ones or
                                  the measured examples alone, to the file stdin, and what it must answer
                                  to the file stdout
  cif-files SEED COUNT FOLDER     write CIF files of typed sheets, NAME.cif, each beside the list of
                                  what was typed, NAME.typed
  trace-commands SEED COUNT       write generated trace commands
  client-lines SEED COUNT         write generated lines
  client-values SEED COUNT        write generated values
  operator-lines SEED COUNT       write generated texts of symmetry operators, whole and damaged
  desk-answers, cif-answers SHEET BLOCK
                                  what desk and camp cif must print for the input
  operator-answers FILE           what camp symmetry must print for the input where some line is no
                                  operator; FILE is the input's name in its messages
  client-answers [ROW]            what the client must print for the input
";
const FIXED_SEED: u64 = 20_000_609;
const COUNT: u64 = 1_000_000;

/// What a mode comes to: how many checks passed and failed, or a message.
type Outcome = Result<(usize, usize), String>;
const DONE: Outcome = Ok((0, 0));

pub fn main() -> ExitCode {
    let arguments: Vec<String> =
        std::env::args_os().skip(1).map(|word| word.to_string_lossy().into_owned()).collect();
    let words: Vec<&str> = arguments.iter().map(String::as_str).collect();
    match run(&words) {
        Ok((_, 0)) => ExitCode::SUCCESS,
        Ok(_) => ExitCode::FAILURE,
        Err(message) => {
            eprintln!("harness: {message}");
            ExitCode::from(2)
        }
    }
}

fn run(words: &[&str]) -> Outcome {
    let mut output = BufWriter::new(stdout().lock());
    match words {
        ["compare", options @ ..] => compare(&Proved, plan(options, true)?),
        ["memory", options @ ..] => compare(&Exact(Proved), plan(options, false)?),
        ["moieties", longest] => {
            let run = compare::moieties(&Proved, &Reference, number(2, longest)? as usize);
            Ok(counted(run.print()))
        }
        ["self-check"] => Ok(counted(self_check::run())),
        ["trace"] => done(trace::run(&Proved, stdin().lock(), output)),
        ["reference-trace"] => done(trace::run(&Reference, stdin().lock(), output)),
        ["bench"] => bench::run("").and(DONE),
        ["bench", file] => {
            let counts =
                std::fs::read_to_string(file).map_err(|fault| format!("{file}: {fault}"))?;
            bench::run(&counts).and(DONE)
        }
        ["workloads"] => {
            bench::names().for_each(|name| println!("{name}"));
            DONE
        }
        ["count", workload, program, inputs] => {
            let side = match *program {
                "proved" => Side::Proved,
                "reference" => Side::Reference,
                _ => return Err(format!("argument 3 '{program}': neither proved nor reference")),
            };
            bench::count(workload, side, number(4, inputs)? as usize).and(DONE)
        }
        ["layout"] => {
            boundary::print();
            DONE
        }
        ["desk-sessions", folder] => desk_sessions::write(Path::new(folder)).and(DONE),
        ["desk-runs", program, seed, count] => {
            let (seed, count) = (number(3, seed)?, number(4, count)?);
            Ok(counted(desk_runs::run(Path::new(program), seed, count)))
        }
        ["cif-runs", program, seed, count] => {
            let (seed, count) = (number(3, seed)?, number(4, count)?);
            Ok(counted(desk_runs::run_cif(Path::new(program), seed, count)))
        }
        ["desk-input", seed] => {
            let input = Sequences::new(number(2, seed)?).desk_input();
            done(output.write_all(&input).and_then(|()| output.flush()))
        }
        ["hydrogen-input", seed] => {
            let input = camp_hydrogen::input(number(2, seed)?);
            done(output.write_all(&input).and_then(|()| output.flush()))
        }
        ["hydrogen-line", sheet @ ("0" | "1")] => {
            let line = camp_hydrogen::line(&whole_input()?, usize::from(*sheet == "1"));
            write(line.into_iter().map(String::into_bytes), output)
        }
        ["example-frames", folder] => frames::write_examples(Path::new(folder)).and(DONE),
        ["frames", folder] => frames::write_lists(Path::new(folder)).and(DONE),
        ["frames", seed, count, folder] => {
            frames::write(number(2, seed)?, number(3, count)?, Path::new(folder)).and(DONE)
        }
        ["cif-files", seed, count, folder] => {
            let (seed, count) = (number(2, seed)?, number(3, count)?);
            cif_files::write(&Proved, seed, count, Path::new(folder)).and(DONE)
        }
        ["trace-commands", seed, count] => {
            write(trace::commands(number(2, seed)?, number(3, count)?), output)
        }
        ["client-lines", seed, count] => {
            let mut inputs = Inputs::new(number(2, seed)?);
            write((0..number(3, count)?).map(|_| inputs.line()), output)
        }
        ["client-values", seed, count] => {
            let mut inputs = Inputs::new(number(2, seed)?);
            write((0..number(3, count)?).map(|_| inputs.value()), output)
        }
        ["operator-lines", seed, count] => {
            let mut source = Operators::new(number(2, seed)?);
            write((0..number(3, count)?).map(|_| source.line()), output)
        }
        ["operator-answers", file] => {
            let told = camp_symmetry::answers(file, &whole_input()?);
            done(output.write_all(told.as_bytes()).and_then(|()| output.flush()))
        }
        ["desk-answers"] => {
            let input = whole_input()?;
            done(output.write_all(program(&input).as_bytes()).and_then(|()| output.flush()))
        }
        ["cif-answers", sheet @ ("0" | "1"), block] => {
            let (sheet, input) = (usize::from(*sheet == "1"), whole_input()?);
            let file = cif_program(&input, sheet, block.as_bytes()).unwrap_or_default();
            done(output.write_all(&file).and_then(|()| output.flush()))
        }
        ["client-answers"] => done(client::answers(None, stdin().lock(), output)),
        ["client-answers", row] => {
            done(client::answers(Some(number(2, row)?), stdin().lock(), output))
        }
        _ => Err(format!("no such mode or wrong arguments: {}\n{USAGE}", words.join(" "))),
    }
}

fn whole_input() -> Result<Vec<u8>, String> {
    let mut input = vec![];
    stdin().lock().read_to_end(&mut input).map_err(|fault| fault.to_string())?;
    Ok(input)
}

fn number(place: usize, word: &str) -> Result<u64, String> {
    trace::number(place, word)
}

fn done(result: std::io::Result<()>) -> Outcome {
    result.map_err(|fault| fault.to_string()).and(DONE)
}

fn counted((passed, failed): (usize, usize)) -> (usize, usize) {
    println!("{passed} passed, {failed} failed");
    (passed, failed)
}

fn plan(options: &[&str], lists: bool) -> Result<Plan, String> {
    let (fixed_seed, new_seed) = (FIXED_SEED, random::new_seed());
    let mut plan = Plan { fixed_seed, new_seed, count: COUNT, lists };
    for (place, option) in options.chunks(2).enumerate() {
        match *option {
            ["--seed", seed] => plan.new_seed = number(2 * place + 3, seed)?,
            ["--count", count] => plan.count = number(2 * place + 3, count)?,
            ["--seed" | "--count"] => {
                return Err(format!(
                    "argument {} missing: {} needs a number",
                    2 * place + 3,
                    option[0]
                ))
            }
            _ => {
                return Err(format!(
                    "argument {} '{}': unknown option\n{USAGE}",
                    2 * place + 2,
                    option[0]
                ))
            }
        }
    }
    Ok(plan)
}

fn compare(tested: &dyn Program, plan: Plan) -> Outcome {
    println!(
        "fixed seed {}, new seed {} (repeat with --seed {})",
        plan.fixed_seed, plan.new_seed, plan.new_seed
    );
    Ok(counted(compare::compare(tested, &Reference, &plan).print()))
}

fn write(texts: impl Iterator<Item = Vec<u8>>, mut output: impl Write) -> Outcome {
    let all = || {
        for text in texts {
            output.write_all(&text)?;
            output.write_all(b"\n")?;
        }
        output.flush()
    };
    done(all())
}
