//! Compares the proved library with mutants of the reference: `mutants COUNT NUMBER:FILE..`, FILE being the
//! mutant's file without its end. First on a few generated inputs of the parts that ask for what the
//! file says, then what the programs `desk` and `camp cif` write is held to the sessions, then these parts
//! follow with so many lines and all lists, and then the whole comparison; with a COUNT of 0 only a few
//! inputs of each part. Prints for each number whether the mutant is found, and by what.

#![deny(warnings)]

#[path = "../../src/by_reference.rs"]
mod by_mutant;
#[path = "../../src/memory.rs"]
mod memory;

use by_mutant::{gathered, Reference};
use harness::compare::{first_difference, Part, Plan, PARTS};
use harness::desk_sessions::{sessions, sessions_by, Session};
use harness::proved::Proved;
use harness::{boundary, program};
use reference::program::{cif_program, program as printed};
use std::panic::catch_unwind;

/// Lines in the first step.
const FEW: u64 = 1000;

fn main() {
    let words: Vec<String> = std::env::args().skip(1).collect();
    let [count, mutants @ ..] = &words[..] else {
        panic!("usage: mutants COUNT NUMBER:FILE..");
    };
    let (count, right) = (count.parse().expect("a number"), sessions());
    std::panic::set_hook(Box::new(|_| {}));
    for word in mutants {
        let (number, file) = word.split_once(':').expect("NUMBER:FILE");
        reference::set(number.parse().expect("a number"));
        match found(&right, count, parts(file)) {
            Some(difference) => println!("{number} found {difference}"),
            None => println!("{number} survives"),
        }
    }
}

/// The parts of the comparison that ask for what a file of the reference says, those first that take least.
fn parts(file: &str) -> &'static [Part] {
    match file {
        "cif_file" => &[Part::Files, Part::Memories],
        "desk" => &[Part::Keys, Part::Memories, Part::Sequences],
        "formula" | "powder" | "rows" => &[Part::Sheets],
        "grade" | "line" | "names" | "number" | "value" => &[Part::Texts],
        "group" | "operator" => &[Part::Symmetry],
        "hydrogen" => &[Part::Hydrogens],
        "moiety" => &[Part::Moieties],
        "reader" => &[Part::Logs],
        "sequence" => &[Part::Sequences],
        _ => &[],
    }
}

fn found(right: &[Session], count: u64, parts: &[Part]) -> Option<String> {
    let few = different(FEW, false, parts).or_else(|| other_session(right));
    few.or_else(|| match count {
        0 => different(FEW, false, &PARTS),
        _ => different(count, true, parts).or_else(|| different(count, true, &PARTS)),
    })
}

fn different(count: u64, lists: bool, parts: &[Part]) -> Option<String> {
    let plan = Plan { fixed_seed: 1, new_seed: 2, count, lists };
    first_difference(&Proved, &Reference, gathered, &plan, parts)
}

/// The first session for which the mutant writes something else, or that it panics.
fn other_session(right: &[Session]) -> Option<String> {
    let Ok(by_mutant) = catch_unwind(|| sessions_by(printed, cif_program)) else {
        return Some("a panic".into());
    };
    let other = right.iter().zip(&by_mutant).find(|(right, by_mutant)| right != by_mutant);
    other.map(|(right, _)| format!("session {}", right.name))
}
