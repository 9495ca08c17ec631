//! Speed: both programs over the same inputs in one run, and one round of one program to be counted.

use crate::workloads::{Side, Workload, WORKLOADS};
use std::collections::HashMap;
use std::hint::black_box;
use std::time::Instant;

const INPUTS: usize = 100_000;
const ROUNDS: usize = 15;
const HEAD: [&str; 7] = [
    "workload",
    "proved / s",
    "reference / s",
    "ratio",
    "proved, instructions",
    "reference, instructions",
    "ratio",
];
/// What stands for a count that was not made.
const SKIPPED: &str = "skipped";

/// By workload: how many inputs were counted, and the instructions that each program took.
type Counts = HashMap<String, [u64; 3]>;

/// The names of the workloads.
pub fn names() -> impl Iterator<Item = &'static str> {
    WORKLOADS.iter().map(|workload| workload.name)
}

/// Times every workload; prints a table with these counts beside the times.
pub fn run(counts: &str) -> Result<(), String> {
    let counts = read(counts)?;
    println!(
        "{INPUTS} inputs a round, median of {ROUNDS} rounds; each ratio is proved / reference"
    );
    row(HEAD);
    row(["---", "---:", "---:", "---:", "---:", "---:", "---:"]);
    for workload in &WORKLOADS {
        let [proved, reference, ratio] = times(workload);
        let times = [format!("{proved:.0}"), format!("{reference:.0}"), format!("{ratio:.2}")];
        let instructions = counts.get(workload.name).map_or([SKIPPED; 3].map(String::from), shown);
        let ([a, b, c], [d, e, f]) = (&times, &instructions);
        row([workload.name, a, b, c, d, e, f]);
    }
    Ok(())
}

/// Instructions an input of both programs, and their ratio.
fn shown(&[inputs, proved, reference]: &[u64; 3]) -> [String; 3] {
    let an_input = |count: u64| format!("{:.0}", count as f64 / inputs as f64);
    let ratio = proved as f64 / reference as f64;
    [an_input(proved), an_input(reference), format!("{ratio:.2}")]
}

/// Answers about so many inputs of a workload once, and prints how many they were.
pub fn count(name: &str, side: Side, inputs: usize) -> Result<(), String> {
    let workload = WORKLOADS.iter().find(|workload| workload.name == name);
    let (inputs, mut round) = workload.ok_or(format!("no workload '{name}'"))?.round(inputs);
    counted_round(&mut || round(side));
    println!("{inputs}");
    Ok(())
}

/// The function whose instructions are counted, with all that it calls: `--toggle-collect=counted_round`.
#[no_mangle]
#[inline(never)]
pub fn counted_round(round: &mut dyn FnMut() -> u64) -> u64 {
    black_box(round())
}

/// Lines of a workload's name, the inputs, the proved library's instructions and the reference's.
fn read(counts: &str) -> Result<Counts, String> {
    let line = |line: &str| {
        let (name, numbers) = line.split_once(' ')?;
        let numbers = numbers.split(' ').map(str::parse).collect::<Result<Vec<u64>, _>>().ok()?;
        Some((name.into(), numbers.try_into().ok()?))
    };
    counts.lines().map(|text| line(text).ok_or(format!("no line of counts: '{text}'"))).collect()
}

/// Times a round of all inputs by each program in turn: the medians of inputs a second, and of their ratio.
fn times(workload: &Workload) -> [f64; 3] {
    let (inputs, mut round) = workload.round(INPUTS);
    assert_eq!(round(Side::Proved), round(Side::Reference), "{}", workload.name);
    let mut rate = |side| {
        let start = Instant::now();
        black_box(round(side));
        inputs as f64 / start.elapsed().as_secs_f64()
    };
    let rounds: Vec<[f64; 2]> =
        (0..ROUNDS).map(|_| [rate(Side::Proved), rate(Side::Reference)]).collect();
    let of = |what: fn(&[f64; 2]) -> f64| median(rounds.iter().map(what).collect());
    [of(|round| round[0]), of(|round| round[1]), of(|round| round[0] / round[1])]
}

fn median(mut rates: Vec<f64>) -> f64 {
    rates.sort_by(f64::total_cmp);
    rates[rates.len() / 2]
}

fn row(cells: [&str; 7]) {
    let [name, a, b, c, d, e, f] = cells;
    println!("| {name:<9} | {a:>10} | {b:>13} | {c:>5} | {d:>20} | {e:>23} | {f:>7} |");
}
