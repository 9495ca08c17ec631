//! What is measured: the same inputs for both programs, each of which holds them in its own form.

use crate::boundary::{Memory, Stick, DESK_FILE};
use crate::by_reference::Reference;
use crate::desks::{changed_over, holding, in_memory, longest_value, State, OF_SHEET};
use crate::files::Files;
use crate::groups::largest;
use crate::hydrogens::{self, by_arithmetic, Hydrogens};
use crate::inputs::{Inputs, ROWS as GRADED_ROWS};
use crate::logs::Logs;
use crate::memory::{held, put};
use crate::moieties::{Moieties, ITEM};
use crate::operators::Operators;
use crate::program::{Answer, Call, Program};
use crate::proved::Proved;
use crate::random::Random;
use crate::sequences::Sequences;
use crate::session::Session;
use crate::sheets::Sheets;
use reference::cif_file::write_file;
use reference::desk::{self, Desk, EMPTY, ENTER, LOG_FULL, LOG_LIMIT, SHEETS};
use reference::group::MOST;
use reference::hydrogen;
use reference::line::{split, ACCEPTED};
use reference::names::{item, ITEMS};
use reference::reader::Reader;
use reference::rows::ROWS;
use std::hint::black_box;

const SEED: u64 = 1;
/// The item that stays empty while the keys are typed.
const LEFT_EMPTY: usize = 9;
/// How many calls a sequence has, and how long its log is.
const CALLS: usize = 250;
const LOG: usize = 4096;
/// The bytes of a part of a log.
const PART: usize = 512;

/// Which program answers.
#[derive(Clone, Copy, PartialEq, Eq)]
pub enum Side {
    Proved,
    Reference,
}

impl Side {
    fn program(self) -> &'static dyn Program {
        match self {
            Side::Proved => &Proved,
            Side::Reference => &Reference,
        }
    }
}

/// Answers every input once; a sum of the answers.
type Round = Box<dyn FnMut(Side) -> u64>;

/// One kind of work, and how a round of about so many inputs is made.
pub struct Workload {
    pub name: &'static str,
    make: fn(usize) -> (usize, Round),
}

pub const WORKLOADS: [Workload; 15] = [
    Workload { name: "lines", make: lines },
    Workload { name: "values", make: values },
    Workload { name: "reports", make: reports },
    Workload { name: "keys", make: keys },
    Workload { name: "session", make: session },
    Workload { name: "sequences", make: sequences },
    Workload { name: "files", make: files },
    Workload { name: "logs", make: logs },
    Workload { name: "parts", make: parts },
    Workload { name: "moieties", make: moieties },
    Workload { name: "hydrogens", make: hydrogens },
    Workload { name: "checks", make: checks },
    Workload { name: "longest", make: longest },
    Workload { name: "operators", make: operators },
    Workload { name: "groups", make: groups },
];

impl Workload {
    /// The exact number of inputs, and their round.
    pub fn round(&self, inputs: usize) -> (usize, Round) {
        (self.make)(inputs)
    }
}

/// Lines, each given its number.
fn lines(inputs: usize) -> (usize, Round) {
    let mut source = Inputs::new(SEED);
    let lines: Vec<Vec<u8>> = (0..inputs).map(|_| source.line()).collect();
    let round = move |side: Side| {
        let program = side.program();
        lines.iter().map(|line| u64::from(program.classify(black_box(line)))).sum()
    };
    (inputs, Box::new(round))
}

/// Values, each graded by a row that its length chooses.
fn values(inputs: usize) -> (usize, Round) {
    let mut source = Inputs::new(SEED);
    let values: Vec<Vec<u8>> = (0..inputs).map(|_| source.value()).collect();
    let round = move |side: Side| {
        let program = side.program();
        let level = |value: &Vec<u8>| {
            let graded =
                program.grade(GRADED_ROWS[value.len() % GRADED_ROWS.len()], black_box(value));
            u64::from(graded.answer) + u64::from(graded.level)
        };
        values.iter().map(level).sum()
    };
    (inputs, Box::new(round))
}

/// Desks that have a sheet 0 and a sheet 1, each in turn with the rows of one of them, under both
/// profiles in turn.
fn reports(inputs: usize) -> (usize, Round) {
    let mut source = Sheets::new(SEED);
    let mut last = source.sheet();
    let desks: Vec<Desk> = (0..inputs)
        .map(|_| {
            let other = changed_over(&last);
            last = source.sheet();
            Desk { sheets: [last.sheets[0], other.sheets[1]], ..last }
        })
        .collect();
    let memories: Vec<Memory> = desks.iter().map(in_memory).collect();
    let round = move |side: Side| match side {
        Side::Proved => {
            let levels = |(sheet, memory): (u64, &Memory)| {
                let reported = Proved.report(black_box(memory), sheet % 2, sheet / 2 % 2);
                reported.rows.iter().map(|row| u64::from(row.level)).sum()
            };
            (0..).zip(&memories).map::<u64, _>(levels).sum()
        }
        Side::Reference => {
            let levels = |(sheet, desk): (u64, &Desk)| {
                let (_, rows) = desk::report(black_box(desk), sheet % 2, sheet / 2 % 2);
                rows.iter().map(|row| u64::from(row.level)).sum()
            };
            (0..).zip(&desks).map::<u64, _>(levels).sum()
        }
    };
    (inputs, Box::new(round))
}

/// Keys of four benches at two sheets of which eighteen items each are filled, each key a call.
fn keys(inputs: usize) -> (usize, Round) {
    let (_, start) = nearly_full();
    let calls = keys_from(&start, inputs);
    (inputs, played(start, vec![calls]))
}

/// The same keys, after those that fill the eighteen items of each.
fn session(inputs: usize) -> (usize, Round) {
    let (first, start) = nearly_full();
    let calls = [first, keys_from(&start, inputs)].concat();
    (calls.len(), played(State::fresh(LOG_LIMIT, SEED), vec![calls]))
}

/// Sequences of keys, Reports and Whos, each on a fresh desk; their calls are the inputs.
fn sequences(inputs: usize) -> (usize, Round) {
    let mut source = Sequences::new(SEED);
    let sequences: Vec<Vec<Call>> =
        (0..inputs.div_ceil(CALLS)).map(|_| source.calls(CALLS, LOG)).collect();
    (CALLS * sequences.len(), played(State::fresh(LOG, SEED), sequences))
}

/// Sound desks, each in turn with the CIF file of one of its sheets.
fn files(inputs: usize) -> (usize, Round) {
    let mut source = Files::new(SEED);
    let desks: Vec<(Desk, Memory, Vec<u8>)> = (0..inputs)
        .map(|at| {
            let desk = source.desk();
            (desk, in_memory(&desk), source.name_of(1 + at % 32))
        })
        .collect();
    let mut out = [0; DESK_FILE];
    let round = move |side: Side| {
        let mut sum = 0;
        for (number, (desk, memory, block)) in (0..).zip(&desks) {
            let sheet = number % SHEETS as u64;
            sum += match side {
                Side::Proved => Proved.file(black_box(memory), sheet, block, &mut out).count as u64,
                Side::Reference => write_file(black_box(desk), sheet, block, &mut out).1,
            };
            black_box(&out);
        }
        sum
    };
    (inputs, Box::new(round))
}

/// Logs of 65,536 bytes, each read whole; their bytes are the inputs.
fn logs(inputs: usize) -> (usize, Round) {
    read_in(inputs, LOG_LIMIT)
}

/// The same in parts of 512 bytes.
fn parts(inputs: usize) -> (usize, Round) {
    read_in(inputs, PART)
}

/// Logs read in parts of so many bytes into a fresh desk; a sum of the places of their ends and of both
/// counts.
fn read_in(inputs: usize, size: usize) -> (usize, Round) {
    let mut source = Logs::new(SEED);
    let logs: Vec<Vec<u8>> = (0..inputs.div_ceil(LOG_LIMIT)).map(|_| source.longest()).collect();
    let bytes = logs.iter().map(Vec::len).sum();
    let (mut memory, mut stick) = (Memory::zeros(&[]), Stick::zeros());
    let last = move |log: &[u8], at: usize| (at + 1) * size >= log.len();
    let round = move |side: Side| {
        let mut sum = 0;
        for log in &logs {
            let parts = black_box(log).chunks(size).enumerate();
            let (start, counts) = match side {
                Side::Proved => {
                    Proved.fresh(&mut memory);
                    stick.kept.fill(0);
                    stick.state.fill(0);
                    for (at, part) in parts {
                        Proved.feed(&mut memory, &mut stick, part, last(log, at).into());
                    }
                    let (desk, start) = held(&memory).expect("it is a desk");
                    (start, desk.sheets.map(|sheet| sheet.count))
                }
                Side::Reference => {
                    let mut reader = Reader::fresh();
                    for (at, part) in parts {
                        reader.feed(part, last(log, at));
                    }
                    (reader.start, reader.desk.sheets.map(|sheet| sheet.count))
                }
            };
            sum += start + counts.iter().sum::<u64>();
        }
        sum
    };
    (bytes, Box::new(round))
}

/// Sheets with a formula and moieties alone, each with its rows, of which the last compares the two.
fn moieties(inputs: usize) -> (usize, Round) {
    let mut source = Moieties::new(SEED);
    let quoted = |text: &[u8]| [b"'", text, b"'"].concat();
    let desks: Vec<Desk> = (0..inputs)
        .map(|_| {
            let text = source.text();
            holding([(1, quoted(&source.formula(&text))), (ITEM, quoted(&text))])
        })
        .collect();
    let memories: Vec<Memory> = desks.iter().map(in_memory).collect();
    let round = move |side: Side| match side {
        Side::Proved => {
            let level =
                |memory| u64::from(Proved.report(black_box(memory), 0, 0).rows[ROWS - 1].level);
            memories.iter().map(level).sum()
        }
        Side::Reference => {
            let level = |desk| u64::from(desk::report(black_box(desk), 0, 0).1[ROWS - 1].level);
            desks.iter().map(level).sum()
        }
    };
    (inputs, Box::new(round))
}

/// Desks that hold a formula and a weight, and the same in memory.
fn with_weights(inputs: usize) -> (Vec<Desk>, Vec<Memory>) {
    let mut source = Hydrogens::new(SEED);
    let desk = |_| {
        let (formula, weight) = source.typed();
        let filled = [(1, formula), (2, weight)].into_iter().filter(|(_, value)| !value.is_empty());
        holding(filled)
    };
    let desks: Vec<Desk> = (0..inputs).map(desk).collect();
    let memories = desks.iter().map(in_memory).collect();
    (desks, memories)
}

/// Formulas with weights, each with the smallest count of hydrogens; the reference has it by arithmetic.
fn hydrogens(inputs: usize) -> (usize, Round) {
    let (desks, memories) = with_weights(inputs);
    let round = move |side: Side| match side {
        Side::Proved => {
            let count = |memory| Proved.hydrogens(black_box(memory), 0).count as u64;
            memories.iter().map(count).sum()
        }
        Side::Reference => {
            let count = |desk| by_arithmetic(black_box(desk), 0).1;
            desks.iter().map(count).sum()
        }
    };
    (inputs, Box::new(round))
}

/// The same, of each a proposed count that its place in the list chooses.
fn checks(inputs: usize) -> (usize, Round) {
    let (desks, memories) = with_weights(inputs);
    let round = move |side: Side| match side {
        Side::Proved => {
            let answer = |(count, memory): (u64, &Memory)| {
                u64::from(Proved.hydrogens_right(black_box(memory), 0, count % 40).answer)
            };
            (0..).zip(&memories).map(answer).sum()
        }
        Side::Reference => {
            let answer = |(count, desk): (u64, &Desk)| {
                u64::from(hydrogen::check(black_box(desk), 0, count % 40).0)
            };
            (0..).zip(&desks).map(answer).sum()
        }
    };
    (inputs, Box::new(round))
}

/// One desk with the longest formula, both sheets full of long values, asked for the smallest count again
/// and again.
fn longest(inputs: usize) -> (usize, Round) {
    let mut source = Sheets::new(SEED);
    let (formula, weight) = hydrogens::longest();
    let mut long = |item| {
        let values = (0..100).map(|_| source.value(item));
        values.filter(|value| value.len() <= longest_value(item)).max_by_key(Vec::len)
    };
    let others = (3..=ITEMS.len()).map(|item| (item, long(item).expect("one of them fits")));
    let desk = holding([(1, formula), (2, weight)].into_iter().chain(others));
    let desk = Desk { sheets: [desk.sheets[0], changed_over(&desk).sheets[1]], ..desk };
    assert_eq!(by_arithmetic(&desk, 0).0, ACCEPTED);
    let memory = in_memory(&desk);
    let round = move |side: Side| match side {
        Side::Proved => {
            let count = |_| Proved.hydrogens(black_box(&memory), 0).count as u64;
            (0..inputs).map(count).sum()
        }
        Side::Reference => {
            let count = |_| by_arithmetic(black_box(&desk), 0).1;
            (0..inputs).map(count).sum()
        }
    };
    (inputs, Box::new(round))
}

/// Texts of symmetry operators, each read.
fn operators(inputs: usize) -> (usize, Round) {
    let mut source = Operators::new(SEED);
    let texts: Vec<Vec<u8>> = (0..inputs).map(|_| source.text()).collect();
    let round = move |side: Side| {
        let program = side.program();
        let sum = |text: &Vec<u8>| {
            let read = program.operator(black_box(text));
            u64::from(read.answer) + read.row.iter().map(|&n| u64::from(n as u8)).sum::<u64>()
        };
        texts.iter().map(sum).sum()
    };
    (inputs, Box::new(round))
}

/// Groups of 192 operators, each list checked; their pairs are the inputs.
fn groups(inputs: usize) -> (usize, Round) {
    let mut random = Random::new(SEED);
    let lists: Vec<Vec<i8>> =
        (0..inputs.div_ceil(MOST * MOST)).map(|_| largest(&mut random)).collect();
    let pairs = MOST * MOST * lists.len();
    let round = move |side: Side| {
        let program = side.program();
        lists.iter().map(|list| program.group(black_box(list)).pairs).sum()
    };
    (pairs, Box::new(round))
}

/// Plays each sequence on the same desk and log as they were at first; a sum of the answers' numbers
/// and of what they tell. Each program keeps the desk in its own form and changes it in place.
fn played(start: State, sequences: Vec<Vec<Call>>) -> Round {
    let (mut memory, mut state) = (start.memory(), start.clone());
    Box::new(move |side| {
        let mut sum = 0;
        for calls in &sequences {
            match side {
                Side::Proved => {
                    put(&mut memory, &start.desk, start.used);
                    sum += calls
                        .iter()
                        .map(|call| told(&Proved.call(&mut memory, black_box(call))))
                        .sum::<u64>();
                }
                Side::Reference => {
                    (state.desk, state.used) = (start.desk, start.used);
                    sum += calls
                        .iter()
                        .map(|call| by_own_desk(&mut state, black_box(call)))
                        .sum::<u64>();
                }
            }
        }
        sum
    })
}

/// A number that an answer comes to.
fn told(answer: &Answer) -> u64 {
    match answer {
        Answer::Key(answer) => (*answer).into(),
        Answer::Report(told) => told.rows.iter().map(|row| u64::from(row.level)).sum(),
        Answer::Who(told) => (told.entry + told.times) as u64,
    }
}

/// The same of the reference's answer.
fn by_own_desk(state: &mut State, call: &Call) -> u64 {
    match *call {
        Call::Key { bench, byte } => state.key(bench, byte).into(),
        Call::Report { sheet, profile } => {
            desk::report(&state.desk, sheet, profile).1.iter().map(|row| u64::from(row.level)).sum()
        }
        Call::Who { sheet, item } => {
            let told = desk::who(&state.desk, sheet, item);
            told.entry + told.times
        }
    }
}

/// The keys by which the benches in turn fill all items of both sheets but one, and what they leave.
fn nearly_full() -> (Vec<Call>, State) {
    let (mut sheets, mut state) = (Sheets::new(SEED), State::fresh(LOG_LIMIT, SEED));
    let mut keys = vec![];
    let items = (1..=ITEMS.len()).filter(|&item| item != LEFT_EMPTY);
    for (sheet, item) in (0..SHEETS).flat_map(|sheet| items.clone().map(move |item| (sheet, item)))
    {
        let mut value = sheets.value(item);
        while value.len() > longest_value(item) {
            value = sheets.value(item);
        }
        let line = [ITEMS[item - 1].0.as_bytes(), b" ", &value, &[ENTER]].concat();
        for byte in line {
            let bench = (OF_SHEET * sheet + item % OF_SHEET) as u64;
            assert_eq!(state.key(bench, byte), ACCEPTED);
            keys.push(Call::Key { bench, byte });
        }
    }
    (keys, state)
}

/// So many keys of four benches with slips and corrections. A line that names the item left empty
/// is emptied instead of entered.
fn keys_from(start: &State, count: usize) -> Vec<Call> {
    let (mut session, mut state) = (Session::new(SEED), start.clone());
    let key = |_| {
        let (bench, typed) = session.call(&state.lengths());
        let byte =
            if typed == ENTER && names_left_empty(&state.desk, bench) { EMPTY } else { typed };
        assert_ne!(state.key(bench, byte), LOG_FULL);
        Call::Key { bench, byte }
    };
    let keys = (0..count).map(key).collect();
    for sheet in state.desk.sheets {
        assert_eq!(sheet.items.iter().filter(|item| item.len > 0).count(), ITEMS.len() - 1);
    }
    keys
}

fn names_left_empty(desk: &Desk, bench: u64) -> bool {
    let line = usize::try_from(bench).ok().and_then(|bench| desk.lines.get(bench));
    let name = line.and_then(|line| split(&line.bytes[..line.len as usize])).map(|(name, _)| name);
    name.and_then(item) == Some(LEFT_EMPTY)
}
