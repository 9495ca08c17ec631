//! Generated trace commands.

use crate::compare::hex;
use crate::desks::State;
use crate::files::{length, Files};
use crate::groups::Groups;
use crate::inputs::Inputs;
use crate::logs::Logs;
use crate::operators::Operators;
use crate::powder::Powder;
use crate::random::Random;
use crate::session::Session;
use reference::names::ITEMS;
use std::collections::VecDeque;

/// Commands that are not there or lack something.
const MALFORMED: [&str; 18] = [
    "symop",
    "symop 7",
    "symlist",
    "symlist 1,,0",
    "cif",
    "cif 0 61",
    "cif 0 6 99",
    "",
    "line",
    "grade",
    "grade 6",
    "grade 6 0",
    "line 3",
    "LINE -",
    "key 0 10",
    "sticks",
    "feed 1",
    "feed 256 -",
];

/// Generated commands, some of them malformed.
pub fn commands(seed: u64, count: u64) -> impl Iterator<Item = Vec<u8>> {
    let (mut inputs, mut random) = (Inputs::new(seed), Random::new(!seed));
    let (mut keys, mut state) = (Session::new(seed), State::fresh(0, 0));
    let (mut files, mut powder) = (Files::new(seed), Powder::new(seed));
    let (mut operators, mut groups) = (Operators::new(seed), Groups::new(seed));
    let mut logs = Logs::new(seed);
    let mut waiting: VecDeque<Vec<u8>> = VecDeque::new();
    (0..count).map(move |_| {
        let command = match random.below(24) {
            0 => format!("line {}", hex(&inputs.line())),
            1 => format!("grade {} {}", inputs.row(), hex(&inputs.value())),
            2 => "dump".into(),
            3 => format!("report {} {}", files.sheet(), powder.profile()),
            4 if random.once_in(8) => format!("who {} {}", files.sheet(), random.next()),
            4 => format!("who {} {}", files.sheet(), random.below(ITEMS.len() + 3)),
            5 => {
                let (sheet, block) = (files.sheet(), files.block());
                let room = random.pick(&files.rooms(length(&state.desk, sheet, &block)));
                format!("cif {sheet} {} {room}", hex(&block))
            }
            7 => format!("symop {}", hex(&operators.text())),
            11 if random.once_in(2) => format!("hyd {}", files.sheet()),
            11 => format!("hydcheck {} {}", files.sheet(), random.below(40)),
            8 if random.once_in(4) => {
                let numbers: Vec<String> = groups.list().iter().map(i8::to_string).collect();
                match &numbers[..] {
                    [] => "symlist -".into(),
                    _ => format!("symlist {}", numbers.join(",")),
                }
            }
            9 | 10 => match waiting.pop_front() {
                Some(part) => {
                    let last = usize::from(waiting.is_empty()) * random.pick(&[0, 1, 1, 1, 255]);
                    format!("feed {last} {}", hex(&part))
                }
                None if random.once_in(2) => "stickdump".into(),
                None => {
                    let log = logs.log(12);
                    waiting = logs.parts(&log).into_iter().map(<[u8]>::to_vec).collect();
                    "stick".into()
                }
            },
            6 if random.once_in(20) => {
                let (length, seed) = (keys.log_length() % 1000, random.next());
                state = State::fresh(length, seed);
                return format!("new {length} {seed}").into_bytes();
            }
            _ => {
                let (bench, byte) = keys.call(&state.lengths());
                state.key(bench, byte);
                return format!("k {bench} {byte}").into_bytes();
            }
        };
        match random.below(12) {
            0 => random.pick(&MALFORMED).into(),
            1 => format!("{command} {}", random.below(9)),
            2 => command.replacen(random.pick(&["2", "-", " ", "e"]), "x", 1),
            _ => command,
        }
        .into_bytes()
    })
}
