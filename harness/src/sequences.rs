//! Generated sequences of calls: keys of several benches, with questions between them.

use crate::desk_sessions;
use crate::desks::{State, OF_SHEET};
use crate::powder::Powder;
use crate::program::Call;
use crate::random::Random;
use crate::session::{Session, OTHER_BENCHES, OTHER_SHEETS};
use crate::sheet_lists;
use crate::sheets::Sheets;
use reference::desk::{
    key, record, values, Desk, BENCHES, EMPTY, ENTER, ERASE, FRESH, LOG_LIMIT, RECORD_HEAD, SHEETS,
};
use reference::names::ITEMS;
use reference::powder::PROFILES;
use reference::program::{keys, LOG};

/// How many item numbers are asked about, from 0 to one beyond the last.
const QUESTIONED: u64 = ITEMS.len() as u64 + 2;
/// Item numbers that are none: neighbours, and what a cut-off number would turn into one.
const OTHER_ITEMS: [u64; 9] =
    [0, QUESTIONED - 1, QUESTIONED, 255, 256 + 4, (1 << 16) + 4, (1 << 32) + 4, 1 << 63, u64::MAX];

/// Calls and the log that they are played on.
pub struct Sequence {
    pub calls: Vec<Call>,
    pub log: Vec<u8>,
}

/// The desk at which calls are made while they are generated.
struct Typed {
    desk: Desk,
    log: Vec<u8>,
    used: u64,
    calls: Vec<Call>,
}

impl Typed {
    fn new(log: usize) -> Self {
        Typed { desk: FRESH, log: vec![0; log], used: 0, calls: vec![] }
    }

    fn press(&mut self, bench: u64, byte: u8) {
        key(&mut self.desk, &mut self.log, &mut self.used, bench, byte);
        self.calls.push(Call::Key { bench, byte });
    }

    /// How much a bench's line holds; that of a number that is none holds nothing.
    fn held(&self, bench: u64) -> usize {
        let line = usize::try_from(bench).ok().and_then(|bench| self.desk.lines.get(bench));
        line.map_or(0, |line| line.len as usize)
    }
}

/// The values of one sheet.
type Values = [Vec<u8>; ITEMS.len()];

/// Whose calls are generated.
#[derive(Clone, Copy)]
enum Callers {
    All,
    /// "the same calls by one camp": keys of its benches, questions about its own sheet.
    Camp(usize),
    /// Everything else: keys of the other camp and of no bench, questions about the other sheet or none.
    Others(usize),
}

/// Whether a call is one of this camp's.
pub fn is_own(camp: usize, call: &Call) -> bool {
    match *call {
        Call::Key { bench, .. } => of_camp(camp, bench),
        Call::Report { sheet, .. } | Call::Who { sheet, .. } => sheet == camp as u64,
    }
}

fn of_camp(camp: usize, bench: u64) -> bool {
    bench < BENCHES as u64 && bench as usize / OF_SHEET == camp
}

pub struct Sequences {
    random: Random,
    session: Session,
    sheets: Sheets,
    powder: Powder,
    callers: Callers,
}

impl Sequences {
    pub fn new(seed: u64) -> Self {
        let (random, session) = (Random::new(!seed), Session::new(seed));
        let sheets = Sheets::new(seed.rotate_left(24));
        let powder = Powder::new(seed);
        Sequences { random, session, sheets, powder, callers: Callers::All }
    }

    /// So many calls of one camp, with a log of this length.
    pub fn own_calls(&mut self, camp: usize, count: usize, log: usize) -> Vec<Call> {
        self.callers = Callers::Camp(camp);
        self.typed(count, log, false)
    }

    /// So many calls, none of them this camp's.
    pub fn other_calls(&mut self, camp: usize, count: usize, log: usize) -> Vec<Call> {
        self.callers = Callers::Others(camp);
        self.typed(count, log, false)
    }

    fn allows_bench(&self, bench: u64) -> bool {
        match self.callers {
            Callers::All => true,
            Callers::Camp(camp) => of_camp(camp, bench),
            Callers::Others(camp) => !of_camp(camp, bench),
        }
    }

    fn allows_sheet(&self, sheet: u64) -> bool {
        match self.callers {
            Callers::All => true,
            Callers::Camp(camp) => sheet == camp as u64,
            Callers::Others(camp) => sheet != camp as u64,
        }
    }

    /// A sequence and its log. In every second one most items are filled before the first question.
    pub fn sequence(&mut self) -> Sequence {
        let count = match self.random.below(100) {
            0 => 1500,
            1..=9 => 400,
            10..=19 => self.random.below(10),
            _ => 60 + self.random.below(200),
        };
        let filled = self.random.once_in(2);
        let length = if filled { 400 + self.random.below(700) } else { self.log_length() };
        Sequence { calls: self.typed(count, length, filled), log: self.content(length) }
    }

    /// How long the log is; most often a few records long, at times at the limit and beyond.
    fn log_length(&mut self) -> usize {
        match self.random.below(100) {
            0 => LOG_LIMIT,
            1 => LOG_LIMIT + 1 + self.random.pick(&[0, 0, 1, 4464]),
            2 => self.random.below(LOG_LIMIT),
            3..=6 => 0,
            7..=29 => self.random.below(60),
            _ => 60 + self.random.below(400),
        }
    }

    /// So many calls with a log of this length.
    pub fn calls(&mut self, count: usize, log: usize) -> Vec<Call> {
        self.typed(count, log, false)
    }

    /// So many calls, after those that fill the sheet: some benches, and some numbers that are none,
    /// each with a run of its keys in turn; the values are most often those of one sheet.
    fn typed(&mut self, count: usize, log: usize, filled: bool) -> Vec<Call> {
        let (sheet, benches, mut typed) = (self.sheets.values(), self.benches(), Typed::new(log));
        let places = self.places();
        self.session.begin();
        if filled {
            self.fill(&mut typed, &sheet);
        }
        let count = typed.calls.len() + count;
        while typed.calls.len() < count {
            let bench = self.random.pick(&benches);
            match self.random.below(32) {
                0..=3 => {
                    let (sheet, profile) = (self.sheet(), self.powder.profile());
                    typed.calls.push(Call::Report { sheet, profile });
                }
                4..=8 => typed.calls.push(Call::Who { sheet: self.sheet(), item: self.item() }),
                9 => typed.press(self.number(), self.session.any_byte()),
                10 => typed.press(bench, self.session.any_byte()),
                _ => self.run(&mut typed, bench, &sheet, &places),
            }
        }
        typed.calls.truncate(count);
        typed.calls
    }

    /// Most of a sheet's values, typed by the two benches of one camp at once, and now and then some of
    /// them by the other camp too.
    fn fill(&mut self, typed: &mut Typed, sheet: &Values) {
        let mut waiting: [Vec<u8>; BENCHES] = Default::default();
        let first = OF_SHEET * self.random.below(SHEETS);
        let guests = self.random.pick(&[usize::MAX, 4, 2]);
        for ((name, _), value) in ITEMS.iter().zip(sheet) {
            let line = [name.as_bytes(), b" ", value, &[ENTER]].concat();
            if !self.random.once_in(12) {
                waiting[first + self.random.below(OF_SHEET)].extend(&line);
            }
            if self.random.once_in(guests) {
                waiting[(first + 2 + self.random.below(OF_SHEET)) % BENCHES].extend(&line);
            }
        }
        let mut waiting = waiting.map(Vec::into_iter);
        while waiting.iter().any(|keys| keys.len() > 0) {
            let bench = self.random.below(BENCHES);
            waiting[bench].by_ref().take(8).for_each(|byte| typed.press(bench as u64, byte));
        }
    }

    /// A run of one bench's keys.
    fn run(&mut self, typed: &mut Typed, bench: u64, sheet: &Values, places: &[usize]) {
        for _ in 0..self.random.pick(&[1, 1, 2, 3, 8, 40]) {
            let (held, random) = (typed.held(bench), &mut self.random);
            let next = |session: &mut Session| next_line(random, session, held, sheet, places);
            let byte = self.session.key(bench, next);
            typed.press(bench, byte);
        }
    }

    /// The places of the items that are typed, each as often as it stands here: of all, or now and
    /// then of one or two, which the benches type over each other.
    fn places(&mut self) -> Vec<usize> {
        match self.random.below(4) {
            0 => (0..=self.random.below(2)).map(|_| self.random.below(ITEMS.len())).collect(),
            _ => (0..ITEMS.len()).chain([0, 1, 2]).collect(),
        }
    }

    /// One to four benches, and up to two numbers that are none; of those whose calls are made, at least
    /// one.
    fn benches(&mut self) -> Vec<u64> {
        let first = self.random.below(BENCHES);
        let mut numbers: Vec<u64> = (0..self.random.pick(&[1, 2, 2, 3, BENCHES]))
            .map(|place| ((first + place) % BENCHES) as u64)
            .collect();
        for _ in 0..self.random.pick(&[0, 0, 0, 0, 1, 2]) {
            numbers.push(self.number());
        }
        numbers.retain(|&bench| self.allows_bench(bench));
        if numbers.is_empty() {
            numbers.push(self.number());
        }
        numbers
    }

    /// Any bench number of those whose calls are made.
    fn number(&mut self) -> u64 {
        loop {
            let number = match self.random.below(3) {
                0 => self.random.below(BENCHES) as u64,
                1 => self.random.pick(&OTHER_BENCHES),
                _ => self.random.next() >> self.random.below(64),
            };
            if self.allows_bench(number) {
                return number;
            }
        }
    }

    /// A sheet's number that may be asked about, now and then one that is none.
    pub fn sheet(&mut self) -> u64 {
        loop {
            let sheet = match self.random.below(8) {
                0 => self.random.pick(&OTHER_SHEETS),
                1 => self.random.next() >> self.random.below(64),
                _ => self.random.below(SHEETS) as u64,
            };
            if self.allows_sheet(sheet) {
                return sheet;
            }
        }
    }

    /// An item number, now and then one that is none.
    pub fn item(&mut self) -> u64 {
        match self.random.below(8) {
            0 => self.random.pick(&OTHER_ITEMS),
            1 => self.random.next() >> self.random.below(64),
            _ => 1 + self.random.below(ITEMS.len()) as u64,
        }
    }

    /// The bytes of a log before anything is written to it.
    fn content(&mut self, length: usize) -> Vec<u8> {
        match self.random.below(5) {
            0 => vec![0; length],
            1 => vec![255; length],
            2 => (0..length).map(|_| self.random.byte()).collect(),
            3 => {
                let (bench, item) =
                    (self.random.below(BENCHES), 1 + self.random.below(ITEMS.len()));
                let left_over = record(bench as u8, item as u8, b"0.16");
                left_over.into_iter().cycle().take(length).collect()
            }
            _ => State::fresh(length, self.random.next()).log,
        }
    }

    /// What the program `desk` is given: a byte for the bench and one for the key, and now and then
    /// an odd one more.
    pub fn desk_input(&mut self) -> Vec<u8> {
        let count = self.random.pick(&[0, 1, 30, 100, 100, 300, 300, 1000, 40_000]);
        let mut input = vec![];
        for call in self.calls(count, LOG) {
            if let Call::Key { bench, byte } = call {
                let digit = u8::try_from(bench).ok().filter(|&bench| bench < 10);
                input.extend([digit.map_or(self.random.byte(), |digit| b'0' + digit), byte]);
            }
        }
        if self.random.once_in(4) {
            input.push(self.random.byte());
        }
        input
    }
}

/// A line of any kind, or most often one of the sheet's values at these places, after what the line
/// holds is cleared.
fn next_line(
    random: &mut Random,
    session: &mut Session,
    held: usize,
    sheet: &Values,
    places: &[usize],
) -> Vec<u8> {
    if random.once_in(4) {
        return session.next_line(held);
    }
    let place = random.pick(places);
    let cleared: &[u8] = if held > 0 { &[EMPTY] } else { &[] };
    [cleared, ITEMS[place].0.as_bytes(), b" ", &sheet[place], &[ENTER]].concat()
}

/// The sessions of the program `desk`, with questions after each Enter and at the end.
pub fn desk_sessions() -> impl Iterator<Item = Sequence> {
    desk_sessions::scripts().into_iter().map(|(_, input)| {
        let mut calls = vec![];
        for (bench, byte) in keys(&input) {
            calls.push(Call::Key { bench, byte });
            if byte == ENTER {
                let (sheet, item) = (calls.len() as u64 % 3, calls.len() as u64 % QUESTIONED);
                let profile = calls.len() as u64 / 3 % 3;
                calls.extend([Call::Report { sheet, profile }, Call::Who { sheet, item }]);
            }
        }
        calls.extend(every_question());
        Sequence { calls, log: vec![0; LOG] }
    })
}

/// Every question about each sheet, and some about a sheet and a profile that are not there.
fn every_question() -> impl Iterator<Item = Call> {
    (0..=SHEETS as u64).flat_map(|sheet| {
        let reports = (0..=PROFILES).map(move |profile| Call::Report { sheet, profile });
        (0..QUESTIONED).map(move |item| Call::Who { sheet, item }).chain(reports)
    })
}

/// The measured examples of document 01 typed item by item, on the sheets in turn, each item by another
/// bench, with every question at the end.
pub fn measured_examples() -> impl Iterator<Item = Sequence> {
    sheet_lists::measured_examples().into_iter().enumerate().map(|(number, desk)| {
        let filled = ITEMS.iter().zip(values(&desk.sheets[0])).zip(0..);
        let filled = filled.filter(|((_, value), _)| !value.is_empty());
        let keys = filled.flat_map(|(((name, _), value), place)| {
            let line = [name.as_bytes(), b" ", value, &[ENTER]].concat();
            let bench = (OF_SHEET * (number % SHEETS) + place % OF_SHEET) as u64;
            line.into_iter().map(move |byte| Call::Key { bench, byte })
        });
        Sequence { calls: keys.chain(every_question()).collect(), log: vec![0xee; LOG] }
    })
}

/// Two entries from benches 0 and 3, with questions, in logs of each length about their records and
/// about the limit.
pub fn log_lengths() -> impl Iterator<Item = Sequence> {
    let questions = [
        Call::Report { sheet: 0, profile: 0 },
        Call::Report { sheet: 1, profile: 1 },
        Call::Who { sheet: 0, item: 4 },
        Call::Who { sheet: 1, item: 7 },
    ];
    let entries = [(0, "_refine_ls_R_factor_gt 0.16\n"), (3, "_refine_ls_wR_factor_obs 0.2\n")];
    let calls: Vec<Call> = entries
        .into_iter()
        .flat_map(|(bench, text)| text.bytes().map(move |byte| Call::Key { bench, byte }))
        .flat_map(|key| [key].into_iter().chain(questions))
        .collect();
    let long = [LOG, LOG_LIMIT - 1, LOG_LIMIT, LOG_LIMIT + 1, LOG_LIMIT + 10, 2 * LOG_LIMIT];
    (0..=30).chain(long).map(move |length| {
        let log = State::fresh(length, length as u64).log;
        Sequence { calls: calls.clone(), log }
    })
}

/// Two lines of one item, and after them every three calls from a list; in turn with room for both
/// records, for one and for none.
pub fn few_calls() -> impl Iterator<Item = Sequence> {
    let last = [
        Call::Key { bench: 0, byte: ENTER },
        Call::Key { bench: 1, byte: ENTER },
        Call::Key { bench: 0, byte: b'9' },
        Call::Key { bench: 1, byte: ERASE },
        Call::Key { bench: 1, byte: EMPTY },
        Call::Key { bench: 0, byte: 0 },
        Call::Key { bench: 4, byte: ENTER },
        Call::Key { bench: 4, byte: b'x' },
        Call::Report { sheet: 0, profile: 0 },
        Call::Who { sheet: 0, item: 4 },
    ];
    let typed = [(0, "_refine_ls_R_factor_gt 0.16"), (1, "_refine_ls_R_factor_gt 0.3")];
    let typed: Vec<Call> = typed
        .into_iter()
        .flat_map(|(bench, text)| text.bytes().map(move |byte| Call::Key { bench, byte }))
        .collect();
    (0..last.len().pow(3)).map(move |number| {
        let three = [number, number / last.len(), number / last.len().pow(2)];
        let calls = typed.iter().copied().chain(three.map(|at| last[at % last.len()]));
        Sequence { calls: calls.collect(), log: vec![0xee; [40, 12, 9][number % 3]] }
    })
}

/// A bench's keys of a line with Enter, whatever the line held emptied after it.
fn entered(bench: u64, line: &str) -> impl Iterator<Item = Call> + '_ {
    let keys = line.bytes().chain([ENTER, EMPTY]);
    keys.map(move |byte| Call::Key { bench, byte })
}

/// One item typed by every three benches, each time after an Enter that is refused with 5, 6 or 7,
/// with Who after it; in turn with room for all records, and one byte short for the third and for the
/// second. And an item that its bench types twelve times.
pub fn rewritten() -> impl Iterator<Item = Sequence> {
    let every = [(3, "FO"), (4, "0.16"), (9, "-0.06")].into_iter().flat_map(|(item, value)| {
        (0..BENCHES.pow(3)).map(move |number| {
            let benches = [number, number / BENCHES, number / BENCHES.pow(2)];
            let name = ITEMS[item - 1].0;
            let refused = [name.into(), format!("{name}x 1"), format!("{name} 'x'")];
            let values = [value, "?", value].into_iter().zip(benches).zip(&refused);
            let calls = values.flat_map(|((value, bench), refused)| {
                let (bench, line) = ((bench % BENCHES) as u64, format!("{name} {value}"));
                let calls: Vec<Call> =
                    entered(bench, refused).chain(entered(bench, &line)).collect();
                let asked = [(0, item), (1, item), (bench / 2, item + 1)];
                let asked = asked.map(|(sheet, item)| Call::Who { sheet, item: item as u64 });
                calls.into_iter().chain(asked)
            });
            let record = RECORD_HEAD + value.len();
            let room = [2 * record + 7, 2 * record + 6, record + 6][number % 3];
            Sequence { calls: calls.collect(), log: vec![0x5a; room] }
        })
    });
    let calls = (0..12).flat_map(|entry| {
        let line = format!("{} {entry}", ITEMS[3].0);
        let keys: Vec<Call> = entered(2, &line).collect();
        let asked = [(0, 4), (1, 4), (1, 5)].map(|(sheet, item)| Call::Who { sheet, item });
        keys.into_iter().chain(asked)
    });
    let twelve = Sequence { calls: calls.collect(), log: vec![0xee; LOG] };
    every.chain([twelve])
}

/// Another bench, of the same camp or the other, types the item of an owner, first while its value is
/// assigned or not: with Enter twice, while the owner types it again, with a value of another kind, and
/// corrected to an item that is free. The log has each room about its record.
pub fn contended() -> impl Iterator<Item = Sequence> {
    let benches = (0..BENCHES * BENCHES).map(|pair| [pair / BENCHES, pair % BENCHES]);
    benches.filter(|[owner, other]| owner != other).flat_map(|[owner, other]| {
        ["0.16", "?", "."].into_iter().flat_map(move |first| {
            [0, 6, 8, 9, 10, 18, 40].into_iter().map(move |room| {
                let texts = [
                    (owner, format!("_refine_ls_R_factor_gt {first}\n")),
                    (other, "_refine_ls_R_factor_gt 0.2\n\n".into()),
                    (owner, "_refine_ls_R_factor_gt ?\n\x18".into()),
                    (other, "\n\x08x\n\x083\n".into()),
                    (other, "\x08\x08\x08\x08\x08\x08obs 0.2\n".into()),
                    (owner, "_refine_ls_R_factor_obs 0.3\n".into()),
                ];
                let questions = [(0, 4), (0, 5), (1, 4), (1, 5)]
                    .map(|(sheet, item)| Call::Who { sheet, item })
                    .into_iter()
                    .chain([0, 1, 2].map(|sheet| Call::Report { sheet, profile: sheet % 2 }));
                let calls = texts.into_iter().flat_map(|(bench, text)| {
                    let key = |byte| Call::Key { bench: bench as u64, byte };
                    let keys = text.into_bytes().into_iter().map(key);
                    keys.chain(questions.clone()).collect::<Vec<_>>()
                });
                let log = vec![0x5a; RECORD_HEAD + first.len() + room];
                Sequence { calls: calls.collect(), log }
            })
        })
    })
}

/// Two runs that share one camp's calls; the other calls of each are its own.
pub struct Pair {
    pub camp: usize,
    pub runs: [Vec<Call>; 2],
    pub log: Vec<u8>,
}

impl Sequences {
    /// Two such runs, on a log that takes all records, or on one that may fill up.
    pub fn pair(&mut self, long: bool) -> Pair {
        let camp = self.random.below(SHEETS);
        let length = if long { LOG_LIMIT } else { self.random.below(80) };
        let count = 20 + self.random.below(200);
        let own = self.own_calls(camp, count, length);
        let runs = [0, 1].map(|_| {
            let count = self.random.pick(&[0, 1, 20, 100, 200]);
            let others = self.other_calls(camp, count, length);
            self.mixed(&own, &others)
        });
        self.callers = Callers::All;
        Pair { camp, runs, log: self.content(length) }
    }

    /// Both lists of calls, each in its order.
    fn mixed(&mut self, own: &[Call], others: &[Call]) -> Vec<Call> {
        let (mut own, mut others) = (own.iter().copied(), others.iter().copied());
        let mut calls = vec![];
        while own.len() + others.len() > 0 {
            let count = self.random.pick(&[1, 1, 2, 8, 40]);
            match self.random.below(2) {
                0 => calls.extend(own.by_ref().take(count)),
                _ => calls.extend(others.by_ref().take(count)),
            }
        }
        calls
    }
}
