//! Moiety formulas, whole and damaged, and formulas beside them: document 02, request No. 12.

use crate::desks::longest_value;
use crate::inputs::Inputs;
use crate::random::Random;
use reference::formula::{Totals, SYMBOLS};
use reference::line::BYTES;
use reference::moiety::{read, totals, DEEPEST};

/// The bytes of short texts.
pub const OF_MOIETIES: &[u8] = b"CH2(), ";
/// Every text up to this length over those bytes.
pub const SHORT: usize = 7;
/// The longest text of each item, in quotes.
pub const LONGEST: usize = longest_value(ITEM) - 2;
const LONGEST_FORMULA: usize = longest_value(1) - 2;
/// The item of moieties.
pub const ITEM: usize = 19;
/// The largest count of a term.
const MOST: u64 = 9999;

/// Texts that are not read, each with its fault, made from one that is: a moiety and a term.
type Fault = fn(&str, &str) -> String;
pub const FAULTS: [(&str, Fault); 30] = [
    ("five brackets", |_, term| format!("((((({term})))))")),
    ("five brackets, spread", |_, term| format!("(C ({term} (C (H (O {term})2)3)4)5)6")),
    ("a comma in brackets", |moiety, term| format!("({term}, {moiety})2")),
    ("count 100", |moiety, _| format!("({moiety})100")),
    ("count 1000", |_, term| format!("({term})1000")),
    ("count 01", |_, term| format!("({term})01")),
    ("count 0", |_, term| format!("({term})0")),
    ("count 00", |moiety, term| format!("{moiety}, ({term})00")),
    ("count before the bracket", |moiety, term| format!("{moiety}, 2({term})")),
    ("fraction", |moiety, _| format!("{moiety}, 0.5(H2 O)")),
    ("fraction after the bracket", |_, term| format!("({term})0.5")),
    ("charge", |moiety, _| format!("{moiety} 1+")),
    ("charge in brackets", |moiety, term| format!("{moiety}, ({term} 1-)2")),
    ("no space after the comma", |moiety, term| format!("{moiety},{term}")),
    ("two spaces after the comma", |moiety, term| format!("{moiety},  {term}")),
    ("space before the comma", |moiety, term| format!("{moiety} , {term}")),
    ("comma last", |moiety, _| format!("{moiety},")),
    ("comma and space last", |moiety, _| format!("{moiety}, ")),
    ("comma first", |moiety, _| format!(", {moiety}")),
    ("two commas", |moiety, term| format!("{moiety}, , {term}")),
    ("two spaces", |moiety, term| format!("{moiety}  {term}")),
    ("space first", |moiety, _| format!(" {moiety}")),
    ("space in brackets", |moiety, term| format!("{moiety} ({term} )")),
    ("open bracket", |moiety, term| format!("{moiety} ({term}")),
    ("bracket closed twice", |moiety, term| format!("({moiety} {term}))")),
    ("empty brackets", |moiety, _| format!("{moiety} ()2")),
    ("no space between", |_, term| format!("({term})({term})")),
    ("symbol not recognised", |moiety, _| format!("{moiety} D2")),
    ("term's count", |moiety, _| format!("{moiety} C10000")),
    ("other brackets", |_, term| format!("[{term}]2")),
];

/// Moieties of real compounds; those with charges, fractions and counts before brackets are not read.
pub const REAL: [(&str, &str); 16] = [
    ("C18 H19 N7 O8 S", "C18 H19 N7 O8 S"),
    ("C10 H22 O", "C10 H20, H2 O"),
    ("C8 H12 N4 O3", "C8 H10 N4 O2, H2 O"),
    ("C8 H12 N4 O3", "C8 H10 N4 O2, (H2 O)"),
    ("Cl2 Co H12 O6", "Co (H2 O)6, Cl2"),
    ("C12 H10 Fe", "(C5 H5)2 Fe, C2"),
    ("Al2 O12 S3", "Al2 (S O4)3"),
    ("Ca H4 O6 S", "Ca S O4, (H2 O)2"),
    ("Cu H10 O9 S", "Cu 2+, O4 S 2-, 5(H2 O)"),
    ("C12 H14 N2 O2", "C12 H10 N2, 2(H2 O)"),
    ("C6 H8 N O4 P", "C6 H8 N 1+, O4 P 1-"),
    ("Cl Na", "Na 1+, Cl 1-"),
    ("C22 H24 N2 O", "C20 H20 N2, 0.5(C4 H8 O)"),
    ("C20 H21 N2 O0.5", "C20 H20 N2, 0.5(H2 O)"),
    ("C14 H10 O4", "2(C7 H5 O2)"),
    ("C24 H20 B Na", "C24 H20 B -, Na +"),
];

pub struct Moieties {
    random: Random,
    inputs: Inputs,
}

impl Moieties {
    pub fn new(seed: u64) -> Self {
        Moieties { random: Random::new(seed.rotate_left(8)), inputs: Inputs::new(!seed) }
    }

    /// A text that is read, and now and then one damaged in a byte or two.
    pub fn text(&mut self) -> Vec<u8> {
        let mut text = self.moieties().into_bytes();
        if self.random.once_in(4) {
            for _ in 0..self.random.pick(&[1, 1, 2]) {
                self.damage(&mut text);
            }
        }
        text.retain(|byte| *byte != b'\'' && BYTES.contains(byte));
        text.truncate(LONGEST);
        text
    }

    /// A text with this fault.
    pub fn with_fault(&mut self, fault: usize) -> Vec<u8> {
        let (moiety, term) = (self.moiety(2, 40), self.term());
        FAULTS[fault].1(&moiety, &term).into_bytes()
    }

    /// A formula beside a text: of its totals, or off in one thing; any where it cannot be read.
    pub fn formula(&mut self, text: &[u8]) -> Vec<u8> {
        let Some(moieties) = read(text) else {
            return self.random.pick(&[&b"C"[..], b"C10 H20", b"C10H20", b"H2 O", b""]).into();
        };
        let mut totals: Vec<(Vec<u8>, u64)> = in_order(&totals(&moieties));
        let at = self.random.below(totals.len());
        match self.random.below(12) {
            0 => totals[at].1 += 1,
            1 => totals[at].1 -= 1,
            2 => drop(totals.remove(at)),
            3 => totals.push((self.random.pick(&SYMBOLS).into(), 1)),
            4 => {
                // The sum of all counts stays.
                let other = self.random.below(totals.len());
                totals[other].1 += 1;
                totals[at].1 -= 1;
            }
            5 => {
                let other = self.random.below(totals.len());
                let count = totals[at].1;
                totals[at].1 = std::mem::replace(&mut totals[other].1, count);
            }
            6 => totals[at].1 ^= 1 << self.random.below(40),
            _ => {}
        }
        if self.random.once_in(24) {
            totals.push((b"Xx".into(), 1));
        }
        written(&totals)
    }

    /// One or more moieties, within the length of a line.
    fn moieties(&mut self) -> String {
        let mut text = String::new();
        for number in 0..self.random.pick(&[1, 1, 1, 2, 2, 3, 6]) {
            let deep = self.random.pick(&[0, 1, 1, 2, 3, 4, 4]);
            let moiety = self.moiety(deep, LONGEST);
            let comma = if number == 0 { "" } else { ", " };
            if text.len() + comma.len() + moiety.len() <= LONGEST {
                text += comma;
                text += &moiety;
            }
        }
        if text.is_empty() {
            text = self.term();
        }
        text
    }

    /// A moiety with at most so many open brackets and about so many bytes.
    fn moiety(&mut self, deep: usize, most: usize) -> String {
        let mut text = String::new();
        for _ in 0..self.random.pick(&[1, 1, 2, 2, 3, 4, 12]) {
            let part = self.part(deep, most);
            let space = if text.is_empty() { "" } else { " " };
            if text.len() + space.len() + part.len() <= most {
                text += space;
                text += &part;
            }
        }
        if text.is_empty() {
            self.random.pick(&["C", "H", "O"]).into()
        } else {
            text
        }
    }

    fn part(&mut self, deep: usize, most: usize) -> String {
        if deep == 0 || most < 5 || self.random.once_in(3) {
            return self.term();
        }
        let inside = self.moiety(deep - 1, most - 4);
        let count = match self.random.below(4) {
            0 => String::new(),
            1 => self.random.pick(&["1", "9", "10", "99"]).into(),
            2 => (1 + self.random.below(99)).to_string(),
            _ => (1 + self.random.below(4)).to_string(),
        };
        format!("({inside}){count}")
    }

    fn term(&mut self) -> String {
        let symbol = match self.random.below(8) {
            0..=5 => self.random.pick(&["C", "H", "N", "O", "Cl"]),
            _ => self.random.pick(&SYMBOLS),
        };
        match self.random.below(8) {
            0..=2 => symbol.into(),
            3..=6 => format!("{symbol}{}", 1 + self.random.below(30)),
            _ => format!("{symbol}{}", self.random.pick(&[1, 9, 10, 99, 100, 999, 1000, 9999])),
        }
    }

    /// A byte that tells about moieties changed, inserted or removed, or any damage.
    fn damage(&mut self, text: &mut Vec<u8>) {
        let (at, byte) = (self.random.below(text.len().max(1)), self.random.pick(b"C2(), 01+-.)H"));
        match self.random.below(5) {
            _ if text.is_empty() => text.push(byte),
            0 => text[at] = byte,
            1 => text.insert(at, byte),
            2 => drop(text.remove(at)),
            3 => text.insert(at, text[at]),
            _ => self.inputs.damage(text),
        }
    }
}

/// Totals with C first, then H, then the others.
pub fn in_order(totals: &Totals) -> Vec<(Vec<u8>, u64)> {
    let mut totals: Vec<(Vec<u8>, u64)> =
        totals.iter().map(|(symbol, count)| (symbol.to_vec(), *count)).collect();
    totals.sort_by_key(|(symbol, _)| match &symbol[..] {
        b"C" => 0,
        b"H" => 1,
        _ => 2,
    });
    totals
}

/// Totals as a formula, one above the largest count as several terms; cut where the line is full.
pub fn written(totals: &[(Vec<u8>, u64)]) -> Vec<u8> {
    let mut terms = vec![];
    for (symbol, total) in totals {
        let symbol = String::from_utf8_lossy(symbol);
        let whole = (total / MOST).min(LONGEST_FORMULA as u64) as usize;
        terms.extend(vec![format!("{symbol}{MOST}"); whole]);
        match total % MOST {
            0 => {}
            1 => terms.push(symbol.to_string()),
            rest => terms.push(format!("{symbol}{rest}")),
        }
    }
    while terms.join(" ").len() > LONGEST_FORMULA {
        terms.pop();
    }
    terms.join(" ").into_bytes()
}

/// A text whose totals are those of the moieties, where it can be read; else any.
pub fn formula_of(text: &[u8]) -> Vec<u8> {
    read(text).map_or(b"C".to_vec(), |moieties| written(&in_order(&totals(&moieties))))
}

/// Texts with brackets as deep as they may be and deeper, and as long as a line takes, each with a
/// formula.
pub fn deep_and_long() -> Vec<(Vec<u8>, Vec<u8>)> {
    let mut texts = vec![];
    for deep in 0..=2 * DEEPEST {
        let (open, close) = ("(".repeat(deep), ")".repeat(deep));
        texts.extend(["", "2", "99"].map(|count| format!("{open}C{close}{count}")));
        texts.push(format!("{open}C{}", ")2".repeat(deep)));
        texts.push(format!("{}C H2{}", "(O ".repeat(deep), " N)3".repeat(deep)));
        texts.push(format!("C, ({open}C{close} H)2"));
    }
    for length in LONGEST - 8..=LONGEST {
        texts.push("C".to_string() + &" C".repeat(length / 2));
        texts.push(vec!["H9999"; length / 6].join(" "));
        texts.push(vec!["C"; length / 3].join(", "));
        texts.push(vec!["((((C9)9)9)9)9"; length / 15].join(" "));
        texts.push(format!("({})2", vec!["O"; (length - 2) / 2].join(" ")));
    }
    texts.retain(|text| text.len() <= LONGEST);
    let right = texts.into_iter().map(|text| (formula_of(text.as_bytes()), text.into_bytes()));
    right.chain(wrapped()).collect()
}

/// Totals that are those of the formula if they are cut to 8, 16 or 32 bits.
fn wrapped() -> impl Iterator<Item = (Vec<u8>, Vec<u8>)> {
    let pairs = [
        ("C5", "C256 C5"),
        ("C5", "(C128)2 C5"),
        ("C5", "(C4096)16 C5"),
        ("C5", "((C64)32)32, C5"),
        ("C5", "((((C256)64)64)64)64, C5"),
        ("C5 H3", "((((C128)64)64)64)64 C5, ((((C128 H256)64)64)64)64, H3"),
    ];
    pairs.into_iter().map(|(formula, text)| (formula.into(), text.into()))
}
