//! Formulas and weights for the hydrogen helper: document 02, request No. 13.

use crate::inputs::{decimal, near, Inputs};
use crate::random::Random;
use crate::sheets::{fits, most_places};
use reference::desk::{asked, values, Desk};
use reference::formula::{sum, WEIGHTS};
use reference::hydrogen::{Start, MOST, NO_RIGHT_COUNT, NO_START};
use reference::line::ACCEPTED;
use reference::number::number;
use reference::value::text;

/// Counts about which weights are chosen: at each end of what is right, and where the term's text grows.
const COUNTS: [u64; 16] =
    [0, 1, 2, 9, 10, 11, 99, 100, 999, 1000, 5000, 9898, 9997, 9998, 9999, 10_000];
/// RW's bounds for level 0 and its middle, in hundredths.
const PERCENTS: [i128; 3] = [99, 100, 101];
/// Formulas, with C and without, with H and without, H first, between and last, H alone.
const FORMULAS: [&str; 14] = [
    "C10 H20",
    "C10",
    "C H",
    "C18 H19 N7 O8 S",
    "C18 N7 O8 S",
    "Br H",
    "Br",
    "Br H Na",
    "Ca F2",
    "H2 O",
    "H",
    "H9999",
    "C9999 H9999 Pb9999",
    "Pb9999",
];
/// What no start is.
const NO_STARTS: [&str; 12] = [
    "'C10H20'",
    "'H20 C10'",
    "'H Br'",
    "'C H H'",
    "'C H Li'",
    "'C D'",
    "''",
    "'?'",
    "Xx",
    "'C  H'",
    "?",
    "U",
];

/// A formula and a weight, both as typed.
pub type Typed = (Vec<u8>, Vec<u8>);

pub struct Hydrogens {
    random: Random,
    inputs: Inputs,
}

impl Hydrogens {
    pub fn new(seed: u64) -> Self {
        Hydrogens { random: Random::new(seed.rotate_left(40)), inputs: Inputs::new(!seed) }
    }

    /// A formula and a weight, most often such as the helper starts from, about an edge of row 4.
    pub fn typed(&mut self) -> Typed {
        let formula = self.formula();
        let others = others(text(&formula));
        let weight = match self.random.below(16) {
            0 => self.random.pick(&["", "?", "."]).into(),
            1 => self.number(),
            _ => self.weight(others.unwrap_or(100_000)),
        };
        match self.random.below(16) {
            0 => (self.random.pick(&NO_STARTS).into(), weight),
            1 => (vec![], weight),
            _ => (formula, weight),
        }
    }

    /// Counts to be checked: about these right ones, about the ends, and such as cut-off numbers would
    /// turn into right ones.
    pub fn counts(&mut self, right: &[u64]) -> Vec<u64> {
        let mut counts = vec![0, 1, MOST - 1, MOST, MOST + 1, u64::MAX, self.random.next()];
        counts.push(self.random.below(MOST as usize + 2) as u64);
        if let [first, .., last] | [first @ last] = right {
            counts.extend([first.wrapping_sub(1), *first, first + 1]);
            counts.extend([last - 1.min(*last), *last, last + 1]);
            counts.extend([8, 16, 32, 63].map(|bits| first + (1 << bits)));
        }
        counts
    }

    fn formula(&mut self) -> Vec<u8> {
        let first: &[&str] =
            self.random.pick(&[&["C", "H"][..], &["C", "H"], &["C"], &["H"], &["H"], &[]]);
        let mut others: Vec<&str> = vec![];
        for _ in 0..self.random.pick(&[0, 0, 1, 1, 2, 3, 5, 24]) {
            others.push(self.random.pick(&WEIGHTS).0);
        }
        others.retain(|symbol| !["C", "H"].contains(symbol));
        others.extend(first);
        others.sort();
        others.dedup();
        if others.contains(&"C") {
            others.sort_by_key(|symbol| match *symbol {
                "C" => 0,
                "H" => 1,
                _ => 2,
            });
        }
        let terms: Vec<String> = others.iter().map(|symbol| self.term(symbol)).collect();
        match terms.join(" ") {
            none if none.is_empty() => b"H".into(),
            text => self.inputs.quoted(text.as_bytes()),
        }
    }

    fn term(&mut self, symbol: &str) -> String {
        match self.random.below(8) {
            0..=2 => symbol.into(),
            3..=6 => format!("{symbol}{}", 1 + self.random.below(40)),
            _ => format!("{symbol}{}", 1 + self.random.below(MOST as usize)),
        }
    }

    /// A weight about an edge for some count of hydrogens beside this sum of the others.
    fn weight(&mut self, others: i128) -> Vec<u8> {
        let any = self.random.below(MOST as usize + 1) as u64;
        let small = self.random.below(60) as u64;
        let edge = self.random.pick(&COUNTS);
        let count = self.random.pick(&[any, small, small, edge]);
        let bound = bound(others, count, self.random.pick(&PERCENTS));
        loop {
            let places = self.random.below(most_places(bound) + 1);
            let weight = near(bound, places, self.random.pick(&[-1, 0, 0, 1]));
            let size = self.inputs.written(&decimal(weight, places));
            let sign = if weight < 0 { "-" } else { self.random.pick(&["", "", "", "+", "0"]) };
            let typed = [sign.as_bytes(), size.as_bytes(), &self.inputs.uncertainty()].concat();
            if fits(2, &typed) {
                return typed;
            }
        }
    }

    fn number(&mut self) -> Vec<u8> {
        loop {
            let number = self.inputs.number_near_limits();
            if fits(2, &number) {
                return number;
            }
        }
    }
}

/// The sum of a formula's terms but H.
fn others(text: &[u8]) -> Option<i128> {
    let mut terms: Vec<&[u8]> = text.split(|&byte| byte == b' ').collect();
    terms.retain(|term| {
        term.first() != Some(&b'H') || term.get(1).is_some_and(u8::is_ascii_lowercase)
    });
    if terms.is_empty() {
        return Some(0);
    }
    sum(&terms.join(&b' '))
}

/// The weight, in millionths, that is so many hundredths of the sum with a count of hydrogens.
fn bound(others: i128, count: u64, percent: i128) -> i64 {
    (10 * percent * (others + 1008 * i128::from(count))) as i64
}

/// The helper's answer by arithmetic: the first count whose sum is heavy enough for RW's upper bound,
/// which is right if any is, since more hydrogens are heavier and no shorter to write.
pub fn by_arithmetic(desk: &Desk, sheet: u64) -> (u8, u64) {
    let values = match asked(desk, sheet) {
        Ok(sheet) => values(sheet),
        Err(refusal) => return (refusal, 0),
    };
    let Some(start) = Start::of(&values) else {
        return (NO_START, 0);
    };
    let weight = number(values[1]).map_or(0, i128::from);
    let others = others(text(values[0])).unwrap_or(0);
    let (least, each) = (100 * weight - 101_000 * others, 101_000 * 1008);
    // The exact quotient lies above this one by less than one; without other terms 0 leaves no text.
    let least = least.div_euclid(each);
    let tried = least.max(0) as u64..=(least + 1).max(1) as u64;
    let smallest = tried.into_iter().find(|&count| start.is_right(count));
    smallest.map_or((NO_RIGHT_COUNT, 0), |count| (ACCEPTED, count))
}

/// A few formulas with weights at and beside both edges of row 4 for the smallest and largest counts.
pub fn first_edges() -> impl Iterator<Item = Typed> {
    edges(&["C10 H20", "H", "Br Na"], &[0, 1, MOST, MOST + 1])
}

/// Each formula with such weights for counts at each end.
pub fn at_edges() -> impl Iterator<Item = Typed> {
    edges(&FORMULAS, &COUNTS)
}

/// Weights as exact as a number can be.
fn edges(formulas: &'static [&'static str], counts: &'static [u64]) -> impl Iterator<Item = Typed> {
    formulas.iter().flat_map(move |formula| {
        let others = others(formula.as_bytes()).expect("each has a weight");
        counts.iter().flat_map(move |&count| {
            PERCENTS.into_iter().filter(|percent| *percent != 100).flat_map(move |percent| {
                let bound = bound(others, count, percent);
                let places = most_places(bound);
                [-1, 0, 1].map(|units| {
                    let weight = near(bound, places, units);
                    let sign = if weight < 0 { "-" } else { "" };
                    let weight = format!("{sign}{}", decimal(weight, places));
                    (format!("'{formula}'").into(), weight.into())
                })
            })
        })
    })
}

/// The longest formula that the helper starts from, every symbol that has a weight with four digits, and
/// a weight at row 4's edge for a count of four digits.
pub fn longest() -> Typed {
    let mut others = WEIGHTS.map(|(symbol, _)| symbol).to_vec();
    others.retain(|symbol| !["C", "H"].contains(symbol));
    others.sort();
    let terms = ["C", "H"].into_iter().chain(others).map(|symbol| format!("{symbol}{MOST}"));
    let formula = terms.collect::<Vec<String>>().join(" ");
    let bound = bound(self::others(formula.as_bytes()).expect("each has a weight"), 5000, 101);
    let places = most_places(bound);
    (format!("'{formula}'").into(), decimal(near(bound, places, 0), places).into())
}

/// What no start is, with a weight and without, and right formulas without one.
pub fn no_starts() -> impl Iterator<Item = Typed> {
    let formulas = NO_STARTS.into_iter().chain(["", "'C10 H20'", "H"]);
    formulas.flat_map(|formula| {
        ["", "?", ".", "140.27", "0", "-1"].map(|weight| (formula.into(), weight.into()))
    })
}

/// A few starts of which every count is checked.
pub fn few() -> [Typed; 6] {
    [
        ("'C10 H20'", "142.286"),
        ("'C18 N7 O8 S'", "493.45"),
        ("H2", "10078.99"),
        ("'Br Na'", "5000"),
        ("'C9999 H Pb9999'", "2201000"),
        ("'C10 H20'", "1"),
    ]
    .map(|(formula, weight)| (formula.into(), weight.into()))
}
