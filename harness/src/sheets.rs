//! Generated sheets: values that could stand on a desk, about every bound of the rows.

use crate::desks;
use crate::inputs::{decimal, near, Inputs, ROWS};
use crate::moieties::{Moieties, ITEM, LONGEST};
use crate::powder::{self, Powder};
use crate::random::Random;
use reference::desk::Desk;
use reference::formula::{self, SYMBOLS, WEIGHTS};
use reference::line::{BYTES, LIMIT};
use reference::names::{passes, ITEMS};
use reference::number::{DIGITS, PLACES};
use reference::rows::{DIFFERENCE_BOUND, RATIO_BOUNDS, THRESHOLDS};
use reference::value;

/// What stands for an item without a value.
pub const MISSING: [&str; 3] = ["", "?", "."];
/// Symbols for formulas of every order: some before C and H, between and after them, and some that
/// are not recognised.
const ORDERED: [&str; 14] =
    ["C", "H", "Ag", "B", "Br", "Ca", "Cl", "D", "F", "He", "N", "O", "Xx", "Zn"];
/// Counts that no term may have, and words that are no symbol.
const BAD_COUNTS: [&str; 8] = ["0", "01", "007", "10000", "99999", "1.5", "-1", "2+"];
const BAD_SYMBOLS: [&str; 8] = ["D", "T", "Xx", "Uuo", "CL", "cl", "h", "2H"];

pub struct Sheets {
    random: Random,
    inputs: Inputs,
    powder: Powder,
    moieties: Moieties,
}

/// Whether a value may be typed for an item: form, kind and bytes.
pub fn fits(item: usize, value: &[u8]) -> bool {
    value.len() <= LIMIT && value.iter().all(|byte| BYTES.contains(byte)) && passes(item, value)
}

/// Where rows 4 and 5 change for a sum in thousandths, and the sum itself; in millionths.
pub fn weight_bounds(sum: i128) -> Vec<i64> {
    let ratios = RATIO_BOUNDS.iter().flat_map(|(low, high, _)| [10 * low * sum, 10 * high * sum]);
    let differences = [-DIFFERENCE_BOUND, 0, DIFFERENCE_BOUND].map(|far| 1000 * sum + far);
    ratios.chain(differences).map(|bound| bound as i64).collect()
}

/// The most places that a number of this size can be written with.
pub fn most_places(millionths: i64) -> usize {
    let whole = (millionths.abs() / 10_i64.pow(PLACES as u32)).to_string().len();
    DIGITS.saturating_sub(whole).min(PLACES)
}

impl Sheets {
    pub fn new(seed: u64) -> Self {
        let inputs = Inputs::new(seed.rotate_left(32));
        let powder = Powder::new(seed.rotate_left(4));
        Sheets { random: Random::new(seed), inputs, powder, moieties: Moieties::new(!seed) }
    }

    /// A desk that holds such values.
    pub fn sheet(&mut self) -> Desk {
        desks::sheet(self.values())
    }

    /// A value for each item; on some sheets all are there, on others many are missing.
    pub fn values(&mut self) -> [Vec<u8>; ITEMS.len()] {
        let missing = self.random.pick(&[usize::MAX, 20, 6, 2]);
        let formula = self.value(1);
        let sum = formula::sum(value::text(&formula));
        let powder = self.powder.values();
        std::array::from_fn(|place| match place + 1 {
            _ if self.random.once_in(missing) => self.random.pick(&MISSING).into(),
            1 => formula.clone(),
            2 => self.fitting(2, |sheets| sheets.weight(sum)),
            ITEM => self.fitting(ITEM, |sheets| sheets.moieties(&formula)),
            item => match powder.get(item.wrapping_sub(powder::FIRST_ITEM)) {
                Some(value) => value.clone(),
                None => self.value(item),
            },
        })
    }

    /// A value for an item, assigned or not.
    pub fn value(&mut self, item: usize) -> Vec<u8> {
        self.fitting(item, |sheets| match item {
            1 => sheets.formula(),
            2 => sheets.weight(None),
            3 => sheets.inputs.category(),
            4 | 5 => sheets.graded(ROWS[0]),
            6 | 7 => sheets.graded(ROWS[1]),
            8 | 9 => sheets.graded(ROWS[2]),
            10 => sheets.threshold(),
            ITEM => sheets.moieties(b"C"),
            11..=18 => sheets.powder.values()[item - powder::FIRST_ITEM].clone(),
            _ => unreachable!("no values for item {item}"),
        })
    }

    /// The first of the source's values that may be typed.
    fn fitting(&mut self, item: usize, source: impl Fn(&mut Self) -> Vec<u8>) -> Vec<u8> {
        loop {
            let value = source(self);
            if fits(item, &value) {
                return value;
            }
        }
    }

    fn graded(&mut self, row: u64) -> Vec<u8> {
        if self.random.once_in(4) {
            self.inputs.number_near_limits()
        } else {
            self.inputs.number_near_bound(row)
        }
    }

    /// A weight about a bound for the sum, or any number.
    fn weight(&mut self, sum: Option<i128>) -> Vec<u8> {
        let Some(sum) = sum.filter(|_| !self.random.once_in(20)) else {
            return self.inputs.number_near_limits();
        };
        let bound = self.random.pick(&weight_bounds(sum));
        let places = self.random.below(most_places(bound) + 1);
        let weight = near(bound, places, self.random.pick(&[-1, 0, 0, 1]));
        let sign = if weight < 0 { "-" } else { self.random.pick(&["", "", "", "", "+", "0"]) };
        let size = self.inputs.written(&decimal(weight, places));
        let mut number = [sign, &size].concat().into_bytes();
        number.extend(self.inputs.uncertainty());
        number
    }

    /// Moieties in quotes: most often the formula's own terms, with another moiety now and then.
    fn moieties(&mut self, formula: &[u8]) -> Vec<u8> {
        let mut text = match self.random.below(4) {
            0 => self.moieties.text(),
            _ => value::text(formula).to_vec(),
        };
        if self.random.once_in(4) {
            text.extend(b", H2 O");
        }
        text.truncate(LONGEST);
        self.inputs.quoted(&text)
    }

    /// A formula, bare or quoted, most often a right one.
    fn formula(&mut self) -> Vec<u8> {
        let mut terms = self.terms();
        if self.random.once_in(3) {
            self.disturb(&mut terms);
        }
        let mut text = terms.join(" ").into_bytes();
        if self.random.once_in(12) {
            self.inputs.damage(&mut text);
        }
        if text.contains(&b' ') || self.random.once_in(2) {
            self.inputs.quoted(&text)
        } else {
            text
        }
    }

    /// Terms in the right order: C, H, and others that most often have a weight.
    fn terms(&mut self) -> Vec<String> {
        let mut others: Vec<&str> = vec![];
        for _ in 0..self.random.pick(&[0, 0, 1, 1, 2, 3, 4, 8, 40]) {
            others.push(if self.random.once_in(16) {
                self.random.pick(&SYMBOLS)
            } else {
                self.random.pick(&WEIGHTS).0
            });
        }
        others.retain(|symbol| !["C", "H"].contains(symbol));
        others.sort();
        others.dedup();
        let first =
            self.random.pick(&[&["C", "H"][..], &["C", "H"], &["C", "H"], &["C"], &["H"], &[]]);
        let terms = first.iter().chain(&others).map(|symbol| self.term(symbol)).collect::<Vec<_>>();
        if terms.is_empty() {
            vec!["C".into()]
        } else {
            terms
        }
    }

    fn term(&mut self, symbol: &str) -> String {
        match self.random.below(8) {
            0..=2 => symbol.into(),
            3..=5 => format!("{symbol}{}", 1 + self.random.below(40)),
            6 => format!("{symbol}{}", 1 + self.random.below(9999)),
            _ => {
                format!("{symbol}{}", self.random.pick(&[1, 9, 10, 99, 100, 999, 1000, 9998, 9999]))
            }
        }
    }

    /// A formula for row 2: some symbols, with C or without, most often in the order that is right
    /// then, now and then with a symbol twice, two that have changed places, or an ill-formed term.
    pub fn ordered_formula(&mut self) -> Vec<u8> {
        let carbon = self.random.once_in(2);
        let mut symbols: Vec<&str> = vec![];
        for _ in 0..1 + self.random.below(5) {
            symbols.push(self.random.pick(&ORDERED));
        }
        symbols.retain(|&symbol| symbol != "C");
        symbols.sort();
        symbols.dedup();
        if carbon {
            symbols.sort_by_key(|&symbol| symbol != "H");
            symbols.insert(0, "C");
        }
        let mut terms: Vec<String> = symbols.iter().map(|symbol| self.term(symbol)).collect();
        if terms.is_empty() || self.random.once_in(2) {
            let symbol = self.random.pick(&["H", "H", "Br", "O"]);
            terms.insert(self.random.below(terms.len() + 1), self.term(symbol));
        }
        match self.random.below(8) {
            0 | 1 => {
                let (at, other) = (self.random.below(terms.len()), self.random.below(terms.len()));
                terms.swap(at, other);
            }
            2 => terms.insert(self.random.below(terms.len() + 1), "C0".into()),
            _ => {}
        }
        self.inputs.quoted(terms.join(" ").as_bytes())
    }

    /// One thing that a formula may have wrong.
    fn disturb(&mut self, terms: &mut Vec<String>) {
        let (at, other) = (self.random.below(terms.len()), self.random.below(terms.len()));
        let symbol: String = terms[at].chars().filter(char::is_ascii_alphabetic).collect();
        match self.random.below(8) {
            0 => terms.swap(at, other),
            1 => terms.insert(other, self.term(&symbol)),
            2 => terms[at] = symbol + self.random.pick(&BAD_COUNTS),
            3 => terms[at] = terms[at].to_lowercase(),
            4 => terms.insert(self.random.below(terms.len() + 1), String::new()),
            5 => terms.insert(at, self.random.pick(&BAD_SYMBOLS).into()),
            6 => {
                let symbol = self.random.pick(&SYMBOLS);
                terms.push(self.term(symbol));
            }
            _ => *terms = vec![terms.concat()],
        }
    }

    /// An expression of row 12, most often a right one.
    fn threshold(&mut self) -> Vec<u8> {
        let (compared, bounds) = self.random.pick(&THRESHOLDS);
        let (other, other_bounds) = self.random.pick(&THRESHOLDS);
        let bound = self.random.pick(&[bounds, bounds, other_bounds]);
        let bound = 1_000_000 * self.random.pick(&bound);
        let places = self.random.below(PLACES + 1);
        let multiplier = match self.random.below(12) {
            0 => near(bound, places, self.random.pick(&[-1, 1])) % 1_000_000,
            _ => near(bound, places, self.random.pick(&[-1, 0, 0, 1])),
        };
        let multiplier = self.inputs.written(&decimal(multiplier, places));
        let mut text = match self.random.below(16) {
            0 => format!("{compared} > {multiplier}\\s({other})"),
            1 => {
                format!("{compared} > {}{multiplier}\\s({compared})", self.random.pick(&["+", "-"]))
            }
            2 => format!("{compared} > {multiplier}(1)\\s({compared})"),
            3 => format!("{compared}>{multiplier}\\s({compared})"),
            4 => format!("{compared} > 0{multiplier}\\s({compared})"),
            5 => self.random.pick(&["", "?", ".", "I", "F > ", "I > 2"]).into(),
            _ => format!("{compared} > {multiplier}\\s({compared})"),
        }
        .into_bytes();
        if self.random.once_in(6) {
            self.inputs.damage(&mut text);
        }
        if !text.is_empty() && self.random.once_in(12) {
            text
        } else {
            self.inputs.quoted(&text)
        }
    }
}
