//! The hydrogen helper: document 02, request No. 13. Quoted sentences are that request's.

use crate::desk::{asked, values, Desk};
use crate::formula::{in_order, sum, term};
use crate::line::ACCEPTED;
use crate::number::number;
use crate::rows::{assigned, order, ratio, symbols, Row, Values, NONE};
use crate::value::text;

/// "22, start not as said"
pub const NO_START: u8 = 22;
/// "23, the helper's, no right count"
pub const NO_RIGHT_COUNT: u8 = 23;
/// "24, the check's, a proposed count that isn't right"
pub const NOT_RIGHT: u8 = 24;
/// "count 0 to 9999"
pub const MOST: u64 = 9999;
/// "text of at most 176 bytes"
pub const LONGEST: usize = 176;

/// What the helper and the check start from: the terms before and after the place of H, and the
/// weight in millionths.
#[derive(Clone, Debug, PartialEq, Eq)]
pub struct Start {
    before: Vec<Vec<u8>>,
    after: Vec<Vec<u8>>,
    weight: i128,
}

impl Start {
    /// "It starts from a formula whose rows 1 and 2 are at 0 and whose symbols all have weights, with a
    /// weight assigned."
    pub fn of(values: &Values) -> Option<Self> {
        let formula = assigned(values, 1).map(text);
        let weight = assigned(values, 2).and_then(number).map(i128::from)?;
        if !is_none(symbols(formula)) || !is_none(order(formula)) {
            return None;
        }
        let formula = formula.filter(|formula| sum(formula).is_some())?;
        let mut terms: Vec<Vec<u8>> = formula.split(|&byte| byte == b' ').map(Vec::from).collect();
        terms.retain(|text| term(text).is_none_or(|term| term.symbol != b"H"));
        let place = (0..=terms.len()).find(|&place| {
            let mut with = terms.clone();
            with.insert(place, b"H".to_vec());
            in_order(&with.join(&b' '))
        });
        let after = terms.split_off(place?);
        Some(Start { before: terms, after, weight })
    }

    /// The text with a count: "0 drops the term, 1 is written H", "all other terms kept in order".
    pub fn text(&self, count: u64) -> Vec<u8> {
        let hydrogen = match count {
            0 => None,
            1 => Some(b"H".to_vec()),
            _ => Some(format!("H{count}").into_bytes()),
        };
        let terms = self.before.iter().chain(&hydrogen).chain(&self.after);
        terms.map(Vec::as_slice).collect::<Vec<_>>().join(&b' ')
    }

    /// "Right means: count 0 to 9999 .., text of at most 176 bytes, and rows 1, 2 and 4 at level 0 for the
    /// given weight."
    pub fn is_right(&self, count: u64) -> bool {
        let text = self.text(count);
        count <= MOST
            && text.len() <= LONGEST
            && is_none(ratio(Some(&text), Some(self.weight)))
            && is_none(symbols(Some(&text)))
            && is_none(order(Some(&text)))
    }

    /// "none exactly if no count is right, and otherwise .. the smallest right one", by trying each.
    pub fn smallest(&self) -> Option<u64> {
        (0..=MOST).find(|&count| self.is_right(count))
    }
}

fn is_none(row: Row) -> bool {
    row.level == NONE
}

/// "Refusals, after 12 and 2 as for questions: 22, start not as said"
fn started(desk: &Desk, sheet: u64) -> Result<Start, u8> {
    Start::of(&values(asked(desk, sheet)?)).ok_or(NO_START)
}

/// "a refusal's count is 0"
fn answered(count: Result<u64, u8>) -> (u8, u64) {
    count.map_or_else(|refusal| (refusal, 0), |count| (ACCEPTED, count))
}

/// The helper: answer and count.
pub fn propose(desk: &Desk, sheet: u64) -> (u8, u64) {
    answered(started(desk, sheet).and_then(|start| start.smallest().ok_or(NO_RIGHT_COUNT)))
}

/// The check, of any proposed count.
pub fn check(desk: &Desk, sheet: u64, count: u64) -> (u8, u64) {
    let right = |start: Start| start.is_right(count).then_some(count).ok_or(NOT_RIGHT);
    answered(started(desk, sheet).and_then(right))
}

#[cfg(test)]
mod tests {
    use super::*;
    use crate::desk::{Item, FRESH, NOT_SOUND, NO_SUCH_SHEET};
    use crate::formula::WEIGHTS;
    use crate::names::ITEMS;

    fn start(formula: &str, weight: &str) -> Option<Start> {
        let mut values: Values = [b""; ITEMS.len()];
        (values[0], values[1]) = (formula.as_bytes(), weight.as_bytes());
        Start::of(&values)
    }

    fn smallest(formula: &str, weight: &str) -> Option<u64> {
        start(formula, weight).expect("a start").smallest()
    }

    fn desk(formula: &str, weight: &str) -> Desk {
        let mut desk = FRESH;
        desk.sheets[0].count = 2;
        for (item, value) in [formula, weight].into_iter().enumerate() {
            if !value.is_empty() {
                desk.sheets[0].items[item] = Item::holding(value.as_bytes(), 1, 0, 1);
            }
        }
        desk
    }

    #[test]
    fn starts() {
        for formula in ["'C10 H20'", "C10", "H", "'Br H'", "'C O2'", "\"C H Pb\"", "'Al Cl3'"] {
            assert!(start(formula, "1").is_some(), "{formula}");
            for weight in ["", "?", "."] {
                assert_eq!(start(formula, weight), None, "{formula}");
            }
        }
        for formula in [
            "", "?", ".", "''", "'?'", "'C10H20'", "'H C'", "'H Br'", "'C H H'", "'C D'", "'C He'",
            "'C H Li'", "'C  H'", "Xx", "'C H U'",
        ] {
            assert_eq!(start(formula, "100"), None, "{formula}");
        }
    }

    #[test]
    fn texts() {
        for (formula, none, one, many) in [
            ("'C10 H20 O'", "C10 O", "C10 H O", "C10 H22 O"),
            ("'C10 O'", "C10 O", "C10 H O", "C10 H22 O"),
            ("'C10 H20'", "C10", "C10 H", "C10 H22"),
            ("C10", "C10", "C10 H", "C10 H22"),
            ("'Br H'", "Br", "Br H", "Br H22"),
            ("'Br Na'", "Br Na", "Br H Na", "Br H22 Na"),
            ("'Na O'", "Na O", "H Na O", "H22 Na O"),
            ("H3", "", "H", "H22"),
            ("'Ca F2'", "Ca F2", "Ca F2 H", "Ca F2 H22"),
        ] {
            let start = start(formula, "1").expect("a start");
            let texts = [0, 1, 22].map(|count| start.text(count));
            assert_eq!(texts, [none, one, many].map(|text| text.as_bytes().to_vec()), "{formula}");
        }
    }

    /// C10 weighs 120.11 and C10 H22 142.286.
    #[test]
    fn the_smallest_count() {
        for (formula, weight, count) in [
            ("'C10 H20'", "142.286", Some(21)),
            ("'C10 H22'", "142.286", Some(21)),
            ("C10", "142.286", Some(21)),
            ("'C10 H20'", "140.27", Some(19)),
            ("'C10 H20'", "120.11", Some(0)),
            ("'C10 H20'", "118.9089", Some(0)),
            ("'C10 H20'", "118.9088", None),
            ("'C10 H20'", "-1", None),
            ("'C10 H20'", "0", None),
            ("'Br H'", "80.912", Some(1)),
            ("'Br H'", "80.703", Some(0)),
            ("H", "1.008", Some(1)),
            ("H", "0.5", None),
            ("H2", "0", None),
            ("H", "1.5", None),
            ("H", "10078.992", Some(9900)),
            ("H", "10179.7819", Some(9999)),
            ("H", "10179.782", None),
        ] {
            assert_eq!(smallest(formula, weight), count, "{formula} {weight}");
        }
    }

    #[test]
    fn the_range_of_right_counts() {
        let start = start("'C10 H20'", "142.286").expect("a start");
        let right: Vec<u64> = (0..=12_000).filter(|&count| start.is_right(count)).collect();
        assert_eq!(right, [21, 22, 23]);
        for count in [10_021, 1 << 32 | 22, 256 + 22, 65_536 + 22, u64::MAX] {
            assert!(!start.is_right(count));
        }
    }

    /// No symbol stands twice and each has a weight: the limit of 176 bytes is never met.
    #[test]
    fn the_longest_text() {
        let mut others: Vec<&str> = WEIGHTS.iter().map(|(symbol, _)| *symbol).collect();
        others.retain(|symbol| !["C", "H"].contains(symbol));
        others.sort();
        let terms = ["C", "H"].into_iter().chain(others).map(|symbol| format!("{symbol}9999"));
        let formula = format!("'{}'", terms.collect::<Vec<_>>().join(" "));
        let weight = sum(formula.trim_matches('\'').as_bytes()).expect("weights") / 1000;
        let start = start(&formula, &weight.to_string()).expect("a start");
        assert!(start.is_right(9999));
        assert_eq!(start.text(9999).len(), 164);
    }

    #[test]
    fn refusals() {
        let right = desk("'C10 H20'", "142.286");
        assert_eq!(propose(&right, 0), (ACCEPTED, 21));
        assert_eq!(check(&right, 0, 22), (ACCEPTED, 22));
        assert_eq!(check(&right, 0, 24), (NOT_RIGHT, 0));
        assert_eq!(check(&right, 0, u64::MAX), (NOT_RIGHT, 0));
        // The other camp's sheet is empty.
        assert_eq!((propose(&right, 1), check(&right, 1, 22)), ((NO_START, 0), (NO_START, 0)));
        for sheet in [2, 256, u64::MAX] {
            let none = (NO_SUCH_SHEET, 0);
            assert_eq!((propose(&right, sheet), check(&right, sheet, 22)), (none, none));
        }
        let heavy = desk("'C10 H20'", "99999");
        assert_eq!((propose(&heavy, 0), check(&heavy, 0, 9999)), ((23, 0), (24, 0)));
        let mut unsound = right;
        unsound.lines[3].len = 201;
        let none = (NOT_SOUND, 0);
        assert_eq!((propose(&unsound, 1), check(&unsound, 0, 22)), (none, none));
        assert_eq!(propose(&unsound, 2), (NO_SUCH_SHEET, 0));
    }
}
