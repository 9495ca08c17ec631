//! Fixed lists of sheets: every symbol, every mixture of missing items, and every place next to a
//! bound of rows 1 to 12.

use crate::desks;
use crate::inputs::{decimal, near};
use crate::lists::{numbers_at_bounds, short_texts, OF_NUMBERS, SHORT_MULTIPLIER};
use crate::points::writings;
use crate::sheets::{fits, most_places, weight_bounds, MISSING};
use reference::desk::Desk;
use reference::formula::{self, SYMBOLS, WEIGHTS};
use reference::line::BYTES;
use reference::names::CATEGORIES;
use reference::number::PLACES;
use reference::rows::THRESHOLDS;

/// A desk on whose sheet these items are filled.
fn sheet(filled: &[(usize, &str)]) -> Desk {
    debug_assert!(filled.iter().all(|(item, value)| fits(*item, value.as_bytes())), "{filled:?}");
    desks::holding(filled.iter().copied())
}

/// Sheets of document 01, "Measured examples".
pub fn measured_examples() -> Vec<Desk> {
    let mut sheets = vec![];
    let weights = ["138.8673", "138.8672", "133.2565", "133.2564", "126.243", "126.242", "154.297"];
    for weight in weights.into_iter().chain(["141.27", "141.271"]) {
        sheets.push(sheet(&[(1, "'C10 H20'"), (2, weight)]));
        sheets.push(sheet(&[(1, "'C10 H20'"), (2, weight), (3, "FO")]));
    }
    // One unit about the sums, and a millionth beyond: row 5 tells the sums exactly.
    for (formula, weights) in [
        ("'C18 H19 N7 O8 S'", ["493.451", "492.451", "492.450999", "494.451", "494.451001"]),
        ("'C10 H20'", ["140.27", "139.27", "139.269999", "141.27", "141.270001"]),
    ] {
        sheets.extend(weights.map(|weight| sheet(&[(1, formula), (2, weight), (3, "CO")])));
    }
    sheets
        .extend(["'H Br'", "'Br H'", "'C H H'", "'C10H20'"].map(|formula| sheet(&[(1, formula)])));
    sheets.extend(["0.20", "0.200001", "0.16", "0.3"].map(|number| sheet(&[(4, number)])));
    sheets.extend(["-0.05", "-0.06"].map(|number| sheet(&[(8, number)])));
    sheets.extend(
        ["'F > 6\\s(F)'", "'F^2^ > 6\\s(F^2^)'", "'I > 4.0\\s(I)'"]
            .map(|text| sheet(&[(10, text)])),
    );
    sheets
}

/// Each of items 1 to 10 assigned, empty or unassigned, in every mixture; with two sets of assigned
/// values.
pub fn missing_mixtures() -> impl Iterator<Item = Desk> {
    let sets = [
        ["'C10 H20'", "140.27", "FO", "0.2", "0.3", "0.3", "0.5", "0.1", "-0.3", "'I > 5\\s(I)'"],
        ["'C10 Xx'", "1", "'CI'", "0.05", "0.12", "0.2", "0.4", "0", "0.06", "'I > 5'"],
    ];
    let mixtures = 3_usize.pow(sets[0].len() as u32);
    sets.into_iter().flat_map(move |assigned| {
        (0..mixtures).map(move |mixture| {
            let item = |place: usize| match mixture / 3_usize.pow(place as u32) % 3 {
                0 => assigned[place],
                1 => MISSING[0],
                _ => MISSING[1 + (mixture + place) % 2],
            };
            desks::sheet(std::array::from_fn(
                |place| if place < assigned.len() { item(place) } else { "" },
            ))
        })
    })
}

/// Each capital, alone and before every byte, in formulas with and without C and H.
pub fn symbols() -> impl Iterator<Item = Desk> {
    let seconds = BYTES.filter(|byte| !b"' ".contains(byte)).map(|byte| (byte as char).to_string());
    let seconds: Vec<String> = [String::new()].into_iter().chain(seconds).collect();
    (b'A'..=b'Z').flat_map(move |capital| {
        let symbols: Vec<String> =
            seconds.iter().map(|second| format!("{}{second}", capital as char)).collect();
        symbols.into_iter().enumerate().flat_map(|(place, symbol)| {
            [format!("'{symbol}'"), format!("'C {symbol}'"), format!("'C H {symbol}'")].map(
                |formula| {
                    let category = CATEGORIES[(place + formula.len()) % CATEGORIES.len()];
                    sheet(&[(1, &formula), (2, "50"), (3, category)])
                },
            )
        })
    })
}

/// Each symbol of the table with each category and its own weight, with C and H and alone.
pub fn classes() -> impl Iterator<Item = Desk> {
    SYMBOLS.into_iter().flat_map(|symbol| {
        CATEGORIES.into_iter().flat_map(move |category| {
            [
                symbol.into(),
                format!("'C {symbol}'"),
                format!("'C H {symbol}'"),
                format!("'H {symbol}'"),
            ]
            .map(|formula: String| {
                let text = formula.trim_matches('\'').as_bytes();
                let sum = 1000 * formula::sum(text).unwrap_or(50_000) as i64;
                sheet(&[(1, &formula), (2, &decimal(sum, 3)), (3, category)])
            })
        })
    })
}

/// Every two symbols of the table, one after the other.
pub fn pairs() -> impl Iterator<Item = Desk> {
    SYMBOLS.into_iter().flat_map(|first| {
        SYMBOLS.into_iter().map(move |second| sheet(&[(1, &format!("'{first} {second}'"))]))
    })
}

/// Every count up to beyond the largest, some with zeros before them.
pub fn counts() -> impl Iterator<Item = Desk> {
    (0..=10_100).flat_map(|count| {
        let weight = decimal(1000 * 1008 * count, 2);
        ["", "0"].map(|zero| sheet(&[(1, &format!("H{zero}{count}")), (2, &weight), (3, "FO")]))
    })
}

/// The text of a formula that with its name, a space and quotes is a line of the limit, each count 9999.
pub fn longest_formula() -> String {
    let text = [vec!["Pb9999"; 21], vec!["I9999"; 5]].concat().join(" ");
    debug_assert_eq!(text.len() + 2, desks::longest_value(1));
    text
}

/// As many terms of a symbol, each with the count 9999, as a line takes.
fn most_terms(symbol: &str) -> String {
    let term = format!("{symbol}9999");
    let most = (desks::longest_value(1) - 2 + 1) / (term.len() + 1);
    vec![term; most].join(" ")
}

/// Each weighted symbol and some formulas with weights at and beside each bound, in every number
/// of places.
pub fn weights_at_bounds() -> Vec<Desk> {
    let longer = ["C10 H20", "C18 H19 N7 O8 S", "C H H", "Pb9999 Pb9999 Pb9999", "C9999 H9999"];
    let mut sheets = vec![];
    let symbols = WEIGHTS.map(|(symbol, _)| symbol);
    let texts = symbols.into_iter().chain(longer).map(String::from);
    for text in texts.chain(symbols.map(most_terms)).chain([longest_formula()]) {
        let sum = formula::sum(text.as_bytes()).expect("each symbol has a weight");
        for bound in weight_bounds(sum) {
            for places in 0..=most_places(bound) {
                for units in [-1, 0, 1] {
                    let weight = near(bound, places, units);
                    let sign = if weight < 0 { "-" } else { "" };
                    let category = CATEGORIES[sheets.len() % CATEGORIES.len()];
                    for size in writings(&decimal(weight, places)) {
                        let weight = format!("{sign}{size}");
                        sheets.push(sheet(&[
                            (1, &format!("'{text}'")),
                            (2, &weight),
                            (3, category),
                        ]));
                    }
                }
            }
        }
    }
    sheets
}

/// Numbers at and beside the bounds of rows 6, 8 and 10, under the new, the old and both names.
pub fn numbers() -> impl Iterator<Item = Desk> {
    numbers_at_bounds().into_iter().filter(|text| fits(4, text)).flat_map(|number| {
        let number = String::from_utf8(number).expect("a number is text");
        let new = [(4, &number[..]), (6, &number), (8, &number)];
        let old = [(5, &number[..]), (7, &number), (9, &number)];
        let both = [(4, &number[..]), (5, "9"), (6, "0"), (7, &number), (8, "?"), (9, &number)];
        [sheet(&new), sheet(&old), sheet(&both)]
    })
}

/// Each shape of row 12 with each bound, and one unit beside it in each place, in both quotes.
pub fn thresholds_at_bounds() -> Vec<Desk> {
    let mut sheets = vec![];
    for (compared, _) in THRESHOLDS {
        for bound in THRESHOLDS.into_iter().flat_map(|(_, bounds)| bounds) {
            for places in 0..=PLACES {
                for units in [-1, 0, 1] {
                    let multiplier = decimal(near(1_000_000 * bound, places, units), places);
                    for multiplier in writings(&multiplier) {
                        for (quote, zeros) in [("'", ""), ("\"", ""), ("'", "0")] {
                            let text = format!(
                                "{quote}{compared} > {zeros}{multiplier}\\s({compared}){quote}"
                            );
                            sheets.push(sheet(&[(10, &text)]));
                        }
                    }
                }
            }
        }
    }
    sheets
}

/// Each shape of row 12 with every short text over the bytes of numbers for x.
pub fn short_multipliers() -> impl Iterator<Item = Desk> {
    short_texts(OF_NUMBERS, SHORT_MULTIPLIER).flat_map(|multiplier| {
        let multiplier = String::from_utf8(multiplier).expect("such bytes are text");
        THRESHOLDS.map(|(compared, _)| {
            sheet(&[(10, &format!("'{compared} > {multiplier}\\s({compared})'"))])
        })
    })
}

/// Texts of items 1 and 10 with one byte changed into every other byte, removed or doubled.
pub fn texts_one_byte_off() -> impl Iterator<Item = Desk> {
    let expressions = THRESHOLDS.map(|(compared, _)| format!("{compared} > 6.5\\s({compared})"));
    let formulas = ["C10 H20 Br", "C H3 Na O", "H Br", "Cl2", "C18 H19 N7 O8 S"].map(String::from);
    let texts =
        formulas.map(|text| (1, text)).into_iter().chain(expressions.map(|text| (10, text)));
    texts.flat_map(|(item, text)| {
        (0..text.len()).flat_map(move |at| {
            let (before, here, after) = (&text[..at], &text[at..=at], &text[at + 1..]);
            let bytes = BYTES.filter(|&byte| byte != b'\'');
            let changed = bytes.map(|byte| format!("'{before}{}{after}'", byte as char));
            let others = [format!("'{before}{after}'"), format!("'{before}{here}{here}{after}'")];
            changed
                .chain(others)
                .map(|value| sheet(&[(item, &value), (2, "140.27"), (3, "FO")]))
                .collect::<Vec<_>>()
        })
    })
}
