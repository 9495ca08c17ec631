//! Formulas: document 01, "The twelve rows", its terms, symbols and weights.

use std::collections::BTreeMap;

/// "a count 1 to 9999 without leading zero": so many digits.
pub const COUNT_DIGITS: usize = 4;

/// "the 118 of the IUPAC periodic table", by atomic number.
pub const SYMBOLS: [&str; 118] = [
    "H", "He", "Li", "Be", "B", "C", "N", "O", "F", "Ne", "Na", "Mg", "Al", "Si", "P", "S", "Cl",
    "Ar", "K", "Ca", "Sc", "Ti", "V", "Cr", "Mn", "Fe", "Co", "Ni", "Cu", "Zn", "Ga", "Ge", "As",
    "Se", "Br", "Kr", "Rb", "Sr", "Y", "Zr", "Nb", "Mo", "Tc", "Ru", "Rh", "Pd", "Ag", "Cd", "In",
    "Sn", "Sb", "Te", "I", "Xe", "Cs", "Ba", "La", "Ce", "Pr", "Nd", "Pm", "Sm", "Eu", "Gd", "Tb",
    "Dy", "Ho", "Er", "Tm", "Yb", "Lu", "Hf", "Ta", "W", "Re", "Os", "Ir", "Pt", "Au", "Hg", "Tl",
    "Pb", "Bi", "Po", "At", "Rn", "Fr", "Ra", "Ac", "Th", "Pa", "U", "Np", "Pu", "Am", "Cm", "Bk",
    "Cf", "Es", "Fm", "Md", "No", "Lr", "Rf", "Db", "Sg", "Bh", "Hs", "Mt", "Ds", "Rg", "Cn", "Nh",
    "Fl", "Mc", "Lv", "Ts", "Og",
];

/// "House: not metals are"
pub const NOT_METALS: [&str; 25] = [
    "H", "He", "B", "C", "N", "O", "F", "Ne", "Si", "P", "S", "Cl", "Ar", "Ge", "As", "Se", "Br",
    "Kr", "Te", "I", "Xe", "At", "Rn", "Ts", "Og",
];

/// "Weights in thousandths". "Other symbols have none."
pub const WEIGHTS: [(&str, i128); 25] = [
    ("H", 1_008),
    ("B", 10_810),
    ("C", 12_011),
    ("N", 14_007),
    ("O", 15_999),
    ("F", 18_998),
    ("Na", 22_990),
    ("Mg", 24_305),
    ("Al", 26_982),
    ("Si", 28_085),
    ("P", 30_974),
    ("S", 32_060),
    ("Cl", 35_450),
    ("K", 39_098),
    ("Ca", 40_078),
    ("Mn", 54_938),
    ("Fe", 55_845),
    ("Co", 58_933),
    ("Ni", 58_693),
    ("Cu", 63_546),
    ("Zn", 65_380),
    ("Br", 79_904),
    ("Ag", 107_870),
    ("I", 126_900),
    ("Pb", 207_200),
];

/// A well-formed term.
#[derive(Clone, Copy, Debug, PartialEq, Eq)]
pub struct Term<'a> {
    pub symbol: &'a [u8],
    pub count: i128,
}

/// Each element's total, by symbol.
pub type Totals<'a> = BTreeMap<&'a [u8], u64>;

/// What a formula's elements make it.
#[derive(Clone, Copy, Debug, PartialEq, Eq)]
pub enum Class {
    Inorganic,
    MetalOrganic,
    Organic,
}

/// "A formula's text is cut at every single space." None stands for an ill-formed term.
pub fn terms(text: &[u8]) -> impl Iterator<Item = Option<Term<'_>>> {
    text.split(|&byte| byte == b' ').map(term)
}

/// "a capital, optionally one small letter, optionally a count"
pub fn term(text: &[u8]) -> Option<Term<'_>> {
    let letters = match text {
        [b'A'..=b'Z', b'a'..=b'z', ..] => 2,
        [b'A'..=b'Z', ..] => 1,
        _ => return None,
    };
    let (symbol, count) = text.split_at(letters);
    Some(Term { symbol, count: term_count(count)? })
}

/// "none means 1"
fn term_count(digits: &[u8]) -> Option<i128> {
    match digits {
        [] => Some(1),
        [b'0', ..] => None,
        _ if digits.len() > COUNT_DIGITS || !digits.iter().all(u8::is_ascii_digit) => None,
        _ => Some(digits.iter().fold(0, |count, digit| 10 * count + i128::from(digit - b'0'))),
    }
}

/// The symbols of well-formed terms, recognised or not.
pub fn symbols(text: &[u8]) -> impl Iterator<Item = &[u8]> {
    terms(text).flatten().map(|term| term.symbol)
}

/// No term is "ill formed or not recognised".
pub fn all_recognised(text: &[u8]) -> bool {
    terms(text).all(|term| term.is_some_and(|term| is_recognised(term.symbol)))
}

/// "Recognised symbols are the 118 of the IUPAC periodic table."
pub fn is_recognised(symbol: &[u8]) -> bool {
    is_among(&SYMBOLS, symbol)
}

/// Each element's total over the well-formed terms.
pub fn totals(text: &[u8]) -> Totals<'_> {
    let mut totals = Totals::new();
    for Term { symbol, count } in terms(text).flatten() {
        *totals.entry(symbol).or_default() += count as u64;
    }
    totals
}

/// "C first, then H, then the others in rising ASCII order, none twice" with C among the symbols;
/// "without C plain rising ASCII order, none twice there either" (document 02, No. 2).
pub fn in_order(text: &[u8]) -> bool {
    if symbols(text).any(|symbol| symbol == b"C") {
        symbols(text).is_sorted_by(|&before, &after| (rank(before), before) < (rank(after), after))
    } else {
        symbols(text).is_sorted_by(|before, after| before < after)
    }
}

fn rank(symbol: &[u8]) -> u8 {
    match symbol {
        b"C" => 0,
        b"H" => 1,
        _ => 2,
    }
}

/// "no C, or C without H, is inorganic; C, H and a metal is metal-organic; C, H and no metal is
/// organic"
pub fn class(text: &[u8]) -> Class {
    let has = |wanted: &[u8]| symbols(text).any(|symbol| symbol == wanted);
    let metal = symbols(text).any(|symbol| !is_among(&NOT_METALS, symbol));
    match has(b"C") && has(b"H") {
        false => Class::Inorganic,
        true if metal => Class::MetalOrganic,
        true => Class::Organic,
    }
}

/// The sum of weights in thousandths; none with an ill-formed term or a symbol without a weight.
pub fn sum(text: &[u8]) -> Option<i128> {
    terms(text).try_fold(0, |sum, term| {
        let Term { symbol, count } = term?;
        let (_, weight) = WEIGHTS.iter().find(|(known, _)| known.as_bytes() == symbol)?;
        Some(sum + count * weight)
    })
}

fn is_among(known: &[&str], symbol: &[u8]) -> bool {
    known.iter().any(|known| known.as_bytes() == symbol)
}

#[cfg(test)]
mod tests {
    use super::*;

    #[test]
    fn tables() {
        let all: Vec<&[u8]> = SYMBOLS.iter().map(|symbol| symbol.as_bytes()).collect();
        for (place, symbol) in all.iter().enumerate() {
            assert!(!all[..place].contains(symbol), "{} stands twice", SYMBOLS[place]);
            assert_eq!(term(symbol), Some(Term { symbol, count: 1 }));
        }
        assert!(NOT_METALS.iter().all(|symbol| SYMBOLS.contains(symbol)));
        assert!(WEIGHTS.iter().all(|(symbol, _)| SYMBOLS.contains(symbol)));
    }

    #[test]
    fn well_formed_terms() {
        for (text, symbol, count) in [
            ("C", "C", 1),
            ("C1", "C", 1),
            ("C18", "C", 18),
            ("Br2", "Br", 2),
            ("Xx9999", "Xx", 9999),
            ("D10", "D", 10),
        ] {
            let expected = Term { symbol: symbol.as_bytes(), count };
            assert_eq!(term(text.as_bytes()), Some(expected), "{text}");
        }
    }

    #[test]
    fn ill_formed_terms() {
        for text in [
            "",
            "c",
            "cL",
            "CL",
            "C0",
            "C01",
            "C10000",
            "C10H20",
            "Cl2-",
            "Uuo",
            "2C",
            "C1.5",
            "C-1",
            "C2+",
            "C99999999999999999999999999999999999999999999",
            "(",
            "?",
        ] {
            assert_eq!(term(text.as_bytes()), None, "{text}");
        }
    }

    #[test]
    fn recognised() {
        for text in ["C10 H20", "Og", "Ts2", "C18 H19 N7 O8 S", "C H H"] {
            assert!(all_recognised(text.as_bytes()), "{text}");
        }
        for text in ["", "C10H20", "C10  H20", " C", "C ", "D2 O", "Xx", "C h", "'?'"] {
            assert!(!all_recognised(text.as_bytes()), "{text}");
        }
    }

    #[test]
    fn order() {
        for text in ["", "C H", "C H Ag Br", "C Br", "C", "Al Br", "N O", "C x H", "C H D"] {
            assert!(in_order(text.as_bytes()), "{text}");
        }
        for text in ["C H H", "H C", "C Br H", "C H O N", "C H B Al", "C10 C", "Cl C", "C D H"] {
            assert!(!in_order(text.as_bytes()), "{text}");
        }
    }

    #[test]
    fn order_without_carbon() {
        for text in ["Br H", "H", "D H", "H H1x O", "Al H Na", "C0 Br H", "Cl H", "Ca H"] {
            assert!(in_order(text.as_bytes()), "{text}");
        }
        for text in ["H Br", "H H", "Br Br H", "Br C", "H Al", "C0 H Br", "H Cl", "O H2 O"] {
            assert!(!in_order(text.as_bytes()), "{text}");
        }
    }

    #[test]
    fn classes() {
        use Class::*;
        for (text, expected) in [
            ("H Br", Inorganic),
            ("C O2", Inorganic),
            ("Na2 O", Inorganic),
            ("C Na2 O3", Inorganic),
            ("C10 H20", Organic),
            ("C H Si", Organic),
            ("C H Te Ts", Organic),
            ("C H Po", MetalOrganic),
            ("C H Sb", MetalOrganic),
            ("C10 H10 Fe", MetalOrganic),
        ] {
            assert_eq!(class(text.as_bytes()), expected, "{text}");
        }
    }

    /// A formula that fills a line of 200: name, space, quotes and 176 bytes of terms.
    #[test]
    fn the_longest_formulas_are_summed_exactly() {
        for (symbol, weight) in WEIGHTS {
            let count = 177 / (symbol.len() + 5);
            let text = vec![format!("{symbol}9999"); count].join(" ");
            assert!(text.len() <= 176 && text.len() + symbol.len() + 5 > 176, "{symbol}");
            let expected = count as u128 * 9_999 * weight as u128;
            assert_eq!(sum(text.as_bytes()), Some(expected as i128), "{symbol}");
        }
        let text = [vec!["Pb9999"; 21], vec!["I9999"; 5]].concat().join(" ");
        assert_eq!(text.len(), 176);
        assert_eq!(sum(text.as_bytes()), Some(9_999 * (21 * 207_200 + 5 * 126_900)));
        assert_eq!(sum(text.as_bytes()), Some(49_852_014_300));
    }

    #[test]
    fn sums() {
        for (text, expected) in [
            ("C18 H19 N7 O8 S", Some(493_451)),
            ("C10 H20", Some(140_270)),
            ("C H H", Some(14_027)),
            ("Pb9999", Some(2_071_792_800)),
            ("C H Li", None),
            ("C D", None),
            ("C10H20", None),
            ("", None),
        ] {
            assert_eq!(sum(text.as_bytes()), expected, "{text}");
        }
    }
}
