//! The rows of a sheet: document 01, "The twelve rows", and the last one by document 02, request
//! No. 12; those between are `powder`'s.

use crate::formula::{all_recognised, class, in_order, sum, totals, Class};
use crate::grade::{grade, LEVELS};
use crate::moiety;
use crate::names::ITEMS;
use crate::number::number;
use crate::powder::{self, Profile};
use crate::value::{form, text, Form};

/// How many rows a report has, and how many of them document 01 has.
pub const ROWS: usize = 25;
pub const FIRST_TWELVE: usize = 12;

/// The rows' names in turn.
pub const NAMES: [&str; ROWS] = [
    "CHEMS_01s",
    "CHEMS_01o",
    "CHEMS_02",
    "CHEMW_01r",
    "CHEMW_01d",
    "RFACG_01",
    "RFACG_01g",
    "RFACR_01",
    "RFACR_01g",
    "SHFSU_01",
    "SHFSU_01g",
    "REFLE_01",
    "R13",
    "R14",
    "R15",
    "R16",
    "R17",
    "R18",
    "R19",
    "R20",
    "R21",
    "R22",
    "R23",
    "R24",
    "R25",
];

/// "Level 0 none, 1 General, 2 C, 3 B, 4 A."
pub const NONE: u8 = 0;
pub const GENERAL: u8 = 1;
pub const C: u8 = 2;
pub const B: u8 = 3;
pub const A: u8 = 4;

/// "Reason 0 judged, 1 an item missing, 2 not judgeable."
pub const JUDGED: u8 = 0;
pub const MISSING: u8 = 1;
pub const NOT_JUDGEABLE: u8 = 2;

/// One row of a report.
#[derive(Clone, Copy, Debug, Default, PartialEq, Eq)]
pub struct Row {
    pub level: u8,
    pub reason: u8,
}

/// The values of all items in turn, as typed; an empty item is an empty run. Filled ones have
/// the form of a value and pass their item's kind.
pub type Values<'a> = [&'a [u8]; ITEMS.len()];

/// RW's bounds in hundredths, each with the level of what is below or above them.
pub const RATIO_BOUNDS: [(i128, i128, u8); 3] = [(90, 110, A), (95, 105, B), (99, 101, C)];
/// "|given − sum| above 1.0", in millionths.
pub const DIFFERENCE_BOUND: i128 = 1_000_000;
/// What an expression of row 12 compares, and its bounds for A, B and C in whole numbers.
pub const THRESHOLDS: [(&str, [i64; 3]); 3] =
    [("I", [6, 5, 4]), ("F^2^", [6, 5, 4]), ("F", [12, 10, 8])];

/// All rows, under a profile.
pub fn rows(values: &Values, profile: Profile) -> [Row; ROWS] {
    let mut rows = [Row::default(); ROWS];
    rows[..FIRST_TWELVE].copy_from_slice(&first_twelve(values));
    rows[FIRST_TWELVE..ROWS - 1].copy_from_slice(&powder::rows(values, profile));
    rows[ROWS - 1] = moieties(assigned(values, 1).map(text), assigned(values, 19).map(text));
    rows
}

/// Rows 1 to 12.
fn first_twelve(values: &Values) -> [Row; FIRST_TWELVE] {
    let formula = assigned(values, 1).map(text);
    let weight = assigned(values, 2).and_then(number).map(i128::from);
    let category = assigned(values, 3).map(text);
    [
        symbols(formula),
        order(formula),
        category_fits(formula, category),
        ratio(formula, weight),
        difference(formula, weight, category),
        graded(values, 6, 4, 5),
        old_name(values, 5),
        graded(values, 8, 6, 7),
        old_name(values, 7),
        graded(values, 10, 8, 9),
        old_name(values, 9),
        threshold(assigned(values, 10).map(text)),
    ]
}

/// "'Missing' is empty or unassigned."
pub fn assigned<'a>(values: &Values<'a>, item: usize) -> Option<&'a [u8]> {
    let value = values[item - 1];
    (!value.is_empty() && form(value) != Some(Form::Unassigned)).then_some(value)
}

pub fn judged(level: u8) -> Row {
    Row { level, reason: JUDGED }
}

pub fn missing(level: u8) -> Row {
    Row { level, reason: MISSING }
}

fn not_judgeable(level: u8) -> Row {
    Row { level, reason: NOT_JUDGEABLE }
}

/// Row 1.
pub fn symbols(formula: Option<&[u8]>) -> Row {
    match formula {
        None => missing(C),
        Some(formula) => judged(if all_recognised(formula) { NONE } else { A }),
    }
}

/// Row 2.
pub fn order(formula: Option<&[u8]>) -> Row {
    match formula {
        None => missing(C),
        Some(formula) => judged(if in_order(formula) { NONE } else { B }),
    }
}

/// Row 3.
fn category_fits(formula: Option<&[u8]>, category: Option<&[u8]>) -> Row {
    let (Some(formula), Some(category)) = (formula, category) else {
        return missing(GENERAL);
    };
    if !all_recognised(formula) {
        return not_judgeable(GENERAL);
    }
    let fitting = match class(formula) {
        Class::Inorganic => ["FI", "CI"],
        Class::MetalOrganic => ["FM", "CM"],
        Class::Organic => ["FO", "CO"],
    };
    let fits = fitting.iter().any(|known| known.as_bytes() == category);
    judged(if fits { NONE } else { GENERAL })
}

/// Row 4: RW against a bound is the weight in millionths against the bound times the sum in
/// thousandths, both sides multiplied until they are whole.
pub fn ratio(formula: Option<&[u8]>, weight: Option<i128>) -> Row {
    let (Some(formula), Some(weight)) = (formula, weight) else {
        return missing(C);
    };
    let Some(sum) = sum(formula) else {
        return not_judgeable(C);
    };
    let (given, sum) = (100 * weight, 1000 * sum);
    let outside = |&(low, high, _): &(i128, i128, u8)| given < low * sum || given > high * sum;
    judged(RATIO_BOUNDS.into_iter().find(outside).map_or(NONE, |(_, _, level)| level))
}

/// Row 5.
fn difference(formula: Option<&[u8]>, weight: Option<i128>, category: Option<&[u8]>) -> Row {
    let (Some(formula), Some(weight), Some(category)) = (formula, weight, category) else {
        return missing(NONE);
    };
    let Some(sum) = sum(formula) else {
        return not_judgeable(NONE);
    };
    let far = (weight - 1000 * sum).abs() > DIFFERENCE_BOUND;
    let organic = matches!(category, b"FO" | b"FM" | b"CO" | b"CM");
    judged(if far && organic { C } else { NONE })
}

/// Rows 6, 8 and 10: "the new name is judged if assigned, otherwise the old one".
fn graded(values: &Values, row: u64, new: usize, old: usize) -> Row {
    match assigned(values, new).or_else(|| assigned(values, old)) {
        None => missing(C),
        Some(value) => judged(grade(row, value).1),
    }
}

/// Rows 7, 9 and 11: "General if item .. is assigned".
fn old_name(values: &Values, item: usize) -> Row {
    judged(if assigned(values, item).is_some() { GENERAL } else { NONE })
}

/// Row 12.
fn threshold(expression: Option<&[u8]>) -> Row {
    let Some(expression) = expression else {
        return missing(C);
    };
    let Some((multiplier, bounds)) = read_threshold(expression) else {
        return not_judgeable(C);
    };
    let reached = |&(bound, _): &(i64, u8)| multiplier >= 1_000_000 * bound;
    judged(bounds.into_iter().zip(LEVELS).find(reached).map_or(NONE, |(_, level)| level))
}

/// Row 25: "B when some element's total differs from the one in item 1, C with reason 2 when either
/// can't be read (for item 1: row 1 at A), and, tested first, level 0 with reason 1 when either is
/// missing".
fn moieties(formula: Option<&[u8]>, moieties: Option<&[u8]>) -> Row {
    let (Some(formula), Some(moieties)) = (formula, moieties) else {
        return missing(NONE);
    };
    let Some(moieties) = moiety::read(moieties).filter(|_| all_recognised(formula)) else {
        return not_judgeable(C);
    };
    judged(if moiety::totals(&moieties) == totals(formula) { NONE } else { B })
}

/// x in millionths, and the bounds of what stands before it: "`I > x\s(I)`, `F^2^ > x\s(F^2^)` or
/// `F > x\s(F)`, x a number without sign or uncertainty".
fn read_threshold(expression: &[u8]) -> Option<(i64, [i64; 3])> {
    THRESHOLDS.into_iter().find_map(|(compared, bounds)| {
        let after = expression.strip_prefix(compared.as_bytes())?.strip_prefix(b" > ")?;
        let before = after.strip_suffix(b")")?.strip_suffix(compared.as_bytes())?;
        let multiplier = before.strip_suffix(b"\\s(")?;
        let plain = multiplier.iter().all(|byte| byte.is_ascii_digit() || *byte == b'.');
        Some((number(multiplier).filter(|_| plain)?, bounds))
    })
}

#[cfg(test)]
mod tests {
    use super::*;

    /// Rows 1 to 12, which are the same under both profiles.
    fn rows(values: &Values) -> [Row; FIRST_TWELVE] {
        let [crystal, powder] =
            [Profile::SingleCrystal, Profile::Powder].map(|profile| super::rows(values, profile));
        assert_eq!(crystal[..FIRST_TWELVE], powder[..FIRST_TWELVE]);
        std::array::from_fn(|place| crystal[place])
    }

    /// The rows of a sheet whose items with a number are filled.
    fn sheet(filled: &[(usize, &str)]) -> [Row; FIRST_TWELVE] {
        let mut values: Values = [b""; ITEMS.len()];
        for (item, value) in filled {
            values[item - 1] = value.as_bytes();
        }
        rows(&values)
    }

    /// One row of such a sheet, as (level, reason).
    fn row(number: usize, filled: &[(usize, &str)]) -> (u8, u8) {
        let Row { level, reason } = sheet(filled)[number - 1];
        (level, reason)
    }

    #[test]
    fn weights_of_the_measured_examples() {
        for (weight, level) in [
            ("138.8673", NONE),
            ("138.8672", C),
            ("133.2565", C),
            ("133.2564", B),
            ("126.243", B),
            ("126.242", A),
            ("154.297", B),
            ("154.2971", A),
        ] {
            assert_eq!(row(4, &[(1, "'C10 H20'"), (2, weight)]), (level, JUDGED), "{weight}");
        }
        for (weight, level) in [("141.27", NONE), ("141.271", C), ("139.27", NONE), ("139.269", C)]
        {
            let filled = [(1, "'C10 H20'"), (2, weight), (3, "FO")];
            assert_eq!(row(4, &filled), (NONE, JUDGED), "{weight}");
            assert_eq!(row(5, &filled), (level, JUDGED), "{weight}");
        }
    }

    /// Of a line of 200 bytes, whose sum is 49,852,014.3.
    #[test]
    fn weights_of_the_longest_formula() {
        let terms = [vec!["Pb9999"; 21], vec!["I9999"; 5]].concat().join(" ");
        let formula = format!("'{terms}'");
        assert_eq!(ITEMS[0].0.len() + 1 + formula.len(), crate::line::LIMIT);
        for (weight, ratio, difference) in [
            ("49852014.3", NONE, NONE),
            ("49852015.3", NONE, NONE),
            ("49852015.4", NONE, C),
            ("49852013.3", NONE, NONE),
            ("49852013.2", NONE, C),
            ("49353494.2", NONE, C),
            ("49353494.1", C, C),
            ("50350534.4", NONE, C),
            ("50350534.5", C, C),
            ("44866812.8", A, C),
            ("44866812.9", B, C),
        ] {
            let filled = [(1, &formula[..]), (2, weight), (3, "FM")];
            assert_eq!(row(4, &filled), (ratio, JUDGED), "{weight}");
            assert_eq!(row(5, &filled), (difference, JUDGED), "{weight}");
        }
    }

    #[test]
    fn formulas_of_the_measured_examples() {
        for (formula, number, level) in [
            ("'H Br'", 2, B),
            ("'Br H'", 2, NONE),
            ("'C H H'", 2, B),
            ("'C10H20'", 1, A),
            ("'C10 H20'", 1, NONE),
        ] {
            assert_eq!(row(number, &[(1, formula)]), (level, JUDGED), "{formula}");
        }
    }

    #[test]
    fn thresholds() {
        for (expression, level) in [
            ("'F > 6\\s(F)'", NONE),
            ("'F^2^ > 6\\s(F^2^)'", A),
            ("'I > 4.0\\s(I)'", C),
            ("'I > 3.999999\\s(I)'", NONE),
            ("\"I > 5\\s(I)\"", B),
            ("'I > 006\\s(I)'", A),
            ("'F > 8\\s(F)'", C),
            ("'F > 10\\s(F)'", B),
            ("'F > 11.99999\\s(F)'", B),
            ("'F > 12\\s(F)'", A),
            ("'F^2^ > 2\\s(F^2^)'", NONE),
            ("'I > 4.\\s(I)'", C),
            ("'I > 3.\\s(I)'", NONE),
            ("'F > .5\\s(F)'", NONE),
            ("'F > 12.\\s(F)'", A),
            ("'F^2^ > 5.\\s(F^2^)'", B),
            ("'F^2^ > .999999\\s(F^2^)'", NONE),
        ] {
            assert_eq!(row(12, &[(10, expression)]), (level, JUDGED), "{expression}");
        }
        for expression in [
            "''",
            "'?'",
            "I>2\\s(I)",
            "'I > 2\\s(F)'",
            "'F > 2\\s(F^2^)'",
            "'F^2^ > 2\\s(F)'",
            "'I > +2\\s(I)'",
            "'I > -2\\s(I)'",
            "'I > 2(1)\\s(I)'",
            "'I > \\s(I)'",
            "'I > .\\s(I)'",
            "'I > -.5\\s(I)'",
            "'I > 5.(1)\\s(I)'",
            "'I > 4..\\s(I)'",
            "'I > .1234567\\s(I)'",
            "'I > 1234567890.\\s(I)'",
            "'I >  2\\s(I)'",
            "'I > 2 \\s(I)'",
            "' I > 2\\s(I)'",
            "'I > 2\\s(I) '",
            "'I > 2\\S(I)'",
            "'i > 2\\s(i)'",
            "'I > 1234567890\\s(I)'",
            "\"'I > 2\\s(I)'\"",
        ] {
            assert_eq!(row(12, &[(10, expression)]), (C, NOT_JUDGEABLE), "{expression}");
        }
    }

    #[test]
    fn an_empty_sheet_and_an_unassigned_one() {
        let expected = [
            (C, MISSING),
            (C, MISSING),
            (GENERAL, MISSING),
            (C, MISSING),
            (NONE, MISSING),
            (C, MISSING),
            (NONE, JUDGED),
            (C, MISSING),
            (NONE, JUDGED),
            (C, MISSING),
            (NONE, JUDGED),
            (C, MISSING),
        ]
        .map(|(level, reason)| Row { level, reason });
        assert_eq!(sheet(&[]), expected);
        assert_eq!(rows(&[b"?"; ITEMS.len()]), expected);
        assert_eq!(rows(&[b"."; ITEMS.len()]), expected);
    }

    #[test]
    fn categories() {
        for (formula, category, level) in [
            ("'C10 H20'", "FO", NONE),
            ("'C10 H20'", "'CO'", NONE),
            ("'C10 H20'", "FI", GENERAL),
            ("'C10 H20'", "FM", GENERAL),
            ("'C10 H10 Fe'", "\"CM\"", NONE),
            ("'C10 H10 Fe'", "CO", GENERAL),
            ("'H Br'", "CI", NONE),
            ("'H Br'", "FO", GENERAL),
            ("'C H Li'", "FM", NONE),
        ] {
            let filled = [(1, formula), (3, category)];
            assert_eq!(row(3, &filled), (level, JUDGED), "{formula} {category}");
        }
        assert_eq!(row(3, &[(1, "Xx"), (3, "FO")]), (GENERAL, NOT_JUDGEABLE));
        assert_eq!(row(3, &[(1, "Xx"), (3, "?")]), (GENERAL, MISSING));
        assert_eq!(row(3, &[(3, "FO")]), (GENERAL, MISSING));
    }

    #[test]
    fn missing_before_not_judgeable() {
        for (filled, ratio, difference) in [
            (&[(1, "Xx")][..], (C, MISSING), (NONE, MISSING)),
            (&[(1, "Xx"), (2, "1")], (C, NOT_JUDGEABLE), (NONE, MISSING)),
            (&[(1, "Xx"), (2, "1"), (3, "FI")], (C, NOT_JUDGEABLE), (NONE, NOT_JUDGEABLE)),
            (&[(1, "Li"), (2, "6.94"), (3, "FO")], (C, NOT_JUDGEABLE), (NONE, NOT_JUDGEABLE)),
            (&[(1, "'C Xx'"), (2, "."), (3, "FO")], (C, MISSING), (NONE, MISSING)),
        ] {
            assert_eq!(row(4, filled), ratio, "{filled:?}");
            assert_eq!(row(5, filled), difference, "{filled:?}");
        }
    }

    #[test]
    fn inorganic_categories_have_no_difference() {
        for (category, level) in
            [("FI", NONE), ("CI", NONE), ("FO", C), ("CO", C), ("FM", C), ("CM", C), ("'CM'", C)]
        {
            let filled = [(1, "'C10 H20'"), (2, "150"), (3, category)];
            assert_eq!(row(5, &filled), (level, JUDGED), "{category}");
        }
    }

    #[test]
    fn odd_formulas() {
        // Quotes around nothing are one ill-formed term; ill-formed terms do not enter row 2.
        for formula in ["''", "'?'", "'c h'", "C10H20"] {
            assert_eq!(row(1, &[(1, formula)]), (A, JUDGED), "{formula}");
            assert_eq!(row(2, &[(1, formula)]), (NONE, JUDGED), "{formula}");
        }
        // A symbol that is not recognised does.
        assert_eq!(row(2, &[(1, "'D C'")]), (B, JUDGED));
        assert_eq!(row(2, &[(1, "'C x H'")]), (NONE, JUDGED));
        // Only the outer quotes come off.
        assert_eq!(row(1, &[(1, "\"'C'\"")]), (A, JUDGED));
        // A symbol twice: the counts are added.
        let filled = [(1, "'C H H'"), (2, "14.027"), (3, "FO")];
        assert_eq!(row(2, &filled), (B, JUDGED));
        for number in [1, 3, 4, 5] {
            assert_eq!(row(number, &filled), (NONE, JUDGED), "row {number}");
        }
    }

    #[test]
    fn weights_with_a_point_at_either_end() {
        assert_eq!(row(4, &[(1, "H"), (2, "1.")]), (NONE, JUDGED));
        assert_eq!(row(4, &[(1, "H"), (2, ".9072")]), (B, JUDGED));
        assert_eq!(row(4, &[(1, "H"), (2, ".907199")]), (A, JUDGED));
        assert_eq!(row(5, &[(1, "H"), (2, ".008"), (3, "FO")]), (NONE, JUDGED));
        assert_eq!(row(5, &[(1, "H"), (2, ".007999"), (3, "FO")]), (C, JUDGED));
    }

    #[test]
    fn weights_below_zero() {
        assert_eq!(row(4, &[(1, "H"), (2, "-1.008")]), (A, JUDGED));
        assert_eq!(row(5, &[(1, "H"), (2, "-1.008"), (3, "FO")]), (C, JUDGED));
        assert_eq!(row(4, &[(1, "H"), (2, "0")]), (A, JUDGED));
    }

    #[test]
    fn moieties_against_the_formula() {
        let last = |formula: &str, moieties: &str| {
            let mut values: Values = [b""; ITEMS.len()];
            (values[0], values[18]) = (formula.as_bytes(), moieties.as_bytes());
            let [crystal, powder] = [Profile::SingleCrystal, Profile::Powder]
                .map(|profile| super::rows(&values, profile)[ROWS - 1]);
            assert_eq!(crystal, powder);
            (crystal.level, crystal.reason)
        };
        for (formula, moieties, expected) in [
            ("'C10 H22 O'", "'C10 H20, H2 O'", (NONE, JUDGED)),
            ("'C10 H20'", "'C10 H20, H2 O'", (B, JUDGED)),
            ("'C10 H22 O2'", "'C10 H20, H2 O'", (B, JUDGED)),
            ("'C10 H22 N O'", "'C10 H20, H2 O'", (B, JUDGED)),
            ("'H2 O'", "'O H2'", (NONE, JUDGED)),
            ("'H3'", "'H O2'", (B, JUDGED)),
            ("'H4 O2'", "\"(H2 O)2\"", (NONE, JUDGED)),
            ("'C H H'", "'C H2'", (NONE, JUDGED)),
            ("C", "C", (NONE, JUDGED)),
            ("'H2 O'", "'2(H2 O)'", (C, NOT_JUDGEABLE)),
            ("'C10H20'", "'C10 H20'", (C, NOT_JUDGEABLE)),
            ("'C Xx'", "C(", (C, NOT_JUDGEABLE)),
            ("C", "''", (C, NOT_JUDGEABLE)),
            ("C", "'?'", (C, NOT_JUDGEABLE)),
            ("C", "?", (NONE, MISSING)),
            (".", "C", (NONE, MISSING)),
            ("Xx", ".", (NONE, MISSING)),
            ("", "'C('", (NONE, MISSING)),
            ("", "", (NONE, MISSING)),
        ] {
            assert_eq!(last(formula, moieties), expected, "{formula} {moieties}");
        }
    }

    #[test]
    fn new_names_before_old_ones() {
        for (row_number, new, old) in [(6, 4, 5), (8, 6, 7), (10, 8, 9)] {
            let old_row = row_number + 1;
            assert_eq!(row(row_number, &[(new, "0.04"), (old, "0.9")]), (NONE, JUDGED));
            assert_eq!(row(old_row, &[(new, "0.04"), (old, "0.9")]), (GENERAL, JUDGED));
            assert_eq!(row(row_number, &[(new, "?"), (old, "0.9(9999)")]), (A, JUDGED));
            assert_eq!(row(row_number, &[(new, "0.9"), (old, ".")]), (A, JUDGED));
            assert_eq!(row(old_row, &[(new, "0.9"), (old, ".")]), (NONE, JUDGED));
            assert_eq!(row(row_number, &[(new, "."), (old, "?")]), (C, MISSING));
            assert_eq!(row(row_number, &[(new, "."), (old, ".9")]), (A, JUDGED));
            assert_eq!(row(row_number, &[(new, "0."), (old, ".9")]), (NONE, JUDGED));
            assert_eq!(row(old_row, &[(new, "0."), (old, ".9")]), (GENERAL, JUDGED));
        }
        assert_eq!(row(6, &[(5, "0.3")]), (A, JUDGED));
        assert_eq!(row(10, &[(9, "-0.06")]), (C, JUDGED));
        assert_eq!(row(6, &[(4, "-0.3")]), (NONE, JUDGED));
    }
}
