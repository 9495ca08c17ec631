//! Numbers: document 01, "A line, a number", second paragraph, and document 02, request No. 4.

use crate::cut;
use std::iter::repeat;

/// "1 to 9 digits before any bracket": on both sides of the point together.
pub const DIGITS: usize = 9;
/// "at most 6 after it"
pub const PLACES: usize = 6;
/// "1 to 4 digits of uncertainty in round brackets"
pub const UNCERTAINTY_DIGITS: usize = 4;

/// The number in millionths, or that there is none. The uncertainty is read and left out.
pub fn number(text: &[u8]) -> Option<i64> {
    let (sign, unsigned) = match text {
        [b'+', rest @ ..] => (1, rest),
        [b'-', rest @ ..] => (-1, rest),
        _ => (1, text),
    };
    let digits = without_uncertainty(unsigned)?;
    // No. 4: "Numbers shall allow a point with digits on one side only"
    let (whole, fraction) = cut(digits, b'.').unwrap_or((digits, b""));
    let well_formed = all_digits(whole)
        && all_digits(fraction)
        && (1..=DIGITS).contains(&(whole.len() + fraction.len()))
        && fraction.len() <= PLACES;
    well_formed.then(|| sign * millionths(whole, fraction))
}

/// What stands before the brackets; none where the brackets are wrong.
fn without_uncertainty(text: &[u8]) -> Option<&[u8]> {
    let Some((digits, rest)) = cut(text, b'(') else {
        return Some(text);
    };
    let uncertainty = rest.strip_suffix(b")")?;
    let fits = all_digits(uncertainty) && (1..=UNCERTAINTY_DIGITS).contains(&uncertainty.len());
    fits.then_some(digits)
}

fn all_digits(text: &[u8]) -> bool {
    text.iter().all(u8::is_ascii_digit)
}

/// The digits read as one whole number after filling the fraction up to six places.
fn millionths(whole: &[u8], fraction: &[u8]) -> i64 {
    let places = fraction.iter().chain(repeat(&b'0')).take(PLACES);
    whole.iter().chain(places).fold(0, |sum, &digit| 10 * sum + i64::from(digit - b'0'))
}

#[cfg(test)]
mod tests {
    use super::number;
    use std::collections::HashSet;

    fn reads(text: &str, millionths: i64) {
        assert_eq!(number(text.as_bytes()), Some(millionths), "{text}");
    }

    fn none(texts: &[&str]) {
        for text in texts {
            assert_eq!(number(text.as_bytes()), None, "{text}");
        }
    }

    #[test]
    fn signs_points_and_places() {
        reads("0", 0);
        reads("-0", 0);
        reads("0.20", 200_000);
        reads("0.200001", 200_001);
        reads("-0.05", -50_000);
        reads("+138.8673", 138_867_300);
        none(&["", "+", "-", "+-1", "--1", "1-", "1+1", "1e5", "1,5", " 1", "1 "]);
    }

    #[test]
    fn digits_on_one_side_of_the_point() {
        reads(".045", 45_000);
        reads("45.", 45_000_000);
        reads("+.5", 500_000);
        reads("-.5(3)", -500_000);
        reads("-5.", -5_000_000);
        reads("45.(3)", 45_000_000);
        reads(".0412(7)", 41_200);
        reads("1.", 1_000_000);
        reads("-0.", 0);
        reads(".0", 0);
    }

    #[test]
    fn no_digits_beside_the_point() {
        none(&[".", "-.", "+.", ".(3)", "-.(3)", "+.(3)"]);
    }

    /// Every text up to a length over some bytes.
    fn texts(bytes: &str, longest: usize) -> Vec<String> {
        let longer = |texts: &Vec<String>| {
            let longer =
                texts.iter().flat_map(|text| bytes.chars().map(move |c| format!("{text}{c}")));
            Some(longer.collect::<Vec<_>>())
        };
        let lengths = std::iter::successors(Some(vec![String::new()]), longer);
        lengths.take(longest + 1).flatten().collect()
    }

    #[test]
    fn exactly_the_texts_that_the_wording_makes() {
        let digits = texts("04", 5);
        let sizes = digits.iter().flat_map(|whole| {
            let pointed = digits.iter().map(move |places| format!("{whole}.{places}"));
            pointed.chain([whole.clone()]).filter(|size| size.contains(['0', '4']))
        });
        let numbers: HashSet<String> = sizes
            .filter(|size| size.len() <= 5)
            .flat_map(|size| ["", "+", "-"].map(|sign| format!("{sign}{size}")))
            .flat_map(|plain| {
                let uncertain = texts("04", 4).into_iter().skip(1);
                uncertain
                    .map(|su| format!("{plain}({su})"))
                    .chain([plain.clone()])
                    .collect::<Vec<_>>()
            })
            .collect();
        for text in texts("04+-.()", 5) {
            assert_eq!(number(text.as_bytes()).is_some(), numbers.contains(&text), "{text}");
        }
    }

    #[test]
    fn one_point() {
        none(&[
            "..", "1..", "..1", "1..2", "1.2.", ".1.2", "1.2.3", ".1.", "1(.)", "1(3).", "1.(.3)",
        ]);
    }

    #[test]
    fn nine_digits_in_all() {
        reads("999999999", 999_999_999_000_000);
        reads("-999999999", -999_999_999_000_000);
        reads("000000001", 1_000_000);
        reads("999.999999", 999_999_999);
        reads("12345678.9(9999)", 12_345_678_900_000);
        reads("999999999.", 999_999_999_000_000);
        reads("-123456789.(9999)", -123_456_789_000_000);
        none(&["1234567890", "0000000001", "1234.567890", "123456789.0", "1234567890."]);
    }

    #[test]
    fn six_places() {
        reads("0.000001", 1);
        reads("-0.000001", -1);
        reads(".000001", 1);
        reads("-.999999(1)", -999_999);
        none(&["0.0000001", "0.1000000", ".0000001", ".1000000", ".1234567(1)"]);
    }

    #[test]
    fn uncertainty() {
        reads("1(1)", 1_000_000);
        reads("1.5(0)", 1_500_000);
        reads("0.16(1234)", 160_000);
        none(&["1()", "1(12345)", "1(1", "1)", "1(", "(1)", "-(1)", "1(1)2", "1(1)(1)", "1((1))"]);
        none(&["1(-1)", "1(1.0)", "1 (1)", "1(1) ", "1()1)"]);
    }

    #[test]
    fn a_number_is_bare() {
        none(&["'1'", "\"1\"", "?", "."]);
    }
}
