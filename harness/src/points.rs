//! Points at either end of a number: document 02, request No. 4. Texts are read here once more, so that
//! what is counted and what a wrong program refuses depend on no program that is compared.

use reference::number::UNCERTAINTY_DIGITS;

/// What stands beside the point.
#[derive(Clone, Copy, PartialEq, Eq)]
pub enum Side {
    /// Digits after it alone: `.045`.
    First,
    /// Digits before it alone: `45.`.
    Last,
    /// None: `-.`.
    Alone,
}

/// A text written as a number, but for how many digits it has, with a point that lacks digits on a side.
pub struct Pointed {
    pub side: Side,
    pub digits: usize,
    pub signed: bool,
    pub uncertain: bool,
}

impl Pointed {
    pub fn read(text: &[u8]) -> Option<Self> {
        let unsigned = text.strip_prefix(b"+").or(text.strip_prefix(b"-"));
        let (signed, unsigned) = (unsigned.is_some(), unsigned.unwrap_or(text));
        let (size, uncertainty) = match unsigned.iter().position(|&byte| byte == b'(') {
            Some(at) => (&unsigned[..at], Some(unsigned[at + 1..].strip_suffix(b")")?)),
            None => (unsigned, None),
        };
        let lengths = 1..=UNCERTAINTY_DIGITS;
        let fits = |digits: &[u8]| are_digits(digits) && lengths.contains(&digits.len());
        let (side, digits) = match size {
            b"." => (Side::Alone, &size[1..]),
            [b'.', digits @ ..] => (Side::First, digits),
            [digits @ .., b'.'] => (Side::Last, digits),
            _ => return None,
        };
        (are_digits(digits) && uncertainty.is_none_or(fits)).then_some(Pointed {
            side,
            digits: digits.len(),
            signed,
            uncertain: uncertainty.is_some(),
        })
    }
}

/// What stands for x in a text of row 12, `I > x\s(I)`; all of what stands between.
pub fn multiplier(text: &[u8]) -> Option<&[u8]> {
    let find = |mark: &[u8]| text.windows(mark.len()).position(|part| part == mark);
    text.get(find(b" > ")? + 3..find(b"\\s(")?)
}

fn are_digits(text: &[u8]) -> bool {
    text.iter().all(u8::is_ascii_digit)
}

/// A decimal, and beside it the same number with its point first or last, where it can be written so.
pub fn writings(text: &str) -> Vec<String> {
    let (whole, places) = text.split_once('.').unwrap_or((text, ""));
    let mut all = vec![text.to_string()];
    if whole == "0" && !places.is_empty() {
        all.push(format!(".{places}"));
    }
    if places.bytes().all(|digit| digit == b'0') {
        all.push(format!("{whole}."));
    }
    all
}
