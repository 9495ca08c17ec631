//! Moiety formulas: document 02, request No. 12. Quoted sentences are that request's.

use crate::formula::{is_recognised, term, Term, Totals};

/// "nested at most four deep": so many brackets may be open at once.
pub const DEEPEST: usize = 4;
/// "an optional count 1 to 99 after the bracket": so many digits.
pub const GROUP_DIGITS: usize = 2;

/// "a part is a term or a bracketed moiety with an optional count"
#[derive(Clone, Debug, PartialEq, Eq)]
pub enum Part<'a> {
    Term(Term<'a>),
    Group(Moiety<'a>, u64),
}

/// "a moiety is one or more parts"
pub type Moiety<'a> = Vec<Part<'a>>;

/// "one or more moieties parted by comma and one space"; none where the text cannot be read.
pub fn read(text: &[u8]) -> Option<Vec<Moiety<'_>>> {
    let mut moieties = vec![];
    let mut rest = text;
    while let Some(at) = rest.windows(2).position(|pair| pair == b", ") {
        moieties.push(moiety(&rest[..at], 0)?);
        rest = &rest[at + 2..];
    }
    moieties.push(moiety(rest, 0)?);
    Some(moieties)
}

/// "parts parted by one space", within so many open brackets.
fn moiety(text: &[u8], open: usize) -> Option<Moiety<'_>> {
    cut_outside_brackets(text)?.into_iter().map(|text| part(text, open)).collect()
}

fn part(text: &[u8], open: usize) -> Option<Part<'_>> {
    let Some(bracketed) = text.strip_prefix(b"(") else {
        return term(text).filter(|term| is_recognised(term.symbol)).map(Part::Term);
    };
    let close = bracketed.iter().rposition(|&byte| byte == b')')?;
    let (inside, count) = (&bracketed[..close], &bracketed[close + 1..]);
    if open == DEEPEST {
        return None;
    }
    Some(Part::Group(moiety(inside, open + 1)?, group_count(count)?))
}

/// The text cut at each space outside its brackets; none where these do not match.
fn cut_outside_brackets(text: &[u8]) -> Option<Vec<&[u8]>> {
    let (mut parts, mut start) = (vec![], 0);
    let mut open: usize = 0;
    for (at, byte) in text.iter().enumerate() {
        match byte {
            b'(' => open += 1,
            b')' => open = open.checked_sub(1)?,
            b' ' if open == 0 => {
                parts.push(&text[start..at]);
                start = at + 1;
            }
            _ => {}
        }
    }
    parts.push(&text[start..]);
    (open == 0).then_some(parts)
}

/// "no leading zero"; none means 1.
fn group_count(digits: &[u8]) -> Option<u64> {
    match digits {
        [] => Some(1),
        [b'0', ..] => None,
        _ if digits.len() > GROUP_DIGITS || !digits.iter().all(u8::is_ascii_digit) => None,
        _ => Some(digits.iter().fold(0, |count, digit| 10 * count + u64::from(digit - b'0'))),
    }
}

/// Each element's total over the moieties, a bracket's content as often as its count says.
pub fn totals<'a>(moieties: &[Moiety<'a>]) -> Totals<'a> {
    let mut totals = Totals::new();
    moieties.iter().for_each(|moiety| add(&mut totals, moiety, 1));
    totals
}

fn add<'a>(totals: &mut Totals<'a>, moiety: &[Part<'a>], times: u64) {
    for part in moiety {
        match part {
            Part::Term(Term { symbol, count }) => {
                *totals.entry(symbol).or_default() += times * *count as u64;
            }
            Part::Group(inside, count) => add(totals, inside, times * count),
        }
    }
}

#[cfg(test)]
mod tests {
    use super::*;
    use std::collections::HashSet;

    /// The totals of a text, as symbols and counts in order.
    fn of(text: &str) -> Option<Vec<(&str, u64)>> {
        let totals = totals(&read(text.as_bytes())?);
        let named = totals
            .into_iter()
            .map(|(symbol, count)| (std::str::from_utf8(symbol).expect("a symbol is text"), count));
        Some(named.collect())
    }

    #[test]
    fn totals_of_moieties() {
        for (text, expected) in [
            ("C10 H20", &[("C", 10), ("H", 20)][..]),
            ("C10 H20, H2 O", &[("C", 10), ("H", 22), ("O", 1)]),
            ("C", &[("C", 1)]),
            ("H H2 H3, H4", &[("H", 10)]),
            ("(H2 O)2", &[("H", 4), ("O", 2)]),
            ("(H2 O)", &[("H", 2), ("O", 1)]),
            ("(H2 O)1", &[("H", 2), ("O", 1)]),
            ("(C)99", &[("C", 99)]),
            ("C (C (H2 O)3)2 O", &[("C", 3), ("H", 12), ("O", 7)]),
            ("((((C)2)2)2)2", &[("C", 16)]),
            ("((((C9999)99)99)99)99", &[("C", 9999 * 99 * 99 * 99 * 99)]),
            ("(C H)2, (C H)3", &[("C", 5), ("H", 5)]),
            ("Og Ts2", &[("Og", 1), ("Ts", 2)]),
            ("(C) (C) (C)", &[("C", 3)]),
        ] {
            assert_eq!(of(text).as_deref(), Some(expected), "{text}");
        }
    }

    #[test]
    fn texts_that_are_not_read() {
        for text in [
            "",
            " ",
            ",",
            ", ",
            "C,H",
            "C ,H",
            "C , H",
            "C,  H",
            "C, ",
            ", C",
            "C, , H",
            "C  H",
            " C",
            "C ",
            "(C, H)",
            "(C),(H)",
            "()",
            "( C)",
            "(C )",
            "(C",
            "C)",
            "(C))",
            "((C)",
            ")(",
            "(C)(H)",
            "(C)2(H)",
            "(C)H",
            "C(H)",
            "2(H2 O)",
            "(C)0",
            "(C)01",
            "(C)00",
            "(C)100",
            "(C)999",
            "(C) 2",
            "(C)x",
            "(((((C)))))",
            "(C (C (C (C (C)))))",
            "C 1+",
            "C10 H20 1-",
            "Cu 2+",
            "0.5(H2 O)",
            "H2 O1.5",
            "C0",
            "C01",
            "C10000",
            "D2 O",
            "Xx",
            "c",
            "[C]",
            "{C}",
            "?",
            "C10H20",
        ] {
            assert_eq!(read(text.as_bytes()), None, "{text}");
        }
    }

    #[test]
    fn four_deep_and_five() {
        for deep in 0..=6 {
            let text = format!("{}C{}", "(".repeat(deep), ")".repeat(deep));
            assert_eq!(read(text.as_bytes()).is_some(), deep <= 4, "{text}");
            let beside = format!("({text}) (C)2");
            assert_eq!(read(beside.as_bytes()).is_some(), deep <= 3, "{beside}");
        }
    }

    /// The moieties of exactly so many bytes over C, H, 2, brackets and spaces, with so many more
    /// brackets allowed, by the wording.
    fn moieties(length: usize, deeper: usize) -> Vec<String> {
        let mut all = parts(length, deeper);
        for first in 1..length.saturating_sub(1) {
            let rest = moieties(length - first - 1, deeper);
            for part in parts(first, deeper) {
                all.extend(rest.iter().map(|rest| format!("{part} {rest}")));
            }
        }
        all
    }

    fn parts(length: usize, deeper: usize) -> Vec<String> {
        let mut all = vec![];
        let twos = |count: usize| "2".repeat(count);
        if (1..=5).contains(&length) {
            all.extend(["C", "H"].map(|symbol| format!("{symbol}{}", twos(length - 1))));
        }
        for digits in 0..=2 {
            if deeper > 0 && length >= 3 + digits {
                let inside = moieties(length - 2 - digits, deeper - 1);
                all.extend(inside.iter().map(|inside| format!("({inside}){}", twos(digits))));
            }
        }
        all
    }

    fn texts(length: usize) -> Vec<String> {
        let mut all = moieties(length, DEEPEST);
        for first in 1..length.saturating_sub(2) {
            let rest = texts(length - first - 2);
            for moiety in moieties(first, DEEPEST) {
                all.extend(rest.iter().map(|rest| format!("{moiety}, {rest}")));
            }
        }
        all
    }

    #[test]
    fn exactly_the_texts_that_the_wording_makes() {
        for length in 0..=7 {
            let made = texts(length);
            let distinct: HashSet<&[u8]> = made.iter().map(|text| text.as_bytes()).collect();
            assert_eq!(made.len(), distinct.len(), "each in one way");
            let alphabet = b"CH2(), ";
            for number in 0..alphabet.len().pow(length as u32) {
                let byte = |place: usize| alphabet[number / 7_usize.pow(place as u32) % 7];
                let text: Vec<u8> = (0..length).map(byte).collect();
                assert_eq!(read(&text).is_some(), distinct.contains(&text[..]), "{text:?}");
            }
        }
    }

    /// Name, space, quotes and 173 bytes are a line of 200.
    #[test]
    fn the_longest_texts_are_counted_exactly() {
        let groups = vec!["((((C9999)99)99)99)99"; 7].join(" ");
        let text = format!("{groups}, C9999, C9999, C999");
        assert_eq!(text.len(), 173);
        let sum = 7 * 9999 * 99_u64.pow(4) + 2 * 9999 + 999;
        assert_eq!(of(&text), Some(vec![("C", sum)]));
        let long = vec!["H"; 87].join(" ");
        assert_eq!((long.len(), of(&long)), (173, Some(vec![("H", 87)])));
    }
}
