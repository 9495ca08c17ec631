//! Faulty programs for row 25.

use super::Wrong;
use crate::boundary::{Memory, Reported, Row};
use crate::by_reference::Reference;
use crate::memory::held;
use crate::program::Program;
use reference::desk::values;
use reference::formula::{all_recognised, is_recognised, term, totals, Totals};
use reference::line::ACCEPTED;
use reference::rows::{assigned, ROWS};
use reference::value::text;

pub const FAULTS: [(&str, Wrong); 18] = [
    ("five brackets are read", Wrong::Report(|m, s, p| by(m, s, p, Rules { deepest: 5, ..RIGHT }))),
    ("three brackets at most", Wrong::Report(|m, s, p| by(m, s, p, Rules { deepest: 3, ..RIGHT }))),
    (
        "a comma inside brackets is read",
        Wrong::Report(|m, s, p| by(m, s, p, Rules { comma_inside: true, ..RIGHT })),
    ),
    (
        "a comma without a space is read",
        Wrong::Report(|m, s, p| by(m, s, p, Rules { bare_comma: true, ..RIGHT })),
    ),
    (
        "a bracket's count is not multiplied",
        Wrong::Report(|m, s, p| by(m, s, p, Rules { times: |_, _| 1, ..RIGHT })),
    ),
    (
        "brackets' counts are added",
        Wrong::Report(|m, s, p| {
            by(m, s, p, Rules { times: |outer, count| outer + count - 1, ..RIGHT })
        }),
    ),
    ("a count of 100 is read", Wrong::Report(|m, s, p| by(m, s, p, Rules { digits: 3, ..RIGHT }))),
    (
        "a count of 99 is not read",
        Wrong::Report(|m, s, p| by(m, s, p, Rules { most: 98, ..RIGHT })),
    ),
    (
        "a count of 01 is read",
        Wrong::Report(|m, s, p| by(m, s, p, Rules { leading_zero: true, ..RIGHT })),
    ),
    (
        "H is counted in the wrong moiety",
        Wrong::Report(|m, s, p| by(m, s, p, Rules { outside: Some(b"H"), ..RIGHT })),
    ),
    (
        "any symbol is read",
        Wrong::Report(|m, s, p| by(m, s, p, Rules { recognised: |_| true, ..RIGHT })),
    ),
    ("totals are cut to 32 bits", Wrong::Report(|m, s, p| judged(m, s, p, &RIGHT, cut_totals))),
    (
        "row 25 by the sum of all counts",
        Wrong::Report(|m, s, p| {
            judged(m, s, p, &RIGHT, |a, b| a.values().sum::<u64>() == b.values().sum())
        }),
    ),
    (
        "row 25 looks at the elements of the formula alone",
        Wrong::Report(|m, s, p| {
            judged(m, s, p, &RIGHT, |a, b| {
                b.iter().all(|(symbol, count)| a.get(symbol) == Some(count))
            })
        }),
    ),
    ("B for a text that cannot be read", Wrong::Report(|m, s, p| changed(m, s, p, unread_b))),
    ("not judgeable before missing", Wrong::Report(|m, s, p| changed(m, s, p, unread_first))),
    ("charges are passed over", Wrong::Report(charges)),
    ("powder leaves out row 25", Wrong::Report(left_out)),
];

/// How a wrong program reads moieties.
#[derive(Clone, Copy)]
struct Rules {
    deepest: usize,
    digits: usize,
    most: u64,
    leading_zero: bool,
    comma_inside: bool,
    bare_comma: bool,
    /// What counts within brackets, by what counts outside and their own count.
    times: fn(u64, u64) -> u64,
    /// An element that is counted as if it stood outside its brackets.
    outside: Option<&'static [u8]>,
    recognised: fn(&[u8]) -> bool,
}

const RIGHT: Rules = Rules {
    deepest: 4,
    digits: 2,
    most: u64::MAX,
    leading_zero: false,
    comma_inside: false,
    bare_comma: false,
    times: |outer, count| outer * count,
    outside: None,
    recognised: is_recognised,
};

/// A reader byte by byte, at a place of the text.
struct Reader<'a> {
    text: &'a [u8],
    at: usize,
    rules: &'a Rules,
    totals: Totals<'a>,
}

impl<'a> Reader<'a> {
    fn totals(text: &'a [u8], rules: &'a Rules) -> Option<Totals<'a>> {
        let mut reader = Reader { text, at: 0, rules, totals: Totals::new() };
        loop {
            reader.moiety(0, 1)?;
            if reader.at == text.len() {
                return Some(reader.totals);
            }
            reader.comma()?;
        }
    }

    fn next(&self) -> Option<u8> {
        self.text.get(self.at).copied()
    }

    fn take(&mut self, byte: u8) -> Option<()> {
        (self.next() == Some(byte)).then(|| self.at += 1)
    }

    fn comma(&mut self) -> Option<()> {
        self.take(b',')?;
        self.take(b' ').or(self.rules.bare_comma.then_some(()))
    }

    fn moiety(&mut self, open: usize, times: u64) -> Option<()> {
        loop {
            self.part(open, times)?;
            if self.rules.comma_inside && open > 0 && self.next() == Some(b',') {
                self.comma()?;
            } else if self.take(b' ').is_none() {
                return Some(());
            }
        }
    }

    fn part(&mut self, open: usize, times: u64) -> Option<()> {
        if self.next() != Some(b'(') {
            return self.term(times);
        }
        if open == self.rules.deepest {
            return None;
        }
        let close = self.closing()?;
        let count = self.count(close + 1)?;
        self.at += 1;
        self.moiety(open + 1, (self.rules.times)(times, count))?;
        self.take(b')')?;
        while self.next().is_some_and(|byte| byte.is_ascii_digit()) {
            self.at += 1;
        }
        Some(())
    }

    /// The place of the bracket that closes the one here.
    fn closing(&self) -> Option<usize> {
        let mut open = 0;
        for (at, byte) in self.text.iter().enumerate().skip(self.at) {
            match byte {
                b'(' => open += 1,
                b')' if open == 1 => return Some(at),
                b')' => open -= 1,
                _ => {}
            }
        }
        None
    }

    fn count(&self, at: usize) -> Option<u64> {
        let digits: Vec<u8> =
            self.text[at..].iter().copied().take_while(u8::is_ascii_digit).collect();
        let count = digits.iter().fold(0, |count, digit| 10 * count + u64::from(digit - b'0'));
        let zero = digits.first() == Some(&b'0') && !(self.rules.leading_zero && count > 0);
        match digits.len() {
            0 => Some(1),
            length => {
                (length <= self.rules.digits && !zero && count <= self.rules.most).then_some(count)
            }
        }
    }

    fn term(&mut self, times: u64) -> Option<()> {
        let rest = &self.text[self.at..];
        let end = rest.iter().position(|byte| b" ,()".contains(byte)).unwrap_or(rest.len());
        let read = term(&rest[..end]).filter(|term| (self.rules.recognised)(term.symbol))?;
        let times = if self.rules.outside == Some(read.symbol) { 1 } else { times };
        *self.totals.entry(read.symbol).or_default() += times * read.count as u64;
        self.at += end;
        Some(())
    }
}

/// The right report, with row 25 changed by the texts of formula and moieties.
fn changed(
    memory: &Memory,
    sheet: u64,
    profile: u64,
    change: impl Fn(Option<&[u8]>, Option<&[u8]>, &mut Row),
) -> Reported {
    let mut right = Reference.report(memory, sheet, profile);
    if let (ACCEPTED, Some((desk, _))) = (right.answer, held(memory)) {
        let values = values(&desk.sheets[sheet as usize]);
        let texts = [1, 19].map(|item| assigned(&values, item).map(text));
        change(texts[0], texts[1], &mut right.rows[ROWS - 1]);
    }
    right
}

/// Row 25 by these rules and this comparison of the totals: of the moieties, of the formula.
fn judged(
    memory: &Memory,
    sheet: u64,
    profile: u64,
    rules: &Rules,
    same: fn(&Totals, &Totals) -> bool,
) -> Reported {
    changed(memory, sheet, profile, |formula, moieties, row| {
        let (Some(formula), Some(moieties)) = (formula, moieties) else {
            return;
        };
        let read = Reader::totals(moieties, rules).filter(|_| all_recognised(formula));
        *row = match read {
            None => Row { level: 2, reason: 2 },
            Some(read) if same(&read, &totals(formula)) => Row { level: 0, reason: 0 },
            Some(_) => Row { level: 3, reason: 0 },
        };
    })
}

fn by(memory: &Memory, sheet: u64, profile: u64, rules: Rules) -> Reported {
    judged(memory, sheet, profile, &rules, |read, totals| read == totals)
}

fn cut_totals(read: &Totals, formula: &Totals) -> bool {
    let cut = |totals: &Totals| -> Vec<(Vec<u8>, u32)> {
        totals.iter().map(|(symbol, count)| (symbol.to_vec(), *count as u32)).collect()
    };
    cut(read) == cut(formula)
}

fn unread_b(_: Option<&[u8]>, _: Option<&[u8]>, row: &mut Row) {
    if row.reason == 2 {
        *row = Row { level: 3, reason: 0 };
    }
}

fn unread_first(formula: Option<&[u8]>, moieties: Option<&[u8]>, row: &mut Row) {
    let unread = moieties.is_some_and(|text| Reader::totals(text, &RIGHT).is_none())
        || formula.is_some_and(|text| !all_recognised(text));
    if unread {
        *row = Row { level: 2, reason: 2 };
    }
}

/// Words such as 1+ and 2- are left out of the moieties.
fn charges(memory: &Memory, sheet: u64, profile: u64) -> Reported {
    changed(memory, sheet, profile, |formula, moieties, row| {
        let (Some(formula), Some(moieties)) = (formula, moieties) else {
            return;
        };
        let words = String::from_utf8_lossy(moieties).into_owned();
        let words: Vec<&str> =
            words.split(' ').filter(|word| !word.ends_with(['+', '-'])).collect();
        let without = words.join(" ");
        if without.len() < moieties.len() && row.reason == 2 && all_recognised(formula) {
            if let Some(read) = Reader::totals(without.as_bytes(), &RIGHT) {
                let level = if read == totals(formula) { 0 } else { 3 };
                *row = Row { level, reason: 0 };
            }
        }
    })
}

fn left_out(memory: &Memory, sheet: u64, profile: u64) -> Reported {
    changed(memory, sheet, profile, |_, _, row| {
        if profile == 1 {
            *row = Row { level: 0, reason: 0 };
        }
    })
}
