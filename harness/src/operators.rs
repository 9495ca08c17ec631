//! Texts of symmetry operators: such as the document allows, and such with a fault.

use crate::lists;
use crate::random::Random;

/// The bytes of operators, and digits that stand in none.
const BYTES: &[u8] = b"xyz+-/,123467805";
/// Few of them, for whole texts.
const FEW: &[u8] = b"x,+-1/2";
/// The longest part, and the longest whole text, of which every one is tried.
const SHORT_PART: usize = 5;
const SHORT_TEXT: usize = 7;
const DENOMINATORS: [usize; 5] = [2, 3, 4, 6, 8];
/// Operators whose bytes are changed one by one.
const SAMPLES: [&str; 6] = [
    "x,y,z",
    "-y,x-y,z+1/3",
    "1/2+x,-3/4-y,+z",
    "x+y+z-5/6,7/8-z-y-x,-x",
    "y-x+2/3,-x+1/3,z+1/3",
    "-x-y-z-1/2,-7/8-x-y-z,z+y+x+1/2",
];

/// A part that is none of the document's.
type Spoil = fn(&mut Operators) -> String;

/// Each kind of fault in a part by name.
pub const PART_FAULTS: [(&str, Spoil); 18] = [
    ("empty", |_| String::new()),
    ("letter twice", |source| {
        let letter = source.random.pick(&["x", "y", "z"]);
        format!("{}{letter}{}{letter}", source.first_sign(), source.sign())
    }),
    ("letter twice, apart", |source| {
        let [a, b, _] = source.letters();
        format!("{}{a}{}{b}{}{a}", source.first_sign(), source.sign(), source.sign())
    }),
    ("capital letter", |source| source.part().to_ascii_uppercase()),
    ("other letter", |source| source.part() + "+w"),
    ("fraction alone", |source| source.first_sign().to_string() + &source.fraction()),
    ("fraction between", |source| {
        let [a, b, _] = source.letters();
        let fraction = source.fraction();
        format!("{}{a}{}{fraction}{}{b}", source.first_sign(), source.sign(), source.sign())
    }),
    ("two fractions", |source| {
        let (first, last) = (source.fraction(), source.fraction());
        format!("{first}{}x{}{last}", source.sign(), source.sign())
    }),
    ("numerator 0", |source| format!("x+0/{}", source.random.pick(&DENOMINATORS))),
    ("numerator too large", |source| {
        let denominator = source.random.pick(&DENOMINATORS);
        let numerator = denominator + source.random.below(10 - denominator);
        format!("x{}{numerator}/{denominator}", source.sign())
    }),
    ("other denominator", |source| {
        let denominator = source.random.pick(&["0", "1", "5", "7", "9", "12", "10"]);
        format!("{}1/{denominator}-y", source.first_sign())
    }),
    ("leading zero", |source| source.random.pick(&["x+01/2", "y-1/02", "02/3+z"]).into()),
    ("part of a fraction", |source| {
        source.random.pick(&["x+1/", "x-/2", "1+y", "x+1", "/"]).into()
    }),
    ("sign missing", |source| source.random.pick(&["xy", "1/2x", "z1/2", "-xy", "x+yz"]).into()),
    ("sign twice", |source| source.part() + source.random.pick(&["--", "+-", "++"]) + "1/2"),
    ("sign at the end", |source| source.part() + source.sign()),
    ("space", |source| {
        let mut part = source.part();
        part.insert(source.random.below(part.len() + 1), ' ');
        part
    }),
    ("other byte", |source| {
        let mut part = source.part();
        let byte = source.random.pick(&['\0', '\n', '\x7f', '*', '.', ';', '\'', '9', '(']);
        part.insert(source.random.below(part.len() + 1), byte);
        part
    }),
];

/// Generated texts.
pub struct Operators {
    random: Random,
}

impl Operators {
    pub fn new(seed: u64) -> Self {
        Operators { random: Random::new(seed.rotate_left(16)) }
    }

    /// Two in three an operator, the others damaged.
    pub fn text(&mut self) -> Vec<u8> {
        let mut text = self.operator();
        if self.random.once_in(3) {
            for _ in 0..self.random.pick(&[1, 1, 1, 2]) {
                self.damage(&mut text);
            }
        }
        text
    }

    /// A text that may be a line of a file.
    pub fn line(&mut self) -> Vec<u8> {
        loop {
            let text = self.text();
            if !text.is_empty()
                && !text.starts_with(b"#")
                && !text.contains(&b'\n')
                && !text.ends_with(b"\r")
            {
                return text;
            }
        }
    }

    /// An operator's text.
    pub fn operator(&mut self) -> Vec<u8> {
        [self.part(), self.part(), self.part()].join(",").into()
    }

    /// An operator's text, but that one part has a fault of this number.
    pub fn with_fault(&mut self, fault: usize) -> Vec<u8> {
        let mut parts = [self.part(), self.part(), self.part()];
        parts[self.random.below(3)] = PART_FAULTS[fault].1(self);
        parts.join(",").into()
    }

    /// A text of any number of parts but three.
    pub fn other_parts(&mut self) -> Vec<u8> {
        let count = self.random.pick(&[1, 2, 2, 4, 4, 5, 6]);
        (0..count).map(|_| self.part()).collect::<Vec<_>>().join(",").into()
    }

    /// One part: one to three letters in any order, with a fraction or without.
    fn part(&mut self) -> String {
        let count = 1 + self.random.below(3);
        let letters: Vec<&str> = self.letters()[..count].into();
        let signed: String =
            letters.iter().map(|letter| format!("{}{letter}", self.sign())).collect();
        let part = match self.random.below(4) {
            0 => format!("{}{}{signed}", self.sign(), self.fraction()),
            1 => format!("{signed}{}{}", self.sign(), self.fraction()),
            _ => signed,
        };
        match part.strip_prefix('+') {
            Some(bare) if !self.random.once_in(4) => bare.into(),
            _ => part,
        }
    }

    /// The letters in any order.
    fn letters(&mut self) -> [&'static str; 3] {
        let mut letters = ["x", "y", "z"];
        letters.swap(0, self.random.below(3));
        letters.swap(1, 1 + self.random.below(2));
        letters
    }

    fn sign(&mut self) -> &'static str {
        self.random.pick(&["+", "-"])
    }

    fn first_sign(&mut self) -> &'static str {
        self.random.pick(&["+", "-", ""])
    }

    fn fraction(&mut self) -> String {
        let denominator = self.random.pick(&DENOMINATORS);
        format!("{}/{denominator}", 1 + self.random.below(denominator - 1))
    }

    /// One byte changed, inserted, dropped or doubled, or the text cut off.
    fn damage(&mut self, text: &mut Vec<u8>) {
        let byte =
            if self.random.once_in(4) { self.random.byte() } else { self.random.pick(BYTES) };
        if text.is_empty() {
            return text.push(byte);
        }
        let at = self.random.below(text.len());
        match self.random.below(8) {
            0 | 1 => text[at] = byte,
            2 => text.insert(at, byte),
            3 => text.push(byte),
            4 => text.truncate(at),
            5 => text[at] ^= 1 << self.random.below(8),
            6 => drop(text.remove(at)),
            _ => text.insert(at, text[at]),
        }
    }
}

/// Every part of the document's, as each of the three.
pub fn every_part() -> impl Iterator<Item = Vec<u8>> {
    parts().into_iter().flat_map(|part| in_each_place(part.as_bytes()))
}

/// Every part of the document's.
pub fn parts() -> Vec<String> {
    let sums = signed_sums();
    let fractions: Vec<String> = DENOMINATORS
        .iter()
        .flat_map(|denominator| (1..*denominator).map(move |n| format!("{n}/{denominator}")))
        .collect();
    let signed: Vec<String> =
        fractions.iter().flat_map(|size| ["+", "-"].map(|sign| format!("{sign}{size}"))).collect();
    let mut parts = vec![];
    for sum in &sums {
        parts.push(sum.clone());
        parts.extend(signed.iter().map(|fraction| format!("{sum}{fraction}")));
        parts.extend(signed.iter().map(|fraction| format!("{fraction}{sum}")));
    }
    let bare: Vec<String> =
        parts.iter().filter_map(|part| part.strip_prefix('+').map(String::from)).collect();
    parts.into_iter().chain(bare).collect()
}

/// One to three signed letters, in every order.
fn signed_sums() -> Vec<String> {
    let terms: Vec<String> = ["x", "y", "z"]
        .iter()
        .flat_map(|letter| ["+", "-"].map(|s| format!("{s}{letter}")))
        .collect();
    let mut sums = terms.clone();
    let mut from = 0;
    for _ in 1..3 {
        let longer: Vec<String> = sums[from..]
            .iter()
            .flat_map(|sum| terms.iter().map(move |term| (sum, term)))
            .filter(|(sum, term)| !sum.contains(&term[1..]))
            .map(|(sum, term)| format!("{sum}{term}"))
            .collect();
        from = sums.len();
        sums.extend(longer);
    }
    sums
}

/// The part as the first, the second and the third of an operator.
fn in_each_place(part: &[u8]) -> [Vec<u8>; 3] {
    [[part, b",y,z"].concat(), [b"x,", part, b",z"].concat(), [b"x,y,", part].concat()]
}

/// Every short run of an operator's bytes as each of the parts.
pub fn short_parts() -> impl Iterator<Item = Vec<u8>> {
    lists::short_texts(BYTES, SHORT_PART).flat_map(|part| in_each_place(&part))
}

/// Every short text of few of these bytes.
pub fn short_texts() -> impl Iterator<Item = Vec<u8>> {
    lists::short_texts(FEW, SHORT_TEXT)
}

/// Operators with one byte changed into every other byte, dropped or doubled.
pub fn one_byte_off() -> impl Iterator<Item = Vec<u8>> {
    SAMPLES.into_iter().flat_map(|sample| {
        let text = sample.as_bytes();
        (0..text.len()).flat_map(move |at| {
            let (before, after) = (&text[..at], &text[at + 1..]);
            let changed = (0..=u8::MAX).map(move |byte| [before, &[byte], after].concat());
            changed
                .chain([[before, after].concat(), [before, &text[at..=at], &text[at..]].concat()])
        })
    })
}

/// Operators cut off and gone on with, and long texts.
pub fn lengths() -> impl Iterator<Item = Vec<u8>> {
    let cut =
        SAMPLES.into_iter().flat_map(|sample| (0..=sample.len()).map(|end| sample[..end].into()));
    let longer = ["x,y,z", "x,y,z+1/2"].into_iter().flat_map(|text| {
        [",", ",x", "+", "+x", "+y", "/2", "1/2", "+1/2", " ", "\0", "x,y,z", ",x,y,z"]
            .map(|end| format!("{text}{end}").into())
    });
    let long = [250, 256, 65_536].into_iter().flat_map(|count| {
        ["x", "+x", ",", "x,", "1/2", "-", "+x+y+z"].map(|text| text.repeat(count).into())
    });
    cut.chain(longer).chain(long)
}
