//! Items 11 to 18 about every case of rows 13 to 24: document 02, request No. 11.

use crate::desks::holding;
use crate::inputs::{decimal, near, Inputs};
use crate::random::Random;
use crate::sheets::{fits, most_places, MISSING};
use reference::desk::Desk;

/// The request's items.
pub const FIRST_ITEM: usize = 11;
pub const ITEMS: usize = 8;
/// Numbers that are none of a profile: neighbours, and what a cut-off number would turn into one.
pub const OTHER_PROFILES: [u64; 9] =
    [2, 3, 255, 256, 257, 1 << 16, 1 << 32, (1 << 32) + 1, u64::MAX];
/// Rows 20 to 24 with the items that they compare.
pub const COMPARED: [(usize, &[usize]); 5] =
    [(20, &[12, 13]), (21, &[12, 13, 14]), (22, &[11, 12]), (23, &[12, 13]), (24, &[15, 16, 17])];
/// Numbers that are zero, and such as are not.
pub const ZEROS: [&str; 9] =
    ["0", "0.0000", "-0.0", "0(5)", "0.", ".0", "+0", "-.0(12)", "000000000"];
const NOT_ZEROS: [&str; 6] = ["0.000001", "-0.000001", "0.03", "1", "-.5(3)", "0.0310(12)"];
/// Numbers of reflections that are equal, one millionth beside, and far.
const REFLECTIONS: [&str; 9] =
    ["", "?", "5", "5.", "5.0(9)", "4.999999", "+5.000001", "-5", "999999999"];
const EQUIVALENTS: [&str; 7] = ["", ".", "0.0000", "-0.0", "0(5)", "0.03", "-.000001"];
/// The same for sizes.
const SIZES: [&str; 9] = ["", ".", "0.2", ".20(5)", "0.200001", "+.199999", "-0.2", "3", "3."];
/// A value for each of the items, with no alert.
const WITHOUT_ALERT: [&str; ITEMS] = ["8", "7", "6", "0.03", "0.3", "0.2", "0.1", "0.71073"];

/// Generated values of the items.
pub struct Powder {
    random: Random,
    inputs: Inputs,
}

impl Powder {
    pub fn new(seed: u64) -> Self {
        Powder { random: Random::new(seed), inputs: Inputs::new(!seed) }
    }

    /// Values of all of them: numbers of reflections about one number, sizes about another.
    pub fn values(&mut self) -> [Vec<u8>; ITEMS] {
        let (reflections, size) = (self.reflections(), self.random.below(2_000_000) as i64);
        // Half of them in order, the others as they come.
        let apart = self.random.pick(&[0, 5_000_000]);
        std::array::from_fn(|place| match place {
            0..=2 => self.about(reflections + apart * (1 - place as i64)),
            3 => self.equivalents(),
            4..=6 => self.about(size + apart * (5 - place as i64)),
            _ => self.number(),
        })
    }

    /// A profile's number, now and then one that is none.
    pub fn profile(&mut self) -> u64 {
        match self.random.below(8) {
            0 => self.random.pick(&OTHER_PROFILES),
            at => at as u64 % 2,
        }
    }

    fn reflections(&mut self) -> i64 {
        let whole = self.random.pick(&[0, 1, 30, 5_000, 99_999, 999_999_999]);
        let number = 1_000_000 * self.random.below(whole + 1) as i64;
        self.random.pick(&[number, number, number, -number])
    }

    /// A number in some writing, or one unit in its last place beside it.
    fn about(&mut self, millionths: i64) -> Vec<u8> {
        self.fitting(|own| {
            let places = own.random.below(most_places(millionths) + 1);
            let number = near(millionths, places, own.random.pick(&[-1, 0, 0, 0, 0, 1]));
            let sign = if number < 0 { "-" } else { own.random.pick(&["", "", "", "", "+", "0"]) };
            let size = own.inputs.written(&decimal(number, places));
            [sign.as_bytes(), size.as_bytes(), &own.inputs.uncertainty()].concat()
        })
    }

    fn equivalents(&mut self) -> Vec<u8> {
        match self.random.below(8) {
            0 | 1 => self.random.pick(&NOT_ZEROS).into(),
            2 | 3 => self.number(),
            4 | 5 => self.random.pick(&ZEROS).into(),
            _ => self.random.pick(&["?", "."]).into(),
        }
    }

    fn number(&mut self) -> Vec<u8> {
        self.fitting(|own| own.inputs.number_near_limits())
    }

    /// The first of the source's values that is a number.
    fn fitting(&mut self, source: impl Fn(&mut Self) -> Vec<u8>) -> Vec<u8> {
        loop {
            let value = source(self);
            if fits(FIRST_ITEM, &value) {
                return value;
            }
        }
    }
}

/// A desk that holds the values of some items, of which some are empty.
fn desk<'a>(values: impl IntoIterator<Item = (usize, &'a str)>) -> Desk {
    holding(values.into_iter().filter(|(_, value)| !value.is_empty()))
}

/// Every mixture of three lists.
fn triples(list: &'static [&'static str]) -> impl Iterator<Item = [&'static str; 3]> {
    let each = list.iter();
    each.clone().flat_map(move |a| {
        let each = each.clone();
        each.clone().flat_map(move |b| each.clone().map(move |c| [*a, *b, *c]))
    })
}

/// Numbers of reflections in every mixture, missing ones too, each with and without equivalents.
pub fn reflections() -> impl Iterator<Item = Desk> {
    triples(&REFLECTIONS).flat_map(|[measured, total, gt]| {
        EQUIVALENTS
            .map(|equivalents| desk([(11, measured), (12, total), (13, gt), (14, equivalents)]))
    })
}

/// Numbers that are zero in every writing, and such as are not, where total and gt agree or differ.
pub fn zeros() -> impl Iterator<Item = Desk> {
    ZEROS.into_iter().chain(NOT_ZEROS).flat_map(|equivalents| {
        [("7", "7"), ("7.0(3)", "007"), ("7", "6"), ("7", "7.000001"), ("0", "-0.0")]
            .map(|(total, gt)| desk([(12, total), (13, gt), (14, equivalents)]))
    })
}

/// Sizes in every mixture.
pub fn sizes() -> impl Iterator<Item = Desk> {
    triples(&SIZES).map(|[max, mid, min]| desk([(15, max), (16, mid), (17, min)]))
}

/// Each of the items assigned, empty or unassigned, in every mixture.
pub fn mixtures() -> impl Iterator<Item = Desk> {
    (0..3_usize.pow(ITEMS as u32)).map(|mixture| {
        desk((FIRST_ITEM..).zip(WITHOUT_ALERT).enumerate().map(|(place, (item, value))| {
            match mixture / 3_usize.pow(place as u32) % 3 {
                0 => (item, value),
                1 => (item, MISSING[0]),
                _ => (item, MISSING[1 + (mixture + place) % 2]),
            }
        }))
    })
}
