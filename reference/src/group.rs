//! The list of symmetry operators, and whether it is a group: document 02, request No. 5. Quoted
//! sentences are that request's.

use crate::operator::{Row, FACTORS, NOT_READ, NUMBERS, PARTS, TAKEN, WHOLE};
use std::collections::HashSet;
use std::hash::{BuildHasherDefault, Hasher};

/// "at most 192 operators"
pub const MOST: usize = 192;
/// "14 determinant"
pub const BAD_DETERMINANT: u8 = 14;
/// "15 no identity"
pub const NO_IDENTITY: u8 = 15;
/// "16 equal rows"
pub const EQUAL_ROWS: u8 = 16;
/// "17 a product missing"
pub const NO_PRODUCT: u8 = 17;

pub const IDENTITY: Row = [1, 0, 0, 0, 1, 0, 0, 0, 1, 0, 0, 0];

/// The answer, and "the number of pairs looked at up to and including the first without its product,
/// or all pairs"; "the pair count is 0 for 13 to 16".
pub fn check(numbers: &[i8]) -> (u8, u64) {
    let Some(rows) = rows(numbers) else {
        return (NOT_READ, 0);
    };
    if !rows.iter().all(|row| [1, -1].contains(&determinant(row))) {
        return (BAD_DETERMINANT, 0);
    }
    if !rows.contains(&IDENTITY) {
        return (NO_IDENTITY, 0);
    }
    let list: HashSet<&Row, BuildHasherDefault<Mixed>> = rows.iter().collect();
    if list.len() < rows.len() {
        return (EQUAL_ROWS, 0);
    }
    // "Pairs run by first row, then second"
    let mut pairs = 0;
    for first in rows {
        for second in rows {
            pairs += 1;
            if !list.contains(&product(first, second)) {
                return (NO_PRODUCT, pairs);
            }
        }
    }
    (TAKEN, pairs)
}

/// "rows of whole numbers: nine factors from −1 to 1 .. and three translations in 24ths, 0 to 23";
/// "more than 192 rows, a part row or a number out of range, 13".
fn rows(numbers: &[i8]) -> Option<&[Row]> {
    let (rows, part_row) = numbers.as_chunks();
    let in_range = |row: &Row| {
        row[..FACTORS].iter().all(|factor| (-1..=1).contains(factor))
            && row[FACTORS..].iter().all(|number| (0..WHOLE).contains(number))
    };
    (part_row.is_empty() && rows.len() <= MOST && rows.iter().all(in_range)).then_some(rows)
}

/// The determinant of the factors.
pub fn determinant(row: &Row) -> i8 {
    let [a, b, c, d, e, f, g, h, i, ..] = *row;
    a * (e * i - f * h) - b * (d * i - f * g) + c * (d * h - e * g)
}

/// "a product applies the second first": its factors, which may be beyond 1, and its translations
/// "modulo 1".
pub fn product(first: &Row, second: &Row) -> Row {
    let mut product = [0; NUMBERS];
    for part in 0..PARTS {
        let [x, y, z] = [0, 1, 2].map(|letter| first[PARTS * part + letter]);
        let of = |at: usize, step: usize| {
            x * second[at] + y * second[at + step] + z * second[at + 2 * step]
        };
        for letter in 0..PARTS {
            product[PARTS * part + letter] = of(letter, PARTS);
        }
        product[FACTORS + part] = (of(FACTORS, 1) + first[FACTORS + part]).rem_euclid(WHOLE);
    }
    product
}

/// A quick hash of rows: each eight bytes multiplied, and the upper bits brought down.
#[derive(Default)]
struct Mixed(u64);

/// 2^64 divided by the golden ratio.
const MIXER: u64 = 11_400_714_819_323_198_485;

impl Hasher for Mixed {
    fn write(&mut self, bytes: &[u8]) {
        for part in bytes.chunks(8) {
            let word = part.iter().rev().fold(0, |word, &byte| word << 8 | u64::from(byte));
            self.0 = (self.0 ^ word).wrapping_mul(MIXER).rotate_left(32);
        }
    }

    /// All rows have one length.
    fn write_usize(&mut self, _length: usize) {}

    fn finish(&self) -> u64 {
        self.0
    }
}

#[cfg(test)]
mod tests {
    use super::*;
    use crate::operator::read;

    fn list(texts: &[&str]) -> Vec<i8> {
        let row = |text: &&str| {
            let (answer, row) = read(text.as_bytes());
            assert_eq!(answer, TAKEN, "{text}");
            row
        };
        texts.iter().flat_map(row).collect()
    }

    fn checks(texts: &[&str], answer: u8, pairs: u64) {
        assert_eq!(check(&list(texts)), (answer, pairs), "{texts:?}");
    }

    /// The group that these texts generate.
    fn generated(texts: &[&str]) -> Vec<Row> {
        let mut rows = list(texts).as_chunks().0.to_vec();
        let mut at = 0;
        while at < rows.len() {
            for other in 0..rows.len() {
                for product in [product(&rows[at], &rows[other]), product(&rows[other], &rows[at])]
                {
                    if !rows.contains(&product) {
                        rows.push(product);
                    }
                }
            }
            at += 1;
        }
        rows
    }

    const LARGEST: [&str; 6] =
        ["x,y,z", "-y,x,z", "z,x,y", "-x,-y,-z", "x,y+1/2,z+1/2", "x+1/2,y,z+1/2"];

    #[test]
    fn groups() {
        checks(&["x,y,z"], TAKEN, 1);
        checks(&["x,y,z", "-x,-y,-z"], TAKEN, 4);
        checks(&["-x,y+1/2,-z+1/2", "x,y,z", "-x,-y,-z", "x,-y-1/2,z+1/2"], TAKEN, 16);
        checks(&["x,y,z", "-y,x-y,z+1/3", "y-x,-x,z+2/3"], TAKEN, 9);
        checks(&["x,y,z", "x+1/4,y,z", "x+2/4,y,z", "x+3/4,y,z"], TAKEN, 16);
        let rows = generated(&LARGEST);
        assert_eq!(rows.len(), MOST);
        assert_eq!(check(rows.as_flattened()), (TAKEN, 36_864));
    }

    #[test]
    fn a_product_applies_the_second_first() {
        // The screw turns the glide's shift round.
        let (screw, glide) = ("-x,y+1/2,-z", "x+1/2,y,-z");
        let rows = list(&[screw, glide]);
        let [screw, glide] =
            [&rows[..NUMBERS], &rows[NUMBERS..]].map(|row| row.try_into().unwrap());
        assert_eq!(product(&screw, &glide), list(&["-x-1/2,y+1/2,z"])[..]);
        assert_eq!(product(&glide, &screw), list(&["-x+1/2,y+1/2,z"])[..]);
        // A turn by a third and one by a quarter.
        let rows = list(&["z,x,y", "-y,x,z"]);
        let [third, quarter] =
            [&rows[..NUMBERS], &rows[NUMBERS..]].map(|row| row.try_into().unwrap());
        assert_eq!(product(&third, &quarter), list(&["z,-y,x"])[..]);
        assert_eq!(product(&quarter, &third), list(&["-x,z,y"])[..]);
    }

    #[test]
    fn the_first_pair_without_its_product() {
        checks(&["x,y,z", "-x,y,z+1/4"], NO_PRODUCT, 4);
        checks(&["-y,x,z", "x,y,z"], NO_PRODUCT, 1);
        checks(&["x,y,z", "-y,x,z"], NO_PRODUCT, 4);
        checks(&["x,y,z", "-y,x,z", "-x,-y,z"], NO_PRODUCT, 6);
        checks(&["x,y,z", "-x,-y,z", "-y,x,z"], NO_PRODUCT, 6);
        // A factor of 2 is in no list.
        checks(&["x,y,z", "x+y,y,z"], NO_PRODUCT, 4);
        // The last row is missing; the first pair whose product it is stands in the second line.
        let rows = generated(&["x,y,z", "-x,y,z", "x,-y,z"]);
        assert_eq!(check(rows.as_flattened()), (TAKEN, 16));
        assert_eq!(check(rows[..3].as_flattened()), (NO_PRODUCT, 6));
    }

    #[test]
    fn refusals_in_their_order() {
        checks(&[], NO_IDENTITY, 0);
        checks(&["x,x,z"], BAD_DETERMINANT, 0);
        checks(&["x+y-z,y-x+z,z-y+x"], BAD_DETERMINANT, 0);
        checks(&["x,y,z", "x,y,z", "x,y,x+y"], BAD_DETERMINANT, 0);
        checks(&["-x,y,z", "-x,y,z"], NO_IDENTITY, 0);
        checks(&["x+1/2,y,z"], NO_IDENTITY, 0);
        checks(&["x,y,z", "-y,x,z", "-y,x,z"], EQUAL_ROWS, 0);
        checks(&["x,y,z", "-x,y,z+1/4", "x,y,z"], EQUAL_ROWS, 0);
        checks(&["x,y,z", "x-1/2,y,z", "x+1/2,y,z"], EQUAL_ROWS, 0);
    }

    #[test]
    fn shapes() {
        let rows = generated(&LARGEST);
        let more = [&rows[..], &[IDENTITY]].concat();
        assert_eq!(check(more.as_flattened()), (NOT_READ, 0));
        assert_eq!(check(&vec![0; NUMBERS * 256]), (NOT_READ, 0));
        for length in (0..40).filter(|length| length % NUMBERS != 0) {
            assert_eq!(check(&rows.as_flattened()[..length]), (NOT_READ, 0), "{length}");
        }
        for at in 0..NUMBERS {
            let range = if at < FACTORS { -1..=1 } else { 0..=23 };
            for number in i8::MIN..=i8::MAX {
                let mut rows = [[0; NUMBERS], IDENTITY, IDENTITY];
                rows[2][at] = number;
                let answer = if range.contains(&number) { BAD_DETERMINANT } else { NOT_READ };
                assert_eq!(check(rows.as_flattened()), (answer, 0), "{number} at {at}");
            }
        }
    }

    #[test]
    fn determinants() {
        for (text, of) in [
            ("x,y,z", 1),
            ("-x,-y,-z", -1),
            ("y,x,z", -1),
            ("z,x,y", 1),
            ("-y,x-y,z", 1),
            ("x,x,z", 0),
            ("y+z,x+z,x+y", 2),
            ("x+y-z,y+z-x,x-y+z", 4),
            ("-x-y+z,x-y-z,x-y+z", 4),
        ] {
            let row = list(&[text]);
            assert_eq!(determinant(row[..].try_into().unwrap()), of, "{text}");
        }
    }
}
