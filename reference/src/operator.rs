//! A symmetry operator's text: document 02, request No. 5. Quoted sentences are that request's.

/// "13 text"
pub const NOT_READ: u8 = 13;
/// The operator was read, or the list is accepted.
pub const TAKEN: u8 = 0;
/// "three parts"
pub const PARTS: usize = 3;
/// "nine factors from −1 to 1 (part by part, each x, y, z)"
pub const FACTORS: usize = PARTS * AXES.len();
/// The factors "and three translations"
pub const NUMBERS: usize = FACTORS + PARTS;
/// "in 24ths": those of 1
pub const WHOLE: i8 = 24;

const AXES: [u8; 3] = [b'x', b'y', b'z'];
const DENOMINATORS: [u8; 5] = [b'2', b'3', b'4', b'6', b'8'];

/// An operator's numbers.
pub type Row = [i8; NUMBERS];

/// The factors of x, y and z in a part, and its translation.
type Part = ([i8; AXES.len()], i8);

/// "Reading a text gives its row, or 13 and twelve zeros."
pub fn read(text: &[u8]) -> (u8, Row) {
    match row(text) {
        Some(row) => (TAKEN, row),
        None => (NOT_READ, [0; NUMBERS]),
    }
}

/// "An operator is three parts with commas, no spaces"
fn row(text: &[u8]) -> Option<Row> {
    let mut row = [0; NUMBERS];
    let (factors, translations) = row.split_at_mut(FACTORS);
    let mut parts = text.split(|&byte| byte == b',');
    for (factors, translation) in factors.chunks_mut(AXES.len()).zip(translations) {
        let (own, fraction) = part(parts.next()?)?;
        factors.copy_from_slice(&own);
        *translation = fraction;
    }
    parts.next().is_none().then_some(row)
}

/// "a sum of one or more signed x, y, z (only the part's first plus may be missing), .. with at most
/// one signed fraction first or last"
fn part(text: &[u8]) -> Option<Part> {
    match text {
        [sign, numerator, b'/', denominator, terms @ ..] if sign_of(*sign).is_some() => {
            Some((sum(terms)?, fraction(*sign, *numerator, *denominator)?))
        }
        [numerator, b'/', denominator, terms @ ..] => {
            Some((sum(terms)?, fraction(b'+', *numerator, *denominator)?))
        }
        [terms @ .., sign, numerator, b'/', denominator] => {
            Some((first_plus_may_be_missing(terms)?, fraction(*sign, *numerator, *denominator)?))
        }
        terms => Some((first_plus_may_be_missing(terms)?, 0)),
    }
}

/// The sum, also without its first plus: then it has an odd number of bytes.
fn first_plus_may_be_missing(terms: &[u8]) -> Option<[i8; AXES.len()]> {
    match terms {
        [letter, signed @ ..] if signed.len() % 2 == 0 => {
            let mut factors = [0; AXES.len()];
            factors[place(*letter)?] = 1;
            added(factors, signed)
        }
        _ => sum(terms),
    }
}

/// "one or more signed x, y, z"
fn sum(terms: &[u8]) -> Option<[i8; AXES.len()]> {
    if terms.is_empty() {
        return None;
    }
    added([0; AXES.len()], terms)
}

/// Signed letters beside those that were there: "each letter at most once".
fn added(mut factors: [i8; AXES.len()], terms: &[u8]) -> Option<[i8; AXES.len()]> {
    for term in terms.chunks(2) {
        let [sign, letter] = term else {
            return None;
        };
        let factor = &mut factors[place(*letter)?];
        if *factor != 0 {
            return None;
        }
        *factor = sign_of(*sign)?;
    }
    Some(factors)
}

fn place(letter: u8) -> Option<usize> {
    AXES.iter().position(|&known| known == letter)
}

fn sign_of(byte: u8) -> Option<i8> {
    match byte {
        b'+' => Some(1),
        b'-' => Some(-1),
        _ => None,
    }
}

/// A fraction in 24ths: "numerator 1 to 7 below its denominator 2, 3, 4, 6 or 8", "Translations count
/// modulo 1".
fn fraction(sign: u8, numerator: u8, denominator: u8) -> Option<i8> {
    let taken = DENOMINATORS.contains(&denominator) && (b'1'..denominator).contains(&numerator);
    let size = |digit: u8| (digit - b'0') as i8;
    let sign = sign_of(sign).filter(|_| taken)?;
    Some((sign * size(numerator) * (WHOLE / size(denominator))).rem_euclid(WHOLE))
}

#[cfg(test)]
mod tests {
    use super::*;

    fn reads(text: &str, row: Row) {
        assert_eq!(read(text.as_bytes()), (TAKEN, row), "{text}");
    }

    fn none(texts: &[&str]) {
        for text in texts {
            assert_eq!(read(text.as_bytes()), (NOT_READ, [0; NUMBERS]), "{text}");
        }
    }

    #[test]
    fn letters() {
        reads("x,y,z", [1, 0, 0, 0, 1, 0, 0, 0, 1, 0, 0, 0]);
        reads("+x,+y,+z", [1, 0, 0, 0, 1, 0, 0, 0, 1, 0, 0, 0]);
        reads("-y,x-y,z", [0, -1, 0, 1, -1, 0, 0, 0, 1, 0, 0, 0]);
        reads("z-y+x,-z+x-y,y", [1, -1, 1, 1, -1, -1, 0, 1, 0, 0, 0, 0]);
        reads("x,x,x", [1, 0, 0, 1, 0, 0, 1, 0, 0, 0, 0, 0]);
        none(&["x+x,y,z", "x-x,y,z", "x,y+z+y,z", "x,y,z-x-z", "X,y,z", "x,y,Z", "x,y,a", "w,y,z"]);
        none(&["xy,y,z", "x,yz,z", "x,y,--z", "x,y,+-z", "x,y,z-", "x,y,z+", "-,y,z", "x++y,y,z"]);
    }

    #[test]
    fn commas() {
        none(&["", ",", ",,", "x", "x,y", "x,y,", ",y,z", "x,,z", "x,y,z,", "x,y,z,x", ",x,y,z"]);
        none(&["x y,z", "x;y;z", "x, y, z", " x,y,z", "x,y,z ", "x,y,z\n", "'x,y,z'"]);
    }

    #[test]
    fn fractions() {
        reads("x+1/2,y-1/3,z+1/4", [1, 0, 0, 0, 1, 0, 0, 0, 1, 12, 16, 6]);
        reads("1/2+x,-1/3+y,+1/4-z", [1, 0, 0, 0, 1, 0, 0, 0, -1, 12, 16, 6]);
        reads("x-1/4,5/6-x-y,-z-7/8", [1, 0, 0, -1, -1, 0, 0, 0, -1, 18, 20, 3]);
        reads("2/4+x,y+4/6,z+6/8", [1, 0, 0, 0, 1, 0, 0, 0, 1, 12, 16, 18]);
        none(&["1/2,y,z", "-1/2,y,z", "x,+3/4,z", "x,y,1/2+1/2", "1/2+x+1/2,y,z", "x+1/2+1/2,y,z"]);
        none(&["x+1/2+y,y,z", "x,y-1/2-z,z", "1/2x,y,z", "x1/2,y,z", "1/2*x,y,z", "x,y,1/2"]);
        none(&["x+0/2,y,z", "x+2/2,y,z", "x+4/4,y,z", "x+8/8,y,z", "x+3/2,y,z", "x+9/8,y,z"]);
        none(&["x+1/1,y,z", "x+1/0,y,z", "x+1/5,y,z", "x+1/7,y,z", "x+1/9,y,z", "x+1/12,y,z"]);
        none(&["x+01/2,y,z", "x+1/02,y,z", "x+1/,y,z", "x+/2,y,z", "x+1,y,z", "x+0.5,y,z"]);
        none(&["1/2-,y,z", "x+-1/2,y,z", "x,y,z--1/2", "x-1/-2,y,z"]);
    }

    /// Every fraction, at either end and with either sign.
    #[test]
    fn every_fraction() {
        let mut taken = 0;
        for numerator in 0..=9 {
            for denominator in 0..=9 {
                let fits =
                    [2, 3, 4, 6, 8].contains(&denominator) && (1..denominator).contains(&numerator);
                let plus = if fits { 24 * numerator / denominator } else { 0 };
                let size = format!("{numerator}/{denominator}");
                for (text, translation) in [
                    (format!("{size}+x"), plus),
                    (format!("+{size}-x"), plus),
                    (format!("x+{size}"), plus),
                    (format!("-{size}+x"), 24 - plus),
                    (format!("-x-{size}"), 24 - plus),
                ] {
                    let (answer, row) = read(format!("y,{text},z").as_bytes());
                    assert_eq!(answer, if fits { TAKEN } else { NOT_READ }, "{text}");
                    assert_eq!(row[10] as i32, if fits { translation } else { 0 }, "{text}");
                    taken += usize::from(fits);
                }
            }
        }
        assert_eq!(taken, 5 * (1 + 2 + 3 + 5 + 7));
    }
}
