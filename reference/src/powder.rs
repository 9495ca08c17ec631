//! Powder week: document 02, request No. 11. Quoted sentences are that request's.

use crate::number::number;
use crate::rows::{assigned, judged, missing, Row, Values, C, FIRST_TWELVE, NONE};

/// "profiles 0, single-crystal, and 1, powder, one chosen with each report"
#[derive(Clone, Copy, Debug, PartialEq, Eq)]
pub enum Profile {
    SingleCrystal,
    Powder,
}

/// How many profiles there are.
pub const PROFILES: u64 = 2;
/// "21, no such profile"
pub const NO_SUCH_PROFILE: u8 = 21;

/// How many rows are the request's.
pub const POWDER_ROWS: usize = 12;
/// "13 to 19 items 11 to 13 and 15 to 18 present in turn"
const PRESENT: [usize; 7] = [11, 12, 13, 15, 16, 17, 18];
/// "For powder rows 13 to 18, 20 and 21 are level 0, reason 0."
pub const NOT_FOR_POWDER: [usize; 8] = [13, 14, 15, 16, 17, 18, 20, 21];

impl Profile {
    /// The profile of a number.
    pub fn numbered(number: u64) -> Option<Self> {
        match number {
            0 => Some(Profile::SingleCrystal),
            1 => Some(Profile::Powder),
            _ => None,
        }
    }

    /// Whether a row is judged under the profile.
    fn keeps(self, row: usize) -> bool {
        self == Profile::SingleCrystal || !NOT_FOR_POWDER.contains(&row)
    }
}

/// Rows 13 to 24.
pub fn rows(values: &Values, profile: Profile) -> [Row; POWDER_ROWS] {
    let [r13, r14, r15, r16, r17, r18, r19] = PRESENT.map(|item| present(values, item));
    let number = |item| assigned(values, item).and_then(number);
    let (measured, total, gt, equivalents) = (number(11), number(12), number(13), number(14));
    let (max, mid, min) = (number(15), number(16), number(17));
    // "item 14 must be present if total and gt differ"
    let r20 = total.zip(gt).map(|(total, gt)| total != gt && equivalents.is_none());
    // "and be zero if present when they agree"
    let r21 = total.zip(gt).zip(equivalents);
    let r21 = r21.map(|((total, gt), equivalents)| total == gt && equivalents != 0);
    // "total is not above 11 nor below 13"
    let r22 = total.zip(measured).map(|(total, measured)| total > measured);
    let r23 = total.zip(gt).map(|(total, gt)| total < gt);
    // "sizes run min, mid, max without falling"
    let r24 = min.zip(mid).zip(max).map(|((min, mid), max)| min > mid || mid > max);
    let [r20, r21, r22, r23, r24] = [r20, r21, r22, r23, r24].map(compared);
    let mut rows = [r13, r14, r15, r16, r17, r18, r19, r20, r21, r22, r23, r24];
    for (number, row) in (FIRST_TWELVE + 1..).zip(&mut rows) {
        if !profile.keeps(number) {
            *row = Row::default();
        }
    }
    rows
}

/// "house level C (reason 1 in 13 to 19, else 0)"
fn present(values: &Values, item: usize) -> Row {
    match assigned(values, item) {
        Some(_) => judged(NONE),
        None => missing(C),
    }
}

/// "a missing item that the rule compares gives level 0, reason 1"; otherwise whether it is broken.
fn compared(broken: Option<bool>) -> Row {
    match broken {
        None => missing(NONE),
        Some(broken) => judged(if broken { C } else { NONE }),
    }
}

#[cfg(test)]
mod tests {
    use super::*;
    use crate::names::{item, ITEMS};
    use crate::rows::{rows, JUDGED, MISSING};

    const BOTH: [Profile; 2] = [Profile::SingleCrystal, Profile::Powder];
    const FIRED: (u8, u8) = (C, JUDGED);
    const HOLDS: (u8, u8) = (NONE, JUDGED);
    const LACKS: (u8, u8) = (NONE, MISSING);

    fn row(number: usize, profile: Profile, filled: &[(usize, &str)]) -> (u8, u8) {
        let mut values: Values = [b""; ITEMS.len()];
        for (item, value) in filled {
            values[item - 1] = value.as_bytes();
        }
        let Row { level, reason } = rows(&values, profile)[number - 1];
        (level, reason)
    }

    /// A row under single-crystal, and under powder the same or nothing.
    fn is(number: usize, filled: &[(usize, &str)], expected: (u8, u8)) {
        let powder = if NOT_FOR_POWDER.contains(&number) { HOLDS } else { expected };
        assert_eq!(row(number, Profile::SingleCrystal, filled), expected, "{number} {filled:?}");
        assert_eq!(row(number, Profile::Powder, filled), powder, "{number} {filled:?}");
    }

    #[test]
    fn the_eight_items() {
        for (number, name) in (11..).zip([
            "_diffrn_reflns_number",
            "_reflns_number_total",
            "_reflns_number_gt",
            "_diffrn_reflns_av_R_equivalents",
            "_exptl_crystal_size_max",
            "_exptl_crystal_size_mid",
            "_exptl_crystal_size_min",
            "_diffrn_radiation_wavelength",
        ]) {
            assert_eq!(item(name.as_bytes()), Some(number));
        }
    }

    #[test]
    fn profiles() {
        assert_eq!((0..PROFILES).map(|n| Profile::numbered(n).unwrap()).collect::<Vec<_>>(), BOTH);
        for number in [2, 3, 255, 256, 257, 1 << 32, (1 << 32) + 1, u64::MAX] {
            assert_eq!(Profile::numbered(number), None);
        }
    }

    #[test]
    fn each_item_present() {
        for (number, item) in (13..=19).zip([11, 12, 13, 15, 16, 17, 18]) {
            for value in ["0", "1", "-1", "0.5(3)", ".5"] {
                is(number, &[(item, value)], HOLDS);
            }
            for filled in [&[][..], &[(item, "?")], &[(item, ".")], &[(14, "1")]] {
                is(number, filled, (C, MISSING));
            }
        }
        assert_eq!(row(19, Profile::Powder, &[]), (C, MISSING));
        assert_eq!(row(18, Profile::Powder, &[]), HOLDS);
    }

    #[test]
    fn equivalents_present_where_total_and_gt_differ() {
        is(20, &[(12, "2000"), (13, "1500")], FIRED);
        is(20, &[(12, "1500"), (13, "2000"), (14, "?")], FIRED);
        is(20, &[(12, "200"), (13, "200.000001"), (14, ".")], FIRED);
        is(20, &[(12, "2000"), (13, "1500"), (14, "0")], HOLDS);
        is(20, &[(12, "2000"), (13, "1500"), (14, "0.03")], HOLDS);
        is(20, &[(12, "2000"), (13, "2000.")], HOLDS);
        is(20, &[(12, "2000"), (13, "2000(5)")], HOLDS);
        for filled in [&[][..], &[(12, "1")], &[(13, "1")], &[(12, "1"), (13, "?")], &[(14, "1")]] {
            is(20, filled, LACKS);
        }
    }

    #[test]
    fn equivalents_zero_where_they_agree() {
        for zero in ["0", "0.0000", "-0.0", "0(5)", "0.", ".0", "+0", "-.0(12)", "000000000"] {
            is(21, &[(12, "2000"), (13, "2000"), (14, zero)], HOLDS);
        }
        for other in ["0.03", "0.000001", "-0.000001", "1", "0.030(5)", "-.1"] {
            is(21, &[(12, "2000"), (13, "2000"), (14, other)], FIRED);
            is(21, &[(12, "2000.0(3)"), (13, "+2000"), (14, other)], FIRED);
            is(21, &[(12, "2000"), (13, "1999"), (14, other)], HOLDS);
        }
        for filled in [
            &[(12, "2000"), (13, "2000")][..],
            &[(12, "2000"), (13, "2000"), (14, "?")],
            &[(12, "2000"), (14, "1")],
            &[(13, "2000"), (14, "1")],
            &[(12, "."), (13, "2000"), (14, "1")],
        ] {
            is(21, filled, LACKS);
        }
    }

    #[test]
    fn total_between_gt_and_measured() {
        for (total, other, above, below) in [
            ("5", "5", HOLDS, HOLDS),
            ("5", "5.0(9)", HOLDS, HOLDS),
            ("5", "4", FIRED, HOLDS),
            ("4", "5", HOLDS, FIRED),
            ("5.000001", "5", FIRED, HOLDS),
            ("4.999999", "5", HOLDS, FIRED),
            ("-1", "0", HOLDS, FIRED),
            ("0", "-1", FIRED, HOLDS),
            ("999999999", "1", FIRED, HOLDS),
            ("?", "5", LACKS, LACKS),
            ("5", ".", LACKS, LACKS),
        ] {
            is(22, &[(12, total), (11, other)], above);
            is(23, &[(12, total), (13, other)], below);
        }
        is(22, &[(12, "5"), (13, "1")], LACKS);
        is(23, &[(12, "5"), (11, "1")], LACKS);
    }

    #[test]
    fn sizes() {
        for (min, mid, max, expected) in [
            ("0.1", "0.2", "0.3", HOLDS),
            ("0.1", "0.1", "0.1", HOLDS),
            ("0.10", ".1(2)", "0.3", HOLDS),
            ("0.3", "0.2", "0.1", FIRED),
            ("0.1", "0.3", "0.2", FIRED),
            ("0.2", "0.1", "0.3", FIRED),
            ("0.100001", "0.1", "0.3", FIRED),
            ("0.1", "0.300001", "0.3", FIRED),
            ("-1", "0", "1", HOLDS),
            ("?", "0.3", "0.2", LACKS),
            ("0.3", ".", "0.2", LACKS),
            ("0.3", "0.2", "", LACKS),
        ] {
            is(24, &[(17, min), (16, mid), (15, max)], expected);
        }
    }

    #[test]
    fn powder_gives_no_alert_that_the_other_lacks() {
        let choices = ["", "?", "1", "2", "0"];
        for number in 0..choices.len().pow(7) {
            let mut values: Values = [b""; ITEMS.len()];
            for (place, item) in (11..=17).enumerate() {
                let at = number / choices.len().pow(place as u32) % choices.len();
                values[item - 1] = choices[at].as_bytes();
            }
            let [crystal, powder] = BOTH.map(|profile| rows(&values, profile));
            assert_eq!(crystal[..FIRST_TWELVE], powder[..FIRST_TWELVE]);
            for (crystal, powder) in crystal.into_iter().zip(powder) {
                assert!(powder == crystal || powder == Row::default());
            }
        }
    }
}
