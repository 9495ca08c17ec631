//! Levels of one typed value: document 01, "The twelve rows", rows 6, 8 and 10.

use crate::number::number;

/// "the answer 0 with the level it earns"
pub const GRADED: u8 = 0;
/// "6 for another row"
pub const OTHER_ROW: u8 = 6;
/// "then 7 for a value that is not a number (the unassigned marks too)"
pub const NOT_A_NUMBER: u8 = 7;

/// Levels A, B and C.
pub const LEVELS: [u8; 3] = [4, 3, 2];

/// The bounds above which a row gives A, B and C, in millionths.
pub fn bounds(row: u64) -> Option<[i64; 3]> {
    match row {
        6 => Some([200_000, 150_000, 100_000]),
        8 => Some([450_000, 350_000, 250_000]),
        10 => Some([200_000, 100_000, 50_000]),
        _ => None,
    }
}

/// The wall screen's answer and level for a row and one typed value.
pub fn grade(row: u64, value: &[u8]) -> (u8, u8) {
    let Some(bounds) = bounds(row) else {
        return (OTHER_ROW, 0);
    };
    let Some(number) = number(value) else {
        return (NOT_A_NUMBER, 0);
    };
    // Row 10: "absolute value above"
    let judged = if row == 10 { number.abs() } else { number };
    let passed = bounds.into_iter().zip(LEVELS).find(|&(bound, _)| judged > bound);
    (GRADED, passed.map_or(0, |(_, level)| level))
}

#[cfg(test)]
mod tests {
    use super::grade;

    fn level(row: u64, value: &str, level: u8) {
        assert_eq!(grade(row, value.as_bytes()), (0, level), "row {row}, {value}");
    }

    #[test]
    fn measured_examples() {
        level(6, "0.16", 3);
        level(6, "0.20", 3);
        level(6, "0.200001", 4);
        level(8, "0.2", 0);
        level(10, "-0.05", 0);
        level(10, "-0.06", 2);
    }

    #[test]
    fn each_bound_and_its_neighbours() {
        let bounds = [
            (
                6,
                [
                    ("0.10", 0),
                    ("0.100001", 2),
                    ("0.15", 2),
                    ("0.150001", 3),
                    ("0.2", 3),
                    ("0.200001", 4),
                ],
            ),
            (
                8,
                [
                    ("0.25", 0),
                    ("0.250001", 2),
                    ("0.35", 2),
                    ("0.350001", 3),
                    ("0.45", 3),
                    ("0.450001", 4),
                ],
            ),
            (
                10,
                [
                    ("0.05", 0),
                    ("0.050001", 2),
                    ("0.1", 2),
                    ("0.100001", 3),
                    ("0.2", 3),
                    ("0.200001", 4),
                ],
            ),
        ];
        for (row, cases) in bounds {
            for (value, expected) in cases {
                level(row, value, expected);
                level(row, &format!("-{value}"), if row == 10 { expected } else { 0 });
            }
        }
    }

    #[test]
    fn the_uncertainty_does_not_enter() {
        level(6, "0.20(9999)", 3);
        level(6, "0.3", 4);
    }

    #[test]
    fn points_at_either_end() {
        level(6, ".2", 3);
        level(6, ".200001", 4);
        level(6, "+.1(9999)", 0);
        level(8, "1.", 4);
        level(8, "0.", 0);
        level(10, "-.06", 2);
        level(10, "-.05(3)", 0);
        level(10, "-1.(3)", 4);
    }

    #[test]
    fn refusals() {
        for row in [0, 1, 5, 7, 9, 11, 12, 262, (1 << 32) + 6, u64::MAX] {
            assert_eq!(grade(row, b"0.3"), (6, 0));
            assert_eq!(grade(row, b"x"), (6, 0));
        }
        for value in ["", "?", ".", "-.", "+.", ".(3)", "-.(3)", "'0.3'", "'.3'", "x", "0.3 "] {
            assert_eq!(grade(6, value.as_bytes()), (7, 0), "{value}");
        }
    }
}
