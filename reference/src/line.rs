//! Lines: document 01, "A line, a number", and the wall screen's number for one line.

use crate::names::{item, passes};
use crate::value::form;
use std::ops::RangeInclusive;

/// The longest line: "Document 01's limits at 80 become 200" (document 02, request No. 6). Quoted
/// sentences of document 01 are given with that number in brackets.
pub const LIMIT: usize = 200;
/// "a byte outside 32 to 126"
pub const BYTES: RangeInclusive<u8> = 32..=126;

/// "accepted"
pub const ACCEPTED: u8 = 0;
/// "the line is not of the form below (the empty line too)"
pub const NOT_A_LINE: u8 = 5;
/// "the name is none of the ten"; document 02, No. 11 and 12: of the nineteen
pub const NO_SUCH_NAME: u8 = 6;
/// "the value fails its item's kind"
pub const WRONG_KIND: u8 = 7;

/// Name and value. "A line is a name (first byte `_`, no spaces), one or more spaces, a value,
/// and nothing after." Length and bytes are not tested here.
pub fn split(line: &[u8]) -> Option<(&[u8], &[u8])> {
    let (name, rest) = crate::cut(line, b' ')?;
    let spaces = rest.iter().take_while(|&&byte| byte == b' ').count();
    let value = &rest[spaces..];
    (name.starts_with(b"_") && form(value).is_some()).then_some((name, value))
}

/// The wall screen's number for one line: the first of 5, 6 and 7 that applies, otherwise 0.
pub fn classify(line: &[u8]) -> u8 {
    if line.len() > LIMIT || !line.iter().all(|byte| BYTES.contains(byte)) {
        return NOT_A_LINE;
    }
    let Some((name, value)) = split(line) else {
        return NOT_A_LINE;
    };
    match item(name) {
        None => NO_SUCH_NAME,
        Some(item) if passes(item, value) => ACCEPTED,
        Some(_) => WRONG_KIND,
    }
}

#[cfg(test)]
mod tests {
    use super::{classify, split};

    fn all(lines: &[&str], answer: u8) {
        for line in lines {
            assert_eq!(classify(line.as_bytes()), answer, "{line}");
        }
    }

    #[test]
    fn accepted() {
        all(&["_refine_ls_R_factor_gt 0.16", "_refine_ls_wR_factor_obs 0.2"], 0);
        all(&["_chemical_formula_sum 'C18 H19 N7 O8 S'", "_CHEMICAL_FORMULA_SUM    ''"], 0);
        all(
            &["_reflns_threshold_expression 'F^2^ > 6\\s(F^2^)'", "_publ_requested_category 'FO'"],
            0,
        );
    }

    #[test]
    fn points_at_either_end() {
        all(&["_refine_ls_R_factor_gt .0412(7)", "_chemical_formula_weight 45."], 0);
        all(&["_refine_ls_shift/su_max -.5(3)", "_refine_ls_R_factor_gt ."], 0);
        all(&["_refine_ls_shift/su_max -.", "_refine_ls_R_factor_gt .(3)"], 7);
        all(&["_publ_requested_category .5", "_publ_requested_category 5."], 7);
        all(&["_chemical_formula_sum .5", "_chemical_formula_sum -."], 0);
    }

    #[test]
    fn not_of_the_form() {
        all(&["", " ", "_", "_a", "_a ", "_a   ", "a 1", " _a 1", "_a 1 ", "_a 1 2", "_a\t1"], 5);
        all(&["_a _b", "_a 'x", "_a Data_x", "_a LOOP_", "_refine_ls_R_factor_gt"], 5);
    }

    #[test]
    fn unknown_name_before_wrong_kind() {
        all(&["_a x", "_ x", "_refine_ls_R_factor_g x", "_a loop_x"], 6);
        all(
            &[
                "_refine_ls_R_factor_gt x",
                "_refine_ls_R_factor_gt '0.1'",
                "_publ_requested_category fo",
            ],
            7,
        );
    }

    #[test]
    fn length_and_bytes() {
        let line =
            |length: usize| format!("{:<length$}x", "_chemical_formula_sum", length = length - 1);
        all(&[&line(80), &line(81), &line(199), &line(200)], 0);
        all(&[&line(201), &line(256 + 100)], 5);
        all(&["_chemical_formula_sum \x1f", "_chemical_formula_sum \x7f"], 5);
        assert_eq!(classify(b"_chemical_formula_sum \xff"), 5);
        all(&["_chemical_formula_sum ~"], 0);
    }

    #[test]
    fn name_and_value() {
        assert_eq!(split(b"_a   'b c'"), Some((&b"_a"[..], &b"'b c'"[..])));
        assert_eq!(split(b"_\x00 \xff"), Some((&b"_\x00"[..], &b"\xff"[..])));
    }
}
