//! The items: document 01, the table under "What the desk holds", and document 02, requests No. 11
//! and 12.

use crate::number::number;
use crate::value::{form, text, Form};

/// What an item takes.
#[derive(Clone, Copy, Debug, PartialEq, Eq)]
pub enum Kind {
    Text,
    Number,
    Category,
}

/// Name and kind of each item in turn; 11 to 18 are those of No. 11, 19 is that of No. 12.
pub const ITEMS: [(&str, Kind); 19] = [
    ("_chemical_formula_sum", Kind::Text),
    ("_chemical_formula_weight", Kind::Number),
    ("_publ_requested_category", Kind::Category),
    ("_refine_ls_R_factor_gt", Kind::Number),
    ("_refine_ls_R_factor_obs", Kind::Number),
    ("_refine_ls_wR_factor_ref", Kind::Number),
    ("_refine_ls_wR_factor_obs", Kind::Number),
    ("_refine_ls_shift/su_max", Kind::Number),
    ("_refine_ls_shift/esd_max", Kind::Number),
    ("_reflns_threshold_expression", Kind::Text),
    ("_diffrn_reflns_number", Kind::Number),
    ("_reflns_number_total", Kind::Number),
    ("_reflns_number_gt", Kind::Number),
    ("_diffrn_reflns_av_R_equivalents", Kind::Number),
    ("_exptl_crystal_size_max", Kind::Number),
    ("_exptl_crystal_size_mid", Kind::Number),
    ("_exptl_crystal_size_min", Kind::Number),
    ("_diffrn_radiation_wavelength", Kind::Number),
    ("_chemical_formula_moiety", Kind::Text),
];

/// "A category is FI, CI, FM, CM, FO or CO, bare or quoted, capitals only."
pub const CATEGORIES: [&str; 6] = ["FI", "CI", "FM", "CM", "FO", "CO"];

/// The item's number, from 1 on. "Names are compared without regard to the case of A to Z."
pub fn item(name: &[u8]) -> Option<usize> {
    let same = |(known, _): &(&str, Kind)| known.as_bytes().eq_ignore_ascii_case(name);
    ITEMS.iter().position(same).map(|place| place + 1)
}

/// Whether the value is one, and of the item's kind. "unassigned .. passes every kind"
pub fn passes(item: usize, value: &[u8]) -> bool {
    match (form(value), ITEMS[item - 1].1) {
        (None, _) => false,
        (Some(Form::Unassigned), _) | (Some(_), Kind::Text) => true,
        (Some(_), Kind::Number) => number(value).is_some(),
        (Some(_), Kind::Category) => CATEGORIES.iter().any(|known| known.as_bytes() == text(value)),
    }
}

#[cfg(test)]
mod tests {
    use super::{item, passes, ITEMS};

    #[test]
    fn names_in_any_case() {
        for (place, (name, _)) in ITEMS.iter().enumerate() {
            assert_eq!(item(name.as_bytes()), Some(place + 1));
            assert_eq!(item(name.to_uppercase().as_bytes()), Some(place + 1));
            assert_eq!(item(name.to_lowercase().as_bytes()), Some(place + 1));
        }
    }

    #[test]
    fn other_names() {
        for name in
            ["", "_", "_refine_ls_R_factor", "_refine_ls_R_factor_gtt", "refine_ls_R_factor_gt"]
        {
            assert_eq!(item(name.as_bytes()), None, "{name}");
        }
        // Bytes 32 apart that are no letters stay different.
        assert_eq!(item(b"\x7fchemical_formula_sum"), None);
        assert_eq!(item(b"_refine_ls_shift\x0fsu_max"), None);
    }

    #[test]
    fn kinds() {
        assert!(["?", ".", "''", "x", "1"].iter().all(|value| passes(1, value.as_bytes())));
        assert!(["?", ".", "1", "-1.5(3)", ".5", "45.(3)"]
            .iter()
            .all(|value| passes(2, value.as_bytes())));
        assert!(!["'1'", "x", "''", "'?'", "-.", ".(3)", "'.5'"]
            .iter()
            .any(|value| passes(2, value.as_bytes())));
        assert!(["?", ".", "FI", "'CO'", "\"FM\""].iter().all(|value| passes(3, value.as_bytes())));
        assert!(!["fi", "F", "FIX", "''", "'?'", "' FI'"]
            .iter()
            .any(|value| passes(3, value.as_bytes())));
    }
}
