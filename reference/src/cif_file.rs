//! A sheet as a CIF file: document 02, request No. 1; and No. 9, "the questions and the file writer name
//! a sheet". Quoted sentences are those requests'.

use crate::desk::{asked, Desk, Item, Sheet};
use crate::line::ACCEPTED;
use crate::names::ITEMS;
use std::ops::RangeInclusive;

/// "10 no room, exactly when the whole file is longer than the lent bytes"
pub const NO_ROOM: u8 = 10;
/// "11 bad block name"
pub const BAD_BLOCK_NAME: u8 = 11;
/// "1 to 32 letters, digits or `-`"
pub const BLOCK_LENGTHS: RangeInclusive<usize> = 1..=32;
/// "every line ended by byte 10"
pub const LINE_END: u8 = 10;

/// Writes the file to the first of the lent bytes: the answer, and "how many bytes it wrote";
/// "touches none after them; with a refusal, 0 and none at all".
pub fn write_file(desk: &Desk, sheet: u64, block: &[u8], lent: &mut [u8]) -> (u8, u64) {
    let sheet = match asked(desk, sheet) {
        Ok(sheet) => sheet,
        Err(answer) => return (answer, 0),
    };
    if !is_block_name(block) {
        return (BAD_BLOCK_NAME, 0);
    }
    let file = file(sheet, block);
    let Some(written) = lent.get_mut(..file.len()) else {
        return (NO_ROOM, 0);
    };
    written.copy_from_slice(&file);
    (ACCEPTED, file.len() as u64)
}

/// "a block name (1 to 32 letters, digits or `-`)"; letters are those of ASCII.
pub fn is_block_name(block: &[u8]) -> bool {
    BLOCK_LENGTHS.contains(&block.len())
        && block.iter().all(|byte| byte.is_ascii_alphanumeric() || *byte == b'-')
}

/// "a line `data_` with a block name .., then each filled item in item order: its name as in
/// document 01, one space, the value as typed". The sheet is one of a sound desk.
pub fn file(sheet: &Sheet, block: &[u8]) -> Vec<u8> {
    let mut file = [b"data_", block, &[LINE_END]].concat();
    for ((name, _), Item { value, len, .. }) in ITEMS.iter().zip(&sheet.items) {
        if *len > 0 {
            file.extend([name.as_bytes(), b" ", &value[..*len as usize], &[LINE_END]].concat());
        }
    }
    file
}

#[cfg(test)]
mod tests {
    use super::*;
    use crate::desk::{key, FRESH, NOT_SOUND, NO_SUCH_SHEET};

    /// A desk on which the benches of sheet 0 in turn typed these lines, each accepted.
    fn typed(lines: &[&str]) -> Desk {
        typed_at(0, lines)
    }

    /// The same of another sheet.
    fn typed_at(sheet: u64, lines: &[&str]) -> Desk {
        let (mut desk, mut log, mut used) = (FRESH, [0; 4096], 0);
        for (line, bench) in lines.iter().zip([2 * sheet, 2 * sheet + 1].into_iter().cycle()) {
            for byte in line.bytes().chain([10]) {
                assert_eq!(key(&mut desk, &mut log, &mut used, bench, byte), ACCEPTED, "{line}");
            }
        }
        desk
    }

    /// Answer, count and the whole lent bytes afterwards, each of which was 0xa5.
    fn written(desk: &Desk, block: &[u8], room: usize) -> (u8, u64, Vec<u8>) {
        let mut lent = vec![0xa5; room];
        let (answer, count) = write_file(desk, 0, block, &mut lent);
        (answer, count, lent)
    }

    fn untouched(answer: u8, room: usize) -> (u8, u64, Vec<u8>) {
        (answer, 0, vec![0xa5; room])
    }

    const FILE: &str = "data_camp-1
_chemical_formula_sum 'C10 H20'
_refine_ls_R_factor_gt 0.16
_refine_ls_shift/su_max ?
_reflns_threshold_expression \"I > 2\\s(I)\"
";

    const LINES: [&str; 6] = [
        "_REFLNS_threshold_expression   \"I > 2\\s(I)\"",
        "_refine_ls_r_factor_gt 0.3",
        "_refine_ls_shift/su_max    ?",
        "_REFINE_LS_R_FACTOR_GT  0.2",
        "_chemical_FORMULA_sum 'C10 H20'",
        "_REFINE_LS_R_FACTOR_GT  0.16",
    ];

    fn sample() -> Desk {
        typed(&LINES)
    }

    #[test]
    fn item_order_names_of_the_document_values_as_typed() {
        let (answer, count, lent) = written(&sample(), b"camp-1", FILE.len());
        assert_eq!((answer, count as usize), (ACCEPTED, FILE.len()));
        assert_eq!(lent, FILE.as_bytes());
    }

    #[test]
    fn a_fresh_desk_is_one_line() {
        let (answer, count, lent) = written(&FRESH, b"x", 7);
        assert_eq!((answer, count, &lent[..]), (ACCEPTED, 7, &b"data_x\n"[..]));
        assert_eq!(written(&FRESH, b"x", 6), untouched(NO_ROOM, 6));
    }

    #[test]
    fn every_room() {
        let desk = sample();
        for room in 0..FILE.len() {
            assert_eq!(written(&desk, b"camp-1", room), untouched(NO_ROOM, room));
        }
        for more in [0, 1, 2, 100, 70_000] {
            let (answer, count, lent) = written(&desk, b"camp-1", FILE.len() + more);
            assert_eq!((answer, count as usize), (ACCEPTED, FILE.len()));
            assert_eq!(lent, [FILE.as_bytes(), &vec![0xa5; more]].concat());
        }
    }

    #[test]
    fn block_names() {
        for byte in 0..=u8::MAX {
            let taken = matches!(byte, b'0'..=b'9' | b'A'..=b'Z' | b'a'..=b'z' | b'-');
            assert_eq!(is_block_name(&[byte]), taken, "{byte}");
            assert_eq!(is_block_name(&[b'a', byte, b'b']), taken, "{byte}");
        }
        for length in [1, 2, 31, 32] {
            assert!(is_block_name(&vec![b'-'; length]));
        }
        for length in [0, 33, 34, 256 + 1, 65_536 + 1] {
            assert!(!is_block_name(&vec![b'a'; length]));
            assert_eq!(written(&FRESH, &vec![b'a'; length], 99), untouched(BAD_BLOCK_NAME, 99));
        }
        for name in ["a_b", "a b", "camp\n", "é", ""] {
            assert_eq!(written(&FRESH, name.as_bytes(), 99), untouched(BAD_BLOCK_NAME, 99));
        }
        let (_, count, lent) = written(&FRESH, b"Camp-2000-a", 17);
        assert_eq!((count, &lent[..]), (17, &b"data_Camp-2000-a\n"[..]));
    }

    #[test]
    fn the_first_refusal_that_applies() {
        let mut unsound = sample();
        unsound.sheets[0].items[9].bench = 4;
        for (name, room) in [("x", 999), ("x", 0), ("_", 999), ("_", 0)] {
            assert_eq!(written(&unsound, name.as_bytes(), room), untouched(NOT_SOUND, room));
        }
        for room in [0, 6, 999] {
            assert_eq!(written(&sample(), b"_", room), untouched(BAD_BLOCK_NAME, room));
        }
        for sheet in [2, 256, 1 << 32, u64::MAX] {
            for desk in [&unsound, &sample()] {
                for name in ["x", "_"] {
                    let mut lent = [0xa5; 999];
                    let refused = write_file(desk, sheet, name.as_bytes(), &mut lent);
                    assert_eq!((refused, lent), ((NO_SUCH_SHEET, 0), [0xa5; 999]));
                }
            }
        }
    }

    #[test]
    fn each_sheet_has_a_file_of_its_own() {
        for sheet in [0, 1] {
            let desk = typed_at(sheet, &LINES);
            let mut lent = [0; FILE.len()];
            assert_eq!(
                write_file(&desk, sheet, b"camp-1", &mut lent),
                (ACCEPTED, FILE.len() as u64)
            );
            assert_eq!(lent, FILE.as_bytes());
            assert_eq!(write_file(&desk, 1 - sheet, b"camp-1", &mut lent), (ACCEPTED, 12));
            assert_eq!(&lent[..12], b"data_camp-1\n");
        }
    }

    #[test]
    fn soundness_is_tested_as_for_questions() {
        // Six times the count is more than any log's used number; no question looks at that.
        let mut desk = sample();
        desk.sheets[0].count = u64::MAX;
        desk.sheets[1].count = u64::MAX;
        assert_eq!(written(&desk, b"camp-1", FILE.len()).2, FILE.as_bytes());
    }

    #[test]
    fn the_item_lines_typed_again() {
        let lines: Vec<&str> = FILE.lines().skip(1).collect();
        let again = typed(&lines);
        assert_eq!(again.sheets[0].count, lines.len() as u64);
        for (item, before) in again.sheets[0].items.iter().zip(sample().sheets[0].items) {
            assert_eq!((item.value, item.len), (before.value, before.len));
        }
    }
}
