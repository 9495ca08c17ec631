//! The program `desk` and its printed form: document 01, the end of "Measured examples", and document
//! 02, No. 9: "The program prints sheet 0 as before, then sheet 1 in the same form."; and the file that
//! `camp cif` writes of the same input, by document 02, request No. 1.

use crate::cif_file::{file, is_block_name};
use crate::desk::{key, report, Desk, FRESH, SHEETS};
use crate::rows::NAMES;
use std::fmt::Write;

/// "with a log of 4,096 bytes"
pub const LOG: usize = 4096;
/// "Any other first byte goes in as bench 255"
pub const OTHER_BENCH: u64 = 255;
/// No. 11: "The program prints the single-crystal report"
const SINGLE_CRYSTAL: u64 = 0;
/// The printed levels in turn.
const LETTERS: [char; 5] = ['-', 'G', 'C', 'B', 'A'];

/// What the program prints for its standard input.
pub fn program(input: &[u8]) -> String {
    let desk = played(input);
    (0..SHEETS).map(|sheet| print_report(&desk, sheet)).collect()
}

/// What `camp cif` writes of a sheet for its standard input; none for a bad block name.
pub fn cif_program(input: &[u8], sheet: usize, block: &[u8]) -> Option<Vec<u8>> {
    is_block_name(block).then(|| file(&played(input).sheets[sheet], block))
}

/// The desk after an input; refusals are passed over.
pub fn played(input: &[u8]) -> Desk {
    let (mut desk, mut log, mut used) = (FRESH, [0; LOG], 0);
    for (bench, byte) in keys(input) {
        key(&mut desk, &mut log, &mut used, bench, byte);
    }
    desk
}

/// The key calls of an input, bench and byte: "pairs from standard input, a bench digit and a key
/// byte"; "a last odd byte" is passed over.
pub fn keys(input: &[u8]) -> impl Iterator<Item = (u64, u8)> + '_ {
    input.chunks_exact(2).map(|pair| match pair[0] {
        digit @ b'0'..=b'3' => (u64::from(digit - b'0'), pair[1]),
        _ => (OTHER_BENCH, pair[1]),
    })
}

/// The report and the filled items of a sheet of a sound desk.
pub fn print_report(desk: &Desk, sheet: usize) -> String {
    let (_, rows) = report(desk, sheet as u64, SINGLE_CRYSTAL);
    let mut printed = format!("REPORT {}\n", rows.len());
    for ((number, row), name) in (1..).zip(rows).zip(NAMES) {
        let letter = LETTERS[usize::from(row.level)];
        writeln!(printed, "{number:02} {name} {letter} {}", row.reason).expect("a string takes it");
    }
    for (number, item) in (1..).zip(&desk.sheets[sheet].items).filter(|(_, item)| item.len > 0) {
        let value = String::from_utf8_lossy(&item.value[..item.len as usize]);
        let (bench, entry) = (item.bench, item.entry);
        writeln!(printed, "ITEM {number:02} bench {bench} entry {entry} {value}")
            .expect("a string takes it");
    }
    printed
}

#[cfg(test)]
mod tests {
    use super::{cif_program, program};

    const ONE: &str = "_refine_ls_R_factor_gt 0.16\n";
    const OTHER: &str = "_refine_ls_wR_factor_obs 0.2\n";
    const FIRST: &str = "REPORT 25
01 CHEMS_01s C 1
02 CHEMS_01o C 1
03 CHEMS_02 G 1
04 CHEMW_01r C 1
05 CHEMW_01d - 1
06 RFACG_01 B 0
07 RFACG_01g - 0
08 RFACR_01 - 0
09 RFACR_01g G 0
10 SHFSU_01 C 1
11 SHFSU_01g - 0
12 REFLE_01 C 1
13 R13 C 1
14 R14 C 1
15 R15 C 1
16 R16 C 1
17 R17 C 1
18 R18 C 1
19 R19 C 1
20 R20 - 1
21 R21 - 1
22 R22 - 1
23 R23 - 1
24 R24 - 1
25 R25 - 1
ITEM 04 bench 0 entry 1 0.16
ITEM 07 bench 1 entry 2 0.2
";
    const EMPTY: &str = "REPORT 25
01 CHEMS_01s C 1
02 CHEMS_01o C 1
03 CHEMS_02 G 1
04 CHEMW_01r C 1
05 CHEMW_01d - 1
06 RFACG_01 C 1
07 RFACG_01g - 0
08 RFACR_01 C 1
09 RFACR_01g - 0
10 SHFSU_01 C 1
11 SHFSU_01g - 0
12 REFLE_01 C 1
13 R13 C 1
14 R14 C 1
15 R15 C 1
16 R16 C 1
17 R17 C 1
18 R18 C 1
19 R19 C 1
20 R20 - 1
21 R21 - 1
22 R22 - 1
23 R23 - 1
24 R24 - 1
25 R25 - 1
";

    /// Keys of benches 0 and 1 alternating, bench 0 first, and at the end what is left over.
    fn alternating() -> Vec<u8> {
        alternating_of([b'0', b'1'])
    }

    /// The same of other benches.
    fn alternating_of([one, other]: [u8; 2]) -> Vec<u8> {
        let keys = |line: &str, place: usize| line.as_bytes().get(place).copied();
        (0..ONE.len().max(OTHER.len()))
            .flat_map(|place| {
                [(one, keys(ONE, place)), (other, keys(OTHER, place))]
                    .into_iter()
                    .filter_map(|(bench, key)| Some([bench, key?]))
            })
            .flatten()
            .collect()
    }

    #[test]
    fn the_sample_session() {
        assert_eq!(program(&alternating()), [FIRST, EMPTY].concat());
    }

    #[test]
    fn sheet_0_and_then_sheet_1() {
        let visitors = FIRST.replace("bench 0", "bench 2").replace("bench 1", "bench 3");
        assert_eq!(program(&alternating_of([b'2', b'3'])), [EMPTY, &visitors].concat());
        let both = [alternating_of([b'2', b'3']), alternating()].concat();
        assert_eq!(program(&both), [FIRST, &visitors].concat());
        let one_each = alternating_of([b'1', b'2']);
        let own = EMPTY.replace("06 RFACG_01 C 1", "06 RFACG_01 B 0");
        let theirs = EMPTY.replace("08 RFACR_01 C 1", "08 RFACR_01 - 0");
        let theirs = theirs.replace("09 RFACR_01g - 0", "09 RFACR_01g G 0");
        let (own_item, item) = ("ITEM 04 bench 1 entry 1 0.16\n", "ITEM 07 bench 2 entry 1 0.2\n");
        assert_eq!(program(&one_each), [&own, own_item, &theirs, item].concat());
    }

    #[test]
    fn the_sample_session_as_a_file() {
        let file = format!("data_camp-1\n{ONE}{OTHER}");
        assert_eq!(cif_program(&alternating(), 0, b"camp-1"), Some(file.clone().into_bytes()));
        assert_eq!(cif_program(&alternating(), 1, b"camp-1"), Some(b"data_camp-1\n".into()));
        let visitors = alternating_of([b'3', b'2']);
        assert_eq!(cif_program(&visitors, 1, b"camp-1"), Some(file.into_bytes()));
        assert_eq!(cif_program(b"", 0, b"x"), Some(b"data_x\n".into()));
        assert_eq!(cif_program(&alternating(), 0, b""), None);
        assert_eq!(cif_program(&alternating(), 0, b"camp_1"), None);
    }

    #[test]
    fn refusals_and_a_last_odd_byte_are_passed_over() {
        let mut input: Vec<u8> = alternating()
            .chunks(2)
            .flat_map(|pair| [pair, b"4x", b"9\n", b"xx", b"\0\n", b"0\x07", b"1\xff"].concat())
            .collect();
        input.push(b'0');
        assert_eq!(program(&input), [FIRST, EMPTY].concat());
    }

    #[test]
    fn an_empty_input() {
        assert_eq!(program(b""), EMPTY.repeat(2));
        assert_eq!(program(b"0"), EMPTY.repeat(2));
    }

    #[test]
    fn the_log_runs_full() {
        // 585 records of 7 bytes fit into 4,096.
        let line = "_refine_ls_R_factor_gt 1\n".repeat(600);
        let input: Vec<u8> = line.bytes().flat_map(|key| [b'2', key]).collect();
        assert!(program(&input).ends_with("ITEM 04 bench 2 entry 585 1\n"));
    }
}
