//! Sessions of the programs `desk` and `camp cif` by readable scripts, and what each must print.

use crate::by_reference::Reference;
use crate::desks::State;
use crate::program::Program;
use crate::sheet_lists::longest_formula;
use crate::tally::Tally;
use reference::desk::{NOT_OWNER, NOT_SOUND, RECORD_HEAD, SHEETS};
use reference::line::LIMIT;
use reference::names::ITEMS;
use reference::program::{cif_program, keys, program, LOG};
use std::fs;
use std::path::Path;

/// One session: its name and the bytes of standard input.
pub type Script = (&'static str, Vec<u8>);

const R_FACTOR: &str = "_refine_ls_R_factor_gt 0.16\n";
const WR_FACTOR: &str = "_refine_ls_wR_factor_obs 0.2\n";
/// Bytes that are no keys.
const NO_KEYS: [u8; 16] = [0, 1, 7, 9, 11, 12, 13, 23, 25, 27, 30, 31, 127, 128, 200, 255];
/// First bytes that are no digits: letters, neighbours of the digits, and bytes that are no text.
const NO_DIGITS: &[u8] = b"aZ_ /:\0\n\x08\x18\x7f\x80\xff";

/// Keys after one first byte. In a text `\n` is Enter, `\x08` erases and `\x18` empties the line.
fn typed(first: u8, text: impl AsRef<[u8]>) -> Vec<u8> {
    text.as_ref().iter().flat_map(|&byte| [first, byte]).collect()
}

/// Texts one after the other, each after its first byte.
fn in_turn(texts: &[(u8, &str)]) -> Vec<u8> {
    texts.iter().flat_map(|(first, text)| typed(*first, text)).collect()
}

/// Several benches at once: one key of each in turn, as long as it has one.
fn together(texts: &[(u8, &str)]) -> Vec<u8> {
    let longest = texts.iter().map(|(_, text)| text.len()).max().unwrap_or(0);
    let key = |place: usize| {
        move |(first, text): &(u8, &str)| Some([*first, *text.as_bytes().get(place)?])
    };
    (0..longest).flat_map(|place| texts.iter().filter_map(key(place)).flatten()).collect()
}

/// Values for items of sheet 0, entered one after the other by its benches in turn.
fn sheet(values: &[(usize, &str)]) -> Vec<u8> {
    of_benches(b"01", values)
}

/// The same for the visitors' sheet.
fn visitors_sheet(values: &[(usize, &str)]) -> Vec<u8> {
    of_benches(b"23", values)
}

fn of_benches(benches: &[u8], values: &[(usize, &str)]) -> Vec<u8> {
    let benches = benches.iter().cycle();
    let entry = |(&bench, (item, value)): (&u8, &(usize, &str))| {
        typed(bench, format!("{} {value}\n", ITEMS[item - 1].0))
    };
    benches.zip(values).flat_map(entry).collect()
}

/// A line of item 1 and with it a record, with a value of so many bytes.
fn formula(length: usize) -> String {
    format!("{} {}\n", ITEMS[0].0, "C".repeat(length))
}

/// The longest value of item 1, and how many records of it the log holds.
const LONGEST: usize = LIMIT - ITEMS[0].0.len() - 1;
const LONGEST_RECORDS: usize = LOG / (RECORD_HEAD + LONGEST);

/// All sessions.
pub fn scripts() -> Vec<Script> {
    vec![
        ("document_01", together(&[(b'0', R_FACTOR), (b'1', WR_FACTOR)])),
        ("empty", vec![]),
        ("odd_byte_alone", vec![b'0']),
        (
            "odd_last_byte",
            [typed(b'0', R_FACTOR), typed(b'1', WR_FACTOR.trim_end()), vec![b'1']].concat(),
        ),
        ("odd_last_enter", [typed(b'3', R_FACTOR.trim_end()), vec![b'\n']].concat()),
        ("few_keys", typed(b'3', "_a b\n")),
        ("first_bytes_4_to_9", first_bytes(b"456789")),
        ("other_first_bytes", first_bytes(NO_DIGITS)),
        ("no_keys", no_keys()),
        ("refused_lines", refused_lines()),
        ("refused_enter_of_another", refused_enter_of_another()),
        ("log_filled_to_its_end", log_filled_to_its_end()),
        ("log_one_byte_too_short", log_one_byte_too_short()),
        ("all_items", all_items()),
        ("overwritten", overwritten()),
        ("items_of_others", items_of_others()),
        ("erase_and_cancel", erase_and_cancel()),
        ("line_of_199", line_of_199()),
        ("line_of_200", line_of_200()),
        ("line_of_201", line_of_201()),
        ("unassigned", unassigned()),
        ("quoted", quoted()),
        ("reserved_words", reserved_words()),
        ("capitals", typed(b'2', format!("{R_FACTOR}{WR_FACTOR}").to_uppercase())),
        ("unfinished_lines", unfinished_lines()),
        ("four_benches", four_benches()),
        ("nothing_to_tell", nothing_to_tell()),
        ("levels_a", levels_a()),
        ("levels_b", levels_b()),
        ("levels_c", levels_c()),
        ("not_judgeable", not_judgeable()),
        ("points_at_either_end", points_at_either_end()),
        ("two_camps", two_camps()),
        ("visitors_alone", visitors_alone()),
        ("powder_week", powder_week()),
        ("out_of_order", out_of_order()),
        ("moieties", moieties()),
        ("moieties_not_read", moieties_not_read()),
    ]
}

/// A whole entry after each first byte that is no bench's, and between its keys those of bench 2.
fn first_bytes(others: &[u8]) -> Vec<u8> {
    let bench_2 = typed(b'2', R_FACTOR);
    let between = others.iter().cycle().flat_map(|&other| [typed(other, "x"), typed(other, "\n")]);
    let mixed = bench_2.chunks(2).zip(between).flat_map(|(pair, other)| [pair, &other].concat());
    let entries = others.iter().flat_map(|&other| typed(other, WR_FACTOR));
    mixed.chain(entries).collect()
}

/// A line with every byte that is no key between its keys.
fn no_keys() -> Vec<u8> {
    let line = R_FACTOR.bytes().zip(NO_KEYS.into_iter().cycle());
    line.flat_map(|(byte, none)| typed(b'1', [none, byte])).collect()
}

/// Enter on lines without form, with another name and with a value of another kind; corrected.
fn refused_lines() -> Vec<u8> {
    in_turn(&[
        (b'0', "\n"),
        (b'0', "_refine_ls_R_factor_gt\n 0.16 \n\x08\n"),
        (b'1', "_refine_ls_R_factor 0.2\n\x18"),
        (b'1', "_refine_ls_wR_factor_obs 0.2x\n\x08\n"),
        (b'2', "_publ_requested_category fo\n\x08\x08FO\n"),
        (b'3', "refine_ls_shift/su_max 0.3\n"),
    ])
}

/// Bench 0's refused line is corrected while bench 1 types.
fn refused_enter_of_another() -> Vec<u8> {
    in_turn(&[
        (b'0', "_refine_ls_R_factor_gt 0.1x\n"),
        (b'1', "_refine_ls_wR"),
        (b'0', "\x086\n"),
        (b'1', "_factor_obs 0.2\n"),
    ])
}

/// Records as long as an entry's can be, then one that takes the rest of the log to its last byte; one
/// more finds no room.
fn log_filled_to_its_end() -> Vec<u8> {
    let filled = (0..LONGEST_RECORDS).flat_map(|_| typed(b'3', formula(LONGEST)));
    let rest = LOG % (RECORD_HEAD + LONGEST) - RECORD_HEAD;
    let last = typed(b'3', formula(rest));
    filled.chain(last).chain(typed(b'1', R_FACTOR)).collect()
}

/// Room for one byte less than the last record takes, until a byte of its value is erased.
fn log_one_byte_too_short() -> Vec<u8> {
    let before = (0..LONGEST_RECORDS).flat_map(|_| typed(b'2', formula(LONGEST)));
    let rest = LOG % (RECORD_HEAD + LONGEST) - RECORD_HEAD;
    let ends = [typed(b'2', formula(rest + 1)), typed(b'2', "\x08\n")];
    before.chain(ends.concat()).chain(typed(b'1', R_FACTOR)).collect()
}

/// Every item, in various writings; rows 13 to 25 without an alert.
fn all_items() -> Vec<u8> {
    sheet(&[
        (19, "'C10 H10, Fe'"),
        (18, "0.71073"),
        (17, ".110(5)"),
        (16, "0.11"),
        (15, "0.32"),
        (14, "0.0310(12)"),
        (13, "1892"),
        (12, "2105."),
        (11, "+8235"),
        (10, "'F > 6\\s(F)'"),
        (9, "-0.01"),
        (8, "+0.02(1)"),
        (7, "0.3"),
        (6, "0.25"),
        (5, "0.2"),
        (4, "0.1"),
        (3, "FM"),
        (2, "186.03"),
        (1, "'C10 H10 Fe'"),
    ])
}

/// Values typed over by the bench that owns them.
fn overwritten() -> Vec<u8> {
    [
        together(&[(b'0', R_FACTOR), (b'1', WR_FACTOR)]),
        typed(b'0', "_refine_ls_R_factor_gt 0.3\n"),
        typed(b'1', "_refine_ls_wR_factor_obs ?\n"),
        typed(b'1', "_refine_ls_wR_factor_obs 1234567890\n"),
        typed(b'0', "_refine_ls_R_factor_gt    0.04(2)\n"),
    ]
    .concat()
}

/// Values that belong to the other bench of a camp, one of them unassigned; the line of one is corrected
/// to an item that is free, and the owner corrects its own.
fn items_of_others() -> Vec<u8> {
    [
        together(&[(b'0', R_FACTOR), (b'1', WR_FACTOR)]),
        typed(b'1', "_refine_ls_R_factor_gt 0.3\n\n\x08\x08\x08\x08\x08\x08obs 0.3\n"),
        typed(b'2', "_chemical_formula_sum ?\n"),
        typed(b'0', "_refine_ls_wR_factor_obs 1234567890\n\x08\n"),
        typed(b'3', "_chemical_formula_sum 'C10 H20'\n"),
        typed(b'2', "_chemical_formula_sum 'C10 H22'\n"),
    ]
    .concat()
}

/// Both camps at once, with the same items: each has its own values, owners, entry numbers and report.
fn two_camps() -> Vec<u8> {
    let entries = [(b'0', R_FACTOR), (b'1', WR_FACTOR), (b'2', "_refine_ls_R_factor_gt 0.3\n")];
    [
        together(&[&entries[..], &[(b'3', "_refine_ls_wR_factor_obs 0.5\n")]].concat()),
        typed(b'3', "_refine_ls_R_factor_gt 0.1\n\x18"),
        typed(b'2', "_refine_ls_R_factor_gt 0.12\n"),
        typed(b'1', "_chemical_formula_sum 'C10 H20'\n"),
        typed(b'3', "_chemical_formula_sum 'Br H'\n"),
        typed(b'2', "_refine_ls_R_factor_gt 0.2\n"),
        typed(b'0', "_chemical_formula_sum 'C10H20'\n"),
    ]
    .concat()
}

/// A powder, of which no crystal and no number of equivalents is known; all reflections count.
fn powder_week() -> Vec<u8> {
    sheet(&[(18, "1.54059(1)"), (11, "412"), (12, "412.0"), (13, "412"), (14, "-0.0"), (15, "?")])
}

/// Rows 20, 22, 23 and 24 fire on one sheet, row 21 on the other.
fn out_of_order() -> Vec<u8> {
    [
        sheet(&[(11, "5"), (12, "6"), (13, "7"), (14, "?"), (15, "0.1"), (16, "0.1"), (17, "0.2")]),
        visitors_sheet(&[(11, "7"), (12, "7"), (13, "7.0(3)"), (14, "0.000001")]),
    ]
    .concat()
}

/// Moieties that have the formula's atoms, and such as do not.
fn moieties() -> Vec<u8> {
    [
        sheet(&[(1, "'C10 H22 O'"), (19, "'C10 H20, H2 O'")]),
        visitors_sheet(&[(1, "'Ca H4 O6 S'"), (19, "\"Ca S O4, (H2 O)3\"")]),
    ]
    .concat()
}

/// A count before its bracket, and a formula that cannot be read.
fn moieties_not_read() -> Vec<u8> {
    [
        sheet(&[(1, "'C12 H12 N2 O2'"), (19, "'C12 H8 N2, 2(H2 O)'")]),
        visitors_sheet(&[(1, "'C10H20'"), (19, "'C10 H20'")]),
    ]
    .concat()
}

/// Sheet 0 stays empty.
fn visitors_alone() -> Vec<u8> {
    visitors_sheet(&[(1, "'C10 H20'"), (2, "138.8672"), (3, "FO"), (4, "0.16"), (8, "?")])
}

fn erase_and_cancel() -> Vec<u8> {
    in_turn(&[
        (b'0', "\x08\x18\x08_refine_ls_R_faxx\x08\x08ctor_gt 0.2\x0816\n"),
        (b'1', "_chemical_formula_sum 'C10\x18_refine_ls_wR_factor_obs 0.2\n\x08\n"),
        (b'2', "_a\x08\x08\x08\x08_refine_ls_shift/su_max 0.1\n"),
        (b'3', "_refine_ls_shift/esd_max 0.1\x18\n"),
    ])
}

/// A line one key short of the limit by spaces and one by its value, both taken as they are.
fn line_of_199() -> Vec<u8> {
    let spaces = format!("{:<width$}5\n", "_refine_ls_R_factor_gt", width = LIMIT - 2);
    [typed(b'0', spaces), typed(b'1', formula(LONGEST - 1))].concat()
}

/// A line of the limit by spaces and one by its value; the key after it is passed over. A formula of
/// the limit is summed.
fn line_of_200() -> Vec<u8> {
    let spaces = format!("{:<width$}5", "_refine_ls_R_factor_gt", width = LIMIT - 1);
    let value = formula(LONGEST);
    let summed = format!("{} '{}'\n", ITEMS[0].0, longest_formula());
    [
        typed(b'0', spaces + "5\n"),
        typed(b'1', value.trim_end().to_string() + "H\n"),
        typed(b'1', summed),
        sheet(&[(2, "49852015.4"), (3, "FM")]),
    ]
    .concat()
}

/// A line whose last mark would be key 201: refused, and then shortened by a byte.
fn line_of_201() -> Vec<u8> {
    let inside = "y".repeat(LIMIT - ITEMS[9].0.len() - 2);
    typed(b'3', format!("{} '{inside}'\n\x08'\n\x18\n", ITEMS[9].0))
}

fn unassigned() -> Vec<u8> {
    let marks = ["?", "."].into_iter().cycle();
    let values: Vec<(usize, &str)> = (1..=ITEMS.len()).zip(marks).collect();
    [
        sheet(&values),
        typed(b'1', "_refine_ls_R_factor_gt '?'\n\x18"),
        typed(b'1', "_reflns_threshold_expression '?'\n"),
    ]
    .concat()
}

fn quoted() -> Vec<u8> {
    [
        sheet(&[(1, "\"C10 H20\""), (10, "'I > 2\\s(I)'"), (3, "\"FO\""), (2, "'140.27'")]),
        typed(b'1', "\x18_chemical_formula_weight 140.27\n"),
        typed(b'0', "_chemical_formula_sum 'C10 H20\"\n\x08'\n"),
        typed(b'1', "_reflns_threshold_expression \"F^2^ > 4.5\\s(F^2^)\"\n"),
        typed(b'0', "_publ_requested_category 'C'O'\n\x08\x08\x08O'\n"),
        typed(b'0', "_chemical_formula_sum \"'\"\n"),
        typed(b'1', "_reflns_threshold_expression ''\n"),
    ]
    .concat()
}

fn reserved_words() -> Vec<u8> {
    in_turn(&[
        (b'0', "_chemical_formula_sum loop_\n\x18_chemical_formula_sum LOOP_x\n"),
        (b'1', "_reflns_threshold_expression Data_x\n\x18_reflns_threshold_expression 'data_x'\n"),
        (b'2', "_publ_requested_category _FO\n\x18_publ_requested_category [FO\n\x18"),
    ])
}

/// Lines that lack only their Enter, beside one that has it.
fn unfinished_lines() -> Vec<u8> {
    together(&[
        (b'0', R_FACTOR.trim_end()),
        (b'1', WR_FACTOR),
        (b'2', "_refine_ls_shift/esd_max 0.3"),
        (b'3', "_chemical_formula_sum 'C10 H20'"),
    ])
}

/// Four lines at once, each with a slip, the last Enter pressed first.
fn four_benches() -> Vec<u8> {
    [
        together(&[
            (b'3', "_refine_ls_shift/su_max 0.055"),
            (b'1', "_chemical_formula_sum 'C18 H19 N7 O8 S"),
            (b'0', "_chemical_formula_weight 493.45(3)"),
            (b'2', "_publ_requested_category FX"),
        ]),
        together(&[(b'2', "\n\x08O\n"), (b'1', "\n'\n"), (b'3', "\n\n"), (b'0', "\x08)\n")]),
    ]
    .concat()
}

/// Every row judged, and none with a level.
fn nothing_to_tell() -> Vec<u8> {
    sheet(&[
        (1, "'C10 H20'"),
        (2, "141.27"),
        (3, "FO"),
        (4, "0.10"),
        (6, "0.25"),
        (8, "-0.05"),
        (10, "'F^2^ > 3.999999\\s(F^2^)'"),
    ])
}

fn levels_a() -> Vec<u8> {
    sheet(&[
        (1, "'C10 H20'"),
        (2, "126.242"),
        (3, "CO"),
        (4, "0.200001"),
        (6, "0.450001"),
        (8, "-0.200001"),
        (10, "'F^2^ > 6\\s(F^2^)'"),
    ])
}

/// Level B, and General by the old names and for another category.
fn levels_b() -> Vec<u8> {
    sheet(&[
        (1, "'H20 C10'"),
        (2, "126.243"),
        (3, "FI"),
        (5, "0.20"),
        (7, "0.45"),
        (9, "0.2"),
        (10, "\"F > 11.9\\s(F)\""),
    ])
}

fn levels_c() -> Vec<u8> {
    sheet(&[
        (1, "'C10 H20'"),
        (2, "138.8672"),
        (3, "'FO'"),
        (4, "0.15"),
        (6, "0.35"),
        (8, "0.10"),
        (10, "'I > 4.0\\s(I)'"),
    ])
}

fn not_judgeable() -> Vec<u8> {
    sheet(&[(1, "'C10H20 Br'"), (2, "140.27"), (3, "FO"), (10, "'I > 2'")])
}

/// Numbers with a point at either end, and points without digits, which are refused.
fn points_at_either_end() -> Vec<u8> {
    [
        sheet(&[
            (1, "'C10 H20'"),
            (2, "140."),
            (3, "FO"),
            (4, ".0412(7)"),
            (6, "+.350001"),
            (8, "-.06"),
            (9, "1.(3)"),
            (10, "'I > 4.\\s(I)'"),
        ]),
        typed(b'0', "_refine_ls_R_factor_obs -.\n5(3)\n"),
        typed(b'1', "_refine_ls_wR_factor_obs .(3)\n\x18_refine_ls_wR_factor_obs .\n"),
        typed(b'2', "_chemical_formula_weight 1234567890.\n\x18"),
        typed(b'3', "_chemical_formula_weight .1234567\n"),
    ]
    .concat()
}

/// The block name of the sessions' files.
const BLOCK: &[u8] = b"camp-1";

/// A session with what `desk` prints for it, and the files that `camp cif` writes of both sheets with
/// the block name camp-1.
#[derive(PartialEq, Eq)]
pub struct Session {
    pub name: &'static str,
    pub input: Vec<u8>,
    pub printed: String,
    pub files: [Option<Vec<u8>>; SHEETS],
}

/// All sessions by two programs, one that prints and one that writes.
pub fn sessions_by(
    program: fn(&[u8]) -> String,
    cif_program: fn(&[u8], usize, &[u8]) -> Option<Vec<u8>>,
) -> Vec<Session> {
    let session = |(name, input): Script| {
        let files = std::array::from_fn(|sheet| cif_program(&input, sheet, BLOCK));
        Session { name, printed: program(&input), files, input }
    };
    scripts().into_iter().map(session).collect()
}

/// All sessions as they must be.
pub fn sessions() -> Vec<Session> {
    sessions_by(program, cif_program)
}

/// Writes each session as NAME.in, NAME.out and, of sheet 0, NAME.cif, and where the visitors filled
/// something, NAME.visitors.cif. Fails where the sessions leave out a refusal, or a level or reason of a
/// row.
pub fn write(folder: &Path) -> Result<(), String> {
    let missing = left_out(&scripts());
    if !missing.is_empty() {
        return Err(format!("the sessions leave out {}", missing.join(", ")));
    }
    for Session { name, input, printed, files } in sessions() {
        let [own, visitors] = files.map(|file| file.expect("a good block name"));
        let all = [("in", &input[..]), ("out", printed.as_bytes()), ("cif", &own)];
        let filled = visitors.iter().filter(|&&byte| byte == b'\n').count() > 1;
        let visitors = filled.then_some(("visitors.cif", &visitors[..]));
        for (end, content) in all.into_iter().chain(visitors) {
            let path = folder.join(format!("{name}.{end}"));
            fs::write(&path, content).map_err(|fault| format!("{}: {fault}", path.display()))?;
        }
    }
    Ok(())
}

/// The answers of keys, and the levels and reasons of the rows, that no session has. A desk that
/// starts fresh, with such a log, is always sound.
fn left_out(scripts: &[Script]) -> Vec<String> {
    let (mut tally, mut seen) = (Tally::default(), [false; NOT_OWNER as usize + 1]);
    for (_, input) in scripts {
        let mut state = State::fresh(LOG, 0);
        for (bench, byte) in keys(input) {
            seen[usize::from(state.key(bench, byte))] = true;
        }
        for sheet in 0..SHEETS as u64 {
            tally.note_rows(0, &Reference.report(&state.memory(), sheet, 0).rows);
        }
    }
    let answers =
        (0..=NOT_OWNER).filter(|&answer| answer != NOT_SOUND && !seen[usize::from(answer)]);
    let answers = answers.map(|answer| format!("answer {answer}"));
    answers.chain(tally.missing_rows()).collect()
}
