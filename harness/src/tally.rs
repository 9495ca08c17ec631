//! How often each possible answer was given.

use crate::boundary::Row;
use crate::broken::{DESK_WAYS, WAYS};
use crate::groups::DAMAGES;
use crate::logs::{way, BROKEN, FAULTS};
use crate::moieties::FAULTS as MOIETY_FAULTS;
use crate::operators::PART_FAULTS;
use reference::names::ITEMS;
use reference::powder::{NOT_FOR_POWDER, PROFILES};
use reference::rows::{NAMES, ROWS};

const GRADES: &[&str] = &["0 0", "0 2", "0 3", "0 4", "7 0"];

/// Where H stands in a formula, and whether its symbols are in order; with C none is in order where
/// H is first.
const WITH_CARBON: &[&str] = &[
    "none, in order",
    "none, not",
    "",
    "first, not",
    "middle, in order",
    "middle, not",
    "last, in order",
    "last, not",
];
const WITHOUT_CARBON: &[&str] = &[
    "none, in order",
    "none, not",
    "first, in order",
    "first, not",
    "middle, in order",
    "middle, not",
    "last, in order",
    "last, not",
];

/// What stands around a point that lacks digits on a side: numbers where it is first or last, none
/// where it is alone.
const AROUND_POINT: &[&str] = &["plain", "signed", "uncertain", "both"];
/// Rows 20 to 24, and on which side a number has its point that they compare.
const POINT_COMPARED: &[&str] = &[
    "20 first", "20 last", "21 first", "21 last", "22 first", "22 last", "23 first", "23 last",
    "24 first", "24 last",
];

/// Each question with its possible answers; an answer without a name is none.
const QUESTIONS: [(&str, &[&str]); 83] = [
    ("line", &["0", "5", "6", "7"]),
    ("row 6", GRADES),
    ("row 8", GRADES),
    ("row 10", GRADES),
    ("another row", &["6 0"]),
    ("number", &["none", "below 0", "0", "above 0"]),
    ("value", &["none", "unassigned", "bare", "quoted"]),
    ("line's form", &["no", "yes"]),
    ("item", NONE_AND_ITEMS),
    ("key", &["0", "1", "2", "3", "4", "5", "6", "7", "8", "9"]),
    ("key accepted", &["append", "erase", "erase nothing", "empty", "Enter"]),
    ("entry's bench", &["0", "1", "2", "3"]),
    ("entry's item", ALL_ITEMS),
    ("fresh", &["0", "2"]),
    ("Report", &["0", "2", "12", "21"]),
    ("Who", &["0 by 0", "0 by 1", "0 by 2", "0 by 3", "0 empty", "6", "12", "2"]),
    ("texts, numbers", &["- -", "- =", "- +", "= -", "= =", "= +", "+ -", "+ =", "+ +"]),
    ("log played on", &["of none", "shorter", "of the limit", "too long"]),
    ("gathering", &["changes nothing", "moves keys"]),
    ("played key", &["0", "1", "2", "3", "4", "5", "6", "7", "8", "9"]),
    ("played Who", &["0 by 0", "0 by 1", "0 by 2", "0 by 3", "0 empty", "6", "12"]),
    ("file", &["0", "2", "10", "11", "12"]),
    ("filled items", NUMBERS_OF_ITEMS),
    ("block name of", &["0", "1", "2 to 30", "31", "32", "33", "more"]),
    ("room for it", &["0", "less", "one less", "exact", "one more", "more"]),
    ("log typed into", &["exact", "one more", "longer", "of the limit"]),
    ("typed by bench", &["0", "1", "2", "3"]),
    ("H, with C", WITH_CARBON),
    ("H, without C", WITHOUT_CARBON),
    ("not recognised", &["C, in order", "C, not", "no C, in order", "no C, not"]),
    ("point first", AROUND_POINT),
    ("point last", AROUND_POINT),
    ("point alone", AROUND_POINT),
    ("point, limits", &["nine digits", "ten, none", "six places", "seven, none"]),
    ("point, line", &["first 0", "last 0", "alone 0", "alone 7"]),
    ("point, entry", &["first", "last"]),
    ("point, row 12", &["first 0/0", "last 0/0", "last 2/0", "last 3/0", "last 4/0", "alone 2/2"]),
    ("point, row", POINT_COMPARED),
    ("operator", &["0", "13"]),
    ("its letters", &["1", "2", "3"]),
    ("it begins", &["bare", "with +", "with -"]),
    ("its fraction", &["none", "first", "last"]),
    ("translation", &["0", "3", "4", "6", "8", "9", "12", "15", "16", "18", "20", "21"]),
    ("list", &["0", "13", "14", "15", "16", "17"]),
    ("13 for", &["a part row", "193 rows", "more rows", "a number"]),
    ("below, place", PLACES),
    ("above, place", PLACES),
    ("determinant", &["-4", "-3", "-2", "-1", "0", "1", "2", "3", "4"]),
    ("group of", &["1", "2", "3-6", "7-16", "17-48", "49-191", "192"]),
    ("identity", &["first", "between", "last"]),
    ("17 at pair", &["first", "between", "last"]),
    ("line typed of", &["0", "less", "one less", "limit", "one more", "one more, no line"]),
    ("line asked of", &["0", "80", "81", "one less", "limit", "one more", "more"]),
    ("old build's desk", REFUSED),
    ("of 36 numbers", REFUSED),
    ("played times", &["0", "1", "2", "3", "4 to 9", "more"]),
    ("entered item", &["empty", "filled"]),
    ("filled, refused", &["own 7", "own 8", "another's 7", "another's 9"]),
    ("9 with", &["room", "exact room", "one byte less", "no room"]),
    ("9 of", &["a value", "?", "."]),
    ("of one sheet", REFUSED),
    ("of ten items", REFUSED),
    ("of 18 items", REFUSED),
    ("asked sheet", &["Report 0", "Report 1", "Who 0", "Who 1", "file 0", "file 1"]),
    ("on the other", &["empty", "filled"]),
    ("camps apart", &["camp 0", "camp 1", "other's 8", "own 8, equal", "own 8, not"]),
    ("log's part", &["0", "0 again", "18", "18 again", "19", "19 again", "20", "20 again"]),
    ("bytes kept", &["none", "1 to 5", "more"]),
    ("reader, kept", STANDS),
    ("reader gets 2", STANDS),
    ("18 for a", &FAULTS),
    ("20 after", &["1 to 5 bytes", "more"]),
    ("log grown", &["of nothing", "of entries"]),
    ("log of old", &["0", "19", "18"]),
    ("moieties", &["equal", "B", "not read", "formula not", "neither"]),
    ("so many", &["1", "2", "3", "more"]),
    ("brackets deep", &["0", "1", "2", "3", "4"]),
    ("bracket's count", &["1", "2 to 9", "10 to 98", "99"]),
    ("hydrogens", &["0", "2", "12", "22", "23"]),
    ("right", &["0", "2", "12", "22", "24"]),
    ("started from", &["C, H", "C, no H", "H, no C", "neither", "H alone"]),
    ("smallest", &["0", "1", "2 to 9", "10 to 99", "100 to 999", "1000 to 9998", "9999"]),
    ("checked", &["one below", "smallest", "largest", "one above", "9999", "beyond 9999"]),
];
/// What a desk of an earlier build is answered.
const REFUSED: &[&str] = &[
    "fresh 2",
    "key 2",
    "key 1",
    "Report 2",
    "Who 2",
    "file 2",
    "12",
    "21",
    "feed 2",
    "hydrogens 2",
    "right 2",
];
/// How a reading stands: going on, or over with an answer.
const STANDS: &[&str] = &["going on", "ended", "18", "19", "20"];
/// The places of a row of an operator.
const PLACES: &[&str] = &["1", "2", "3", "4", "5", "6", "7", "8", "9", "10", "11", "12"];
/// The items by number, after none; and how many of them may be filled.
const NONE_AND_ITEMS: &[&str] = &[
    "none", "1", "2", "3", "4", "5", "6", "7", "8", "9", "10", "11", "12", "13", "14", "15", "16",
    "17", "18", "19",
];
const ALL_ITEMS: &[&str] = NONE_AND_ITEMS.split_at(1).1;
const NUMBERS_OF_ITEMS: &[&str] = &[
    "0", "1", "2", "3", "4", "5", "6", "7", "8", "9", "10", "11", "12", "13", "14", "15", "16",
    "17", "18", "19",
];
/// The most answers of a question, and how many are printed in a line.
const MOST: usize = 20;
const IN_LINE: usize = 12;

/// The lists that go by item have them all.
const _: () = assert!(
    QUESTIONS[Question::Item as usize].1.len() == ITEMS.len() + 1
        && QUESTIONS[Question::EntryItem as usize].1.len() == ITEMS.len()
        && QUESTIONS[Question::FilledItems as usize].1.len() == ITEMS.len() + 1
        && ITEMS.len() < MOST
);

#[derive(Clone, Copy)]
pub enum Question {
    Line,
    Row6,
    Row8,
    Row10,
    OtherRow,
    Number,
    Value,
    Form,
    Item,
    Key,
    KeyAccepted,
    EntryBench,
    EntryItem,
    Fresh,
    Report,
    Who,
    Lengths,
    PlayedLog,
    Gathering,
    PlayedKey,
    PlayedWho,
    File,
    FilledItems,
    BlockName,
    Room,
    TypedLog,
    TypedBench,
    WithCarbon,
    WithoutCarbon,
    NotRecognised,
    PointFirst,
    PointLast,
    PointAlone,
    PointLimits,
    PointLine,
    PointEntry,
    PointMultiplier,
    PointCompared,
    Operator,
    PartLetters,
    PartBegins,
    PartFraction,
    Translation,
    List,
    Shape,
    Below,
    Above,
    Determinant,
    GroupSize,
    IdentityAt,
    MissingPair,
    TypedLength,
    AskedLength,
    OldBuild,
    OldNumbers,
    PlayedTimes,
    Entered,
    FilledRefused,
    NotOwnerRoom,
    NotOwnerValue,
    OneSheet,
    TenItems,
    EighteenItems,
    AskedSheet,
    OnOtherSheet,
    Camps,
    Fed,
    Kept,
    KeptStands,
    BrokenStands,
    BadShape,
    EndInside,
    Grown,
    OldLog,
    Moiety,
    MoietyCount,
    MoietyDepth,
    GroupCount,
    Hydrogens,
    HydrogensRight,
    HydrogenStart,
    HydrogenCount,
    HydrogenEdge,
}

const GRADED: &[(u8, u8)] = &[(0, 0), (2, 0), (3, 0), (4, 0), (2, 1)];
const OLD_NAME: &[(u8, u8)] = &[(0, 0), (1, 0)];
const PRESENT: &[(u8, u8)] = &[(0, 0), (2, 1)];
const COMPARED: &[(u8, u8)] = &[(0, 0), (2, 0), (0, 1)];
const LEFT_OUT: &[(u8, u8)] = &[(0, 0)];

/// The levels and reasons that each row can have.
const POSSIBLE: [&[(u8, u8)]; ROWS] = [
    &[(0, 0), (4, 0), (2, 1)],
    &[(0, 0), (3, 0), (2, 1)],
    &[(0, 0), (1, 0), (1, 1), (1, 2)],
    &[(0, 0), (2, 0), (3, 0), (4, 0), (2, 1), (2, 2)],
    &[(0, 0), (2, 0), (0, 1), (0, 2)],
    GRADED,
    OLD_NAME,
    GRADED,
    OLD_NAME,
    GRADED,
    OLD_NAME,
    &[(0, 0), (2, 0), (3, 0), (4, 0), (2, 1), (2, 2)],
    PRESENT,
    PRESENT,
    PRESENT,
    PRESENT,
    PRESENT,
    PRESENT,
    PRESENT,
    COMPARED,
    COMPARED,
    COMPARED,
    COMPARED,
    COMPARED,
    &[(0, 0), (3, 0), (0, 1), (2, 2)],
];

/// The same under a profile: powder leaves out some rows.
fn possible(profile: u64) -> [&'static [(u8, u8)]; ROWS] {
    let mut possible = POSSIBLE;
    for row in NOT_FOR_POWDER.into_iter().filter(|_| profile == 1) {
        possible[row - 1] = LEFT_OUT;
    }
    possible
}

/// Each row's levels and reasons counted.
type Rows = [[u64; MOST]; ROWS];

/// The calls on a desk that is not sound, and how many of the ways to break it each has to refuse.
pub const CALLS: [(&str, usize); 6] = [
    ("key", WAYS.len()),
    ("Report", DESK_WAYS),
    ("Who", DESK_WAYS),
    ("file", DESK_WAYS),
    ("hydrogens", DESK_WAYS),
    ("right", DESK_WAYS),
];

/// One question: its name, and each possible answer with its count.
type Counted = (String, Vec<(String, u64)>);

pub struct Tally {
    counts: [[u64; MOST]; QUESTIONS.len()],
    /// Under each profile.
    rows: [Rows; PROFILES as usize],
    played_rows: [Rows; PROFILES as usize],
    /// What powder left out, by the other report.
    left_out: Rows,
    ways: [[u64; WAYS.len()]; CALLS.len()],
    text_faults: [u64; PART_FAULTS.len() + 1],
    moiety_faults: [u64; MOIETY_FAULTS.len()],
    damages: [u64; DAMAGES.len()],
    readers: [u64; BROKEN],
}

impl Default for Tally {
    fn default() -> Self {
        Tally {
            counts: [[0; MOST]; QUESTIONS.len()],
            rows: [[[0; MOST]; ROWS]; PROFILES as usize],
            played_rows: [[[0; MOST]; ROWS]; PROFILES as usize],
            left_out: [[0; MOST]; ROWS],
            ways: [[0; WAYS.len()]; CALLS.len()],
            text_faults: [0; PART_FAULTS.len() + 1],
            moiety_faults: [0; MOIETY_FAULTS.len()],
            damages: [0; DAMAGES.len()],
            readers: [0; BROKEN],
        }
    }
}

impl Tally {
    /// Counts one answer by its place in the list. An answer that is none of the possible ones
    /// is not counted; it is a difference.
    pub fn note(&mut self, question: Question, place: usize) {
        if let Some(count) = self.counts[question as usize].get_mut(place) {
            *count += 1;
        }
    }

    /// Counts each row of a sheet under a profile.
    pub fn note_rows(&mut self, profile: u64, rows: &[Row; ROWS]) {
        note_each(&mut self.rows[profile as usize], rows);
    }

    /// Counts each row of a Report in a sequence.
    pub fn note_played_rows(&mut self, profile: u64, rows: &[Row; ROWS]) {
        note_each(&mut self.played_rows[profile as usize], rows);
    }

    /// Counts what powder left out of such a report.
    pub fn note_left_out(&mut self, crystal: &[Row; ROWS]) {
        note_each(&mut self.left_out, crystal);
    }

    /// Counts the calls that found a desk broken in one way not sound.
    pub fn note_unsound(&mut self, way: usize, refused: [bool; CALLS.len()]) {
        for (counts, refused) in self.ways.iter_mut().zip(refused) {
            counts[way] += u64::from(refused);
        }
    }

    /// Counts a text of an operator that was refused for this fault of a part, or for the number of its
    /// parts.
    pub fn note_text_fault(&mut self, fault: usize) {
        self.text_faults[fault] += 1;
    }

    /// Counts moieties that were not read for this fault.
    pub fn note_moiety_fault(&mut self, fault: usize) {
        self.moiety_faults[fault] += 1;
    }

    /// Counts a list that was damaged in this way.
    pub fn note_damage(&mut self, damage: usize) {
        self.damages[damage] += 1;
    }

    /// Counts a reader that was broken in this way and refused.
    pub fn note_reader(&mut self, way: usize, refused: bool) {
        self.readers[way] += u64::from(refused);
    }

    /// The possible answers that were never given.
    pub fn missing(&self) -> Vec<String> {
        never_given(self.counted())
    }

    /// The levels and reasons of a sheet's rows that were never given.
    pub fn missing_rows(&self) -> Vec<String> {
        never_given(counted_rows("", 0, &self.rows[0]).collect())
    }

    pub fn print(&self) {
        println!("answers seen");
        for (question, row) in self.counted() {
            let row: Vec<String> =
                row.into_iter().map(|(answer, count)| format!("{answer}: {count}")).collect();
            let parts: Vec<String> = row.chunks(IN_LINE).map(|part| part.join(", ")).collect();
            println!("  {question:<13} {}", parts.join(&format!(",\n{:16}", "")));
        }
    }

    fn counted(&self) -> Vec<Counted> {
        let questions = QUESTIONS.iter().zip(&self.counts).map(|((name, all), counts)| {
            let row = all.iter().map(|answer| answer.to_string()).zip(*counts);
            let row = row.filter(|(answer, _)| !answer.is_empty()).collect();
            (name.to_string(), row)
        });
        let ways = CALLS.iter().zip(self.ways).map(|((call, ways), counts)| {
            let names = WAYS.iter().map(|(name, _)| name.to_string()).take(*ways);
            (format!("{call} refused"), names.zip(counts).collect())
        });
        let faults = PART_FAULTS.iter().map(|(name, _)| *name).chain(["number of parts"]);
        let damages = DAMAGES.iter().map(|(name, _)| *name);
        let moieties = MOIETY_FAULTS.iter().map(|(name, _)| *name);
        let faulty = [
            ("13 for a part", named(faults, &self.text_faults)),
            ("list damaged", named(damages, &self.damages)),
            ("reader refused", named((0..BROKEN).map(way), &self.readers)),
            ("not read for", named(moieties, &self.moiety_faults)),
        ];
        let left_out = counted_rows("left out ", 0, &self.left_out).collect::<Vec<_>>();
        questions
            .chain(counted_rows("", 0, &self.rows[0]))
            .chain(counted_rows("powder ", 1, &self.rows[1]))
            .chain(NOT_FOR_POWDER.map(|row| left_out[row - 1].clone()))
            .chain(ways)
            .chain(counted_rows("played ", 0, &self.played_rows[0]))
            .chain(counted_rows("played powder ", 1, &self.played_rows[1]))
            .chain(faulty.map(|(name, counts)| (name.into(), counts)))
            .collect()
    }
}

fn named<'a>(names: impl Iterator<Item = &'a str>, counts: &[u64]) -> Vec<(String, u64)> {
    names.map(String::from).zip(counts.iter().copied()).collect()
}

fn never_given(counted: Vec<Counted>) -> Vec<String> {
    let unseen = |(question, row): Counted| {
        let unseen = row.into_iter().filter(|(_, count)| *count == 0);
        unseen.map(|(answer, _)| format!("{question}: {answer}")).collect::<Vec<_>>()
    };
    counted.into_iter().flat_map(unseen).collect()
}

fn note_each(counts: &mut Rows, rows: &[Row; ROWS]) {
    for ((row, possible), counts) in rows.iter().zip(POSSIBLE).zip(counts) {
        if let Some(at) = possible.iter().position(|&pair| pair == (row.level, row.reason)) {
            counts[at] += 1;
        }
    }
}

fn counted_rows<'a>(
    before: &'a str,
    profile: u64,
    counts: &'a Rows,
) -> impl Iterator<Item = Counted> + 'a {
    let rows = (1..).zip(NAMES).zip(possible(profile)).zip(counts);
    rows.map(move |(((number, name), possible), counts)| {
        let pairs = possible.iter().map(|(level, reason)| format!("{level}/{reason}"));
        (format!("{before}{number:02} {name}"), pairs.zip(*counts).collect())
    })
}
