//! The C boundary: the numbers of the headers, lent memory, and the structs with their sizes and
//! offsets.

use reference::cif_file::BLOCK_LENGTHS;
use reference::desk::{BENCHES, LOG_LIMIT, NO_BENCH, SHEETS};
use reference::group::MOST;
use reference::line::LIMIT;
use reference::names::ITEMS;
use reference::operator::NUMBERS;
use reference::powder::PROFILES;
use reference::reader::LENGTHS;
use reference::rows::ROWS;
use std::mem::{offset_of, size_of};

include!(concat!(env!("OUT_DIR"), "/headers.rs"));

const _: () = assert!(
    DESK_BENCHES == BENCHES
        && DESK_SHEETS == SHEETS
        && DESK_ITEMS == ITEMS.len()
        && DESK_ROWS == ROWS
        && DESK_PROFILES == PROFILES as usize
        && DESK_LINE == LIMIT
        && DESK_TEXTS == (BENCHES + SHEETS * ITEMS.len()) * LIMIT
        && DESK_FILE == b"data_\n".len() + *BLOCK_LENGTHS.end() + ITEMS.len() * (LIMIT + 1)
        && DESK_LOG == LOG_LIMIT
        && DESK_KEPT == *LENGTHS.end()
        && DESK_NO_BENCH == NO_BENCH as usize
        && SYMMETRY_ROW == NUMBERS
        && SYMMETRY_MOST == MOST
);

/// What is lent to the calls of desk.h, each run in a block of its own. Runs of other lengths than
/// a desk's are no desk.
#[derive(Clone, PartialEq, Eq)]
pub struct Memory {
    pub texts: Box<[u8]>,
    pub numbers: Box<[usize]>,
    pub log: Box<[u8]>,
}

impl Memory {
    /// Zeros, which are a fresh desk, and a log.
    pub fn zeros(log: &[u8]) -> Self {
        Memory { texts: [0; DESK_TEXTS].into(), numbers: [0; DESK_NUMBERS].into(), log: log.into() }
    }
}

/// What is lent to desk_feed beside a desk: the kept bytes, and the numbers of them and of how the reading
/// stands. Runs of other lengths are no reader.
#[derive(Clone, PartialEq, Eq)]
pub struct Stick {
    pub kept: Box<[u8]>,
    pub state: Box<[usize]>,
}

impl Stick {
    /// Zeros, which with a fresh desk are a fresh reader.
    pub fn zeros() -> Self {
        Stick { kept: [0; DESK_KEPT].into(), state: [0; DESK_STATE].into() }
    }
}

/// `wall_graded` of wall.h.
#[repr(C)]
#[derive(Clone, Copy, Debug, PartialEq, Eq)]
pub struct Graded {
    pub answer: u8,
    pub level: u8,
}

/// `probe_number_result` of probe.h.
#[repr(C)]
#[derive(Clone, Copy, Debug, PartialEq, Eq)]
pub struct NumberResult {
    pub millionths: i64,
    pub found: u64,
}

/// `probe_line_result` of probe.h.
#[repr(C)]
#[derive(Clone, Copy, Debug, PartialEq, Eq)]
pub struct LineResult {
    pub found: u64,
    pub name_end: u64,
    pub value_start: u64,
}

/// `desk_row` of desk.h.
#[repr(C)]
#[derive(Clone, Copy, Debug, PartialEq, Eq)]
pub struct Row {
    pub level: u8,
    pub reason: u8,
}

/// `desk_reported` of desk.h.
#[repr(C)]
#[derive(Clone, Copy, Debug, PartialEq, Eq)]
pub struct Reported {
    pub answer: u8,
    pub rows: [Row; ROWS],
}

/// `desk_told` of desk.h.
#[repr(C)]
#[derive(Clone, Copy, Debug, PartialEq, Eq)]
pub struct Told {
    pub entry: usize,
    pub times: usize,
    pub answer: u8,
    pub bench: u8,
}

/// `desk_filed` of desk.h.
#[repr(C)]
#[derive(Clone, Copy, Debug, PartialEq, Eq)]
pub struct Filed {
    pub count: usize,
    pub answer: u8,
}

/// `desk_fed` of desk.h.
#[repr(C)]
#[derive(Clone, Copy, Debug, PartialEq, Eq)]
pub struct Fed {
    pub place: usize,
    pub answer: u8,
}

/// `desk_proposed` of desk.h.
#[repr(C)]
#[derive(Clone, Copy, Debug, PartialEq, Eq)]
pub struct Proposed {
    pub count: usize,
    pub answer: u8,
}

/// `symmetry_operator` of symmetry.h.
#[repr(C)]
#[derive(Clone, Copy, Debug, PartialEq, Eq)]
pub struct Operator {
    pub answer: u8,
    pub row: [i8; SYMMETRY_ROW],
}

/// `symmetry_checked` of symmetry.h.
#[repr(C)]
#[derive(Clone, Copy, Debug, PartialEq, Eq)]
pub struct Checked {
    pub pairs: u64,
    pub answer: u8,
}

/// Prints one struct's C name and size, and each field's name and offset.
macro_rules! print_layout {
    ($name:literal, $type:ty, $($field:ident),+) => {
        print!("{} {}", $name, size_of::<$type>());
        $(print!(" {} {}", stringify!($field), offset_of!($type, $field));)+
        println!();
    };
}

/// Prints the sizes and offsets, and the headers' numbers.
pub fn print() {
    print_layout!("wall_graded", Graded, answer, level);
    print_layout!("probe_number_result", NumberResult, millionths, found);
    print_layout!("probe_line_result", LineResult, found, name_end, value_start);
    print_layout!("desk_row", Row, level, reason);
    print_layout!("desk_reported", Reported, answer, rows);
    print_layout!("desk_told", Told, entry, times, answer, bench);
    print_layout!("desk_filed", Filed, count, answer);
    print_layout!("desk_fed", Fed, place, answer);
    print_layout!("desk_proposed", Proposed, count, answer);
    print_layout!("symmetry_operator", Operator, answer, row);
    print_layout!("symmetry_checked", Checked, pairs, answer);
    DEFINED.iter().for_each(|(name, number)| println!("{name} {number}"));
}
