//! The rules of documents 01 and 02, written from their text alone and not proved: the readers of a
//! line, the rows, the whole desk, sequences of calls, the sheet as a CIF file, the reader of a
//! log, and symmetry operators with their lists.
//! The comparison holds the proved library to this program.
//!
//! Every function but the key call, the writer of files, the reader, and what is built on them, is pure. Quoted
//! sentences are document 01's, where a module does not say otherwise.

pub mod cif_file;
pub mod desk;
pub mod formula;
pub mod grade;
pub mod group;
pub mod hydrogen;
pub mod line;
pub mod moiety;
pub mod names;
pub mod number;
pub mod operator;
pub mod powder;
pub mod program;
pub mod reader;
pub mod rows;
pub mod sequence;
pub mod value;

/// The text before the first `mark` and the text after it; none without a mark.
pub(crate) fn cut(text: &[u8], mark: u8) -> Option<(&[u8], &[u8])> {
    let at = text.iter().position(|&byte| byte == mark)?;
    Some((&text[..at], &text[at + 1..]))
}
