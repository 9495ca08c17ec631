//! What `camp symmetry` must print of lines that are no operators, by the reference program and the
//! list of all parts.

use crate::operators::parts;
use reference::operator::{read, NOT_READ, PARTS};
use std::collections::HashSet;

/// All parts of operators, and all their beginnings.
struct Known {
    parts: HashSet<Vec<u8>>,
    beginnings: HashSet<Vec<u8>>,
}

impl Known {
    fn new() -> Self {
        let parts: HashSet<Vec<u8>> = parts().into_iter().map(String::into_bytes).collect();
        let beginnings =
            parts.iter().flat_map(|part| (0..=part.len()).map(|end| part[..end].into()));
        Known { beginnings: beginnings.collect(), parts }
    }

    /// Whether some operator begins so: with parts, and the beginning of one.
    fn begins(&self, text: &[u8]) -> bool {
        let pieces: Vec<&[u8]> = text.split(|&byte| byte == b',').collect();
        let (last, whole) = pieces.split_last().expect("there is a piece");
        whole.len() < PARTS
            && whole.iter().all(|&piece| self.parts.contains(piece))
            && self.beginnings.contains(*last)
    }

    /// How many bytes of a text begin an operator.
    fn taken(&self, text: &[u8]) -> usize {
        (0..text.len()).find(|&end| !self.begins(&text[..=end])).unwrap_or(text.len())
    }
}

/// A message for each line that is no operator.
pub fn answers(file: &str, input: &[u8]) -> String {
    let known = Known::new();
    let lines = (1..).zip(input.split(|&byte| byte == b'\n'));
    let texts = lines.map(|(number, line)| (number, line.strip_suffix(b"\r").unwrap_or(line)));
    texts
        .filter(|(_, text)| !text.is_empty() && !text.starts_with(b"#"))
        .filter(|(_, text)| read(text).0 == NOT_READ)
        .map(|(number, text)| message(file, number, text, known.taken(text)))
        .collect()
}

fn message(file: &str, line: usize, text: &[u8], taken: usize) -> String {
    let before = shown(&text[..taken]);
    let what = match text.get(taken) {
        None => format!("`{before}` ends too early"),
        Some(&byte) if taken == 0 => format!("`{}` cannot begin one", shown(&[byte])),
        Some(&byte) => format!("`{}` cannot stand after `{before}`", shown(&[byte])),
    };
    format!("camp: {file}: line {line}, column {}: 13, not an operator: {what}\n", taken + 1)
}

/// Bytes outside 32 to 126 as camp writes them.
fn shown(bytes: &[u8]) -> String {
    let byte = |&byte: &u8| match byte {
        32..=126 => char::from(byte).to_string(),
        _ => format!("\\x{byte:02x}"),
    };
    bytes.iter().map(byte).collect()
}
