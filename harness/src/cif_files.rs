//! Sheets typed at the benches and written as files, each beside a list of what was typed, for
//! programs that read CIF.

use crate::boundary::DESK_FILE;
use crate::desks::{State, OF_SHEET};
use crate::files::{text_values, Files};
use crate::program::Program;
use crate::random::Random;
use crate::sheets::Sheets;
use reference::cif_file::BLOCK_LENGTHS;
use reference::desk::{ENTER, SHEETS};
use reference::line::{ACCEPTED, LIMIT};
use reference::names::{Kind, ITEMS};
use std::fs;
use std::path::Path;

/// The log that the entries are typed into: more than a file's entries take.
const LOG: usize = 4096;

/// An accepted entry: the item's number and the value as typed.
type Entry = (usize, Vec<u8>);

/// Writes NAME.cif and NAME.typed: one for each text of each byte and length and each that readers
/// may take for more, text-1 and on, and so many of generated sheets, sheet-1 and on. A list's first
/// line is `block`, a tab and the block name; the others are, in item order, the item's name, its
/// kind and the value as typed, with tabs between.
pub fn write(program: &dyn Program, seed: u64, count: u64, folder: &Path) -> Result<(), String> {
    let mut typist = Typist::new(seed);
    for (number, value) in (1..).zip(text_values(1)) {
        let entries = [(1, value), (4, b"0.16".into())];
        typist.sheet(program, &entries, folder, &format!("text-{number}"))?;
    }
    for number in 1..=count {
        let entries = typist.entries();
        typist.sheet(program, &entries, folder, &format!("sheet-{number}"))?;
    }
    Ok(())
}

struct Typist {
    random: Random,
    sheets: Sheets,
    files: Files,
}

impl Typist {
    fn new(seed: u64) -> Self {
        Typist { random: Random::new(seed), sheets: Sheets::new(seed), files: Files::new(seed) }
    }

    /// Entries in any order, some items overwritten, some never typed.
    fn entries(&mut self) -> Vec<Entry> {
        let mut entries = vec![];
        for _ in 0..self.random.below(2 * ITEMS.len()) {
            let item = 1 + self.random.below(ITEMS.len());
            let value = match ITEMS[item - 1].1 {
                Kind::Text if self.random.once_in(2) => self.files.text(item),
                _ => self.sheets.value(item),
            };
            if ITEMS[item - 1].0.len() + 1 + value.len() <= LIMIT {
                entries.push((item, value));
            }
        }
        entries
    }

    /// Types the entries on one sheet, those of an item from one bench, and writes both files.
    fn sheet(
        &mut self,
        program: &dyn Program,
        entries: &[Entry],
        folder: &Path,
        name: &str,
    ) -> Result<(), String> {
        let mut memory = State::fresh(LOG, 0).memory();
        let sheet = self.random.below(SHEETS);
        let owners = ITEMS.map(|_| (OF_SHEET * sheet + self.random.below(OF_SHEET)) as u64);
        for entry in entries {
            let (line, bench) = (self.line(entry), owners[entry.0 - 1]);
            for byte in line.iter().chain([&ENTER]) {
                let answer = program.key(&mut memory, bench, *byte);
                if answer != ACCEPTED {
                    let line = String::from_utf8_lossy(&line);
                    return Err(format!("{name}: {line}: byte {byte} gets {answer}"));
                }
            }
        }
        let letters = 1 + self.random.below(*BLOCK_LENGTHS.end());
        let block = self.files.name_of(letters);
        let mut file = vec![0; DESK_FILE];
        let filed = program.file(&memory, sheet as u64, &block, &mut file);
        if filed.answer != ACCEPTED {
            return Err(format!("{name}: {filed:?}"));
        }
        file.truncate(filed.count);
        for (end, content) in [("cif", file), ("typed", list(&block, entries))] {
            let path = folder.join(format!("{name}.{end}"));
            fs::write(&path, content).map_err(|fault| format!("{}: {fault}", path.display()))?;
        }
        Ok(())
    }

    /// An entry's line, its name in any case, with one or more spaces.
    fn line(&mut self, (item, value): &Entry) -> Vec<u8> {
        let mut line = ITEMS[item - 1].0.as_bytes().to_vec();
        match self.random.below(3) {
            0 => line.make_ascii_lowercase(),
            1 => line.make_ascii_uppercase(),
            _ => {}
        }
        let most = LIMIT - line.len() - value.len();
        line.resize(line.len() + 1 + self.random.below(most.min(4)), b' ');
        line.extend(value);
        line
    }
}

/// The last value typed for each item.
fn list(block: &[u8], entries: &[Entry]) -> Vec<u8> {
    let mut list = [b"block\t", block, b"\n"].concat();
    for (number, (name, kind)) in (1..).zip(ITEMS) {
        if let Some((_, value)) = entries.iter().rfind(|(item, _)| *item == number) {
            let kind = match kind {
                Kind::Text => "text",
                Kind::Number => "number",
                Kind::Category => "category",
            };
            list.extend([name.as_bytes(), b"\t", kind.as_bytes(), b"\t", value, b"\n"].concat());
        }
    }
    list
}
