//! What `camp hydrogen` must propose, by the reference program, and sessions to ask it about.

use crate::hydrogens::Hydrogens;
use reference::desk::{values, ENTER};
use reference::formula::terms;
use reference::hydrogen::Start;
use reference::names::ITEMS;
use reference::program::played;
use reference::value::text;

/// The line to be typed for a sheet that an input leaves: where the helper starts, the typed count is not
/// right and some count is.
pub fn line(input: &[u8], sheet: usize) -> Option<String> {
    let desk = played(input);
    let values = values(&desk.sheets[sheet]);
    let start = Start::of(&values)?;
    let typed = terms(text(values[0])).flatten().find(|term| term.symbol == b"H");
    let typed = typed.map_or(0, |term| term.count as u64);
    let formula = start.text(start.smallest().filter(|_| !start.is_right(typed))?);
    Some(format!("{} '{}'", ITEMS[0].0, String::from_utf8_lossy(&formula)))
}

/// An input in which bench 1 types a generated formula and weight, and bench 2 others.
pub fn input(seed: u64) -> Vec<u8> {
    let mut source = Hydrogens::new(seed);
    let keys = [b'1', b'2'].into_iter().flat_map(|bench| {
        let (formula, weight) = source.typed();
        let typed = ITEMS.iter().zip([formula, weight]).filter(|(_, value)| !value.is_empty());
        let lines =
            typed.map(|((name, _), value)| [name.as_bytes(), b" ", &value, &[ENTER]].concat());
        lines.flatten().flat_map(move |byte| [bench, byte]).collect::<Vec<u8>>()
    });
    keys.collect()
}
