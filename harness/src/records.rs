//! The records of a used log, found by walking the lengths that they tell.

use reference::desk::{RECORD_HEAD, SHEETS};
use reference::names::ITEMS;

/// How many records of each sheet's benches name each item; none where the bytes are not whole records
/// of items and benches.
pub fn named(mut used: &[u8]) -> Option<[[usize; ITEMS.len()]; SHEETS]> {
    let mut named = [[0; ITEMS.len()]; SHEETS];
    while let [low, high, _, _, bench, item, ..] = *used {
        let length = usize::from(u16::from_le_bytes([low, high]));
        let of_sheet = named.get_mut(usize::from(bench) / 2)?;
        *of_sheet.get_mut(usize::from(item).checked_sub(1)?)? += 1;
        used = used.get(length..).filter(|_| length > RECORD_HEAD)?;
    }
    used.is_empty().then_some(named)
}
