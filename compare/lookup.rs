//! The label lookup on any homes and ranges.

use crate::mivurakol::{self, home};
use crate::random::Random;

/// What is looked up, mostly the two homes that hold bytes.
const HOMES: [u32; 9] = [home::NONE, home::TEXT, home::TEXT, home::TEXT, home::LABELS, home::LABELS, home::LABELS, home::LABELS + 1, u32::MAX];

/// As document 01 has it: a part of the text or of the label room, or an empty part of the text.
fn expected<'a>(text: &'a [u8], labels: &'a [u8], home: u32, start: u32, end: u32) -> &'a [u8] {
    let range = start as usize..end as usize;
    match home {
        home::TEXT => text.get(range),
        home::LABELS => labels.get(range),
        _ => None,
    }
    .unwrap_or(&text[..0])
}

/// A place near the ends of a slice, or far behind it.
fn place(r: &mut Random, len: usize) -> u32 {
    match r.below(8) {
        0 => u32::MAX - r.below(2) as u32,
        1 => 1 << (16 + r.below(16)),
        2 => 0,
        _ => r.below(len + 3) as u32,
    }
}

/// Whether there is no difference: the same bytes at the same address.
pub fn compare(seed: u64) -> bool {
    let mut r = Random::new(seed);
    let some: Vec<u8> = (0..32).map(|_| r.next() as u8).collect();
    let others = some.clone();
    let lookups = 1_000_000;
    let mut empty = 0;
    for _ in 0..lookups {
        let (text, labels) = (&some[r.below(8)..8 + r.below(25)], &others[r.below(8)..8 + r.below(25)]);
        let home = HOMES[r.below(HOMES.len())];
        let len = if home == home::LABELS { labels.len() } else { text.len() };
        let (start, end) = (place(&mut r, len), place(&mut r, len));
        let part = expected(text, labels, home, start, end);
        empty += u64::from(part.is_empty());
        if !std::ptr::eq(mivurakol::label(text, labels, home, start, end), part) {
            println!("the label of home {home}, {start}..{end} differs: a text of {} bytes, {} bytes of labels", text.len(), labels.len());
            return false;
        }
    }
    println!("labels: {lookups} looked up at any home and range, {empty} of them empty");
    true
}
