//! Packed lists: some by hand, all short strings behind a count, damaged lists, random bytes, and records of any numbers.

use crate::events::{event, homed, in_labels, in_text, on, Home};
use crate::mivurakol::container::{AUTOLINK, INLINE_LINK, RAW_FORMAT, STRONG};
use crate::mivurakol::kind::{STR, SYMBOL};
use crate::mivurakol::{home, Event, ENTER, EVENT_NUMBERS, EXIT};
use crate::packed::{has_home, has_link, Fault, FAULTS, FLAWS, KINDS};
use crate::packer::Packer;
use crate::random::{strings, Random};
use std::time::Instant;

/// Lists with their bytes, by document 02's sentences.
const WRITTEN: &[(&[Event], &[u8])] = &[
    (&[], &[0]),
    (&[event(ENTER + STRONG, 0, 1), event(STR, 1, 2), event(EXIT + STRONG, 2, 3)], &[3, 38, 0, 1, 0, 0, 1, 0, 1, 0, 0, 70, 0, 1, 0, 0]),
    (&[on(150, homed(SYMBOL, in_text(301, 301), 300, 302))], &[1, 13, 172, 2, 2, 150, 1, 1, 173, 2, 0]),
    (&[event(SYMBOL, 0, 0)], &[1, 13, 0, 0, 0, 0]),
    (&[homed(ENTER + RAW_FORMAT, in_text(5, 9), 0, 1)], &[1, 41, 0, 1, 0, 1, 5, 4]),
    (&[homed(ENTER + AUTOLINK, in_text(1, 4), 0, 1)], &[1, 48, 0, 1, 0, 1, 1, 3]),
    (&[homed(EXIT + INLINE_LINK, in_labels(3, 5, 128), 16384, 16384)], &[1, 78, 128, 128, 1, 0, 0, 2, 3, 2, 128, 1]),
    (&[on(u32::MAX, event(STR, u32::MAX, u32::MAX))], &[1, 1, 255, 255, 255, 255, 15, 0, 255, 255, 255, 255, 15, 0]),
];

/// Bytes with a fault, and its place.
const FAULTY: &[(&[u8], Fault, usize)] = &[
    (&[], Fault::Cut, 0),
    (&[1, 38, 0, 255, 255], Fault::Cut, 5),
    (&[128, 0], Fault::Longer, 0),
    (&[1, 1, 129, 128, 128, 128, 0, 0, 0], Fault::Longer, 2),
    (&[255, 255, 255, 255, 16], Fault::TooLarge, 0),
    (&[1, 128, 128, 128, 128, 128, 0], Fault::TooLarge, 1),
    (&[1, 1, 1, 255, 255, 255, 255, 15, 0], Fault::Beyond, 3),
    (&[1, 13, 0, 2, 0, 1, 1, 255, 255, 255, 255, 15], Fault::Beyond, 7),
    (&[1, 32], Fault::Kind, 1),
    (&[1, 64], Fault::Kind, 1),
    (&[1, 129, 2], Fault::Kind, 1),
    (&[1, 13, 0, 2, 0, 3], Fault::Home, 5),
    (&[1, 1, 0, 2, 0, 1, 0, 0], Fault::Home, 5),
    (&[1, 1, 0, 1, 0, 0, 128], Fault::Rest, 6),
    (&[1, 1, 0, 1, 128, 0, 0], Fault::Longer, 4),
    (&[1, 1, 0, 1], Fault::Cut, 4),
];

/// Bytes at which something changes: the ends of the kinds, homes and groups.
const TELLING: &[u8] = &[
    0, 1, 2, 3, 4, 12, 13, 14, 15, 16, 32, 33, 40, 41, 42, 43, 44, 47, 48, 49, 64, 65, 72, 73, 74, 75, 76, 79, 80, 81, 127, 128, 129, 143, 144, 254,
    255,
];

/// Strings of up to so many bytes stand behind the counts.
const LONGEST: usize = 3;
const COUNTS: u8 = 2;

/// After how many lists it is said how far a run is.
const PROGRESS: u64 = 20_000_000;

/// A number of up to so much: small, of about a size, at the end of some groups, or the largest.
fn number(r: &mut Random, most: u32) -> u32 {
    let n = match r.below(16) {
        0 => most,
        1 | 2 => ((1u64 << (7 * (1 + r.below(4)))) - r.below(2) as u64) as u32,
        3 | 4 => r.next() as u32 >> r.below(32),
        _ => r.below(30) as u32,
    };
    n.min(most)
}

fn kind(r: &mut Random) -> u32 {
    let all = KINDS.iter().cloned().flatten();
    let which = r.below(all.clone().count());
    all.clone().nth(which).expect("a kind")
}

/// A list that can be packed, whether a sheet gives it or not.
fn good(r: &mut Random, out: &mut Vec<Event>) {
    out.clear();
    let mut previous_end = 0;
    for _ in 0..r.below(7) {
        let kind = kind(r);
        let start = previous_end + number(r, u32::MAX - previous_end);
        let end = start + number(r, u32::MAX - start);
        let mut part = Home { home: if has_home(kind) { r.below(3) as u32 } else { home::NONE }, start: 0, end: 0, link: 0 };
        if part.home != home::NONE {
            part.start = number(r, u32::MAX);
            part.end = part.start + number(r, u32::MAX - part.start);
        }
        if has_link(kind) {
            part.link = number(r, u32::MAX);
        }
        out.push(on(number(r, u32::MAX), homed(kind, part, start, end)));
        previous_end = end;
    }
}

/// Another byte: one more or less, a telling one, or any.
fn other(r: &mut Random, b: u8) -> u8 {
    match r.below(4) {
        0 => b.wrapping_add(1),
        1 => b.wrapping_sub(1),
        2 => TELLING[r.below(TELLING.len())],
        _ => r.next() as u8,
    }
}

/// What is done to a good list.
#[derive(Clone, Copy)]
pub enum Damage {
    Changed,
    Cut,
    Added,
}

pub const DAMAGES: [Damage; 3] = [Damage::Changed, Damage::Cut, Damage::Added];

impl Damage {
    fn told(self) -> &'static str {
        match self {
            Damage::Changed => "good lists, then with a byte changed",
            Damage::Cut => "good lists, then cut short",
            Damage::Added => "good lists, then with a byte added",
        }
    }
}

/// A list has a byte at least.
pub fn damage(r: &mut Random, how: Damage, bytes: &mut Vec<u8>) {
    let at = r.below(bytes.len());
    match how {
        Damage::Changed => bytes[at] = other(r, bytes[at]),
        Damage::Cut => bytes.truncate(at),
        Damage::Added => bytes.insert(r.below(bytes.len() + 1), other(r, bytes[at])),
    }
}

/// Any bytes; telling ones; or few, so that events are long.
fn bytes(r: &mut Random, out: &mut Vec<u8>) {
    out.clear();
    let n = if r.below(16) == 0 { r.below(120) } else { r.below(24) };
    let sort = r.below(4);
    if sort > 0 && n > 0 {
        out.push(r.below(5) as u8);
    }
    while out.len() < n {
        out.push(match sort {
            0 | 1 => r.next() as u8,
            2 => TELLING[r.below(TELLING.len())],
            _ => [0, 1, 13, 38, 78, 128, 255][r.below(7)],
        });
    }
}

/// Records of any numbers, and some numbers behind them: any, small, or of a good list in which a number is another or two events are exchanged.
fn records(r: &mut Random, events: &mut Vec<Event>, out: &mut Vec<u32>) {
    out.clear();
    let sort = r.below(8);
    if sort < 2 {
        let n = EVENT_NUMBERS * r.below(5);
        out.extend((0..n).map(|_| if sort == 0 { r.next() as u32 } else { r.below(100) as u32 }));
    } else {
        good(r, events);
        if sort == 2 && events.len() > 1 {
            let i = r.below(events.len() - 1);
            events.swap(i, i + 1);
        }
        out.extend(events.as_flattened());
        if sort > 3 && !out.is_empty() {
            let i = r.below(out.len());
            out[i] = match r.below(5) {
                0 => out[i].wrapping_add(1),
                1 => out[i].wrapping_sub(1),
                2 => u32::from(TELLING[r.below(TELLING.len())]),
                3 => 0,
                _ => r.next() as u32,
            };
        }
    }
    let behind = if r.below(4) == 0 { r.below(EVENT_NUMBERS) } else { 0 };
    out.extend((0..behind).map(|_| r.next() as u32));
}

/// Says what differs. Whether nothing does.
fn right(called: Result<bool, String>, of: &dyn std::fmt::Debug) -> bool {
    if let Err(wrong) = &called {
        println!("difference: {wrong}");
        println!("of {of:?}");
    }
    called.is_ok()
}

fn by_hand(packer: &mut Packer) -> bool {
    let written = WRITTEN.iter().all(|(events, bytes)| {
        right(packer.there_and_back(events.as_flattened()), events) && {
            let same = packer.packed == *bytes;
            if !same {
                println!("difference: document 02 has {bytes:?} for {events:?}, the comparison {:?}", packer.packed);
            }
            same
        }
    });
    let faulty = FAULTY.iter().all(|(bytes, fault, place)| {
        let read = crate::packed::unpack(bytes, &mut Vec::new());
        let same = read == Err((*fault, *place));
        if !same {
            println!("difference: document 02 has {fault:?} at {place} in {bytes:?}, the comparison {read:?}");
        }
        same && right(packer.unpack(bytes), bytes)
    });
    println!("lists: {} written out by hand, {} faulty ones", WRITTEN.len(), FAULTY.len());
    written && faulty
}

/// All short strings behind a count.
fn short(packer: &mut Packer) -> bool {
    let started = Instant::now();
    let alphabet: Vec<u8> = (0..=u8::MAX).collect();
    let mut all = 0;
    let mut list = Vec::new();
    for count in 0..=COUNTS {
        let mut ok = true;
        all += strings(&alphabet, LONGEST, |src| {
            list.clear();
            list.push(count);
            list.extend(src);
            ok = right(packer.back_and_there(&list), &list);
            ok
        });
        if !ok {
            return false;
        }
    }
    println!("lists: all {all} strings of up to {LONGEST} bytes behind a count of 0 to {COUNTS} ({:.0?})", started.elapsed());
    true
}

/// So many of one kind of input.
fn many(what: &str, n: u64, mut one: impl FnMut() -> bool) -> bool {
    let started = Instant::now();
    for i in 0..n {
        if i > 0 && i % PROGRESS == 0 {
            eprintln!("lists: {i} of {n} {what} ({:.0?})", started.elapsed());
        }
        if !one() {
            return false;
        }
    }
    println!("lists: {n} {what} ({:.0?})", started.elapsed());
    true
}

/// Whether there is no difference, with so many random lists of each kind.
pub fn compare(packer: &mut Packer, n: u64, seed: u64) -> bool {
    let r = &mut Random::new(seed);
    let (mut events, mut list, mut numbers) = (Vec::new(), Vec::new(), Vec::new());
    if !(by_hand(packer) && short(packer)) {
        return false;
    }
    for how in DAMAGES {
        let same = many(how.told(), n, || {
            good(r, &mut events);
            if !right(packer.there_and_back(events.as_flattened()), &events) {
                return false;
            }
            list.clone_from(&packer.packed);
            damage(r, how, &mut list);
            right(packer.back_and_there(&list), &list)
        });
        if !same {
            return false;
        }
    }
    let random = many("of random bytes", n, || {
        bytes(r, &mut list);
        right(packer.back_and_there(&list), &list)
    });
    let any = random
        && many("of records of any numbers", n, || {
            records(r, &mut events, &mut numbers);
            right(packer.there_and_back(&numbers), &numbers)
        });
    if any {
        println!("lists: packing: {}", packer.packs.told(&FLAWS));
        println!("lists: unpacking: {}", packer.unpacks.told(&FAULTS));
    }
    let each = packer.packs.each() && packer.unpacks.each();
    if any && !each {
        println!("difference: of some sort there was no call");
    }
    any && each
}
