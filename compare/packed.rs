//! A packed list of events, written and read in the words of document 02.

use crate::events::{homed, on, Home, NOWHERE};
use crate::mivurakol::field::{END, HOME, HOME_END, HOME_START, KIND, LINE, LINK, START};
use crate::mivurakol::{code, home, Event, PackedAnswer, EVENT_NUMBERS};
use std::ops::RangeInclusive;

type Kinds = [RangeInclusive<u32>];

/// The kinds in document 01's numbers: what stands alone, enters, exits. Span, 32 and 64, is never handed out.
pub const KINDS: &Kinds = &[1..=14, 33..=48, 65..=80];

/// "It holds the symbol, footnote label, raw format, autolink address or link label."
const HOMES: &Kinds = &[13..=14, 41..=41, 44..=48, 73..=73, 76..=80];

/// "for kinds 44 to 47 and 76 to 79, the link number"
const LINKS: &Kinds = &[44..=47, 76..=79];

fn among(kinds: &Kinds, kind: u32) -> bool {
    kinds.iter().any(|some| some.contains(&kind))
}

pub fn has_home(kind: u32) -> bool {
    among(HOMES, kind)
}

pub fn has_link(kind: u32) -> bool {
    among(LINKS, kind)
}

/// "a home over 2 or on a kind without one" is at fault.
fn may_have(kind: u32, home: u32) -> bool {
    home == home::NONE || home <= home::LABELS && has_home(kind)
}

/// The bits of a group, and what one of several has beside them.
const BITS: u32 = 7;
const MORE: u8 = 0x80;

/// "a fifth byte over 15" is too large.
const FIFTH: usize = 4;
const FIFTH_MOST: u8 = 15;

// ---- written

/// "groups of seven bits, lowest group first, high bit set on all but the last group, shortest form only"
fn spell(mut n: u32, out: &mut Vec<u8>) {
    while n >> BITS != 0 {
        out.push(n as u8 | MORE);
        n >>= BITS;
    }
    out.push(n as u8);
}

/// Why the writer refuses an event. That 4,294,967,295 stand before it no run can have.
#[derive(Clone, Copy, Debug, PartialEq, Eq)]
pub enum Flaw {
    Kind,
    Home,
    Backwards,
    Early,
    Meaning,
}

pub const FLAWS: [Flaw; 5] = [Flaw::Kind, Flaw::Home, Flaw::Backwards, Flaw::Early, Flaw::Meaning];

/// "such a kind or home, a span or home end before its start, a start before the previous end, a field without meaning that is not 0"
fn flaw(previous_end: u32, e: &Event) -> Option<Flaw> {
    if !among(KINDS, e[KIND]) {
        Some(Flaw::Kind)
    } else if !may_have(e[KIND], e[HOME]) {
        Some(Flaw::Home)
    } else if e[END] < e[START] || e[HOME_END] < e[HOME_START] {
        Some(Flaw::Backwards)
    } else if e[START] < previous_end {
        Some(Flaw::Early)
    } else if e[HOME] == home::NONE && (e[HOME_START], e[HOME_END]) != (0, 0) || !has_link(e[KIND]) && e[LINK] != 0 {
        Some(Flaw::Meaning)
    } else {
        None
    }
}

/// The bytes of a list; or the first event that is refused.
pub fn pack(events: &[Event], out: &mut Vec<u8>) -> Result<(), (Flaw, usize)> {
    out.clear();
    spell(events.len() as u32, out);
    let mut previous_end = 0;
    for (i, e) in events.iter().enumerate() {
        if let Some(flaw) = flaw(previous_end, e) {
            return Err((flaw, i));
        }
        for n in [e[KIND], e[START] - previous_end, e[END] - e[START], e[LINE], e[HOME]] {
            spell(n, out);
        }
        if e[HOME] != home::NONE {
            spell(e[HOME_START], out);
            spell(e[HOME_END] - e[HOME_START], out);
        }
        if has_link(e[KIND]) {
            spell(e[LINK], out);
        }
        previous_end = e[END];
    }
    Ok(())
}

// ---- read

/// What is wrong with a packed list.
#[derive(Clone, Copy, Debug, PartialEq, Eq)]
pub enum Fault {
    Cut,
    Longer,
    TooLarge,
    Beyond,
    Kind,
    Home,
    Rest,
}

pub const FAULTS: [Fault; 7] = [Fault::Cut, Fault::Longer, Fault::TooLarge, Fault::Beyond, Fault::Kind, Fault::Home, Fault::Rest];

/// Goes through the bytes of a list.
struct Bytes<'b> {
    all: &'b [u8],
    at: usize,
}

type Read<T> = Result<T, (Fault, usize)>;

impl Bytes<'_> {
    fn number(&mut self) -> Read<u32> {
        let from = self.at;
        let mut n = 0u64;
        for k in 0.. {
            let Some(&b) = self.all.get(from + k) else {
                return Err((Fault::Cut, self.all.len()));
            };
            if k == FIFTH && b > FIFTH_MOST {
                return Err((Fault::TooLarge, from));
            }
            n |= u64::from(b & !MORE) << (k as u32 * BITS);
            if b & MORE == 0 {
                if k > 0 && b == 0 {
                    return Err((Fault::Longer, from));
                }
                self.at = from + k + 1;
                break;
            }
        }
        Ok(u32::try_from(n).expect("at most 4,294,967,295"))
    }

    /// A number of which something is asked.
    fn asked(&mut self, fault: Fault, ok: impl Fn(u32) -> bool) -> Read<u32> {
        let from = self.at;
        let n = self.number()?;
        if ok(n) {
            Ok(n)
        } else {
            Err((fault, from))
        }
    }

    /// "a start or end beyond the largest"
    fn on_top_of(&mut self, base: u32) -> Read<u32> {
        self.asked(Fault::Beyond, |n| base.checked_add(n).is_some()).map(|n| base + n)
    }

    fn event(&mut self, previous_end: u32) -> Read<Event> {
        let kind = self.asked(Fault::Kind, |kind| among(KINDS, kind))?;
        let start = self.on_top_of(previous_end)?;
        let end = self.on_top_of(start)?;
        let line = self.number()?;
        let mut part = Home { home: self.asked(Fault::Home, |home| may_have(kind, home))?, ..NOWHERE };
        if part.home != home::NONE {
            part.start = self.number()?;
            part.end = self.on_top_of(part.start)?;
        }
        if has_link(kind) {
            part.link = self.number()?;
        }
        Ok(on(line, homed(kind, part, start, end)))
    }
}

/// The events of a list; or the first fault and its place.
pub fn unpack(bytes: &[u8], out: &mut Vec<Event>) -> Read<()> {
    out.clear();
    let mut bytes = Bytes { all: bytes, at: 0 };
    let mut previous_end = 0;
    for _ in 0..bytes.number()? {
        let e = bytes.event(previous_end)?;
        previous_end = e[END];
        out.push(e);
    }
    if bytes.at < bytes.all.len() {
        return Err((Fault::Rest, bytes.at));
    }
    Ok(())
}

// ---- answered

/// "12 with the place of the fault .., then 13 for room", by what was written or read: so many bytes or events, where so many fit.
fn answer<W>(done: Result<(), (W, usize)>, count: usize, fit: usize) -> PackedAnswer {
    let refused = |code, place| PackedAnswer { code, place, count: 0 };
    match done {
        Err((_, place)) => refused(code::FAULTY, place as u64),
        Ok(()) if fit < count => refused(code::PACKED_ROOM, 0),
        Ok(()) => PackedAnswer { code: code::ACCEPTED, place: 0, count: count as u64 },
    }
}

/// Of `pack`, with a room of so many bytes.
pub fn pack_answer(done: Result<(), (Flaw, usize)>, bytes: usize, room: usize) -> PackedAnswer {
    answer(done, bytes, room)
}

/// Of `unpack`, with a room of so many numbers.
pub fn unpack_answer(done: Read<()>, events: usize, room: usize) -> PackedAnswer {
    answer(done, events, room / EVENT_NUMBERS)
}
