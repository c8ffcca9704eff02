//! A packed list by document 02, in plain Rust: the same refusals as ours, bytes and events in vectors.

use crate::mivurakol::field::{END, HOME, HOME_END, HOME_START, KIND, LINE, LINK, START};
use crate::mivurakol::{home, Event, EVENT_NUMBERS};

fn known(kind: u32) -> bool {
    matches!(kind, 1..=14 | 33..=48 | 65..=80)
}

fn may_have(kind: u32, home: u32) -> bool {
    home == home::NONE || home <= home::LABELS && matches!(kind, 13 | 14 | 41 | 44..=48 | 73 | 76..=80)
}

fn has_link(kind: u32) -> bool {
    matches!(kind, 44..=47 | 76..=79)
}

fn put(out: &mut Vec<u8>, mut n: u32) {
    while n >= 0x80 {
        out.push(n as u8 | 0x80);
        n >>= 7;
    }
    out.push(n as u8);
}

/// The bytes of a list; or the first event that cannot be packed.
pub fn pack(events: &[Event], out: &mut Vec<u8>) -> Result<(), usize> {
    out.clear();
    put(out, events.len() as u32);
    let mut previous = 0;
    for (i, e) in events.iter().enumerate() {
        let idle = (e[HOME] != home::NONE || e[HOME_START] == 0 && e[HOME_END] == 0) && (has_link(e[KIND]) || e[LINK] == 0);
        let forward = previous <= e[START] && e[START] <= e[END] && e[HOME_START] <= e[HOME_END];
        if !(known(e[KIND]) && may_have(e[KIND], e[HOME]) && forward && idle) {
            return Err(i);
        }
        put(out, e[KIND]);
        put(out, e[START] - previous);
        put(out, e[END] - e[START]);
        put(out, e[LINE]);
        put(out, e[HOME]);
        if e[HOME] != home::NONE {
            put(out, e[HOME_START]);
            put(out, e[HOME_END] - e[HOME_START]);
        }
        if has_link(e[KIND]) {
            put(out, e[LINK]);
        }
        previous = e[END];
    }
    Ok(())
}

struct Bytes<'b> {
    all: &'b [u8],
    at: usize,
}

impl Bytes<'_> {
    fn number(&mut self) -> Result<u32, usize> {
        let from = self.at;
        let mut n = 0;
        let mut shift = 0;
        loop {
            let b = *self.all.get(self.at).ok_or(self.all.len())?;
            self.at += 1;
            if shift == 28 && b > 15 || shift > 0 && b == 0 {
                return Err(from);
            }
            n |= u32::from(b & 0x7f) << shift;
            if b < 0x80 {
                return Ok(n);
            }
            shift += 7;
        }
    }

    fn on_top_of(&mut self, base: u32) -> Result<u32, usize> {
        let from = self.at;
        base.checked_add(self.number()?).ok_or(from)
    }

    fn event(&mut self, previous: u32) -> Result<Event, usize> {
        let mut e = [0; EVENT_NUMBERS];
        let from = self.at;
        e[KIND] = self.number()?;
        if !known(e[KIND]) {
            return Err(from);
        }
        e[START] = self.on_top_of(previous)?;
        e[END] = self.on_top_of(e[START])?;
        e[LINE] = self.number()?;
        let from = self.at;
        e[HOME] = self.number()?;
        if !may_have(e[KIND], e[HOME]) {
            return Err(from);
        }
        if e[HOME] != home::NONE {
            e[HOME_START] = self.number()?;
            e[HOME_END] = self.on_top_of(e[HOME_START])?;
        }
        if has_link(e[KIND]) {
            e[LINK] = self.number()?;
        }
        Ok(e)
    }
}

/// The events of a list; or the place of its first fault.
pub fn unpack(bytes: &[u8], out: &mut Vec<Event>) -> Result<(), usize> {
    out.clear();
    let mut bytes = Bytes { all: bytes, at: 0 };
    let mut previous = 0;
    for _ in 0..bytes.number()? {
        let e = bytes.event(previous)?;
        previous = e[END];
        out.push(e);
    }
    if bytes.at == bytes.all.len() {
        Ok(())
    } else {
        Err(bytes.at)
    }
}
