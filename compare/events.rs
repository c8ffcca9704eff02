//! Records of events, written as the definition writes them, and ranges of their kinds.

use crate::mivurakol::{field, home, Event, ENTER, EVENT_NUMBERS, EXIT};
use std::ops::RangeInclusive;

/// Which home, from where to where in it, and the link number.
#[derive(Clone, Copy)]
pub struct Home {
    pub home: u32,
    pub start: u32,
    pub end: u32,
    pub link: u32,
}

pub const NOWHERE: Home = Home { home: home::NONE, start: 0, end: 0, link: 0 };

pub const fn in_text(start: u32, end: u32) -> Home {
    Home { home: home::TEXT, start, end, link: 0 }
}

pub const fn in_labels(start: u32, end: u32, link: u32) -> Home {
    Home { home: home::LABELS, start, end, link }
}

/// An event with its span and home.
pub const fn homed(kind: u32, home: Home, start: u32, end: u32) -> Event {
    let mut e = [0; EVENT_NUMBERS];
    e[field::KIND] = kind;
    e[field::START] = start;
    e[field::END] = end;
    e[field::HOME] = home.home;
    e[field::HOME_START] = home.start;
    e[field::HOME_END] = home.end;
    e[field::LINK] = home.link;
    e
}

pub const fn event(kind: u32, start: u32, end: u32) -> Event {
    homed(kind, NOWHERE, start, end)
}

/// An event on a line.
pub const fn on(line: u32, mut e: Event) -> Event {
    e[field::LINE] = line;
    e
}

/// Of more lines than so many the line of a place is looked for by halves.
const FEW: usize = 100;

/// The line of an event by document 02, L5: "the index of the first fed line that ends after its span starts; the exit of a verbatim left open carries
/// the last line's index". By a search through the lines, the first first.
pub fn locate(e: &mut Event, ends: &[usize]) {
    let behind = |end: usize| end > e[field::START] as usize;
    let line = if ends.len() > FEW { ends.partition_point(|&end| !behind(end)) } else { ends.iter().take_while(|&&end| !behind(end)).count() };
    e[field::LINE] = line.min(ends.len() - 1) as u32;
}

/// The enters of the containers from one to another.
pub fn enters(first: u32, last: u32) -> RangeInclusive<u32> {
    ENTER + first..=ENTER + last
}

/// Their exits.
pub fn exits(first: u32, last: u32) -> RangeInclusive<u32> {
    EXIT + first..=EXIT + last
}
