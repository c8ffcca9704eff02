//! Rooms as they are lent: each is the middle of a longer buffer, full of noise.

use crate::mivurakol::{self, code, Event};
use crate::model::Sizes;
use crate::random::Random;

/// So many cells stand before and behind a room.
const GUARD: usize = 16;

/// The noise repeats.
const PERIOD: usize = 1024;

/// One room.
pub struct Room<T> {
    cells: Vec<T>,
    len: usize,
    /// Two periods of noise, and where it begins today.
    noise: Vec<T>,
    shift: usize,
    zeros: Vec<T>,
}

impl<T: Copy + Default + PartialEq> Room<T> {
    pub fn new(mut cell: impl FnMut() -> T) -> Self {
        let mut noise: Vec<T> = (0..PERIOD).map(|_| cell()).collect();
        noise.extend_from_within(..);
        Room { cells: Vec::new(), len: 0, noise, shift: 0, zeros: vec![T::default(); PERIOD] }
    }

    /// A room of so many cells, and its guards.
    pub fn lend(&mut self, len: usize) {
        self.len = len;
        self.shift = (self.shift + 7) % PERIOD;
        let all = len + 2 * GUARD;
        if self.cells.len() < all {
            self.cells.resize(all, T::default());
        }
        for part in self.cells[..all].chunks_mut(PERIOD) {
            part.copy_from_slice(&self.noise[self.shift..self.shift + part.len()]);
        }
    }

    pub fn room(&self) -> &[T] {
        &self.cells[GUARD..GUARD + self.len]
    }

    pub fn room_mut(&mut self) -> &mut [T] {
        &mut self.cells[GUARD..GUARD + self.len]
    }

    /// Whether the cells from one to before another are still noise.
    fn noisy(&self, from: usize, to: usize) -> bool {
        let mut at = from;
        while at < to {
            let in_period = at % PERIOD;
            let n = (PERIOD - in_period).min(to - at);
            let begin = self.shift + in_period;
            if self.cells[at..at + n] != self.noise[begin..begin + n] {
                return false;
            }
            at += n;
        }
        true
    }

    /// Whether nothing was written before or behind the room.
    fn guarded(&self) -> bool {
        self.noisy(0, GUARD) && self.noisy(GUARD + self.len, self.len + 2 * GUARD)
    }

    fn untouched(&self) -> bool {
        self.noisy(0, self.len + 2 * GUARD)
    }

    /// Whether these stand from the front, and the rest is zero.
    fn holds(&self, front: &[T]) -> bool {
        let room = self.room();
        room.len() >= front.len() && room[..front.len()] == *front && self.zero(&room[front.len()..])
    }

    fn zero(&self, cells: &[T]) -> bool {
        cells.chunks(PERIOD).all(|part| *part == self.zeros[..part.len()])
    }

    /// What is wrong with a room in which these are to stand from the front, and all else is to be zero.
    pub fn wrong(&self, front: &[T]) -> Option<&'static str> {
        if !self.guarded() {
            Some("it is written outside the output room")
        } else if !self.holds(front) {
            Some("the output room differs")
        } else {
            None
        }
    }
}

/// All four, and the output room of a fragment.
pub struct Rooms {
    pub events: Room<u32>,
    pub queue: Room<u32>,
    pub openers: Room<u32>,
    pub labels: Room<u8>,
    pub out: Room<u8>,
}

impl Rooms {
    pub fn new(seed: u64) -> Self {
        // No byte of the noise is 0, so that it is seen which of them were cleared.
        let mut r = Random::new(seed);
        let mut number = || r.next() as u32 | 0x0101_0101;
        let events = Room::new(&mut number);
        let queue = Room::new(&mut number);
        let openers = Room::new(&mut number);
        Rooms { events, queue, openers, labels: Room::new(|| number() as u8), out: Room::new(|| number() as u8) }
    }

    pub fn lend(&mut self, sizes: &Sizes) -> mivurakol::Rooms<'_> {
        self.lend_output(&Sizes { out: 0, ..*sizes }).0
    }

    /// The four, and the output room.
    pub fn lend_output(&mut self, sizes: &Sizes) -> (mivurakol::Rooms<'_>, &mut [u8]) {
        let Rooms { events, queue, openers, labels, out } = self;
        events.lend(sizes.events);
        queue.lend(sizes.queue);
        openers.lend(sizes.openers);
        labels.lend(sizes.labels);
        out.lend(sizes.out);
        let four = mivurakol::Rooms { events: events.room_mut(), queue: queue.room_mut(), openers: openers.room_mut(), labels: labels.room_mut() };
        (four, out.room_mut())
    }

    /// What is wrong with the output room: this stands from the front, and all else is zero.
    pub fn wrong_output(&self, fragment: &[u8]) -> Option<&'static str> {
        self.out.wrong(fragment)
    }

    /// What is wrong with the four after a call: after the codes to `OPENER_ROOM` they are untouched,
    /// after the later ones they are zero, and after `ACCEPTED` these events and labels stand from
    /// the front, and all else is zero.
    pub fn wrong(&self, code: u32, events: &[Event], labels: &[u8]) -> Option<&'static str> {
        let Rooms { events: e, queue: q, openers: o, labels: l, .. } = self;
        if (code::READING..=code::OPENER_ROOM).contains(&code) {
            return (!(e.untouched() && q.untouched() && o.untouched() && l.untouched())).then_some("a room is touched");
        }
        let (events, labels) = if code == code::ACCEPTED { (events, labels) } else { (&events[..0], &labels[..0]) };
        if !(e.guarded() && q.guarded() && o.guarded() && l.guarded()) {
            Some("it is written outside a room")
        } else if !e.holds(events.as_flattened()) {
            Some("the event room differs")
        } else if !l.holds(labels) {
            Some("the label room differs")
        } else if !q.holds(&[]) {
            Some("the queue room is not zero")
        } else if !o.holds(&[]) {
            Some("the opener room is not zero")
        } else {
            None
        }
    }
}
