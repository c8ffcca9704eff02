//! `pack` and `unpack` beside document 02: answer, bytes, events, and every number of the room, for rooms of many sizes.

use crate::lending::{Size, OUTPUTS};
use crate::mivurakol::{self, code, packed_room, unpacked_room, Event, PackedAnswer, EVENT_NUMBERS};
use crate::packed::{self, FAULTS, FLAWS};
use crate::random::Random;
use crate::rooms::Room;

/// How many calls there were, by what is expected: accepted, refused for room, and for each flaw or fault.
pub struct Counts<const N: usize> {
    pub accepted: u64,
    pub room: u64,
    pub faulty: [u64; N],
}

impl<const N: usize> Counts<N> {
    const NONE: Self = Counts { accepted: 0, room: 0, faulty: [0; N] };

    fn count<W: PartialEq>(&mut self, answer: &PackedAnswer, all: &[W; N], which: Option<W>) {
        match (answer.code, which) {
            (code::ACCEPTED, None) => self.accepted += 1,
            (code::PACKED_ROOM, None) => self.room += 1,
            (_, which) => self.faulty[all.iter().position(|w| Some(w) == which.as_ref()).expect("a fault")] += 1,
        }
    }

    pub fn all(&self) -> u64 {
        self.accepted + self.room + self.faulty.iter().sum::<u64>()
    }

    /// Whether there was a call of each sort.
    pub fn each(&self) -> bool {
        self.accepted > 0 && self.room > 0 && self.faulty.iter().all(|&n| n > 0)
    }

    pub fn told<W: std::fmt::Debug>(&self, all: &[W; N]) -> String {
        let faulty: Vec<_> = all.iter().zip(self.faulty).map(|(w, n)| format!("{w:?} {n}")).collect();
        format!("{} accepted, {} refused for room, {}", self.accepted, self.room, faulty.join(", "))
    }
}

/// Calls them, and sees that all is as expected.
pub struct Packer {
    bytes: Room<u8>,
    events: Room<u32>,
    /// What is expected of the last list.
    pub packed: Vec<u8>,
    pub unpacked: Vec<Event>,
    /// What was lent for reading.
    numbers_before: Vec<u32>,
    bytes_before: Vec<u8>,
    turns: usize,
    pub packs: Counts<{ FLAWS.len() }>,
    pub unpacks: Counts<{ FAULTS.len() }>,
}

impl Packer {
    pub fn new(seed: u64) -> Self {
        let mut r = Random::new(seed);
        // No byte of the noise is 0, so that it is seen which of them were cleared.
        let mut number = || r.next() as u32 | 0x0101_0101;
        Packer {
            bytes: Room::new(|| number() as u8),
            events: Room::new(&mut number),
            packed: Vec::new(),
            unpacked: Vec::new(),
            numbers_before: Vec::new(),
            bytes_before: Vec::new(),
            turns: 0,
            packs: Counts::NONE,
            unpacks: Counts::NONE,
        }
    }

    /// The next size of a room.
    fn turn(&mut self) -> Size {
        self.turns += 1;
        OUTPUTS[self.turns % OUTPUTS.len()]
    }

    /// Packs the whole records of some numbers. Whether they have no flaw.
    pub fn pack(&mut self, numbers: &[u32]) -> Result<bool, String> {
        let (events, _) = numbers.as_chunks();
        let done = packed::pack(events, &mut self.packed);
        // Of a list with a flaw any length will do.
        let room = self.turn().of(self.packed.len(), packed_room(events.len()));
        let expected = packed::pack_answer(done, self.packed.len(), room);
        self.packs.count(&expected, &FLAWS, done.err().map(|(flaw, _)| flaw));
        self.numbers_before.clear();
        self.numbers_before.extend(numbers);
        self.bytes.lend(room);
        let answer = mivurakol::pack(numbers, self.bytes.room_mut());
        let written = if expected.code == code::ACCEPTED { &self.packed[..] } else { &[] };
        let sound = done.is_ok();
        if answer != expected {
            return Err(format!("packing: {expected:?} is expected, the answer is {answer:?}"));
        }
        if self.numbers_before != numbers {
            return Err("packing: the events are written to".to_string());
        }
        if sound && self.packed.len() > packed_room(events.len()) {
            return Err("packing: the room that always suffices does not".to_string());
        }
        self.bytes.wrong(written).map_or(Ok(sound), |wrong| Err(format!("packing: {wrong}; {:?} is expected", self.packed)))
    }

    /// Unpacks some bytes. Whether they have no fault.
    pub fn unpack(&mut self, bytes: &[u8]) -> Result<bool, String> {
        let done = packed::unpack(bytes, &mut self.unpacked);
        let need = EVENT_NUMBERS * self.unpacked.len();
        let room = self.turn().of(need, EVENT_NUMBERS * unpacked_room(bytes.len()));
        let expected = packed::unpack_answer(done, self.unpacked.len(), room);
        self.unpacks.count(&expected, &FAULTS, done.err().map(|(fault, _)| fault));
        self.bytes_before.clear();
        self.bytes_before.extend(bytes);
        self.events.lend(room);
        let answer = mivurakol::unpack(bytes, self.events.room_mut());
        let read = if expected.code == code::ACCEPTED { self.unpacked.as_flattened() } else { &[] };
        let sound = done.is_ok();
        if answer != expected {
            return Err(format!("unpacking: {expected:?} is expected, the answer is {answer:?}"));
        }
        if self.bytes_before != bytes {
            return Err("unpacking: the bytes are written to".to_string());
        }
        if self.unpacked.len() > unpacked_room(bytes.len()) {
            return Err("unpacking: the room that always suffices does not".to_string());
        }
        self.events.wrong(read).map_or(Ok(sound), |wrong| Err(format!("unpacking: {wrong}; {:?} is expected", self.unpacked)))
    }

    /// Packs the whole records of some numbers and, if they have no flaw, unpacks what they are packed in, which restores them.
    pub fn there_and_back(&mut self, numbers: &[u32]) -> Result<bool, String> {
        if !self.pack(numbers)? {
            return Ok(false);
        }
        let packed = std::mem::take(&mut self.packed);
        let sound = self.unpack(&packed);
        self.packed = packed;
        if !sound? || self.unpacked != numbers.as_chunks().0 {
            return Err(format!("the list is not restored: {:?} of {:?}", self.unpacked, self.packed));
        }
        Ok(true)
    }

    /// Unpacks some bytes and, if they have no fault, packs their events, which restores them.
    pub fn back_and_there(&mut self, bytes: &[u8]) -> Result<bool, String> {
        if !self.unpack(bytes)? {
            return Ok(false);
        }
        let unpacked = std::mem::take(&mut self.unpacked);
        let sound = self.pack(unpacked.as_flattened());
        self.unpacked = unpacked;
        if !sound? || self.packed != bytes {
            return Err(format!("the bytes are not restored: {:?} of {:?}", self.packed, self.unpacked));
        }
        Ok(true)
    }
}
