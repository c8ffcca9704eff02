//! The validator of attribute blocks alone.

use crate::attr::Plain;
use crate::ours;
use crate::random::strings;
use std::time::Instant;

/// Every byte that it tells apart from others, and one that it does not; and how long strings of these are.
const TELLING: &[u8] = b"{}.#%a =\n\"\\$";
const LONGEST: usize = 7;

/// How many states there are.
const STATES: usize = 18;

/// The Rust's validator behind one more byte. What is not ASCII is no part of a `str`: the byte 1 stands for it, as in a sheet.
fn behind(validator: &Plain, byte: u8) -> Plain {
    let mut next = validator.clone();
    next.parse(if byte.is_ascii() { std::str::from_utf8(std::slice::from_ref(&byte)).expect("ASCII") } else { "\x01" });
    next
}

/// Goes byte by byte.
struct Walk {
    src: Vec<u8>,
    met: [bool; STATES],
    steps: u64,
}

impl Walk {
    /// One byte. The Rust's validator behind it, if there is no difference.
    fn step(&mut self, validator: &Plain, byte: u8) -> Option<Plain> {
        let next = behind(validator, byte);
        let ours = ours::validate(&[byte], validator.number());
        self.steps += 1;
        if next.number() != ours {
            println!("the validator differs behind {:?} at byte {byte}: the Rust is in state {}, ours in {ours}", self.src, next.number());
            return None;
        }
        Some(next)
    }

    /// All bytes from a state, and none where it is decided: it stays. Whether there is no difference.
    fn all_bytes(&mut self, validator: &Plain) -> bool {
        if !validator.is_decided() {
            return (0..=u8::MAX).all(|byte| self.step(validator, byte).is_some());
        }
        let state = validator.number();
        let stays = (0..=u8::MAX).all(|byte| ours::validate(&[byte], state) == state);
        if !stays {
            println!("the validator goes on from state {state}, which is decided");
        }
        stays
    }

    /// All strings that go on from here, to where a state is decided; and all bytes where a state is met first. Whether there is no difference.
    fn on(&mut self, validator: &Plain) -> bool {
        let met = std::mem::replace(&mut self.met[validator.number() as usize], true);
        if !met && !self.all_bytes(validator) {
            return false;
        }
        validator.is_decided()
            || self.src.len() == LONGEST
            || TELLING.iter().all(|&byte| {
                let next = self.step(validator, byte);
                self.src.push(byte);
                let same = next.is_some_and(|next| self.on(&next));
                self.src.pop();
                same
            })
    }
}

/// Whether there is a difference.
pub fn compare() -> bool {
    let started = Instant::now();
    let fresh = Plain::new();
    let mut walk = Walk { src: Vec::new(), met: [false; STATES], steps: 0 };
    if !walk.on(&fresh) {
        return true;
    }
    assert!(walk.met.iter().all(|&met| met), "all states are met");
    let mut same = true;
    let all = strings(TELLING, LONGEST, |src| {
        let mut validator = fresh.clone();
        validator.parse(std::str::from_utf8(src).expect("ASCII"));
        let (theirs, ours) = (validator.number(), ours::validate(src, fresh.number()));
        same = theirs == ours;
        if !same {
            println!("the validator differs on {src:?}: the Rust is in state {theirs}, ours in {ours}");
        }
        same
    });
    if !same {
        return true;
    }
    println!(
        "validator: all 256 bytes from each of {STATES} states, all {all} strings of up to {LONGEST} bytes at once and, to where they are decided, \
         byte by byte, {} steps ({:.0?})",
        walk.steps,
        started.elapsed()
    );
    false
}
