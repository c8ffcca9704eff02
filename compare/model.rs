//! The questions that document 01 asks of a sheet, in its own words. What the parser gives is the Rust's.

use crate::mivurakol::{code, Answer, EVENT_NUMBERS, LABEL_LIMIT, LARGEST, OPENER_NUMBERS, QUEUE_NUMBERS};
use crate::sheet::Sheet;
use crate::theirs::RustAnswer;

/// The lengths of the rooms: numbers, and bytes of the label room and of a fragment's output room.
#[derive(Clone, Copy, Debug, Default, PartialEq, Eq)]
pub struct Sizes {
    pub events: usize,
    pub queue: usize,
    pub openers: usize,
    pub labels: usize,
    pub out: usize,
}

fn refused(code: u32, place: usize) -> Answer {
    Answer { code, place: place as u32, ..Answer::default() }
}

/// Questions 1 and 2.
fn limits(sheet: &Sheet, reading: u32) -> Option<Answer> {
    if reading != 0 && reading != 1 {
        return Some(refused(code::READING, 0));
    }
    let lines = sheet.starts.len().max(sheet.ends.len());
    (sheet.text.len() > LARGEST || lines > LARGEST).then(|| refused(code::TOO_LARGE, 0))
}

/// Questions 3 and 4. A start without an end, or an end without a start, is a line that ends before it starts.
fn lines(sheet: &Sheet) -> Option<Answer> {
    let Sheet { text, starts, ends } = sheet;
    let both = starts.len().min(ends.len());
    let inside = |i: usize| starts[i] <= ends[i] && ends[i] <= text.len();
    if let Some(i) = (0..both).find(|&i| !inside(i)) {
        return Some(refused(code::OUTSIDE, i));
    }
    if starts.len() != ends.len() {
        return Some(refused(code::OUTSIDE, both));
    }
    (1..both).find(|&i| starts[i] < ends[i - 1]).map(|i| refused(code::EARLY, i))
}

/// Questions 1 to 4: the refusal, if there is one.
pub fn unfit(sheet: &Sheet, reading: u32) -> Option<Answer> {
    limits(sheet, reading).or_else(|| lines(sheet))
}

/// The answer to a sheet that is fit, from question 5 on: the Rust says which attribute block, labels and events there are.
pub fn answer(fed: usize, sizes: &Sizes, rust: &RustAnswer) -> Answer {
    if sizes.queue / QUEUE_NUMBERS < 2 * fed + 1 {
        refused(code::QUEUE_ROOM, 0)
    } else if sizes.openers / OPENER_NUMBERS < fed {
        refused(code::OPENER_ROOM, 0)
    } else if let Some(place) = rust.brace {
        refused(code::BRACE, place)
    } else if sizes.labels.min(LABEL_LIMIT) < rust.labels.len() {
        refused(code::LABEL_ROOM, 0)
    } else if sizes.events / EVENT_NUMBERS < rust.events.len() {
        refused(code::EVENT_ROOM, 0)
    } else {
        Answer { code: code::ACCEPTED, place: 0, events: rust.events.len() as u32, labels: rust.labels.len() as u32, looks: rust.looks }
    }
}
