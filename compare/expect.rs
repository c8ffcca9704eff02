//! What is expected of a sheet: questions 1 to 6, 8 and 9 by document 01, the fragment by document 02, all else by the Rust.

use crate::fragment;
use crate::lending::Need;
use crate::mivurakol::{fragment_room, Answer, FragmentAnswer, EVENT_NUMBERS, OPENER_NUMBERS, QUEUE_NUMBERS};
use crate::model::{self, Sizes};
use crate::sheet::Sheet;
use crate::theirs::{self, RustAnswer};
use std::borrow::Cow;

/// What is known of a sheet in reading 0 or 1.
pub struct Expect {
    /// The refusal under questions 1 to 4; without one the Rust was asked.
    pub unfit: Option<Answer>,
    pub rust: RustAnswer,
    /// Whether it was asked about this very text: then labels are equal to the byte.
    pub same_text: bool,
    /// The fragment of the Rust's events.
    pub fragment: Vec<u8>,
    pub need: Need,
}

impl Expect {
    pub fn new() -> Self {
        let need = Need { exact: Sizes::default(), events: 0, out: 0 };
        Expect { unfit: None, rust: RustAnswer::default(), same_text: true, fragment: Vec::new(), need }
    }

    pub fn ask(&mut self, sheet: &Sheet, reading: u32) {
        self.unfit = model::unfit(sheet, reading);
        self.rust.clear();
        self.same_text = true;
        if self.unfit.is_none() {
            let text = sheet.for_the_rust();
            self.same_text = matches!(text, Cow::Borrowed(_));
            theirs::read(&text, &sheet.starts, &sheet.ends, reading, &mut self.rust);
        }
        fragment::render(&sheet.text, &self.rust.events, &mut self.fragment);
        let fed = sheet.fed();
        let exact = Sizes {
            events: EVENT_NUMBERS * self.rust.events.len(),
            queue: QUEUE_NUMBERS * (2 * fed + 1),
            openers: OPENER_NUMBERS * fed,
            labels: self.rust.labels.len(),
            // Of a sheet without a list there is no fragment, and any length will do.
            out: if self.readable() { self.fragment.len() } else { sheet.text.len() },
        };
        self.need = Need { exact, events: EVENT_NUMBERS * (fed + 1), out: fragment_room(fed) };
    }

    /// The answer with rooms of these sizes, also in a reading that there is not.
    pub fn answer(&self, sheet: &Sheet, reading: u32, sizes: &Sizes) -> Answer {
        let unfit = if reading > 1 { model::unfit(sheet, reading) } else { self.unfit };
        unfit.unwrap_or_else(|| model::answer(sheet.fed(), sizes, &self.rust))
    }

    /// The answer of its fragment, by that of the reader.
    pub fn fragment_answer(&self, read: &Answer, out: usize) -> FragmentAnswer {
        fragment::answer(read, &self.rust.events, self.fragment.len(), out)
    }

    /// Whether it is accepted with enough room.
    pub fn readable(&self) -> bool {
        self.unfit.is_none() && self.rust.brace.is_none()
    }
}
