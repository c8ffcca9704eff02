//! What the Rust does while it reads, besides its events: in copies of both readings' `inline.rs` two lines are added (`compare/run`) that say it.

use crate::{attr, lex};
use std::cell::RefCell;
use std::ops::Range;

#[derive(Clone, Default)]
pub struct Noted {
    /// Of each link, in the order of closing, the spans of the events of its destination.
    pub closed: Vec<Vec<Range<usize>>>,
    /// The opener records looked at for the newest that a token closes.
    pub looks: u64,
}

thread_local! {
    static NOTED: RefCell<Noted> = RefCell::default();
}

/// A link closes.
pub fn closes(spans: Vec<Range<usize>>) {
    NOTED.with_borrow_mut(|noted| noted.closed.push(spans));
}

/// A token is tried as a container, with so many openers, of which it closes one, or none. A Text is tried too, and does not count.
pub fn seeks(kind: lex::Kind, found: Option<usize>, openers: usize) {
    if !matches!(kind, lex::Kind::Text) {
        let looks = openers - found.unwrap_or(0);
        NOTED.with_borrow_mut(|noted| noted.looks += looks as u64);
    }
}

macro_rules! reads {
    ($name:ident, $module:ident) => {
        fn $name(text: &str, starts: &[usize], ends: &[usize]) {
            let n = starts.len();
            if n == 0 {
                return;
            }
            let mut parser = crate::$module::Parser::new(text);
            for (i, (&start, &end)) in starts.iter().zip(ends).enumerate() {
                parser.feed_line(start..end, i + 1 == n);
            }
            while parser.next().is_some() && attr::noted().is_none() {}
        }
    };
}
reads!(as_it_stands, noting);
reads!(strict, noting_strict);

/// Of the lines of a text, up to an attribute block.
pub fn read(text: &str, starts: &[usize], ends: &[usize], reading: u32) -> Noted {
    NOTED.set(Noted::default());
    attr::note();
    match reading {
        0 => as_it_stands(text, starts, ends),
        _ => strict(text, starts, ends),
    }
    attr::forget();
    NOTED.take()
}
