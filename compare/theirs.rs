//! What the Rust says of a sheet.

use crate::attr;
use crate::events::{homed, in_labels, in_text, locate, Home, NOWHERE};
use crate::mivurakol::{container, kind, Event, ENTER, EXIT};
use crate::noted;

/// Events, the bytes of the label room, and the first brace at which an attribute block stands: where
/// there is one, nothing more is noted.
#[derive(Default)]
pub struct RustAnswer {
    pub events: Vec<Event>,
    pub labels: Vec<u8>,
    pub brace: Option<usize>,
    /// The lone braces: the bare ones outside verbatim, to that one, at which no block stands.
    pub lone: Vec<usize>,
    /// The opener records looked at, where no block stands.
    pub looks: u64,
    /// Where the label of each link is.
    homes: Vec<Home>,
}

impl RustAnswer {
    pub fn clear(&mut self) {
        self.events.clear();
        self.labels.clear();
        self.homes.clear();
        self.brace = None;
        self.lone.clear();
        self.looks = 0;
    }
}

/// A part of the text, as a home.
fn part(text: &str, s: &str) -> Home {
    let start = s.as_ptr() as usize - text.as_ptr() as usize;
    in_text(start as u32, (start + s.len()) as u32)
}

/// A sheet read by the parser of a module that is `inline.rs`. Labels that the Rust owns stand in the label room one behind the other.
macro_rules! reads {
    ($name:ident, $module:ident) => {
        fn $name(text: &str, starts: &[usize], ends: &[usize], rust: &mut RustAnswer) {
            use crate::$module::{Atom, Container, EventKind, Parser, QuoteType};
            use std::borrow::Cow;
            rust.clear();
            let n = starts.len();
            if n == 0 {
                return;
            }
            let mut parser = Parser::new(text);
            for (i, (&start, &end)) in starts.iter().zip(ends).enumerate() {
                parser.feed_line(start..end, i + 1 == n);
            }
            loop {
                let event = parser.next();
                if let Some(address) = attr::noted() {
                    rust.clear();
                    rust.brace = Some(address - text.as_ptr() as usize);
                    return;
                }
                for label in &parser.store_cowstrs[rust.homes.len()..] {
                    let link = rust.homes.len() as u32;
                    rust.homes.push(match label {
                        Cow::Borrowed(s) => Home { link, ..part(text, s) },
                        Cow::Owned(s) => {
                            let start = rust.labels.len() as u32;
                            rust.labels.extend(s.as_bytes());
                            in_labels(start, rust.labels.len() as u32, link)
                        }
                    });
                }
                let Some(e) = event else {
                    return;
                };
                let link = |i: u32| rust.homes[i as usize];
                let container = |c: Container| match c {
                    Container::Span => (container::SPAN, NOWHERE),
                    Container::Subscript => (container::SUBSCRIPT, NOWHERE),
                    Container::Superscript => (container::SUPERSCRIPT, NOWHERE),
                    Container::Insert => (container::INSERT, NOWHERE),
                    Container::Delete => (container::DELETE, NOWHERE),
                    Container::Emphasis => (container::EMPHASIS, NOWHERE),
                    Container::Strong => (container::STRONG, NOWHERE),
                    Container::Mark => (container::MARK, NOWHERE),
                    Container::Verbatim => (container::VERBATIM, NOWHERE),
                    Container::RawFormat { format } => (container::RAW_FORMAT, part(text, format)),
                    Container::InlineMath => (container::INLINE_MATH, NOWHERE),
                    Container::DisplayMath => (container::DISPLAY_MATH, NOWHERE),
                    Container::ReferenceLink(i) => (container::REFERENCE_LINK, link(i)),
                    Container::ReferenceImage(i) => (container::REFERENCE_IMAGE, link(i)),
                    Container::InlineLink(i) => (container::INLINE_LINK, link(i)),
                    Container::InlineImage(i) => (container::INLINE_IMAGE, link(i)),
                    Container::Autolink(url) => (container::AUTOLINK, part(text, url)),
                };
                let atom = |a: Atom| match a {
                    Atom::Softbreak => (kind::SOFTBREAK, NOWHERE),
                    Atom::Hardbreak => (kind::HARDBREAK, NOWHERE),
                    Atom::Escape => (kind::ESCAPE, NOWHERE),
                    Atom::Nbsp => (kind::NBSP, NOWHERE),
                    Atom::Ellipsis => (kind::ELLIPSIS, NOWHERE),
                    Atom::EnDash => (kind::EN_DASH, NOWHERE),
                    Atom::EmDash => (kind::EM_DASH, NOWHERE),
                    Atom::Quote { ty: QuoteType::Single, left } => (if left { kind::LEFT_SINGLE_QUOTE } else { kind::RIGHT_SINGLE_QUOTE }, NOWHERE),
                    Atom::Quote { ty: QuoteType::Double, left } => (if left { kind::LEFT_DOUBLE_QUOTE } else { kind::RIGHT_DOUBLE_QUOTE }, NOWHERE),
                    Atom::Symbol(s) => (kind::SYMBOL, part(text, s)),
                    Atom::FootnoteReference { label } => (kind::FOOTNOTE_REFERENCE, part(text, label)),
                };
                let (kind, home) = match e.kind {
                    EventKind::Str => (kind::STR, NOWHERE),
                    EventKind::Atom(a) => atom(a),
                    EventKind::Enter(c) => {
                        let (k, home) = container(c);
                        (ENTER + k, home)
                    }
                    EventKind::Exit(c) => {
                        let (k, home) = container(c);
                        (EXIT + k, home)
                    }
                    kind => panic!("{kind:?} is handed out"),
                };
                rust.events.push(homed(kind, home, e.span.start as u32, e.span.end as u32));
            }
        }
    };
}
reads!(as_it_stands, inline);
reads!(strict, strict);

/// Whether an attribute block stands at a brace, by document 02: a fresh validator is fed from the brace to its line's end, then the later
/// lines whole.
fn block(text: &str, starts: &[usize], ends: &[usize], brace: usize) -> bool {
    let mut validator = attr::Plain::new();
    let line = ends.partition_point(|&end| end <= brace);
    let later = starts[line + 1..].iter().zip(&ends[line + 1..]);
    let decided = std::iter::once((&brace, &ends[line])).chain(later).find_map(|(&start, &end)| validator.parse(&text[start..end]));
    decided.is_some_and(|len| len > 0)
}

/// Of the lines of a text, in reading 0 or 1. Where the Rust has found a block, and where none, the rule of document 02 must say so too.
pub fn read(text: &str, starts: &[usize], ends: &[usize], reading: u32, rust: &mut RustAnswer) {
    attr::note();
    match reading {
        0 => as_it_stands(text, starts, ends, rust),
        _ => strict(text, starts, ends, rust),
    }
    attr::forget();
    rust.events.iter_mut().for_each(|e| locate(e, ends));
    let place = |address: &usize| address - text.as_ptr() as usize;
    attr::asked(|asked| rust.lone.extend(asked.iter().map(place)));
    if rust.brace.is_some() {
        assert_eq!(rust.lone.pop(), rust.brace, "the last brace that is asked is the one at which a block stands: {text:?}");
    }
    let stands = |&brace: &usize| block(text, starts, ends, brace);
    let ruled = rust.lone.is_sorted() && !rust.lone.iter().any(stands) && rust.brace.iter().all(stands);
    rust.looks = if rust.brace.is_none() { noted::read(text, starts, ends, reading).looks } else { 0 };
    let RustAnswer { brace, lone, .. } = rust;
    assert!(ruled, "document 02 and the Rust differ: {text:?}, lines from {starts:?} to {ends:?}, a block at {brace:?}, none at {lone:?}");
}
