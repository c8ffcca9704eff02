//! What the Rust says of the leaves.

use crate::inline::{Atom, Container, Event, EventKind, Parser};
use crate::lex::{Delimiter, Kind, Sequence, Symbol, Token};
use crate::ours::Scan;

/// The number of a kind, as `crates/exports` has it.
pub fn number(kind: Kind) -> u32 {
    let delimiter = |d: Delimiter| match d {
        Delimiter::Brace => 0,
        Delimiter::BraceAsterisk => 1,
        Delimiter::BraceCaret => 2,
        Delimiter::BraceEqual => 3,
        Delimiter::BraceHyphen => 4,
        Delimiter::BracePlus => 5,
        Delimiter::BraceTilde => 6,
        Delimiter::BraceUnderscore => 7,
        Delimiter::Bracket => 8,
        Delimiter::BraceQuote1 => 9,
        Delimiter::BraceQuote2 => 10,
        Delimiter::Paren => 11,
    };
    match kind {
        Kind::Text => 0,
        Kind::Newline => 1,
        Kind::Nbsp => 2,
        Kind::Hardbreak => 3,
        Kind::Escape => 4,
        Kind::Open(d) => 5 + delimiter(d),
        Kind::Close(d) => 17 + delimiter(d),
        Kind::Sym(s) => {
            29 + match s {
                Symbol::Asterisk => 0,
                Symbol::Caret => 1,
                Symbol::ExclaimBracket => 2,
                Symbol::Lt => 3,
                Symbol::Pipe => 4,
                Symbol::Quote1 => 5,
                Symbol::Quote2 => 6,
                Symbol::Tilde => 7,
                Symbol::Underscore => 8,
                Symbol::Colon => 9,
            }
        }
        Kind::Seq(s) => {
            39 + match s {
                Sequence::Backtick => 0,
                Sequence::Hyphen => 1,
                Sequence::Period => 2,
            }
        }
    }
}

/// A token as two numbers; 42 and 0 is no token.
pub fn mark(token: Option<&Token>) -> (u32, usize) {
    token.map_or((42, 0), |t| (number(t.kind), t.len))
}

/// How a line is lexed: bit i of `peeks` asks for a peek before token i, and bit i of `verbatim` is the flag there. They repeat.
#[derive(Clone, Copy)]
pub struct Way {
    pub peeks: u32,
    pub verbatim: u32,
}

impl Way {
    pub fn peeks(self, i: usize) -> bool {
        self.peeks >> (i % 32) & 1 == 1
    }

    pub fn verbatim(self, i: usize) -> bool {
        self.verbatim >> (i % 32) & 1 == 1
    }
}

/// The events of a text of one line.
pub fn events(text: &str) -> Vec<Event<'_>> {
    let mut parser = Parser::new(text);
    parser.feed_line(0..text.len(), true);
    parser.collect()
}

/// What opens before the bytes that a scan is tried on.
fn opening(what: Scan) -> &'static str {
    match what {
        Scan::Autolink => "<",
        Scan::Symbol => ":",
        Scan::Footnote => "[^",
        Scan::RawFormat => "`a`{=",
    }
}

/// Whether the Rust's scan accepts these bytes, behind what opens, and the length that it accepts: by the first event. `text` is
/// room for the whole.
pub fn scan(what: Scan, src: &str, text: &mut String) -> Option<usize> {
    text.clear();
    text.push_str(opening(what));
    text.push_str(src);
    let mut parser = Parser::new(text);
    parser.feed_line(0..text.len(), true);
    let first = parser.next().expect("an event");
    match (what, first.kind) {
        (Scan::Autolink, EventKind::Enter(Container::Autolink(url))) => Some(url.len()),
        (Scan::Symbol, EventKind::Atom(Atom::Symbol(name))) => Some(name.len()),
        (Scan::Footnote, EventKind::Atom(Atom::FootnoteReference { label })) => Some(label.len()),
        (Scan::RawFormat, EventKind::Enter(Container::RawFormat { format })) => Some(format.len()),
        _ => None,
    }
}

/// The em and en dashes of a run of hyphens, the em dashes first.
pub fn hyphens(len: usize) -> (usize, usize) {
    let text = "-".repeat(len);
    let kinds: Vec<_> = events(&text).into_iter().map(|e| e.kind).collect();
    let em = kinds.iter().take_while(|k| **k == EventKind::Atom(Atom::EmDash)).count();
    let en = kinds[em..].iter().filter(|k| **k == EventKind::Atom(Atom::EnDash)).count();
    assert_eq!(em + en, kinds.len(), "only dashes, em dashes first");
    (em, en)
}

/// The ellipses of a run of periods, and the periods that are left.
pub fn periods(len: usize) -> (usize, usize) {
    let text = ".".repeat(len);
    let mut ellipses = 0;
    let mut rest = 0;
    for e in events(&text) {
        match e.kind {
            EventKind::Atom(Atom::Ellipsis) => ellipses += 1,
            EventKind::Str => rest += e.span.len(),
            kind => panic!("{kind:?} in a run of periods"),
        }
    }
    (ellipses, rest)
}
