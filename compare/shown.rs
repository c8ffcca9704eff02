//! What events show, and what a fragment shows when it is read back from its bytes: tags and characters. The tags of a fragment are balanced, and
//! tags and characters are those of the events.

use crate::mivurakol::container::{DELETE, DISPLAY_MATH, EMPHASIS, INLINE_MATH, INSERT, MARK, RAW_FORMAT, STRONG, SUBSCRIPT, SUPERSCRIPT, VERBATIM};
use crate::mivurakol::field::KIND;
use crate::mivurakol::{fragment_room, kind, Event, ENTER, EXIT};
use crate::sheet::Sheet;

/// Of an event: an element that begins, characters, and an element that ends; each as it stands between `<` and `>`.
pub struct Shown<'a> {
    pub begins: Option<&'static str>,
    pub characters: &'a [u8],
    pub ends: Option<&'static str>,
}

/// The element of a container, where it begins and where it ends, and the characters that math has inside of these.
fn element(container: u32) -> Option<([&'static str; 2], [&'static str; 2])> {
    let plain = |tags| Some((tags, ["", ""]));
    match container {
        SUBSCRIPT => plain(["sub", "/sub"]),
        SUPERSCRIPT => plain(["sup", "/sup"]),
        INSERT => plain(["ins", "/ins"]),
        DELETE => plain(["del", "/del"]),
        EMPHASIS => plain(["em", "/em"]),
        STRONG => plain(["strong", "/strong"]),
        MARK => plain(["mark", "/mark"]),
        VERBATIM => plain(["code", "/code"]),
        INLINE_MATH => Some((["span class=\"math inline\"", "/span"], ["\\(", "\\)"])),
        DISPLAY_MATH => Some((["span class=\"math display\"", "/span"], ["\\[", "\\]"])),
        _ => None,
    }
}

/// The character of an atom that is neither a symbol nor a break.
fn character(kind: u32) -> &'static str {
    match kind {
        kind::NBSP => "\u{a0}",
        kind::EN_DASH => "–",
        kind::EM_DASH => "—",
        kind::ELLIPSIS => "…",
        kind::LEFT_SINGLE_QUOTE => "‘",
        kind::RIGHT_SINGLE_QUOTE => "’",
        kind::LEFT_DOUBLE_QUOTE => "“",
        kind::RIGHT_DOUBLE_QUOTE => "”",
        _ => "",
    }
}

fn of<'a>(text: &'a [u8], &[kind, start, end, ..]: &Event) -> Shown<'a> {
    let of = |begins, characters, ends| Shown { begins, characters, ends };
    match kind {
        kind::STR | kind::SYMBOL => of(None, &text[start as usize..end as usize], None),
        kind::SOFTBREAK => of(None, b"\n", None),
        kind::HARDBREAK => of(Some("br"), b"\n", None),
        EXIT.. => element(kind - EXIT).map_or(of(None, b"", None), |(tags, math)| of(None, math[1].as_bytes(), Some(tags[1]))),
        ENTER.. => element(kind - ENTER).map_or(of(None, b"", None), |(tags, math)| of(Some(tags[0]), math[0].as_bytes(), None)),
        _ => of(None, character(kind).as_bytes(), None),
    }
}

/// What each event shows that is in no raw part.
pub fn shown<'a>(text: &'a [u8], events: &'a [Event]) -> impl Iterator<Item = Shown<'a>> {
    let mut raw = 0;
    events.iter().filter_map(move |e| {
        raw += i32::from(e[KIND] == ENTER + RAW_FORMAT) - i32::from(e[KIND] == EXIT + RAW_FORMAT);
        (raw == 0).then(|| of(text, e))
    })
}

/// A part of a fragment: what stands between `<` and `>`, or a byte that is shown.
#[derive(Clone, Copy, Debug, PartialEq, Eq)]
enum Part<'a> {
    Tag(&'a [u8]),
    Shows(u8),
    /// A bare `>`, a `<` or `&` that nothing ends, or another entity.
    Stray,
}

/// The parts of a fragment.
struct Parts<'a>(&'a [u8]);

impl<'a> Iterator for Parts<'a> {
    type Item = Part<'a>;

    fn next(&mut self) -> Option<Part<'a>> {
        let (&first, rest) = self.0.split_first()?;
        let to = |end: u8| rest.iter().position(|&b| b == end);
        let (part, more) = match first {
            b'<' => to(b'>').map_or((Part::Stray, 0), |n| (Part::Tag(&rest[..n]), n + 1)),
            b'&' if rest.starts_with(b"amp;") => (Part::Shows(b'&'), 4),
            b'&' if rest.starts_with(b"lt;") => (Part::Shows(b'<'), 3),
            b'&' if rest.starts_with(b"gt;") => (Part::Shows(b'>'), 3),
            b'&' | b'>' => (Part::Stray, 0),
            b => (Part::Shows(b), 0),
        };
        self.0 = &rest[more..];
        Some(part)
    }
}

/// Whether the tags of a fragment are balanced: each closes the last that is open, and none stays open.
fn balanced(fragment: &[u8]) -> bool {
    let mut open: Vec<&[u8]> = Vec::new();
    let right = Parts(fragment).all(|part| match part {
        Part::Tag([b'/', name @ ..]) => open.pop() == Some(name),
        Part::Tag(b"br") | Part::Shows(_) => true,
        Part::Tag(tag) => {
            open.push(tag.split(|&b| b == b' ').next().expect("a first part"));
            true
        }
        Part::Stray => false,
    });
    right && open.is_empty()
}

/// The same parts, of an event.
fn parts(shown: Shown<'_>) -> impl Iterator<Item = Part<'_>> {
    let tag = |tag: Option<&'static str>| tag.into_iter().map(|tag| Part::Tag(tag.as_bytes()));
    tag(shown.begins).chain(shown.characters.iter().map(|&b| Part::Shows(b))).chain(tag(shown.ends))
}

/// What is wrong with the fragment of a list of events.
pub fn broken(sheet: &Sheet, events: &[Event], fragment: &[u8]) -> Option<&'static str> {
    if !balanced(fragment) {
        Some("the tags of the fragment are not balanced")
    } else if !Parts(fragment).eq(shown(&sheet.text, events).flat_map(parts)) {
        Some("the fragment shows other elements or characters than the events")
    } else if fragment.len() > fragment_room(sheet.fed()) {
        Some("the fragment is longer than the room that always suffices")
    } else {
        None
    }
}
