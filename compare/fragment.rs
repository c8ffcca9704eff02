//! The fragment of a list of events, and the questions that are asked behind the reader's own, in the words of document 02.

use crate::events::enters;
use crate::mivurakol::container::{
    AUTOLINK, DELETE, DISPLAY_MATH, EMPHASIS, INLINE_MATH, INSERT, MARK, RAW_FORMAT, REFERENCE_LINK, STRONG, SUBSCRIPT, SUPERSCRIPT, VERBATIM,
};
use crate::mivurakol::field::{KIND, START};
use crate::mivurakol::{code, kind, Answer, Event, FragmentAnswer, ENTER, EXIT};

/// What is written where a container is entered, and where it is left.
fn tags(container: u32) -> [&'static str; 2] {
    match container {
        SUBSCRIPT => ["<sub>", "</sub>"],
        SUPERSCRIPT => ["<sup>", "</sup>"],
        INSERT => ["<ins>", "</ins>"],
        DELETE => ["<del>", "</del>"],
        EMPHASIS => ["<em>", "</em>"],
        STRONG => ["<strong>", "</strong>"],
        MARK => ["<mark>", "</mark>"],
        VERBATIM => ["<code>", "</code>"],
        INLINE_MATH => ["<span class=\"math inline\">\\(", "\\)</span>"],
        DISPLAY_MATH => ["<span class=\"math display\">\\[", "\\]</span>"],
        // Raw parts are left out, and a sheet with a link or an image is refused.
        _ => ["", ""],
    }
}

/// What is written for an atom that is not a symbol.
fn atom(kind: u32) -> &'static str {
    match kind {
        kind::SOFTBREAK => "\n",
        kind::HARDBREAK => "<br>\n",
        kind::NBSP => "\u{a0}",
        kind::ELLIPSIS => "\u{2026}",
        kind::EN_DASH => "\u{2013}",
        kind::EM_DASH => "\u{2014}",
        kind::LEFT_SINGLE_QUOTE => "\u{2018}",
        kind::RIGHT_SINGLE_QUOTE => "\u{2019}",
        kind::LEFT_DOUBLE_QUOTE => "\u{201c}",
        kind::RIGHT_DOUBLE_QUOTE => "\u{201d}",
        // An escape writes nothing, and a sheet with a footnote reference is refused.
        _ => "",
    }
}

fn escape(text: &[u8], out: &mut Vec<u8>) {
    for &b in text {
        match b {
            b'&' => out.extend(b"&amp;"),
            b'<' => out.extend(b"&lt;"),
            b'>' => out.extend(b"&gt;"),
            _ => out.push(b),
        }
    }
}

/// The fragment; where there are links, what is written beside them.
pub fn render(text: &[u8], events: &[Event], out: &mut Vec<u8>) {
    out.clear();
    let mut raw = false;
    for &[kind, start, end, ..] in events {
        if kind == ENTER + RAW_FORMAT || kind == EXIT + RAW_FORMAT {
            raw = kind == ENTER + RAW_FORMAT;
        } else if raw {
            continue;
        } else if kind == kind::STR || kind == kind::SYMBOL {
            escape(&text[start as usize..end as usize], out);
        } else if kind < ENTER {
            out.extend(atom(kind).as_bytes());
        } else if kind < EXIT {
            out.extend(tags(kind - ENTER)[0].as_bytes());
        } else {
            out.extend(tags(kind - EXIT)[1].as_bytes());
        }
    }
}

/// Where the first link, image, autolink or footnote reference starts.
pub fn linked(events: &[Event]) -> Option<u32> {
    let barred = |k: u32| k == kind::FOOTNOTE_REFERENCE || enters(REFERENCE_LINK, AUTOLINK).contains(&k);
    events.iter().find(|e| barred(e[KIND])).map(|e| e[START])
}

/// The answer of a fragment, by that of the reader, for a fragment of so many bytes and an output room of so many.
pub fn answer(read: &Answer, events: &[Event], length: usize, room: usize) -> FragmentAnswer {
    let refused = |code, place| FragmentAnswer { code, place, events: 0, labels: 0, length: 0 };
    if read.code != code::ACCEPTED {
        refused(read.code, read.place)
    } else if let Some(place) = linked(events) {
        refused(code::LINKED, place)
    } else if room < length {
        refused(code::OUTPUT_ROOM, 0)
    } else {
        FragmentAnswer { code: code::ACCEPTED, place: 0, events: read.events, labels: read.labels, length: length as u32 }
    }
}
