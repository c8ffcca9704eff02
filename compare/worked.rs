//! Sheets with their answers written out by hand: some worked through, some around braces, behind closing runs, and of searches.

use crate::events::{event, homed, in_labels, in_text, on};
use crate::mivurakol::container::{AUTOLINK, EMPHASIS, INLINE_LINK, RAW_FORMAT, REFERENCE_LINK, STRONG, VERBATIM};
use crate::mivurakol::kind::{
    ELLIPSIS, EM_DASH, EN_DASH, ESCAPE, FOOTNOTE_REFERENCE, HARDBREAK, LEFT_DOUBLE_QUOTE, NBSP, RIGHT_DOUBLE_QUOTE, RIGHT_SINGLE_QUOTE, SOFTBREAK, STR, SYMBOL,
};
use crate::mivurakol::{code, Answer, Event, ENTER, EXIT, LONGEST_RUN};
use crate::sheet::Sheet;

/// Reading, text, lines, the brace at which an attribute block stands, events, label room, opener records looked at.
pub struct Worked {
    pub reading: u32,
    text: &'static [u8],
    lines: &'static [(usize, usize)],
    brace: Option<u32>,
    pub events: &'static [Event],
    pub labels: &'static [u8],
    looks: u64,
}

impl Worked {
    pub fn sheet(&self) -> Sheet {
        Sheet::new(self.text, self.lines)
    }

    /// Rooms being large enough.
    pub fn answer(&self) -> Answer {
        match self.brace {
            Some(place) => Answer { code: code::BRACE, place, ..Answer::default() },
            None => Answer { code: code::ACCEPTED, place: 0, events: self.events.len() as u32, labels: self.labels.len() as u32, looks: self.looks },
        }
    }
}

/// Accepted, with nothing in the label room.
const fn read(text: &'static [u8], lines: &'static [(usize, usize)], events: &'static [Event]) -> Worked {
    Worked { reading: 0, text, lines, brace: None, events, labels: b"", looks: 0 }
}

/// With so many opener records looked at.
const fn looking(looks: u64, worked: Worked) -> Worked {
    Worked { looks, ..worked }
}

/// Refused, since an attribute block stands at a brace.
const fn refused(text: &'static [u8], lines: &'static [(usize, usize)], brace: u32) -> Worked {
    Worked { brace: Some(brace), ..read(text, lines, &[]) }
}

const RUN: u32 = LONGEST_RUN as u32;

pub const WORKED: &[Worked] = &[
    read(b"", &[], &[]),
    looking(1, read(b"*a*", &[(0, 3)], &[event(ENTER + STRONG, 0, 1), event(STR, 1, 2), event(EXIT + STRONG, 2, 3)])),
    looking(1, read(b"**", &[(0, 2)], &[event(STR, 0, 2)])),
    read(b"`", &[(0, 1)], &[event(ENTER + VERBATIM, 0, 1), event(EXIT + VERBATIM, 1, 1)]),
    read(&[b'`'; LONGEST_RUN], &[(0, LONGEST_RUN)], &[event(ENTER + VERBATIM, 0, RUN), event(EXIT + VERBATIM, RUN, RUN)]),
    read(&[b'`'; LONGEST_RUN + 1], &[(0, LONGEST_RUN + 1)], &[event(STR, 0, RUN + 1)]),
    read(b"::", &[(0, 2)], &[homed(SYMBOL, in_text(1, 1), 0, 2)]),
    read(b"[^]", &[(0, 3)], &[homed(FOOTNOTE_REFERENCE, in_text(2, 2), 0, 3)]),
    read(b"-----", &[(0, 5)], &[event(EM_DASH, 0, 3), event(EN_DASH, 3, 5)]),
    read(b"-------", &[(0, 7)], &[event(EM_DASH, 0, 3), event(EN_DASH, 3, 5), event(EN_DASH, 5, 7)]),
    read(b"...", &[(0, 3)], &[event(ELLIPSIS, 0, 3)]),
    read(b"....", &[(0, 4)], &[event(ELLIPSIS, 0, 3), event(STR, 3, 4)]),
    looking(2, read(b"[a](b)", &[(0, 6)], &[homed(ENTER + INLINE_LINK, in_text(4, 5), 0, 1), event(STR, 1, 2), homed(EXIT + INLINE_LINK, in_text(4, 5), 2, 6)])),
    looking(1, read(b"[a](b", &[(0, 5)], &[event(STR, 0, 5)])),
    Worked {
        labels: b"a",
        looks: 2,
        ..read(
            b"[a][]",
            &[(0, 5)],
            &[homed(ENTER + REFERENCE_LINK, in_labels(0, 1, 0), 0, 1), event(STR, 1, 2), homed(EXIT + REFERENCE_LINK, in_labels(0, 1, 0), 2, 5)],
        )
    },
    read(b"`` `a` ``", &[(0, 9)], &[event(ENTER + VERBATIM, 0, 2), event(STR, 3, 6), event(EXIT + VERBATIM, 7, 9)]),
    read(b"a{b}", &[(0, 4)], &[event(STR, 0, 4)]),
    read(b"`{`", &[(0, 3)], &[event(ENTER + VERBATIM, 0, 1), event(STR, 1, 2), event(EXIT + VERBATIM, 2, 3)]),
    read(b"`a\nb\\`", &[(0, 3), (3, 6)], &[event(ENTER + VERBATIM, 0, 1), event(STR, 1, 6), on(1, event(EXIT + VERBATIM, 6, 6))]),
    Worked { reading: 1, ..read(b"`a\nb\\`", &[(0, 3), (3, 6)], &[event(ENTER + VERBATIM, 0, 1), event(STR, 1, 5), on(1, event(EXIT + VERBATIM, 5, 6))]) },
    Worked {
        labels: b"bc",
        looks: 3,
        ..read(
            b"[a](b\n> c)",
            &[(0, 6), (8, 10)],
            &[homed(ENTER + INLINE_LINK, in_labels(0, 2, 0), 0, 1), event(STR, 1, 2), homed(EXIT + INLINE_LINK, in_labels(0, 2, 0), 2, 10)],
        )
    },
    Worked {
        labels: b"cdx[b](c> d)e",
        looks: 7,
        ..read(
            b"[a](x[b](c\n> d)e)",
            &[(0, 11), (13, 17)],
            &[homed(ENTER + INLINE_LINK, in_labels(2, 13, 1), 0, 1), event(STR, 1, 2), homed(EXIT + INLINE_LINK, in_labels(2, 13, 1), 2, 17)],
        )
    },
];

/// A lone brace is Str; where an attribute block stands the sheet is refused (document 02, L2).
pub const BRACES: &[Worked] = &[
    read(b"{", &[(0, 1)], &[event(STR, 0, 1)]),
    refused(b"{}", &[(0, 2)], 0),
    refused(b"{.a}", &[(0, 4)], 0),
    read(b"{door", &[(0, 5)], &[event(STR, 0, 5)]),
    // A quoted value over two lines, with bytes between them that would let it go on, or break it.
    refused(b"{a=\"\n> \"}", &[(0, 5), (7, 9)], 0),
    refused(b"{a=\"\n\"\"}", &[(0, 5), (6, 8)], 0),
    // These would close it.
    read(b"{a=\"\n\"}b", &[(0, 5), (7, 8)], &[event(STR, 0, 3), event(RIGHT_DOUBLE_QUOTE, 3, 4), event(SOFTBREAK, 4, 5), on(1, event(STR, 7, 8))]),
    read(b"{}", &[(0, 1)], &[event(STR, 0, 1)]),
    // Over three lines, one of them empty.
    refused(b"{.a\n}", &[(0, 4), (4, 4), (4, 5)], 0),
    // A comment that is open to the end, and one that ends with the block.
    read(b"{% a", &[(0, 4)], &[event(STR, 0, 4)]),
    refused(b"{% a}", &[(0, 5)], 0),
    // An escaped quote in a quoted value; behind a newline a backslash escapes nothing.
    refused(b"{a=\"\\\"}\"}", &[(0, 9)], 0),
    refused(b"{a=\"\n\\\"}", &[(0, 8)], 0),
    // The first brace that stands at a block.
    refused(b"{ {a {.b}{}", &[(0, 11)], 5),
    read(b"`{}`", &[(0, 4)], &[event(ENTER + VERBATIM, 0, 1), event(STR, 1, 3), event(EXIT + VERBATIM, 3, 4)]),
    looking(1, read(b"*a*{", &[(0, 4)], &[event(ENTER + STRONG, 0, 1), event(STR, 1, 2), event(EXIT + STRONG, 2, 3), event(STR, 3, 4)])),
    refused(b"*a*{.b}", &[(0, 7)], 3),
    read(b"`a`{b", &[(0, 5)], &[event(ENTER + VERBATIM, 0, 1), event(STR, 1, 2), event(EXIT + VERBATIM, 2, 3), event(STR, 3, 5)]),
    refused(b"`a`{#b}", &[(0, 7)], 3),
    looking(
        3,
        read(
            b"[a](b{c)",
            &[(0, 8)],
            &[homed(ENTER + INLINE_LINK, in_text(4, 7), 0, 1), event(STR, 1, 2), homed(EXIT + INLINE_LINK, in_text(4, 7), 2, 8)],
        ),
    ),
    refused(b"[a](b{.c})", &[(0, 10)], 5),
    Worked {
        labels: b"a{",
        looks: 3,
        ..read(
            b"[a{][]",
            &[(0, 6)],
            &[homed(ENTER + REFERENCE_LINK, in_labels(0, 2, 0), 0, 1), event(STR, 1, 3), homed(EXIT + REFERENCE_LINK, in_labels(0, 2, 0), 3, 6)],
        )
    },
    // Only in reading 1 does the verbatim end before the brace.
    read(b"`a\nb\\`{}", &[(0, 3), (3, 8)], &[event(ENTER + VERBATIM, 0, 1), event(STR, 1, 8), on(1, event(EXIT + VERBATIM, 8, 8))]),
    Worked { reading: 1, ..refused(b"`a\nb\\`{}", &[(0, 3), (3, 8)], 6) },
    looking(2, read(b"\"a{b\"", &[(0, 5)], &[event(LEFT_DOUBLE_QUOTE, 0, 1), event(STR, 1, 4), event(RIGHT_DOUBLE_QUOTE, 4, 5)])),
];

/// Verbatim `a` at 0..3.
const IN_RUNS: [Event; 3] = [event(ENTER + VERBATIM, 0, 1), event(STR, 1, 2), event(EXIT + VERBATIM, 2, 3)];

/// A backslash straight after a closing run escapes in reading 1 (document 02, L6).
pub const BEHIND_RUNS: &[Worked] = &[
    looking(
        1,
        read(
            b"`a`\\*b*",
            &[(0, 7)],
            &[IN_RUNS[0], IN_RUNS[1], IN_RUNS[2], event(ESCAPE, 3, 4), event(ENTER + STRONG, 4, 5), event(STR, 5, 6), event(EXIT + STRONG, 6, 7)],
        ),
    ),
    Worked { reading: 1, ..read(b"`a`\\*b*", &[(0, 7)], &[IN_RUNS[0], IN_RUNS[1], IN_RUNS[2], event(ESCAPE, 3, 4), event(STR, 4, 7)]) },
    // A brace there, escaped or not.
    refused(b"`a`\\{.b}", &[(0, 8)], 4),
    Worked { reading: 1, ..read(b"`a`\\{.b}", &[(0, 8)], &[IN_RUNS[0], IN_RUNS[1], IN_RUNS[2], event(ESCAPE, 3, 4), event(STR, 4, 8)]) },
    Worked { reading: 1, ..refused(b"`a`{.b}", &[(0, 7)], 3) },
    // A raw format stands directly behind the run, or it is none.
    Worked {
        reading: 1,
        ..read(
            b"`a`{=h}",
            &[(0, 7)],
            &[homed(ENTER + RAW_FORMAT, in_text(5, 6), 0, 1), event(STR, 1, 2), homed(EXIT + RAW_FORMAT, in_text(5, 6), 2, 7)],
        )
    },
    Worked { reading: 1, ..read(b"`a`\\{=h}", &[(0, 8)], &[IN_RUNS[0], IN_RUNS[1], IN_RUNS[2], event(ESCAPE, 3, 4), event(STR, 4, 8)]) },
    // Behind a run that closes on a later line it escapes in both.
    read(
        b"`a\n`\\*b*",
        &[(0, 3), (3, 8)],
        &[event(ENTER + VERBATIM, 0, 1), event(STR, 1, 3), on(1, event(EXIT + VERBATIM, 3, 4)), on(1, event(ESCAPE, 4, 5)), on(1, event(STR, 5, 8))],
    ),
];

/// How long the search gets: which tokens look at openers, and how far back. The last is the longest that 40 bytes have.
pub const SEARCHES: &[Worked] = &[
    read(b"*a", &[(0, 2)], &[event(STR, 0, 2)]),
    looking(1, read(b"*[", &[(0, 2)], &[event(STR, 0, 2)])),
    looking(1, read(b"*(", &[(0, 2)], &[event(STR, 0, 2)])),
    looking(1, read(b"*|", &[(0, 2)], &[event(STR, 0, 2)])),
    looking(1, read(b"*a}", &[(0, 3)], &[event(STR, 0, 3)])),
    looking(1, read(b"*a\n", &[(0, 3)], &[event(STR, 0, 2), event(SOFTBREAK, 2, 3)])),
    looking(1, read(b"*\\*", &[(0, 3)], &[event(STR, 0, 1), event(ESCAPE, 1, 2), event(STR, 2, 3)])),
    looking(2, read(b"*\\ ", &[(0, 3)], &[event(STR, 0, 1), event(ESCAPE, 1, 2), event(NBSP, 2, 3)])),
    looking(2, read(b"*a\\\nb", &[(0, 5)], &[event(STR, 0, 2), event(ESCAPE, 2, 3), event(HARDBREAK, 3, 4), event(STR, 4, 5)])),
    looking(1, read(b"*-", &[(0, 2)], &[event(STR, 0, 2)])),
    looking(1, read(b"*--", &[(0, 3)], &[event(STR, 0, 1), event(EN_DASH, 1, 3)])),
    looking(1, read(b"*....", &[(0, 5)], &[event(STR, 0, 1), event(ELLIPSIS, 1, 4), event(STR, 4, 5)])),
    looking(1, read(b"*{", &[(0, 2)], &[event(STR, 0, 2)])),
    read(b"*::", &[(0, 3)], &[event(STR, 0, 1), homed(SYMBOL, in_text(2, 2), 1, 3)]),
    looking(1, read(b"*:a", &[(0, 3)], &[event(STR, 0, 3)])),
    read(b"*<a:b>", &[(0, 6)], &[event(STR, 0, 1), homed(ENTER + AUTOLINK, in_text(2, 5), 1, 2), event(STR, 2, 5), homed(EXIT + AUTOLINK, in_text(2, 5), 5, 6)]),
    looking(2, read(b"*<a*", &[(0, 4)], &[event(ENTER + STRONG, 0, 1), event(STR, 1, 3), event(EXIT + STRONG, 3, 4)])),
    read(b"*[^a]", &[(0, 5)], &[event(STR, 0, 1), homed(FOOTNOTE_REFERENCE, in_text(3, 4), 1, 5)]),
    looking(1, read(b"[[^", &[(0, 3)], &[event(STR, 0, 3)])),
    read(b"*```````````````````````````````````````````````````````````````````````````````````````````````````````````````````````````````````````````````````````````````````````````````````````````````````````````````````````````````````````````````````````````````", &[(0, 256)], &[event(STR, 0, 1), event(ENTER + VERBATIM, 1, 256), event(EXIT + VERBATIM, 256, 256)]),
    looking(1, read(b"*````````````````````````````````````````````````````````````````````````````````````````````````````````````````````````````````````````````````````````````````````````````````````````````````````````````````````````````````````````````````````````````````", &[(0, 257)], &[event(STR, 0, 257)])),
    looking(1, read(b"*`|{`*", &[(0, 6)], &[event(ENTER + STRONG, 0, 1), event(ENTER + VERBATIM, 1, 2), event(STR, 2, 4), event(EXIT + VERBATIM, 4, 5), event(EXIT + STRONG, 5, 6)])),
    looking(1, read(b"*`a`{=b}*", &[(0, 9)], &[event(ENTER + STRONG, 0, 1), homed(ENTER + RAW_FORMAT, in_text(6, 7), 1, 2), event(STR, 2, 3), homed(EXIT + RAW_FORMAT, in_text(6, 7), 3, 8), event(EXIT + STRONG, 8, 9)])),
    looking(3, read(b"*`a`{=b*", &[(0, 8)], &[event(ENTER + STRONG, 0, 1), event(ENTER + VERBATIM, 1, 2), event(STR, 2, 3), event(EXIT + VERBATIM, 3, 4), event(STR, 4, 7), event(EXIT + STRONG, 7, 8)])),
    looking(3, read(b"_*a_", &[(0, 4)], &[event(ENTER + EMPHASIS, 0, 1), event(STR, 1, 3), event(EXIT + EMPHASIS, 3, 4)])),
    looking(3, read(b"*a~*", &[(0, 4)], &[event(ENTER + STRONG, 0, 1), event(STR, 1, 3), event(EXIT + STRONG, 3, 4)])),
    looking(2, read(b"[[][", &[(0, 4)], &[event(STR, 0, 4)])),
    looking(1, read(b"[]]", &[(0, 3)], &[event(STR, 0, 3)])),
    looking(3, read(b"[*]*", &[(0, 4)], &[event(STR, 0, 4)])),
    looking(5, read(b"[**]*", &[(0, 5)], &[event(STR, 0, 5)])),
    looking(1, read(b"''}", &[(0, 3)], &[event(RIGHT_SINGLE_QUOTE, 0, 1), event(RIGHT_SINGLE_QUOTE, 1, 3)])),
    looking(6, read(b"[[[[", &[(0, 4)], &[event(STR, 0, 4)])),
    looking(780, read(b"[[[[[[[[[[[[[[[[[[[[[[[[[[[[[[[[[[[[[[[[", &[(0, 40)], &[event(STR, 0, 40)])),
];

/// All of them.
pub const TABLES: [&[Worked]; 4] = [WORKED, BRACES, BEHIND_RUNS, SEARCHES];
