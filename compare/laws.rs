//! What demand 3 says of a list of events: balance, order, cover, number; and that those with a home have one, and no others.

use crate::events::{enters, exits};
use crate::mivurakol::container::{AUTOLINK, DISPLAY_MATH, INLINE_IMAGE, REFERENCE_LINK, SUBSCRIPT, VERBATIM};
use crate::mivurakol::field::{END, HOME, KIND, LINE, LINK, START};
use crate::mivurakol::{home, kind, Event, ENTER, EXIT};
use crate::packed::has_home;
use crate::sheet::Sheet;

/// A piece of a verbatim's content: where it is, on which line, and whether it is blank or a run of backticks.
struct Piece {
    start: usize,
    end: usize,
    line: usize,
    blank: bool,
    run: bool,
}

/// The content of a verbatim, in pieces, with a small lexer of its own.
fn pieces(sheet: &Sheet, reading: u32, from: usize, to: usize) -> Vec<Piece> {
    let Sheet { text, starts, ends } = sheet;
    let blank = |b: u8| b.is_ascii_whitespace();
    let mut pieces = Vec::new();
    for line in ends.partition_point(|&end| end <= from)..starts.len() {
        let (start, end) = (starts[line], ends[line]);
        if start >= to {
            break;
        }
        let (a, e) = (start.max(from), end.min(to));
        let escapes = reading == 0 && (start > from || start == from && opened_before(sheet, line, from));
        let mut p = a;
        while p < e {
            let b = text[p];
            let escaped = escapes && odd_backslashes(&text[a..p]);
            let mut q = p + 1;
            let mut piece = Piece { start: p, end: q, line, blank: false, run: false };
            if b == b'`' && !escaped {
                while q < end && text[q] == b'`' {
                    q += 1;
                }
                piece.run = true;
            } else if blank(b) {
                while b != b'\n' && q < e && blank(text[q]) && text[q] != b'\n' {
                    q += 1;
                }
                piece.blank = true;
            }
            piece.end = q;
            pieces.push(piece);
            p = q;
        }
    }
    pieces
}

/// Whether a line before this one ends at a place where a verbatim's content begins, and is not empty: then the opener stands on it.
fn opened_before(sheet: &Sheet, line: usize, from: usize) -> bool {
    (0..line).rev().take_while(|&i| sheet.ends[i] == from).any(|i| sheet.starts[i] < from)
}

/// Whether a byte behind these is escaped: an odd number of backslashes stands before it.
fn odd_backslashes(s: &[u8]) -> bool {
    s.iter().rev().take_while(|&&b| b == b'\\').count() % 2 == 1
}

/// The blanks that the verbatim rule drops from a content, from text, lines and reading. `closed`: by a run, not by the last line's end.
fn dropped(pieces: &[Piece], run: usize, closed: bool, out: &mut Vec<usize>) {
    let Some(first) = pieces.iter().position(|p| !p.blank) else {
        // Nothing but blanks: the closing run has the opener's length, so nothing is dropped.
        return;
    };
    let head = &pieces[first];
    if first > 0 && head.run && head.end - head.start != run && pieces[first - 1].line == head.line {
        out.extend(pieces[first - 1].start..pieces[first - 1].end);
    }
    let last = pieces.iter().rposition(|p| !p.blank).expect("the first is one");
    if closed && pieces[last].run {
        for p in &pieces[last + 1..] {
            out.extend(p.start..p.end);
        }
    }
}

/// Room to test lists in.
#[derive(Default)]
pub struct Laws {
    open: Vec<Event>,
    gone: Vec<usize>,
    covered: Vec<u8>,
    shown: Vec<bool>,
}

impl Laws {
    /// What is wrong with a list.
    pub fn broken(&mut self, sheet: &Sheet, reading: u32, events: &[Event]) -> Option<String> {
        self.open.clear();
        self.gone.clear();
        self.covered.clear();
        self.covered.resize(sheet.text.len(), 0);
        self.shown.clear();
        self.shown.resize(sheet.text.len(), false);
        let (mut before, mut line) = (0, 0);
        for e in events {
            let [kind, start, end, ..] = *e;
            if start > end || start < before || end as usize > sheet.text.len() {
                return Some(format!("span {start}..{end} after {before}"));
            }
            before = end;
            if e[LINE] < line || e[LINE] as usize >= sheet.lines().count() {
                return Some(format!("line {} after {line}", e[LINE]));
            }
            line = e[LINE];
            if has_home(kind) == (e[HOME] == home::NONE) {
                return Some(format!("kind {kind} with home {}", e[HOME]));
            }
            for under in &mut self.covered[start as usize..end as usize] {
                *under += 1;
            }
            // The exit of a link also goes over its destination.
            if !exits(REFERENCE_LINK, INLINE_IMAGE).contains(&kind) {
                self.shown[start as usize..end as usize].fill(true);
            }
            if let Some(wrong) = self.walk(sheet, reading, e) {
                return Some(wrong);
            }
        }
        if !self.open.is_empty() {
            return Some(format!("{:?} left open", self.open));
        }
        if events.len() > sheet.fed() + 1 {
            return Some(format!("{} events", events.len()));
        }
        self.uncovered(sheet).or_else(|| self.foreign(sheet))
    }

    /// One event: an exit closes the last one open. What a verbatim drops is noted.
    fn walk(&mut self, sheet: &Sheet, reading: u32, e: &Event) -> Option<String> {
        let [kind, start, end, ..] = *e;
        if enters(SUBSCRIPT, AUTOLINK).contains(&kind) {
            self.open.push(*e);
        } else if exits(SUBSCRIPT, AUTOLINK).contains(&kind) {
            let Some(enter) = self.open.pop() else {
                return Some("an exit of nothing".to_string());
            };
            if enter[KIND] - ENTER != kind - EXIT || enter[HOME..=LINK] != e[HOME..=LINK] {
                return Some(format!("{enter:?} is left by {e:?}"));
            }
            if enters(VERBATIM, DISPLAY_MATH).contains(&enter[KIND]) {
                let from = enter[END] as usize;
                let run = sheet.text[enter[START] as usize..from].iter().rev().take_while(|&&b| b == b'`').count();
                dropped(&pieces(sheet, reading, from, start as usize), run, start < end, &mut self.gone);
            }
        } else if !(kind::STR..=kind::FOOTNOTE_REFERENCE).contains(&kind) {
            return Some(format!("kind {kind}"));
        }
        None
    }

    /// Each byte of a line is under one span, or was dropped and is under none.
    fn uncovered(&mut self, sheet: &Sheet) -> Option<String> {
        for &p in &self.gone {
            if self.covered[p] != 0 {
                return Some(format!("byte {p} was dropped, and has a span"));
            }
            self.covered[p] = 1;
        }
        for (start, end) in sheet.lines() {
            if let Some(p) = (start..end).find(|&p| self.covered[p] != 1) {
                return Some(format!("byte {p} is under {} spans", self.covered[p]));
            }
        }
        None
    }

    /// Only bytes of a line are shown.
    fn foreign(&mut self, sheet: &Sheet) -> Option<String> {
        for (start, end) in sheet.lines() {
            self.shown[start..end].fill(false);
        }
        self.shown.iter().position(|&s| s).map(|p| format!("byte {p} is of no line, and is shown"))
    }
}
