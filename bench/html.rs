//! The Rust's events as HTML, written plainly: a string, a match over the kinds, and a search for the next character that is escaped. Links and
//! footnote references are not measured, and write nothing.

use crate::inline::{Atom, Container, Event, EventKind, QuoteType};

fn opening(container: Container) -> &'static str {
    match container {
        Container::Subscript => "<sub>",
        Container::Superscript => "<sup>",
        Container::Insert => "<ins>",
        Container::Delete => "<del>",
        Container::Emphasis => "<em>",
        Container::Strong => "<strong>",
        Container::Mark => "<mark>",
        Container::Verbatim => "<code>",
        Container::InlineMath => "<span class=\"math inline\">\\(",
        Container::DisplayMath => "<span class=\"math display\">\\[",
        _ => "",
    }
}

fn closing(container: Container) -> &'static str {
    match container {
        Container::Subscript => "</sub>",
        Container::Superscript => "</sup>",
        Container::Insert => "</ins>",
        Container::Delete => "</del>",
        Container::Emphasis => "</em>",
        Container::Strong => "</strong>",
        Container::Mark => "</mark>",
        Container::Verbatim => "</code>",
        Container::InlineMath => "\\)</span>",
        Container::DisplayMath => "\\]</span>",
        _ => "",
    }
}

fn quote(ty: QuoteType, left: bool) -> &'static str {
    match (ty, left) {
        (QuoteType::Single, true) => "\u{2018}",
        (QuoteType::Single, false) => "\u{2019}",
        (QuoteType::Double, true) => "\u{201c}",
        (QuoteType::Double, false) => "\u{201d}",
    }
}

fn escape(mut text: &str, out: &mut String) {
    while let Some(i) = text.find(['&', '<', '>']) {
        out.push_str(&text[..i]);
        out.push_str(match text.as_bytes()[i] {
            b'&' => "&amp;",
            b'<' => "&lt;",
            _ => "&gt;",
        });
        text = &text[i + 1..];
    }
    out.push_str(text);
}

pub fn render<'s>(text: &'s str, events: impl Iterator<Item = Event<'s>>) -> String {
    let mut out = String::new();
    let mut raw = false;
    for Event { kind, span } in events {
        match kind {
            EventKind::Enter(Container::RawFormat { .. }) => raw = true,
            EventKind::Exit(Container::RawFormat { .. }) => raw = false,
            _ if raw => (),
            EventKind::Str | EventKind::Atom(Atom::Symbol(_)) => escape(&text[span], &mut out),
            EventKind::Enter(container) => out.push_str(opening(container)),
            EventKind::Exit(container) => out.push_str(closing(container)),
            EventKind::Atom(Atom::Softbreak) => out.push('\n'),
            EventKind::Atom(Atom::Hardbreak) => out.push_str("<br>\n"),
            EventKind::Atom(Atom::Nbsp) => out.push('\u{a0}'),
            EventKind::Atom(Atom::Ellipsis) => out.push('\u{2026}'),
            EventKind::Atom(Atom::EnDash) => out.push('\u{2013}'),
            EventKind::Atom(Atom::EmDash) => out.push('\u{2014}'),
            EventKind::Atom(Atom::Quote { ty, left }) => out.push_str(quote(ty, left)),
            _ => (),
        }
    }
    out
}
