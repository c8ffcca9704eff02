//! Token streams.

use crate::lex::Lexer;
use crate::oracle::{mark, Way};
use crate::ours::Cursor;
use crate::random::{line, pattern, strings, Random};
use std::time::Instant;

/// Every special byte stands in one of these, with braces, blanks and text beside it.
const ALPHABETS: &[&[u8]] = &[
    b"\\ \t\n{}-*=![`.a",
    b"{}^+~_'\"()]<|:a\n",
    b"\\\x0b\x0c\r\n b\xc3}-*.`",
];

/// Both verbatim flags, without peeks, with one before every token and with one before every other.
const WAYS: &[Way] = &[
    Way { peeks: 0, verbatim: 0 },
    Way { peeks: 0, verbatim: u32::MAX },
    Way { peeks: u32::MAX, verbatim: 0 },
    Way { peeks: u32::MAX, verbatim: u32::MAX },
    Way { peeks: 0xaaaa_aaaa, verbatim: 0 },
    Way { peeks: 0xaaaa_aaaa, verbatim: u32::MAX },
];

/// Steps both lexers through a line, to the first token that differs. The places are compared too: what is ahead of the Rust's lexer is
/// what lies behind our place.
fn differ(src: &[u8], way: Way) -> Option<usize> {
    let mut theirs = Lexer::new(src);
    let mut cursor = Cursor::new(0, false);
    for i in 0.. {
        theirs.verbatim = way.verbatim(i);
        cursor.set_verbatim(way.verbatim(i));
        if way.peeks(i) && mark(theirs.peek()) != cursor.peek(src) {
            return Some(i);
        }
        let token = theirs.next();
        if mark(token.as_ref()) != cursor.next(src) || theirs.ahead().len() != src.len() - cursor.place() {
            return Some(i);
        }
        if token.is_none() {
            return None;
        }
    }
    unreachable!()
}

fn same(src: &[u8], way: Way) -> bool {
    let Some(i) = differ(src, way) else {
        return true;
    };
    println!("token {i} differs: bytes {src:?}, peeks {:#x}, verbatim {:#x}", way.peeks, way.verbatim);
    false
}

/// Whether there is a difference.
pub fn compare(lines: u64, seed: u64) -> bool {
    let started = Instant::now();
    let mut all = 0;
    for alphabet in ALPHABETS {
        let mut ok = true;
        all += strings(alphabet, 6, |src| {
            ok = WAYS.iter().all(|&way| same(src, way));
            ok
        });
        if !ok {
            return true;
        }
    }
    println!("tokens: all {all} lines of up to 6 bytes over {} alphabets, {} ways each ({:.0?})", ALPHABETS.len(), WAYS.len(), started.elapsed());
    let started = Instant::now();
    let mut r = Random::new(seed);
    let mut src = Vec::new();
    for _ in 0..lines {
        line(&mut r, &mut src);
        let way = Way { peeks: pattern(&mut r), verbatim: pattern(&mut r) };
        if !(same(&src, WAYS[0]) && same(&src, WAYS[1]) && same(&src, way)) {
            return true;
        }
    }
    println!("tokens: {lines} random lines of seed {seed}, 3 ways each ({:.0?})", started.elapsed());
    false
}
