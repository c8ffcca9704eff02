//! The sample of the Rust's answers that `crates/replay` replays. A case is one line of numbers, the first its sort:
//! 0 tokens: patterns of peeks and of verbatim, length and bytes of the line, number of tokens, kind and length of each;
//! 1 to 4 a scan (autolink, symbol, footnote, raw format): length and bytes, 1 or 0 for found, length found;
//! 5 hyphens: length, em dashes, en dashes; 6 periods: length, ellipses, rest.

use crate::lex::Lexer;
use crate::oracle::{self, mark, Way};
use crate::random::{line, pattern, Random};
use crate::scans::{scanned, SCANS};

/// The lexer's traps by name, each read four ways.
const NAMED: &[&[u8]] = &[
    b"",
    b"a=b+c!d\\e",
    b"\\\n",
    b"\\ \n",
    b"\\ \t \nb",
    b"\\\t\n",
    b"\\ a",
    b"\\\ta",
    b"a\\",
    b"\\",
    b"\\a",
    b"\\\x0b",
    b"\\\x0c",
    b"\\*a",
    b"\\\\*",
    b"-}",
    b"--}",
    b"---",
    b"---}-",
    b"{--}",
    b"{-a-}",
    b"=}=",
    b"+}+",
    b"![a]!",
    b"!",
    b"``````",
    b"....",
    b"{*a*} {_b_} {=c=} {+d+} {^e^} {~f~} {'g'} {\"h\"}",
    b"{a}",
    b"<a|b>:c:",
    b"(a)[b]",
    b"a\xc3\xa9\xff\x80*",
    b"one two\nthree",
];

fn numbers(src: &[u8]) -> String {
    let mut out = src.len().to_string();
    for b in src {
        out += &format!(" {b}");
    }
    out
}

fn tokens(src: &[u8], way: Way) {
    let mut lexer = Lexer::new(src);
    let mut found = Vec::new();
    for i in 0.. {
        lexer.verbatim = way.verbatim(i);
        if way.peeks(i) {
            lexer.peek();
        }
        let Some(t) = lexer.next() else { break };
        found.push(mark(Some(&t)));
    }
    let mut out = format!("0 {} {} {} {}", way.peeks, way.verbatim, numbers(src), found.len());
    for (kind, len) in found {
        out += &format!(" {kind} {len}");
    }
    println!("{out}");
}

pub fn print() {
    for src in NAMED {
        for (peeks, verbatim) in [(0, 0), (u32::MAX, 0), (0, u32::MAX), (u32::MAX, u32::MAX)] {
            tokens(src, Way { peeks, verbatim });
        }
    }
    let mut r = Random::new(1);
    let mut src = Vec::new();
    for _ in 0..1000 {
        line(&mut r, &mut src);
        src.truncate(100);
        let way = Way { peeks: pattern(&mut r), verbatim: pattern(&mut r) };
        tokens(&src, way);
    }
    let mut text = String::new();
    for (i, &(what, alphabet)) in SCANS.iter().enumerate() {
        for _ in 0..200 {
            let src: String = (0..r.below(8)).map(|_| char::from(alphabet[r.below(alphabet.len())])).collect();
            if scanned(what, src.as_bytes()) {
                let found = oracle::scan(what, &src, &mut text);
                println!("{} {} {} {}", i + 1, numbers(src.as_bytes()), u8::from(found.is_some()), found.unwrap_or(0));
            }
        }
    }
    for len in 2..=40 {
        let (em, en) = oracle::hyphens(len);
        println!("5 {len} {em} {en}");
        let (ellipses, rest) = oracle::periods(len);
        println!("6 {len} {ellipses} {rest}");
    }
}
