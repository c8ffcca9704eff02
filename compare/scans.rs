//! Scans ahead, and the splits of hyphens and periods.

use crate::oracle;
use crate::ours::{self, Scan};
use crate::random::{strings, Random};
use std::time::Instant;

/// Each scan with the bytes that it tells apart, and some others.
pub const SCANS: &[(Scan, &[u8])] = &[
    (Scan::Autolink, b"<>:@ \t\nab{}\\"),
    (Scan::Symbol, b":-+_aZ9 \n.*{"),
    (Scan::Footnote, b"[]^\n a{}*:<\\"),
    (Scan::RawFormat, b"{}= \n\x0cab`:\\"),
];

/// `^}` is a token of its own, so `[^}` opens no footnote: there the parser does not scan.
pub fn scanned(what: Scan, src: &[u8]) -> bool {
    !(matches!(what, Scan::Footnote) && src.first() == Some(&b'}'))
}

fn same(what: Scan, src: &str, text: &mut String) -> bool {
    let theirs = oracle::scan(what, src, text);
    let from = text.len() - src.len();
    if !scanned(what, src.as_bytes()) || theirs == ours::scan(what, text.as_bytes(), from) {
        return true;
    }
    println!("{what:?} differs on {src:?}: the Rust has {theirs:?}");
    false
}

/// Whether there is a difference.
pub fn compare(seed: u64) -> bool {
    let started = Instant::now();
    let mut text = String::new();
    let mut all = 0;
    for &(what, alphabet) in SCANS {
        let mut ok = true;
        all += strings(alphabet, 6, |src| {
            ok = same(what, std::str::from_utf8(src).expect("ASCII"), &mut text);
            ok
        });
        if !ok {
            return true;
        }
    }
    let mut r = Random::new(seed);
    let lines = 1_000_000;
    let mut src = String::new();
    for _ in 0..lines {
        let (what, alphabet) = SCANS[r.below(SCANS.len())];
        src.clear();
        for _ in 0..r.below(40) {
            src.push(if r.below(3) == 0 { char::from(alphabet[r.below(alphabet.len())]) } else { char::from(b'a' + r.below(26) as u8) });
            if r.below(16) == 0 {
                src.push('é');
            }
        }
        if !same(what, &src, &mut text) {
            return true;
        }
    }
    println!("scans: all {all} strings of up to 6 bytes, each over its alphabet, and {lines} random ones ({:.0?})", started.elapsed());
    for len in 2..=1000 {
        if oracle::hyphens(len) != ours::hyphens(len) || oracle::periods(len) != ours::periods(len) {
            println!("a run of {len} differs");
            return true;
        }
    }
    println!("hyphens and periods: runs of 2 to 1000");
    false
}
