//! The reader and the fragment against the Rust: worked sheets, all short ones over some alphabets, random ones.

use crate::check::Checker;
use crate::lending::SURE;
use crate::mivurakol::{code, FragmentAnswer, EVENT_NUMBERS, OPENER_NUMBERS, QUEUE_NUMBERS};
use crate::model::Sizes;
use crate::random::{strings, Random};
use crate::shapes::{any, behind_runs, names, shapes, SHAPES};
use crate::sheet::Sheet;
use crate::worked::{Worked, TABLES};
use crate::written::WRITTEN;
use crate::{limits, lookup, model};
use std::time::Instant;

/// Every byte that some rule tells apart, in short strings; a sheet's events need few of them.
const ALPHABETS: &[&[u8]] = &[b"`$\\ \na=}{b", b"[]()!\\\na^*`", b"*_{}'\" \na-.", b"<>:@[]^a\n`{", b"'\"{}[]( \na~", b"-.}{+=\\ \na*"];

/// Few bytes, for longer strings: links, verbatim, math, images, quotes.
const FEW: &[&[u8]] = &[b"[](\na", b"` \\\na", b"`$\\\na", b"[]`!\n", b"{'\" *a", b"[]{*}a"];

/// Around a brace: what stands before all strings over an alphabet, and the length of these at most on one line and on two.
struct Braced {
    before: &'static [&'static [u8]],
    alphabet: &'static [u8],
    one: usize,
    two: usize,
}

/// Every byte that the validator tells apart; quoted values and comments, for longer strings; and a brace behind and inside of marks.
const BRACED: &[Braced] = &[
    Braced { before: &[b"{"], alphabet: b"{}.#%a =\n\"\\", one: 6, two: 5 },
    Braced { before: &[b"{a=\"", b"{%"], alphabet: b"{}\"\\\n%a", one: 6, two: 5 },
    Braced {
        before: &[
            b"*a*{", b"`a`{", b"[a]{", b"[a](b){", b"[a][]{", b"[a](b{", b"[a{", b"![a]{", b"\"a\"{", b"'a'{", b"{*a*}{", b"`a`{=b}{", b"`a`{=b{",
            b"`{", b"[^a{", b"<a:{", b":a{", b"\\{", b"$`a`{", b"a\n{",
        ],
        alphabet: b"{}.a=\"%\n`*]):>",
        one: 4,
        two: 3,
    },
];

/// After how many sheets it is said how far a run is.
const PROGRESS: u64 = 2_000_000;

/// Sheets written out by hand, against their own answers.
fn answered(checker: &mut Checker, sheets: &[Worked]) -> bool {
    for w in sheets {
        let sheet = w.sheet();
        let n = sheet.fed();
        checker.expect.ask(&sheet, w.reading);
        let sizes = Sizes {
            events: EVENT_NUMBERS * (n + 1),
            queue: QUEUE_NUMBERS * (2 * n + 1),
            openers: OPENER_NUMBERS * n,
            labels: w.labels.len(),
            out: 0,
        };
        let called = checker.call(&sheet, w.reading, &sizes);
        let (events, labels) = checker.left();
        let given = events[..EVENT_NUMBERS * w.events.len()] == *w.events.as_flattened() && *labels == *w.labels;
        if called != Ok(w.answer()) || w.answer().code == code::ACCEPTED && !given {
            checker.print(&sheet, w.reading, &sizes, &format!("by hand it is {:?}: {called:?}", w.answer()));
            return false;
        }
    }
    true
}

/// The sheets written out by hand.
fn worked(checker: &mut Checker) -> bool {
    if !TABLES.iter().all(|some| answered(checker, some)) {
        return false;
    }
    let [worked, braces, behind, searches] = TABLES.map(<[Worked]>::len);
    println!("sheets by hand: {worked} worked through, {braces} around braces, {behind} behind closing runs and {searches} of searches");
    true
}

/// Fragments written out by hand, and their refusals, with output rooms of 0 bytes, one short, exact, one more and as long as always suffices.
fn written(checker: &mut Checker) -> bool {
    for (text, written) in WRITTEN {
        let sheet = Sheet::by_newline(text.as_bytes());
        checker.expect.ask(&sheet, 0);
        let sure = checker.expect.need.sizes(&SURE);
        for out in [0, sure.out.saturating_sub(1), sure.out, sure.out + 1, checker.expect.need.out] {
            let sizes = Sizes { out, ..sure };
            let called = checker.call(&sheet, 0, &sizes);
            let read = checker.expect.answer(&sheet, 0, &sizes);
            let FragmentAnswer { code, place, length, .. } = checker.expect.fragment_answer(&read, out);
            let right = match written {
                Err(at) => (code, place) == (code::LINKED, *at),
                Ok(html) if out < html.len() => (code, place) == (code::OUTPUT_ROOM, 0),
                Ok(html) => code == code::ACCEPTED && length as usize == html.len() && checker.expect.fragment == html.as_bytes(),
            };
            if called.is_err() || !right {
                checker.print(&sheet, 0, &sizes, &format!("document 02 has {written:?}: {called:?}, then {code} at {place}, {length} bytes"));
                return false;
            }
        }
    }
    println!("sheets: {} fragments written out by hand", WRITTEN.len());
    true
}

/// All short sheets over the alphabets, of one line and of two.
fn short(checker: &mut Checker) -> bool {
    let started = Instant::now();
    let (mut one, mut two, mut few) = (0, 0, 0);
    for alphabet in ALPHABETS {
        let mut ok = true;
        strings(alphabet, 6, |src| {
            let mut sheet = Sheet::line(src);
            one += 1;
            ok = checker.right(&sheet, 1);
            for p in 0..if src.len() <= 5 { src.len() + 1 } else { 0 } {
                two += 1;
                sheet.cut(&[(0, p), (p, src.len())]);
                ok = ok && checker.right(&sheet, 1);
            }
            ok
        });
        if !ok {
            return false;
        }
    }
    for alphabet in FEW {
        let mut ok = true;
        strings(alphabet, 8, |src| {
            let n = src.len();
            let mut sheet = Sheet::line(src);
            few += 1;
            ok = checker.right(&sheet, 1);
            for p in 0..if n < 8 { n } else { 0 } {
                // Two lines that touch, and two with one byte between them.
                for q in p..=p + 1 {
                    few += 1;
                    sheet.cut(&[(0, p), (q, n)]);
                    ok = ok && checker.right(&sheet, 1);
                }
            }
            ok
        });
        if !ok {
            return false;
        }
    }
    println!(
        "sheets: all of one line of up to 6 bytes ({one}), of two touching lines of up to 5 bytes ({two}), of one or two lines of up to 8 bytes \
         over few bytes ({few}) ({:.0?})",
        started.elapsed()
    );
    true
}

/// A sheet on one line, and on two: touching, or with one or two bytes between them. Whether all are right.
fn cut_once(checker: &mut Checker, text: &[u8], two: bool) -> bool {
    let n = text.len();
    let mut sheet = Sheet::line(text);
    if !checker.right(&sheet, 1) {
        return false;
    }
    let cuts = (0..=n).flat_map(|p| (p..=n.min(p + 2)).map(move |q| (p, q)));
    cuts.take_while(|_| two).all(|(p, q)| {
        sheet.cut(&[(0, p), (q, n)]);
        checker.right(&sheet, 1)
    })
}

/// All short sheets around a brace, of one line and of two.
fn braced(checker: &mut Checker) -> bool {
    let started = Instant::now();
    let all = checker.sheets;
    for Braced { before, alphabet, one, two } in BRACED {
        for before in *before {
            let mut ok = true;
            let mut text = before.to_vec();
            strings(alphabet, *one, |src| {
                text.truncate(before.len());
                text.extend(src);
                ok = cut_once(checker, &text, src.len() <= *two);
                ok
            });
            if !ok {
                return false;
            }
        }
    }
    println!("sheets: {} of one or two lines, all short strings behind a brace ({:.0?})", checker.sheets - all, started.elapsed());
    true
}

/// Random sheets of a sort, damaged ones among them.
fn random(checker: &mut Checker, sheets: u64, seed: u64, sort: fn(&mut Random, &mut Sheet) -> bool) -> bool {
    let started = Instant::now();
    let mut r = Random::new(seed);
    let mut sheet = Sheet::default();
    let mut shaped = [0u64; SHAPES];
    let (mut damaged, mut unfit) = (0u64, 0u64);
    for i in 0..sheets {
        if i > 0 && i % PROGRESS == 0 {
            eprintln!("sheets: {i} of {sheets} random ones ({:.0?})", started.elapsed());
        }
        damaged += u64::from(sort(&mut r, &mut sheet));
        if model::unfit(&sheet, 0).is_some() {
            unfit += 1;
        } else {
            for (count, is) in shaped.iter_mut().zip(shapes(&sheet)) {
                *count += u64::from(is);
            }
        }
        if !checker.right(&sheet, 1) {
            return false;
        }
    }
    let shaped: Vec<_> = shaped.iter().zip(names()).map(|(count, shape)| format!("{count} {shape}")).collect();
    println!(
        "sheets: {sheets} random ones of seed {seed}, {damaged} damaged, {unfit} with lines that are none, {} ({:.0?})",
        shaped.join(", "),
        started.elapsed()
    );
    true
}

/// What compared the sheets, with its counts; none if there is a difference.
pub fn compare(sheets: u64, seed: u64) -> Option<Checker> {
    let mut checker = Checker::new(seed);
    let c = &mut checker;
    if !(worked(c) && written(c) && lookup::compare(seed) && limits::compare(c) && random(c, sheets, seed, any) && short(c) && braced(c)) {
        return None;
    }
    counted(&checker);
    Some(checker)
}

/// Whether there is no difference in so many random sheets of backticks and backslashes.
pub fn compare_runs(sheets: u64, seed: u64) -> bool {
    let mut checker = Checker::new(seed);
    let right = random(&mut checker, sheets, seed, behind_runs);
    if right {
        counted(&checker);
        println!("no difference in {} sheets of backticks and backslashes", checker.sheets);
    }
    right
}

/// Says what was compared.
fn counted(checker: &Checker) {
    for (reading, c) in checker.counts.iter().enumerate() {
        println!(
            "reading {reading}: answers {}; {} sheets with a lone brace read as Str, {} refused at an attribute block, {} of these behind a lone \
             brace; {} lists by the laws, {} of them 16 deep, {} with math over a line's end, {} with an event behind the first line, {} of these \
             behind a line on which none starts, {} with a backslash straight behind a closing run, {} links, {} sheets with built labels, {} labels \
             looked up; {} lists packed, unpacked, and unpacked with a byte changed, cut or added",
            by_code(&c.answers),
            c.lone,
            c.blocks,
            c.behind,
            c.lists,
            c.deep,
            c.over,
            c.later,
            c.passed,
            c.escaped,
            c.links,
            c.built,
            c.lookups,
            c.damaged
        );
    }
    println!("fragments: answers {}", by_code(&checker.fragments));
}

/// How often each code was answered.
fn by_code(answers: &[u64]) -> String {
    let each: Vec<_> = answers.iter().enumerate().map(|(code, n)| format!("{code}: {n}")).collect();
    each.join(", ")
}
