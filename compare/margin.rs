//! What the bytes between two lines may touch (document 02, L7): two texts that differ in these alone, read alike; and two that differ in the byte before
//! a line, of which some must not be.

use crate::mivurakol::field::{HOME, HOME_END, HOME_START, LINK};
use crate::mivurakol::{self, code, fragment_room, home, Answer, Event, FragmentAnswer, Line, EVENT_NUMBERS, OPENER_NUMBERS, QUEUE_NUMBERS};
use crate::model::{self, Sizes};
use crate::noted;
use crate::random::{Random, TELLING};
use crate::rooms::Rooms;
use crate::shapes::any;
use crate::sheet::Sheet;
use std::time::Instant;

/// After how many pairs it is said how far a run is.
const PROGRESS: u64 = 1_000_000;

/// Of each link, in the order of closing, whether an event of its destination spans a byte of no line.
fn excepted(sheet: &Sheet, reading: u32) -> Vec<bool> {
    let fed = |p: usize| sheet.lines().any(|(start, end)| start <= p && p < end);
    let noted = noted::read(&sheet.for_the_rust(), &sheet.starts, &sheet.ends, reading);
    noted.closed.iter().map(|spans| spans.iter().any(|span| !span.clone().all(fed))).collect()
}

/// What a call on line records leaves.
struct Left {
    answer: Answer,
    events: Vec<u32>,
    labels: Vec<u8>,
    fragment: FragmentAnswer,
    out: Vec<u8>,
}

fn call(rooms: &mut Rooms, text: &[u8], lines: &[Line], reading: u32, sizes: &Sizes) -> Left {
    let (mut four, out) = rooms.lend_output(sizes);
    let fragment = mivurakol::fragment(text, lines, reading, &mut four, out);
    let out = out.to_vec();
    let answer = mivurakol::read(text, lines, reading, &mut rooms.lend(sizes));
    Left { answer, events: rooms.events.room().to_vec(), labels: rooms.labels.room().to_vec(), fragment, out }
}

/// How many pairs there were, and of what sort.
#[derive(Default)]
struct Counts {
    pairs: u64,
    /// By the code of the first.
    codes: [u64; code::EVENT_ROOM as usize + 1],
    /// One of the two refused for label room.
    short: u64,
    links: u64,
    /// Links whose label may differ, and labels that do.
    excepted: u64,
    labels: u64,
    /// Pairs with such a label, and with labels of another length.
    differ: u64,
    moved: u64,
}

/// An event without its home.
fn unhomed(e: &Event) -> Event {
    let mut e = *e;
    e[HOME..=HOME_END].fill(0);
    e
}

fn events(left: &Left) -> &[Event] {
    &left.events.as_chunks().0[..left.answer.events as usize]
}

/// Whether the two are as the theorem has it.
fn alike(sheet: &Sheet, other: &[u8], reading: u32, a: &Left, b: &Left, counts: &mut Counts) -> Result<(), String> {
    counts.codes[a.answer.code as usize] += 1;
    if [a, b].iter().any(|l| l.answer.code == code::BRACE) {
        return if a.answer == b.answer { Ok(()) } else { Err("an attribute block refuses one of the two".to_string()) };
    }
    if [a, b].iter().any(|l| l.answer.code == code::LABEL_ROOM) {
        counts.short += 1;
        return Ok(());
    }
    // All but the label bytes.
    if a.answer != (Answer { labels: a.answer.labels, ..b.answer }) {
        return Err("the answers differ".to_string());
    }
    if (a.fragment.code, a.fragment.place, a.fragment.events, a.fragment.length) != (b.fragment.code, b.fragment.place, b.fragment.events, b.fragment.length) || a.out != b.out {
        return Err("the fragments differ".to_string());
    }
    let excepted = excepted(sheet, reading);
    counts.links += excepted.len() as u64;
    counts.excepted += excepted.iter().filter(|&&e| e).count() as u64;
    let (before, mut moved) = (counts.labels, false);
    for (e, f) in events(a).iter().zip(events(b)) {
        if unhomed(e) != unhomed(f) {
            return Err(format!("the events differ: {e:?}, {f:?}"));
        }
        let label = |text, left: &Left, e: &Event| mivurakol::label(text, &left.labels, e[HOME], e[HOME_START], e[HOME_END]).to_vec();
        let (l, m) = (label(&sheet.text, a, e), label(other, b, f));
        moved |= e[HOME_START..=HOME_END] != f[HOME_START..=HOME_END];
        if l != m {
            counts.labels += 1;
            if e[HOME] != home::LABELS || !excepted[e[LINK] as usize] {
                return Err(format!("the label of {e:?} differs: {l:?}, {m:?}"));
            }
        }
    }
    counts.differ += u64::from(counts.labels > before);
    counts.moved += u64::from(moved);
    if !excepted.contains(&true) && (a.events != b.events || a.labels != b.labels) {
        return Err("no label may differ, and the rooms do".to_string());
    }
    Ok(())
}

/// Pieces of links, of what stands in them, and of what a byte between two lines might close.
const PIECES: &[&str] = &[
    "[", "![", "](", "](", ")", ")", "][", "]", "][]", "[a](b)", "[a][b]", "[a][]", "a", "b c", "*", "_", "`", "`a`", "\"", "\\", "\\)", "$`", "<a:b>", ":x:", "[^1]", "{", "{.a", "}",
    "--", "...", " ", "\n",
];

/// A link with a link in its destination. Each letter may be missing.
const WITHIN: &[&str] = &["[", "a", "](", "x", "[", "b", "](", "c", "d", ")", "e", ")"];

/// A sheet of links, cut into lines with up to three bytes between two.
fn linked(r: &mut Random, sheet: &mut Sheet) {
    let Sheet { text, starts, ends } = sheet;
    text.clear();
    starts.clear();
    ends.clear();
    let few: Vec<&str> = (0..4 + r.below(8)).map(|_| PIECES[r.below(PIECES.len())]).collect();
    let mut pieces: Vec<&str> = Vec::new();
    for _ in 0..2 + r.below(20) {
        match r.below(32) {
            0 => pieces.extend(WITHIN.iter().filter(|p| !p.starts_with(char::is_alphabetic) || r.below(2) == 0)),
            _ => pieces.push(few[r.below(few.len())]),
        }
    }
    let cuts = 2 + r.below(6);
    starts.push(0);
    for piece in pieces {
        if r.below(cuts) == 0 {
            ends.push(text.len());
            for _ in 0..r.below(4) {
                text.push(TELLING[r.below(TELLING.len())]);
            }
            starts.push(text.len());
        }
        text.extend(piece.as_bytes());
    }
    ends.push(text.len());
    for _ in 0..r.below(3) {
        text.push(TELLING[r.below(TELLING.len())]);
    }
}

/// The places of a text that no reading looks at: of no line, and not before one.
fn margin(sheet: &Sheet) -> Vec<usize> {
    let seen = |p: usize| sheet.lines().any(|(start, end)| start <= p + 1 && p < end);
    (0..sheet.text.len()).filter(|&p| !seen(p)).collect()
}

/// Rooms for a sheet: mostly enough, at times short ones.
fn sizes(r: &mut Random, fed: usize) -> Sizes {
    let short = |r: &mut Random, n: usize| if r.below(16) == 0 { r.below(n + 1) } else { n };
    Sizes {
        events: short(r, EVENT_NUMBERS * (fed + 1)),
        queue: QUEUE_NUMBERS * (2 * fed + 1),
        openers: OPENER_NUMBERS * fed,
        labels: if r.below(8) == 0 { r.below(9) } else { 40 * (fed + 1) },
        out: short(r, fragment_room(fed)),
    }
}

/// Tells of a difference.
fn print(wrong: &str, sheet: &Sheet, other: &[u8], reading: u32) {
    println!("difference: {wrong}\nreading {reading}, lines from {:?} to {:?}", sheet.starts, sheet.ends);
    println!("text {:?} ({:?})\nand  {:?} ({other:?})", String::from_utf8_lossy(&sheet.text), sheet.text, String::from_utf8_lossy(other));
}

/// Whether so many pairs of each kind are as they should be.
pub fn compare(pairs: u64, seed: u64) -> bool {
    let started = Instant::now();
    let mut r = Random::new(seed);
    let (mut rooms, mut counts) = (Rooms::new(seed), Counts::default());
    let (mut sheet, mut before, mut told) = (Sheet::default(), 0u64, 0u64);
    while counts.pairs < pairs || before < pairs {
        if r.below(4) == 0 {
            any(&mut r, &mut sheet);
        } else {
            linked(&mut r, &mut sheet);
        }
        if model::unfit(&sheet, 0).is_some() {
            continue;
        }
        let lines: Vec<Line> = sheet.lines().map(|(start, end)| Line { start, end }).collect();
        let (reading, sizes) = (r.below(2) as u32, sizes(&mut r, sheet.fed()));
        let free = margin(&sheet);
        let first = call(&mut rooms, &sheet.text, &lines, reading, &sizes);
        if !free.is_empty() && counts.pairs < pairs {
            let mut other = sheet.text.clone();
            for &p in &free {
                other[p] = if r.below(4) == 0 { r.next() as u8 } else { TELLING[r.below(TELLING.len())] };
            }
            counts.pairs += 1;
            if counts.pairs % PROGRESS == 0 {
                eprintln!("margin: {} of {pairs} pairs ({:.0?})", counts.pairs, started.elapsed());
            }
            let second = call(&mut rooms, &other, &lines, reading, &sizes);
            if let Err(wrong) = alike(&sheet, &other, reading, &first, &second, &mut counts) {
                print(&wrong, &sheet, &other, reading);
                return false;
            }
        }
        // The byte before a line, which is of no line itself.
        let fed = |p: usize| sheet.lines().any(|(start, end)| start <= p && p < end);
        let at: Vec<usize> = sheet.starts.iter().filter(|&&s| s > 0 && !fed(s - 1)).map(|s| s - 1).collect();
        if !at.is_empty() && before < pairs {
            let mut other = sheet.text.clone();
            other[at[r.below(at.len())]] = b"$\\ \na"[r.below(5)];
            before += 1;
            let second = call(&mut rooms, &other, &lines, reading, &sizes);
            let same = first.answer.code == second.answer.code && events(&first).iter().map(unhomed).eq(events(&second).iter().map(unhomed));
            told += u64::from(!same && ![&first, &second].iter().any(|l| l.answer.code == code::LABEL_ROOM));
        }
    }
    let codes: Vec<_> = counts.codes.iter().enumerate().map(|(code, n)| format!("{code}: {n}")).collect();
    println!(
        "margin: {} pairs that differ between lines alone, answers {}, {} with one refused for label room; {} links, {} of which may have another \
         label; {} such labels that differ, in {} pairs, {} pairs with labels that stand elsewhere; of {before} pairs that differ in the byte before a \
         line {told} were read otherwise ({:.0?})",
        counts.pairs,
        codes.join(", "),
        counts.short,
        counts.links,
        counts.excepted,
        counts.labels,
        counts.differ,
        counts.moved,
        started.elapsed()
    );
    counts.labels > 0 && told > 0
}
