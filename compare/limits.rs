//! Every limit: rooms of all sizes, the largest text and line list, line lists that are none, the longest label room.

use crate::check::Checker;
use crate::events::{homed, in_labels};
use crate::mivurakol::container::INLINE_LINK;
use crate::mivurakol::{self, code, Answer, Line, ENTER, EVENT_NUMBERS, EXIT, LABEL_LIMIT, LARGEST, OPENER_NUMBERS, QUEUE_NUMBERS};
use crate::model::Sizes;
use crate::random::strings;
use crate::sheet::Sheet;
use crate::worked::TABLES;
use std::time::Instant;

/// One sheet in one reading with some rooms, to be asked about first.
fn right(checker: &mut Checker, sheet: &Sheet, reading: u32, sizes: &Sizes) -> bool {
    match checker.call(sheet, reading, sizes) {
        Ok(answer) => {
            checker.counts[reading.min(1) as usize].answers[answer.code as usize] += 1;
            true
        }
        Err(wrong) => {
            checker.print(sheet, reading, sizes, &wrong);
            false
        }
    }
}

/// Each room of every size from nothing to a record more than is needed, the others exact.
fn each_size(checker: &mut Checker, sheet: &Sheet, reading: u32, calls: &mut u64) -> bool {
    checker.expect.ask(sheet, reading);
    let exact = checker.expect.need.exact;
    let mut all = |most: usize, with: &dyn Fn(usize) -> Sizes| {
        (0..=most).all(|n| {
            *calls += 1;
            right(checker, sheet, reading, &with(n))
        })
    };
    all(exact.events + EVENT_NUMBERS + 2, &|events| Sizes { events, ..exact })
        && all(exact.queue + QUEUE_NUMBERS + 2, &|queue| Sizes { queue, ..exact })
        && all(exact.openers + OPENER_NUMBERS + 2, &|openers| Sizes { openers, ..exact })
        && all(exact.labels + 3, &|labels| Sizes { labels, ..exact })
        && all(exact.out + 3, &|out| Sizes { out, ..exact })
}

/// All rooms at once: nothing, one short, exact, one over.
fn all_together(checker: &mut Checker, sheet: &Sheet, reading: u32, calls: &mut u64) -> bool {
    checker.expect.ask(sheet, reading);
    let exact = checker.expect.need.exact;
    let of = |need: usize, n: usize| [0, need.saturating_sub(1), need, need + 1][n % 4];
    (0..1024).all(|n| {
        let sizes = Sizes {
            events: of(exact.events, n),
            queue: of(exact.queue, n / 4),
            openers: of(exact.openers, n / 16),
            labels: of(exact.labels, n / 64),
            out: of(exact.out, n / 256),
        };
        *calls += 1;
        right(checker, sheet, reading, &sizes)
    })
}

/// Small sheets with rooms of all sizes.
fn rooms(checker: &mut Checker) -> bool {
    let started = Instant::now();
    let others: [(&[u8], &[(usize, usize)]); 16] = [
        (b"a", &[(0, 1)]),
        (b"a", &[(0, 0), (1, 1)]),
        (b"[[[[", &[(0, 4)]),
        (b"\n\n`", &[(0, 1), (1, 2), (2, 3)]),
        (b"*a* `R-07` [b][]\n", &[(0, 17)]),
        (b"[a\nb][] [c](\n> d)", &[(0, 3), (3, 13), (15, 17)]),
        (b"[](\n)[](\n)", &[(0, 4), (4, 9), (9, 10)]),
        (b"[a][][b][]{", &[(0, 11)]),
        (b"{[a][]", &[(0, 6)]),
        (b"[a][][b][]{}", &[(0, 12)]),
        (b"{.a}[b][]", &[(0, 9)]),
        (b"[a{\n%}][] {a=\"", &[(0, 4), (6, 15)]),
        (b"`a\n`{a=\"\n%\"}", &[(0, 3), (3, 10), (11, 13)]),
        (b"x![\xff\xc3][]", &[(1, 7)]),
        (b"*<a>&* $`b`\\\n\"c\"", &[(0, 13), (13, 16)]),
        (b"`<b>`{=html}\xff<", &[(0, 14)]),
    ];
    let mut sheets: Vec<Sheet> = TABLES.iter().copied().flatten().map(|w| w.sheet()).filter(|s| s.text.len() < 20).collect();
    sheets.extend(others.iter().map(|(text, lines)| Sheet::new(text, lines)));
    let mut calls = 0;
    for sheet in &sheets {
        for reading in 0..2 {
            if !each_size(checker, sheet, reading, &mut calls) || !all_together(checker, sheet, reading, &mut calls) {
                return false;
            }
        }
    }
    println!("limits: {} sheets with rooms of all sizes, {calls} calls ({:.0?})", sheets.len(), started.elapsed());
    true
}

/// Every line list of up to so many starts and ends out of some places, of the same number or not.
fn lists(checker: &mut Checker, text: &[u8], places: &[usize], most: usize) -> bool {
    let index: Vec<u8> = (0..places.len() as u8).collect();
    let mut halves: Vec<Vec<usize>> = Vec::new();
    strings(&index, most, |s| {
        halves.push(s.iter().map(|&i| places[i as usize]).collect());
        true
    });
    let mut sheet = Sheet::line(text);
    for starts in &halves {
        for ends in &halves {
            sheet.starts.clone_from(starts);
            sheet.ends.clone_from(ends);
            if !checker.right(&sheet, 1) {
                return false;
            }
        }
    }
    true
}

/// Line lists that are none, and some that are.
fn lines(checker: &mut Checker) -> bool {
    let started = Instant::now();
    let before = checker.sheets;
    for text in [b"".as_slice(), b"*a*", b"`\\`", b"{a", b"[][", b"{ }"] {
        let far = [0, 1, 3, 1 << 32, (1 << 32) + 1, 1 << 63, usize::MAX];
        if !(lists(checker, text, &[0, 1, 2, 3, 4], 3) && lists(checker, text, &far, 2)) {
            return false;
        }
    }
    let all = checker.sheets - before;
    println!("limits: {all} line lists, overlapping, reversed, outside the text, of other lengths ({:.0?})", started.elapsed());
    true
}

/// A text of so many bytes: this, over and over, and the front of it.
fn repeated(s: &[u8], len: usize) -> Vec<u8> {
    s.iter().copied().cycle().take(len).collect()
}

/// The largest text with something before and behind it.
fn around(before: &[u8], s: &[u8], behind: &[u8]) -> Vec<u8> {
    [before, &repeated(s, LARGEST - before.len() - behind.len()), behind].concat()
}

/// Sheets of the largest text and of the longest line list, and such that go beyond.
fn largest() -> Vec<Sheet> {
    let cell = b"*12* `R-07` left \"[K1][]\" -- [a b](c\nd) $`x`\n";
    let letters = repeated(b"a", LARGEST + 1);
    let mut newlines = repeated(b"\n", LARGEST);
    newlines[LARGEST - 1] = b'`';
    let bytes: Vec<(usize, usize)> = (0..LARGEST).map(|p| (p, p + 1)).collect();
    let mut sheets = vec![
        Sheet::line(&letters[..LARGEST]),
        Sheet::by_newline(&repeated(cell, LARGEST)),
        Sheet::by_newline(&newlines),
        Sheet::new(&repeated(cell, LARGEST), &bytes),
        Sheet::new(&letters[..LARGEST], &[]),
        Sheet::new(&letters[..LARGEST], &[(LARGEST, LARGEST)]),
        Sheet::new(&letters[..LARGEST], &[(0, 1), (LARGEST - 1, LARGEST + 1)]),
        Sheet::line(&letters),
        Sheet::new(&letters, &[]),
        Sheet::new(&letters, &[(0, 1)]),
        Sheet::new(&letters, &[(1, 0)]),
        Sheet::line(&repeated(b"[", 1 << 14)),
        Sheet::line(&repeated(b"{", LARGEST)),
        Sheet::by_newline(&repeated(b"{door 12 {a=\" {% relay {R-07\n", LARGEST)),
        Sheet::line(&around(b"{%{k=\"", b"{", b"\"")),
        Sheet::line(&around(b"{%{k=\"", b"{", b"%}")),
        Sheet::new(&around(b"{%{k=\"", b"{ ", b"\"}"), &bytes),
        Sheet::line(&repeated(b"....", LARGEST)),
        Sheet::line(&repeated(b"`", LARGEST)),
    ];
    // Empty lines: as many starts as ends, or not.
    for (starts, ends) in [(0, 0), (1, 1), (0, 1), (1, 0), (0, -1), (-1, 0), (-1, -1)] {
        let count = |more: isize| vec![0; LARGEST.strict_add_signed(more)];
        sheets.push(Sheet { text: Vec::new(), starts: count(starts), ends: count(ends) });
    }
    // The last line is the first that is refused: as outside, and as early.
    let mut last = Sheet::new(b"ab", &vec![(1, 1); LARGEST]);
    last.ends[LARGEST - 1] = 3;
    sheets.push(last.clone());
    last.ends[LARGEST - 1] = 1;
    last.starts[LARGEST - 1] = 0;
    sheets.push(last.clone());
    // One that is early before one that is outside.
    last.starts[1] = 0;
    last.ends[LARGEST - 1] = 9;
    sheets.push(last);
    sheets
}

fn large(checker: &mut Checker) -> bool {
    let started = Instant::now();
    let sheets = largest();
    let nothing = Sizes::default();
    for sheet in &sheets {
        let read = checker.right(sheet, 5) && checker.right(sheet, 5);
        if !read || ![2, 3, 1 << 31, u32::MAX].iter().all(|&reading| right(checker, sheet, reading, &nothing)) {
            return false;
        }
    }
    println!("limits: {} sheets around {LARGEST} bytes and lines ({:.0?})", sheets.len(), started.elapsed());
    true
}

/// Links in one another over two lines: the i-th that closes has a label of `inner` + 4 i bytes in the label room.
fn nested(links: usize, inner: usize, behind: &[u8]) -> Sheet {
    let mut text = b"[](".repeat(links);
    text.extend(std::iter::repeat_n(b'a', inner));
    text.push(b'\n');
    let cut = text.len();
    text.extend(std::iter::repeat_n(b')', links));
    text.extend(behind);
    let end = text.len();
    Sheet::new(&text, &[(0, cut), (cut, end)])
}

/// How much memory there is to have.
fn memory() -> Option<usize> {
    let info = std::fs::read_to_string("/proc/meminfo").ok()?;
    let line = info.lines().find(|l| l.starts_with("MemAvailable:"))?;
    line.split_whitespace().nth(1)?.parse::<usize>().ok().map(|kib| kib * 1024)
}

/// Whether a long label room holds the labels of nested links, and zeros behind them.
fn holds(links: usize, inner: usize, room: &[u8]) -> bool {
    let zeros = [0; 4096];
    let mut at = 0;
    for i in 0..links {
        let label = [b"[](".repeat(i), vec![b'a'; inner], vec![b')'; i]].concat();
        if !room[at..].starts_with(&label) {
            return false;
        }
        at += label.len();
    }
    room[at..].chunks(zeros.len()).all(|part| *part == zeros[..part.len()])
}

/// Nested links whose labels fill a long label room as far as it counts; or, with one more behind them, are a byte too long.
fn fills(labels: &mut [u8], over: bool) -> bool {
    let (links, inner) = (4369, 974_319);
    let sheet = nested(links, inner, if over { b"[b][]" } else { b"" });
    let n = sheet.text.len();
    let mut events = vec![0x55; EVENT_NUMBERS * (n + 1)];
    let mut queue = vec![0x55; QUEUE_NUMBERS * (2 * n + 1)];
    let mut openers = vec![0x55; OPENER_NUMBERS * n];
    let mut rooms = mivurakol::Rooms { events: &mut events, queue: &mut queue, openers: &mut openers, labels };
    let lines: Vec<Line> = sheet.lines().map(|(start, end)| Line { start, end }).collect();
    let answer = mivurakol::read(&sheet.text, &lines, 0, &mut rooms);
    // The outermost link is all that is handed out.
    let home = in_labels((LABEL_LIMIT - inner - 4 * (links - 1)) as u32, LABEL_LIMIT as u32, links as u32 - 1);
    let list = [homed(ENTER + INLINE_LINK, home, 0, 1), homed(EXIT + INLINE_LINK, home, 1, n as u32)].concat();
    // Each `[` looks at the openers of the links around it, the newline at all of them, each `]` and `)` at one.
    let looks = (links * (links - 1) / 2 + 3 * links) as u64;
    let (expected, list, links) = if over {
        (Answer { code: code::LABEL_ROOM, ..Answer::default() }, Vec::new(), 0)
    } else {
        (Answer { code: code::ACCEPTED, place: 0, events: 2, labels: LABEL_LIMIT as u32, looks }, list, links)
    };
    let zero = |room: &[u32]| room.iter().all(|&x| x == 0);
    let right = events.starts_with(&list) && zero(&events[list.len()..]) && zero(&queue) && zero(&openers) && holds(links, inner, labels);
    if answer != expected || !right {
        println!("difference: a label room of {} bytes, {expected:?} is expected, the answer is {answer:?}", labels.len());
        println!("rooms are {}", if right { "right" } else { "not right" });
        return false;
    }
    true
}

/// A label room longer than counts, if there is memory for it.
fn longest_room(checker: &mut Checker) -> bool {
    // The same in small.
    if !(1..20).all(|n| checker.right(&nested(n, 5 * n, b""), 2) && checker.right(&nested(n, n, b"[b][]"), 2)) {
        return false;
    }
    if memory().is_none_or(|free| free < LABEL_LIMIT + (1 << 30)) {
        println!("limits: LEFT OUT, for want of memory: a label room of more than {LABEL_LIMIT} bytes");
        return true;
    }
    let started = Instant::now();
    let mut labels = vec![0x55; LABEL_LIMIT + 5];
    if !fills(&mut labels, false) {
        return false;
    }
    labels[LABEL_LIMIT..].fill(0x55);
    if !fills(&mut labels, true) {
        return false;
    }
    println!("limits: labels of {LABEL_LIMIT} bytes and of one more, in a room of {} ({:.0?})", labels.len(), started.elapsed());
    true
}

/// Brackets that never close: each looks at all that are open, and all together at N (N - 1) / 2, the most that there is.
fn searched(n: usize) -> bool {
    let text = vec![b'['; n];
    let mut events = vec![0x55; EVENT_NUMBERS * (n + 1)];
    let mut queue = vec![0x55; QUEUE_NUMBERS * (2 * n + 1)];
    let mut openers = vec![0x55; OPENER_NUMBERS * n];
    let mut rooms = mivurakol::Rooms { events: &mut events, queue: &mut queue, openers: &mut openers, labels: &mut [] };
    let answer = mivurakol::read(&text, &[Line { start: 0, end: n }], 0, &mut rooms);
    let expected = Answer { code: code::ACCEPTED, place: 0, events: 1, labels: 0, looks: (n * (n - 1) / 2) as u64 };
    if answer != expected {
        println!("difference: {n} brackets, {expected:?} is expected, the answer is {answer:?}");
    }
    answer == expected
}

/// The longest searches: in small as the Rust, then as many that 32 bits do not hold their count, and as long a text as there is.
fn longest_search(checker: &mut Checker) -> bool {
    let large = [92_682, 92_683, LARGEST];
    if !(1..60).all(|n| checker.right(&Sheet::line(&vec![b'['; n]), 2)) || !large.iter().all(|&n| searched(n)) {
        return false;
    }
    println!("limits: the searches of up to {LARGEST} brackets");
    true
}

/// Whether there is no difference.
pub fn compare(checker: &mut Checker) -> bool {
    rooms(checker) && lines(checker) && large(checker) && longest_search(checker) && longest_room(checker)
}
