//! The sheets, with the Rust's answers, that the gate replays. A case is one line of numbers: the
//! reading; the number of bytes of the text, and these; the number of starts, and these; the number
//! of ends, and these; the lengths of the event, queue, opener and label rooms; the answer's code,
//! place, events, label bytes and opener records looked at; and of an accepted sheet the numbers of
//! the events and the bytes of the labels.

use crate::expect::Expect;
use crate::lending::{Lending, Sort, SURE};
use crate::mivurakol::{code, EVENT_NUMBERS, OPENER_NUMBERS, QUEUE_NUMBERS};
use crate::model::Sizes;
use crate::random::Random;
use crate::rows::one_in;
use crate::shapes::any;
use crate::sheet::Sheet;
use crate::worked::TABLES;

/// What the program that replays them has room for.
const TEXT: usize = 1200;
const LINES: usize = 64;
const MOST: Sizes =
    Sizes { events: EVENT_NUMBERS * (TEXT + 1), queue: QUEUE_NUMBERS * (2 * TEXT + 1), openers: OPENER_NUMBERS * TEXT, labels: TEXT, out: 0 };

/// How many random sheets; of these, how many are read otherwise in reading 1.
const SHEETS: usize = 260;
const STRICT: usize = 30;

/// How long most of them are at most, and one in how many is longer.
const LONGEST: usize = 60;
const LONGER: usize = 40;

/// A count and so many numbers.
fn counted<T: std::fmt::Display>(out: &mut String, numbers: &[T]) {
    *out += &format!(" {}", numbers.len());
    listed(out, numbers);
}

fn listed<T: std::fmt::Display>(out: &mut String, numbers: &[T]) {
    for n in numbers {
        *out += &format!(" {n}");
    }
}

/// A case, if there is room for it. Whether there was.
fn case(sheet: &Sheet, reading: u32, lending: &Lending, expect: &Expect) -> bool {
    let sizes = expect.need.sizes(lending);
    let Sizes { events, queue, openers, labels, .. } = sizes;
    let lines = sheet.starts.len().max(sheet.ends.len());
    let rooms = events <= MOST.events && queue <= MOST.queue && openers <= MOST.openers && labels <= MOST.labels;
    if sheet.text.len() > TEXT || lines > LINES || !rooms {
        return false;
    }
    let reading = lending.reading.unwrap_or(reading);
    let answer = expect.answer(sheet, reading, &sizes);
    let mut out = reading.to_string();
    counted(&mut out, &sheet.text);
    counted(&mut out, &sheet.starts);
    counted(&mut out, &sheet.ends);
    listed(&mut out, &[events, queue, openers, labels]);
    listed(&mut out, &[answer.code, answer.place, answer.events, answer.labels]);
    listed(&mut out, &[answer.looks]);
    if answer.code == code::ACCEPTED {
        listed(&mut out, expect.rust.events.as_flattened());
        listed(&mut out, &expect.rust.labels);
    }
    println!("{out}");
    true
}

/// The sheets written out by hand, each with enough room, and the largest that there is room for.
fn named(expect: &mut Expect) {
    for w in TABLES.iter().copied().flatten() {
        let sheet = w.sheet();
        expect.ask(&sheet, w.reading);
        let answer = expect.answer(&sheet, w.reading, &expect.need.sizes(&SURE));
        let same = answer == w.answer() && expect.rust.events == w.events && expect.rust.labels == w.labels;
        assert!(same, "the documents and the Rust differ on {:?}: {:?} at {:?}", sheet, expect.rust.events, expect.rust.brace);
        case(&sheet, w.reading, &SURE, expect);
    }
    let mut newlines = vec![b'\n'; TEXT];
    newlines[TEXT - 1] = b'`';
    let lines: Vec<(usize, usize)> = (0..LINES).map(|i| (2 * i, 2 * i + 2)).collect();
    let block = [b"[a][]".repeat(200), b"{}".to_vec()].concat();
    let braces = Sheet::by_newline(&[b"{%{k=\"\n".as_slice(), &b"{ \n".repeat(60)].concat());
    let large = [Sheet::line(&newlines), Sheet::line(&[b'['; TEXT]), Sheet::new(&b"*a`\n".repeat(40), &lines), Sheet::line(&block), braces];
    for sheet in &large {
        for reading in 0..2 {
            expect.ask(sheet, reading);
            case(sheet, reading, &SURE, expect);
        }
    }
}

/// A random sheet of at most so many bytes, with places of 32 bits, that is of characters.
fn short(r: &mut Random, longest: usize, sheet: &mut Sheet) {
    loop {
        any(r, sheet);
        if sheet.text.len() <= longest && std::str::from_utf8(&sheet.text).is_ok() {
            break;
        }
    }
    for place in sheet.starts.iter_mut().chain(&mut sheet.ends) {
        *place = (*place).min(u32::MAX as usize);
    }
}

/// How often a sheet of its sort is taken, one in so many.
fn taken_of(expect: &Expect) -> u64 {
    if expect.unfit.is_some() {
        2
    } else {
        one_in(&expect.rust)
    }
}

/// Random sheets, each with enough room and with another lending in turn.
fn random(r: &mut Random, expect: &mut Expect) {
    let mut sheet = Sheet::default();
    let mut turns = [0; 4];
    let mut taken = 0;
    while taken < SHEETS - STRICT {
        short(r, if taken % LONGER == 0 { TEXT } else { LONGEST }, &mut sheet);
        let reading = taken as u32 % 2;
        expect.ask(&sheet, reading);
        if !expect.same_text || r.next() % taken_of(expect) != 0 || !case(&sheet, reading, &SURE, expect) {
            continue;
        }
        taken += 1;
        let sort = Sort::of(expect)[0];
        let turn = &mut turns[sort as usize];
        case(&sheet, reading, &sort.lendings()[*turn % sort.lendings().len()], expect);
        *turn += 1;
    }
}

/// Random sheets that are read otherwise in reading 1, in both readings.
fn strict(r: &mut Random, expect: &mut Expect) {
    let mut sheet = Sheet::default();
    let mut taken = 0;
    while taken < STRICT {
        short(r, LONGEST, &mut sheet);
        expect.ask(&sheet, 1);
        let events = expect.rust.events.clone();
        expect.ask(&sheet, 0);
        if !expect.same_text || events == expect.rust.events || !case(&sheet, 0, &SURE, expect) {
            continue;
        }
        taken += 1;
        expect.ask(&sheet, 1);
        case(&sheet, 1, &SURE, expect);
    }
}

pub fn print() {
    let mut expect = Expect::new();
    let mut r = Random::new(1);
    named(&mut expect);
    random(&mut r, &mut expect);
    strict(&mut r, &mut expect);
}
