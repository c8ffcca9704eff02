//! One sheet: the reader's answer, its fragment's, its packed list's, and all rooms beside what the Rust and the questions of documents 01 and 02 give,
//! for rooms of many sizes.

use crate::events::enters;
use crate::expect::Expect;
use crate::laws::Laws;
use crate::lending::{Lending, Size, Sort, OUTPUTS, SURE};
use crate::lists::{damage, DAMAGES};
use crate::mivurakol::container::{AUTOLINK, DISPLAY_MATH, INLINE_IMAGE, INLINE_MATH, REFERENCE_LINK, SUBSCRIPT, VERBATIM};
use crate::mivurakol::field::{END, KIND, LINE, START};
use crate::mivurakol::{self, code, home, Answer, Event, FragmentAnswer, Line, EXIT};
use crate::model::Sizes;
use crate::ours;
use crate::packer::Packer;
use crate::random::Random;
use crate::rooms::Rooms;
use crate::sheet::{ascii, Sheet};
use crate::shown;
use std::time::{Duration, Instant};

/// How long a smaller sheet is looked for.
const SEARCH: Duration = Duration::from_secs(20);

/// How many calls there were, and of what sort the lists are.
#[derive(Clone, Default)]
pub struct Counts {
    /// By code.
    pub answers: [u64; code::EVENT_ROOM as usize + 1],
    /// Sheets that are read with a lone brace; and such that are refused at an attribute block, and those of them with a lone brace before it.
    pub lone: u64,
    pub blocks: u64,
    pub behind: u64,
    pub lists: u64,
    pub links: u64,
    pub built: u64,
    pub deep: u64,
    pub over: u64,
    /// With an event on a line behind the first; and with a line on which none starts before one.
    pub later: u64,
    pub passed: u64,
    /// With a backslash straight behind a closing run.
    pub escaped: u64,
    pub lookups: u64,
    /// Packed lists that were damaged.
    pub damaged: u64,
}

/// How deep a list goes.
fn depth(events: &[Event]) -> usize {
    let mut open = 0;
    let mut deepest = 0;
    for e in events {
        open = (open + usize::from(enters(SUBSCRIPT, AUTOLINK).contains(&e[KIND]))).saturating_sub(usize::from(e[KIND] > EXIT));
        deepest = deepest.max(open);
    }
    deepest
}

/// Whether a math's dollars stand on a line, and its backticks on the next.
fn math_over(sheet: &Sheet, events: &[Event]) -> bool {
    let over = |e: &Event| {
        let next = sheet.ends.partition_point(|&end| end <= e[START] as usize);
        sheet.ends.get(next).is_some_and(|&end| end < e[END] as usize)
    };
    events.iter().any(|e| enters(INLINE_MATH, DISPLAY_MATH).contains(&e[KIND]) && over(e))
}

/// Whether a backslash stands straight behind a run that closes.
fn escapes_behind_a_run(sheet: &Sheet, events: &[Event]) -> bool {
    let behind = |e: &Event| (e[END] as usize) < sheet.ends[e[LINE] as usize] && sheet.text[e[END] as usize] == b'\\';
    events.iter().any(|e| (EXIT + VERBATIM..=EXIT + DISPLAY_MATH).contains(&e[KIND]) && behind(e))
}

/// Whether there is a line on which no event starts, before one that has an event.
fn passes_a_line(events: &[Event]) -> bool {
    let mut next = 0;
    events.iter().any(|e| e[LINE] > std::mem::replace(&mut next, e[LINE] + 1))
}

/// Whether an answer is as expected.
fn same<A: PartialEq + std::fmt::Debug>(expected: &A, answer: &A) -> Result<(), String> {
    if answer != expected {
        return Err(format!("{expected:?} is expected, the answer is {answer:?}"));
    }
    Ok(())
}

/// Whether line records are still those of a sheet.
fn kept(sheet: &Sheet, lines: &[Line]) -> Result<(), String> {
    if !lines.iter().map(|l| (l.start, l.end)).eq(sheet.lines()) {
        return Err("the lines are written to".to_string());
    }
    Ok(())
}

/// Calls the reader and the fragment, and sees that all is as expected.
pub struct Checker {
    rooms: Rooms,
    pub expect: Expect,
    /// The sheet before it is lent.
    before: Sheet,
    /// Its lines, as records.
    lines: Vec<Line>,
    /// How many calls there were, on records and on starts and ends.
    pub calls: [u64; 2],
    /// How many fragments were asked for, by code.
    pub fragments: [u64; code::OUTPUT_ROOM as usize + 1],
    laws: Laws,
    /// How many lendings of a sort there were, in each reading, and how many output rooms.
    turns: [[usize; 4]; 2],
    outputs: [usize; 2],
    pub sheets: u64,
    pub counts: [Counts; 2],
    pub packer: Packer,
    /// For the damage done to packed lists, and such a list.
    dice: Random,
    damaged: Vec<u8>,
}

impl Checker {
    pub fn new(seed: u64) -> Self {
        Checker {
            rooms: Rooms::new(seed),
            expect: Expect::new(),
            before: Sheet::default(),
            lines: Vec::new(),
            calls: [0; 2],
            fragments: [0; code::OUTPUT_ROOM as usize + 1],
            laws: Laws::default(),
            turns: [[0; 4]; 2],
            outputs: [0; 2],
            sheets: 0,
            counts: Default::default(),
            packer: Packer::new(seed),
            dice: Random::new(seed),
            damaged: Vec::new(),
        }
    }

    /// What was asked about, through all entries: the reader and the fragment on line records, if there are as many ends as starts, and the reader
    /// on starts and ends.
    pub fn call(&mut self, sheet: &Sheet, reading: u32, sizes: &Sizes) -> Result<Answer, String> {
        let expected = self.expect.answer(sheet, reading, sizes);
        self.before.copy(sheet);
        if sheet.starts.len() == sheet.ends.len() {
            let mut lines = std::mem::take(&mut self.lines);
            lines.clear();
            lines.extend(sheet.lines().map(|(start, end)| Line { start, end }));
            let fragment = self.expect.fragment_answer(&expected, sizes.out);
            let called = self.on_records(sheet, &lines, reading, sizes, &expected);
            let called = called.and_then(|()| self.fragment(sheet, &lines, reading, sizes, &fragment));
            self.lines = lines;
            called?;
        }
        let answer = ours::read(&sheet.text, &sheet.starts, &sheet.ends, reading, &mut self.rooms.lend(sizes));
        self.calls[1] += 1;
        same(&expected, &answer)?;
        self.rooms_as(sheet, expected.code, expected.labels)?;
        Ok(expected)
    }

    /// The reader on line records.
    fn on_records(&mut self, sheet: &Sheet, lines: &[Line], reading: u32, sizes: &Sizes, expected: &Answer) -> Result<(), String> {
        let answer = mivurakol::read(&sheet.text, lines, reading, &mut self.rooms.lend(sizes));
        self.calls[0] += 1;
        same(expected, &answer)
            .and_then(|()| kept(sheet, lines))
            .and_then(|()| self.rooms_as(sheet, expected.code, expected.labels))
            .map_err(|wrong| format!("on records: {wrong}"))
    }

    /// The fragment.
    fn fragment(&mut self, sheet: &Sheet, lines: &[Line], reading: u32, sizes: &Sizes, expected: &FragmentAnswer) -> Result<(), String> {
        let (mut rooms, out) = self.rooms.lend_output(sizes);
        let answer = mivurakol::fragment(&sheet.text, lines, reading, &mut rooms, out);
        self.fragments[expected.code as usize] += 1;
        same(expected, &answer)
            .and_then(|()| kept(sheet, lines))
            .and_then(|()| self.rooms_as(sheet, expected.code, expected.labels))
            .and_then(|()| self.output_as(sheet, expected))
            .map_err(|wrong| format!("of the fragment: {wrong}"))
    }

    /// Whether the sheet and the four rooms are as expected after a call with such an answer.
    fn rooms_as(&mut self, sheet: &Sheet, code: u32, labels: u32) -> Result<(), String> {
        if *sheet != self.before {
            return Err("the sheet is written to".to_string());
        }
        if code == code::ACCEPTED && !self.expect.same_text {
            for b in &mut self.rooms.labels.room_mut()[..labels as usize] {
                *b = ascii(*b);
            }
        }
        let rust = &self.expect.rust;
        self.rooms.wrong(code, &rust.events, &rust.labels).map_or(Ok(()), |wrong| Err(format!("{wrong} after {code}")))
    }

    /// Whether the output room is: the fragment, which keeps its laws, and zeros; or zeros alone.
    fn output_as(&self, sheet: &Sheet, expected: &FragmentAnswer) -> Result<(), String> {
        let accepted = expected.code == code::ACCEPTED;
        let fragment = if accepted { &self.expect.fragment[..] } else { b"" };
        if let Some(wrong) = self.rooms.wrong_output(fragment) {
            return Err(format!("{wrong} after {}", expected.code));
        }
        let written = &self.rooms.out.room()[..expected.length as usize];
        let broken = accepted.then(|| shown::broken(sheet, &self.expect.rust.events, written)).flatten();
        broken.map_or(Ok(()), |broken| Err(broken.to_string()))
    }

    /// The event room and the label room, as the last call left them.
    pub fn left(&self) -> (&[u32], &[u8]) {
        (self.rooms.events.room(), self.rooms.labels.room())
    }

    fn lend(&mut self, sheet: &Sheet, reading: u32, lending: &Lending) -> Result<(), String> {
        let sizes = self.expect.need.sizes(lending);
        let answer = self.call(sheet, lending.reading.unwrap_or(reading), &sizes)?;
        self.counts[reading as usize].answers[answer.code as usize] += 1;
        Ok(())
    }

    /// The laws, the label of each event with a home, and the packed list, after a call that was accepted.
    fn list(&mut self, sheet: &Sheet, reading: u32) -> Result<(), String> {
        let labels = self.rooms.labels.room();
        let counts = &mut self.counts[reading as usize];
        let events = &self.expect.rust.events;
        for &[kind, _, _, home, start, end, ..] in events {
            if home == home::NONE {
                continue;
            }
            let of = if home == home::TEXT { &sheet.text } else { labels };
            let expected = &of[start as usize..end as usize];
            if !std::ptr::eq(mivurakol::label(&sheet.text, labels, home, start, end), expected) {
                return Err(format!("the label at {home}, {start}..{end} differs"));
            }
            counts.lookups += 1;
            counts.links += u64::from(enters(REFERENCE_LINK, INLINE_IMAGE).contains(&kind));
        }
        counts.lists += 1;
        counts.built += u64::from(!labels.is_empty());
        counts.deep += u64::from(depth(events) >= 16);
        counts.over += u64::from(math_over(sheet, events));
        counts.later += u64::from(events.last().is_some_and(|e| e[LINE] > 0));
        counts.passed += u64::from(passes_a_line(events));
        counts.escaped += u64::from(escapes_behind_a_run(sheet, events));
        self.laws.broken(sheet, reading, events).map_or(Ok(()), Err)?;
        self.packed(reading)
    }

    /// The list, packed and unpacked; and a damaged copy of its bytes.
    fn packed(&mut self, reading: u32) -> Result<(), String> {
        let packer = &mut self.packer;
        if !packer.there_and_back(self.expect.rust.events.as_flattened())? {
            return Err("the list of a sheet has a flaw".to_string());
        }
        self.damaged.clone_from(&packer.packed);
        let damaged = &mut self.counts[reading as usize].damaged;
        *damaged += 1;
        damage(&mut self.dice, DAMAGES[*damaged as usize % DAMAGES.len()], &mut self.damaged);
        packer.back_and_there(&self.damaged).map_err(|wrong| format!("{wrong} of {:?}", self.damaged))?;
        Ok(())
    }

    fn count_braces(&mut self, reading: u32) {
        let counts = &mut self.counts[reading as usize];
        let lone = u64::from(!self.expect.rust.lone.is_empty());
        if self.expect.rust.brace.is_some() {
            counts.blocks += 1;
            counts.behind += lone;
        } else {
            counts.lone += lone;
        }
    }

    /// One sheet with one lending, and its list.
    fn once(&mut self, sheet: &Sheet, reading: u32, lending: &Lending) -> Result<(), String> {
        self.expect.ask(sheet, reading);
        self.lend(sheet, reading, lending)?;
        if self.expect.readable() {
            self.lend(sheet, reading, &SURE)?;
            self.list(sheet, reading)?;
        }
        Ok(())
    }

    /// The next lending of a sort, with the next output room.
    fn turn(&mut self, reading: u32, sort: Sort) -> Lending {
        let turn = &mut self.turns[reading as usize][sort as usize];
        *turn += 1;
        let some = sort.lendings();
        let lending = some[*turn % some.len()];
        Lending { out: self.output(reading), ..lending }
    }

    /// The next output room.
    fn output(&mut self, reading: u32) -> Size {
        let turn = &mut self.outputs[reading as usize];
        *turn += 1;
        OUTPUTS[*turn % OUTPUTS.len()]
    }

    /// One sheet in one reading, with the lending that is for every sheet and so many others. The lending that shows a difference.
    fn check(&mut self, sheet: &Sheet, reading: u32, turns: usize) -> Result<(), Lending> {
        self.expect.ask(sheet, reading);
        self.count_braces(reading);
        let sure = Lending { out: self.output(reading), ..SURE };
        self.lend(sheet, reading, &sure).map_err(|_| sure)?;
        if self.expect.readable() {
            self.list(sheet, reading).map_err(|_| sure)?;
        }
        for sort in Sort::of(&self.expect) {
            for _ in 0..turns {
                let lending = self.turn(reading, *sort);
                self.lend(sheet, reading, &lending).map_err(|_| lending)?;
            }
        }
        Ok(())
    }

    /// Whether a sheet is right in both readings; if not, the smallest one that is found near it is printed. The readings take turns in so many
    /// lendings that are not for every sheet.
    pub fn right(&mut self, sheet: &Sheet, turns: usize) -> bool {
        self.sheets += 1;
        for reading in 0..2 {
            let turns = if self.sheets % 2 == u64::from(reading) { turns } else { 0 };
            if let Err(lending) = self.check(sheet, reading, turns) {
                self.report(sheet, reading, &lending);
                return false;
            }
        }
        true
    }

    /// Tells of the smallest sheet near this one that differs too.
    fn report(&mut self, sheet: &Sheet, reading: u32, lending: &Lending) {
        let utf8 = sheet.characters().is_some();
        let mut least = sheet.clone();
        let started = Instant::now();
        loop {
            let mut near = least.smaller().take_while(|_| started.elapsed() < SEARCH);
            let less = near.find(|s| s.characters().is_some() == utf8 && self.once(s, reading, lending).is_err());
            drop(near);
            let Some(less) = less else {
                break;
            };
            least = less;
        }
        let wrong = self.once(&least, reading, lending).err().unwrap_or("only behind other calls".to_string());
        self.print(&least, lending.reading.unwrap_or(reading), &self.expect.need.sizes(lending), &wrong);
    }

    /// Tells of a difference.
    pub fn print(&self, sheet: &Sheet, reading: u32, sizes: &Sizes, wrong: &str) {
        println!("difference: {wrong}");
        println!("reading {reading}, {sizes:?}");
        if sheet.text.len() > 2000 || sheet.starts.len() > 200 {
            println!("a text of {} bytes, {} starts, {} ends", sheet.text.len(), sheet.starts.len(), sheet.ends.len());
            return;
        }
        println!("text {:?} ({:?})", String::from_utf8_lossy(&sheet.text), sheet.text);
        println!("starts {:?}, ends {:?}", sheet.starts, sheet.ends);
        let (events, labels) = self.left();
        let rust = &self.expect.rust;
        println!("the Rust: events {:?}, labels {:?}, a block at {:?}, lone braces at {:?}", rust.events, rust.labels, rust.brace, rust.lone);
        println!("ours: event room {events:?}, label room {labels:?}");
        println!("its fragment: {:?}", String::from_utf8_lossy(&self.expect.fragment));
        println!("ours: output room {:?}", String::from_utf8_lossy(self.rooms.out.room()));
    }
}
