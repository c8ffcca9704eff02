//! Measures the reader beside the Rust (`inline.rs`, `lex.rs` and `attr.rs` of the documents, as they stand) and beside a plain clear of the
//! same rooms: medians of interleaved rounds, in nanoseconds for a byte and as ratios to the Rust. Status 1 if a bar is missed.
//! With `--cfg fragments` it is another program, which measures fragments, and with `--cfg braces` a third, which measures lone braces: in one program
//! each would be measured with the others' code beside it.

#[allow(dead_code, unused_imports)]
mod attr {
    include!(env!("ATTR_RS"));
}
#[allow(dead_code)]
mod inline {
    include!(env!("INLINE_RS"));
}
#[allow(dead_code)]
mod lex {
    include!(env!("LEX_RS"));
}
type CowStr<'s> = std::borrow::Cow<'s, str>;

#[cfg_attr(any(fragments, braces), allow(dead_code))]
mod cases;
#[cfg(fragments)]
mod fragments;
#[cfg(fragments)]
mod html;
#[allow(dead_code)]
#[path = "../interface/mivurakol.rs"]
mod mivurakol;
mod timing;

use cases::{Case, Sheet};
#[cfg(fragments)]
use fragments::{clear, ours, prepare, theirs, AMPLE_CELLS, AMPLE_SHEET};
#[cfg(not(fragments))]
use mivurakol::field::{END, START};
#[cfg(not(fragments))]
use mivurakol::{code, Event};
use mivurakol::{EVENT_NUMBERS, OPENER_NUMBERS, QUEUE_NUMBERS};
#[cfg(not(fragments))]
use std::hint::black_box;
use timing::{passes, quantile, timed, ROUNDS};

/// Rooms for the largest sheet of a case.
struct Rooms {
    events: Vec<u32>,
    queue: Vec<u32>,
    openers: Vec<u32>,
    labels: Vec<u8>,
    #[cfg(fragments)]
    out: Vec<u8>,
}

impl Rooms {
    fn new(bytes: usize) -> Self {
        Rooms {
            events: vec![0; EVENT_NUMBERS * (bytes + 1)],
            queue: vec![0; QUEUE_NUMBERS * (2 * bytes + 1)],
            openers: vec![0; OPENER_NUMBERS * bytes],
            labels: vec![0; 4 * bytes],
            #[cfg(fragments)]
            out: Vec::new(),
        }
    }

    /// Of these, what a sheet of so many bytes needs, and no more.
    fn front(&mut self, bytes: usize, labels: usize) -> mivurakol::Rooms<'_> {
        mivurakol::Rooms {
            events: &mut self.events[..EVENT_NUMBERS * (bytes + 1)],
            queue: &mut self.queue[..QUEUE_NUMBERS * (2 * bytes + 1)],
            openers: &mut self.openers[..OPENER_NUMBERS * bytes],
            labels: &mut self.labels[..labels],
        }
    }
}

fn parser<'t>(text: &'t str, sheet: &Sheet) -> inline::Parser<'t> {
    let mut parser = inline::Parser::new(text);
    let last = sheet.lines.len() - 1;
    for (i, line) in sheet.lines.iter().enumerate() {
        parser.feed_line(line.start..line.end, i == last);
    }
    parser
}

#[cfg(not(fragments))]
fn theirs(case: &Case) {
    for sheet in &case.sheets {
        for event in parser(&case.text, sheet) {
            black_box(&event);
        }
    }
}

#[cfg(not(fragments))]
fn read<'r>(case: &Case, sheet: &Sheet, front: &'r mut mivurakol::Rooms) -> (mivurakol::Answer, &'r [Event]) {
    let answer = mivurakol::read(case.text.as_bytes(), &sheet.lines, 0, front);
    (answer, &front.events.as_chunks().0[..answer.events as usize])
}

#[cfg(not(fragments))]
fn ours(case: &Case, rooms: &mut Rooms) {
    for sheet in &case.sheets {
        for event in read(case, sheet, &mut rooms.front(sheet.bytes, sheet.labels)).1 {
            black_box(event);
        }
    }
}

#[cfg(not(fragments))]
fn clear(case: &Case, rooms: &mut Rooms) {
    for sheet in &case.sheets {
        let front = rooms.front(sheet.bytes, sheet.labels);
        for room in [front.events, front.queue, front.openers] {
            room.fill(0);
            black_box(room);
        }
        front.labels.fill(0);
        black_box(front.labels);
    }
}

/// The label bytes that each sheet needs. Ours and the Rust's events must have the same spans.
#[cfg(not(fragments))]
fn label_bytes(case: &Case, rooms: &mut Rooms) -> Vec<usize> {
    let of = |sheet: &Sheet| {
        let room = rooms.labels.len();
        let mut front = rooms.front(sheet.bytes, room);
        let (answer, events) = read(case, sheet, &mut front);
        assert_eq!(answer.code, code::ACCEPTED, "{}: refused", case.name);
        let spans = events.iter().map(|e| e[START] as usize..e[END] as usize);
        assert!(spans.eq(parser(&case.text, sheet).map(|e| e.span)), "{}: the events differ", case.name);
        answer.labels as usize
    };
    case.sheets.iter().map(of).collect()
}

#[cfg(not(fragments))]
fn prepare(case: &mut Case, rooms: &mut Rooms) {
    let labels = label_bytes(case, rooms);
    case.sheets.iter_mut().zip(labels).for_each(|(sheet, bytes)| sheet.labels = bytes);
}

/// What a bar allows ours, by what the Rust and the clearing take.
type Bar = (&'static str, fn(f64, f64) -> f64);

#[cfg(not(braces))]
const HALF: Bar = ("half of the Rust", |rust, _| rust / 2.0);
const WITH_CLEARING: Bar = ("the Rust and the clearing", |rust, clear| rust + clear);
#[cfg(not(any(fragments, braces)))]
const NO_SLOWER: Bar = ("the Rust", |rust, _| rust);
#[cfg(fragments)]
const NONE: Bar = ("anything", |_, _| f64::INFINITY);

/// The times of a pass of the Rust, of ours and of the clear, in each round.
fn times_of(case: &Case, rooms: &mut Rooms) -> [Vec<f64>; 3] {
    let counts = [passes(&mut || theirs(case)), passes(&mut || ours(case, rooms)), passes(&mut || clear(case, rooms))];
    let mut times = [const { Vec::new() }; 3];
    for round in 0..ROUNDS {
        for turn in 0..3 {
            let which = (round + turn) % 3;
            times[which].push(match which {
                0 => timed(counts[0], &mut || theirs(case)),
                1 => timed(counts[1], &mut || ours(case, rooms)),
                _ => timed(counts[2], &mut || clear(case, rooms)),
            });
        }
    }
    times
}

/// Measures a case and prints its line. Whether it is within its bar.
fn measure(mut case: Case, bar: Bar) -> bool {
    let mut rooms = Rooms::new(case.sheets.iter().map(|sheet| sheet.bytes).max().unwrap_or(0));
    prepare(&mut case, &mut rooms);
    let times = times_of(&case, &mut rooms);
    let ratios: Vec<f64> = times[1].iter().zip(&times[0]).map(|(ours, rust)| ours / rust).collect();
    let [rust, ours, clear] = times.map(|t| quantile(&t, 0.5));
    let bytes: usize = case.sheets.iter().map(|sheet| sheet.bytes).sum();
    let each = |t: f64| t / bytes as f64;
    let met = ours <= bar.1(rust, clear);
    println!(
        "{:20} {:>6} {:>9.2} {:>8.2} {:>9.2} {:>10.2}  {:.2}-{:.2} {:>11.2} {:>8.0}%   {}: {}",
        case.name,
        bytes,
        each(rust),
        each(ours),
        each(clear),
        ours / rust,
        quantile(&ratios, 0.25),
        quantile(&ratios, 0.75),
        (ours - clear) / rust,
        100.0 * clear / ours,
        bar.0,
        if met { "met" } else { "MISSED" },
    );
    met
}

#[cfg(not(any(fragments, braces)))]
fn all() -> bool {
    println!("Medians of {ROUNDS} rounds: nanoseconds for a byte, and ratios to the Rust.");
    println!("case                  bytes      Rust     ours  clearing  ours/Rust  quartiles  without it  clearing   ours at most");
    let mut met = true;
    for (case, bar) in [
        (cases::cells(), HALF),
        (cases::marked_up(), WITH_CLEARING),
        (cases::prose(), WITH_CLEARING),
        (cases::openers(), NO_SLOWER),
        (cases::searches(), NO_SLOWER),
    ] {
        met &= measure(case, bar);
    }
    met
}

/// Below the first program's lines, and so the next. In ample room there is no bar.
#[cfg(fragments)]
fn all() -> bool {
    let mut met = true;
    for (case, bar) in [
        (cases::shown_cells("e  cells in HTML"), HALF),
        (cases::shown_cells(AMPLE_CELLS), NONE),
        (cases::shown("f  marked up in HTML"), WITH_CLEARING),
        (cases::shown(AMPLE_SHEET), NONE),
    ] {
        met &= measure(case, bar);
    }
    met
}

/// The last text has three sizes: the time for a byte is the same in each if the work is linear.
#[cfg(braces)]
fn all() -> bool {
    let mut met = true;
    for case in cases::braces() {
        met &= measure(case, WITH_CLEARING);
    }
    met
}

fn main() {
    if !all() {
        std::process::exit(1);
    }
}
