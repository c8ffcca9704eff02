//! The reader of this tree beside another's: nanoseconds for a byte, medians of rounds in which both take turns, and a plain clear of both's rooms.

#[allow(dead_code)]
mod cases;
#[allow(dead_code)]
#[path = "../interface/mivurakol.rs"]
mod mivurakol;
#[allow(dead_code)]
mod other {
    include!(env!("OTHER_RS"));
}
#[allow(dead_code)]
mod timing;

use cases::{Case, Sheet};
use std::hint::black_box;
use timing::{passes, quantile, timed, ROUNDS};

// Moves all that is linked behind this program.
std::arch::global_asm!(concat!(".section .text.place,\"axR\",@progbits\n.skip ", env!("PLACE"), ", 0x90\n.text"));

/// Rooms for the largest sheet of a case, in records of the wider sort.
struct Rooms {
    events: Vec<u32>,
    queue: Vec<u32>,
    openers: Vec<u32>,
    labels: Vec<u8>,
}

/// A reader: the rooms of a sheet, cleared, and a pass over a case.
macro_rules! reader {
    ($name:ident, $of:ident) => {
        mod $name {
            use super::*;

            fn front<'r>(rooms: &'r mut Rooms, bytes: usize, labels: usize) -> $of::Rooms<'r> {
                $of::Rooms {
                    events: &mut rooms.events[..$of::EVENT_NUMBERS * (bytes + 1)],
                    queue: &mut rooms.queue[..$of::QUEUE_NUMBERS * (2 * bytes + 1)],
                    openers: &mut rooms.openers[..$of::OPENER_NUMBERS * bytes],
                    labels: &mut rooms.labels[..labels],
                }
            }

            pub fn read(case: &Case, sheet: &Sheet, lines: &[$of::Line], labels: usize, rooms: &mut Rooms) -> usize {
                let mut front = front(rooms, sheet.bytes, labels);
                let answer = $of::read(case.text.as_bytes(), lines, 0, &mut front);
                assert_eq!(answer.code, $of::code::ACCEPTED, "{}: refused", case.name);
                let events = answer.events as usize;
                for event in front.events[..$of::EVENT_NUMBERS * events].chunks_exact($of::EVENT_NUMBERS) {
                    black_box(event);
                }
                answer.labels as usize
            }

            pub fn lines(case: &Case) -> Vec<Vec<$of::Line>> {
                let line = |l: &mivurakol::Line| $of::Line { start: l.start, end: l.end };
                case.sheets.iter().map(|sheet| sheet.lines.iter().map(line).collect()).collect()
            }

            pub fn pass(case: &Case, lines: &[Vec<$of::Line>], rooms: &mut Rooms) {
                for (sheet, lines) in case.sheets.iter().zip(lines) {
                    read(case, sheet, lines, sheet.labels, rooms);
                }
            }

            pub fn clear(case: &Case, rooms: &mut Rooms) {
                for sheet in &case.sheets {
                    let front = front(rooms, sheet.bytes, sheet.labels);
                    for room in [front.events, front.queue, front.openers] {
                        room.fill(0);
                        black_box(room);
                    }
                    front.labels.fill(0);
                    black_box(front.labels);
                }
            }
        }
    };
}

reader!(before, other);
reader!(now, mivurakol);

/// Measures a case and prints its line.
fn measure(mut case: Case) {
    let most = case.sheets.iter().map(|sheet| sheet.bytes).max().unwrap_or(0);
    let mut rooms = Rooms {
        events: vec![0; mivurakol::EVENT_NUMBERS.max(other::EVENT_NUMBERS) * (most + 1)],
        queue: vec![0; mivurakol::QUEUE_NUMBERS.max(other::QUEUE_NUMBERS) * (2 * most + 1)],
        openers: vec![0; mivurakol::OPENER_NUMBERS.max(other::OPENER_NUMBERS) * most],
        labels: vec![0; 4 * most],
    };
    let rooms = &mut rooms;
    let (theirs, ours) = (before::lines(&case), now::lines(&case));
    let labels: Vec<usize> = case.sheets.iter().zip(&ours).map(|(sheet, lines)| now::read(&case, sheet, lines, 4 * most, rooms)).collect();
    case.sheets.iter_mut().zip(labels).for_each(|(sheet, labels)| sheet.labels = labels);
    let counts = [passes(&mut || now::pass(&case, &ours, rooms)), passes(&mut || now::clear(&case, rooms))];
    let mut times = [const { Vec::new() }; 4];
    for round in 0..ROUNDS {
        for turn in 0..4 {
            let which = (round + turn) % 4;
            times[which].push(match which {
                0 => timed(counts[0], &mut || before::pass(&case, &theirs, rooms)),
                1 => timed(counts[0], &mut || now::pass(&case, &ours, rooms)),
                2 => timed(counts[1], &mut || before::clear(&case, rooms)),
                _ => timed(counts[1], &mut || now::clear(&case, rooms)),
            });
        }
    }
    let ratios: Vec<f64> = times[1].iter().zip(&times[0]).map(|(now, before)| now / before).collect();
    let bytes: usize = case.sheets.iter().map(|sheet| sheet.bytes).sum();
    let [before, now, before_clear, now_clear] = times.map(|t| quantile(&t, 0.5) / bytes as f64);
    println!(
        "{:20} {:>6} {:>9.2} {:>8.2} {:>8.3}  {:.3}-{:.3} {:>8.2} {:>7.2} {:>11.3}",
        case.name,
        bytes,
        before,
        now,
        quantile(&ratios, 0.5),
        quantile(&ratios, 0.25),
        quantile(&ratios, 0.75),
        before_clear,
        now_clear,
        (now - (now_clear - before_clear)) / before,
    );
}

fn main() {
    println!("case                  bytes    before      now    ratio    quartiles  clearing of both  told apart");
    for case in [cases::cells(), cases::marked_up(), cases::prose(), cases::openers(), cases::searches()] {
        measure(case);
    }
}
