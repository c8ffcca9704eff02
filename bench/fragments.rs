//! Fragments: what is measured of them in the place of events.

use crate::cases::{Case, Sheet};
use crate::mivurakol::{code, fragment, fragment_room, FragmentAnswer};
use crate::{html, parser, Rooms};
use std::hint::black_box;

/// The cases with output room that always suffices; the others have room of exact length.
pub const AMPLE_CELLS: &str = "e  in ample room";
pub const AMPLE_SHEET: &str = "f  in ample room";

pub fn theirs(case: &Case) {
    for sheet in &case.sheets {
        black_box(html::render(&case.text, parser(&case.text, sheet)));
    }
}

fn write<'r>(case: &Case, sheet: &Sheet, rooms: &'r mut Rooms, out: &'r mut [u8]) -> (FragmentAnswer, &'r [u8]) {
    let out = &mut out[..sheet.out];
    let answer = fragment(case.text.as_bytes(), &sheet.lines, 0, &mut rooms.front(sheet.bytes, sheet.labels), out);
    (answer, &out[..answer.length as usize])
}

pub fn ours(case: &Case, rooms: &mut Rooms) {
    let mut out = std::mem::take(&mut rooms.out);
    for sheet in &case.sheets {
        black_box(write(case, sheet, rooms, &mut out));
    }
    rooms.out = out;
}

/// The four rooms, and of the output room what is behind the fragment.
pub fn clear(case: &Case, rooms: &mut Rooms) {
    let mut out = std::mem::take(&mut rooms.out);
    for sheet in &case.sheets {
        let front = rooms.front(sheet.bytes, sheet.labels);
        for room in [front.events, front.queue, front.openers] {
            room.fill(0);
            black_box(room);
        }
        for room in [front.labels, &mut out[sheet.length..sheet.out]] {
            room.fill(0);
            black_box(room);
        }
    }
    rooms.out = out;
}

/// The label bytes and the output room that each sheet needs. Ours must be the Rust's.
pub fn prepare(case: &mut Case, rooms: &mut Rooms) {
    let mut sheets = std::mem::take(&mut case.sheets);
    rooms.out = vec![0; sheets.iter().map(|sheet| fragment_room(sheet.bytes)).max().unwrap_or(0)];
    let mut out = std::mem::take(&mut rooms.out);
    for sheet in &mut sheets {
        sheet.labels = rooms.labels.len();
        sheet.out = fragment_room(sheet.bytes);
        let (answer, fragment) = write(case, sheet, rooms, &mut out);
        assert_eq!(answer.code, code::ACCEPTED, "{}: refused", case.name);
        assert_eq!(fragment, html::render(&case.text, parser(&case.text, sheet)).as_bytes(), "{}: the fragments differ", case.name);
        sheet.labels = answer.labels as usize;
        sheet.length = answer.length as usize;
        if ![AMPLE_CELLS, AMPLE_SHEET].contains(&case.name) {
            sheet.out = sheet.length;
        }
    }
    rooms.out = out;
    case.sheets = sheets;
}
