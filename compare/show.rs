//! What the programs must print of standard input: `./sheet`, `./fragment` and `./pack` by the Rust, `./unpack` by document 02.

use crate::expect::Expect;
use crate::mivurakol::{
    code, fragment_room, unpacked_room, Answer, Event, EVENT_NUMBERS, OPENER_NUMBERS, PROGRAM_BYTES, PROGRAM_LABELS, PROGRAM_LIST, QUEUE_NUMBERS,
};
use crate::model::Sizes;
use crate::packed;
use crate::sheet::Sheet;
use std::io::{Read, Write};

/// The rooms of the programs.
const ROOMS: Sizes = Sizes {
    events: EVENT_NUMBERS * (PROGRAM_BYTES + 1),
    queue: QUEUE_NUMBERS * (2 * PROGRAM_BYTES + 1),
    openers: OPENER_NUMBERS * PROGRAM_BYTES,
    labels: PROGRAM_LABELS,
    out: fragment_room(PROGRAM_BYTES),
};

/// Standard input, of so many bytes at most.
fn bytes(most: usize) -> Result<Vec<u8>, String> {
    let mut bytes = Vec::new();
    std::io::stdin().read_to_end(&mut bytes).expect("standard input");
    if bytes.len() > most {
        return Err(format!("input over {most} bytes"));
    }
    Ok(bytes)
}

/// The sheet of standard input, each line with its newline, and what is expected of it.
fn input() -> Result<(Expect, Answer), String> {
    let text = bytes(PROGRAM_BYTES)?;
    let sheet = Sheet::by_newline(&text);
    let mut expect = Expect::new();
    expect.ask(&sheet, 0);
    let answer = expect.answer(&sheet, 0, &ROOMS);
    Ok((expect, answer))
}

/// A line each.
fn print_events(events: &[Event]) {
    for e in events {
        println!("{}", e.map(|n| n.to_string()).join(" "));
    }
}

/// Of `./sheet`: the events, and the answer.
pub fn print() {
    match input() {
        Err(over) => println!("{over}"),
        Ok((expect, answer)) => {
            print_events(&expect.rust.events[..answer.events as usize]);
            println!("{} {} {} {} {}", answer.code, answer.place, answer.events, answer.labels, answer.looks);
        }
    }
}

/// Why a fragment or a packed list is refused. The program gives its rooms and lines itself, so that there is no other reason.
fn reason(code: u32) -> &'static str {
    match code {
        code::BRACE => "an attribute block",
        code::LABEL_ROOM => "the labels are too long",
        code::LINKED => "a link, an image, an autolink or a footnote reference",
        _ => "not by a sheet that the program reads",
    }
}

/// Of `./fragment`: the fragment alone; or, of a sheet that is refused, a line of standard error that begins with code and place.
pub fn print_fragment() {
    let (expect, read) = match input() {
        Err(over) => return eprintln!("{over}"),
        Ok(asked) => asked,
    };
    let answer = expect.fragment_answer(&read, ROOMS.out);
    if answer.code == code::ACCEPTED {
        std::io::stdout().write_all(&expect.fragment).expect("standard output");
    } else {
        eprintln!("refused {} at {}: {}", answer.code, answer.place, reason(answer.code));
    }
}

/// Of `./pack`: the packed list alone; or as of a fragment.
pub fn print_packed() {
    let (expect, read) = match input() {
        Err(over) => return eprintln!("{over}"),
        Ok(asked) => asked,
    };
    if read.code != code::ACCEPTED {
        return eprintln!("refused {} at {}: {}", read.code, read.place, reason(read.code));
    }
    let mut packed = Vec::new();
    packed::pack(&expect.rust.events, &mut packed).expect("the list of a sheet has no flaw");
    std::io::stdout().write_all(&packed).expect("standard output");
}

/// Of `./unpack`: the events, and the answer. Of a faulty list the answer, and a line of standard error that begins with code and place.
pub fn print_unpacked() {
    let list = match bytes(PROGRAM_LIST) {
        Err(over) => return eprintln!("{over}"),
        Ok(list) => list,
    };
    let mut events = Vec::new();
    let read = packed::unpack(&list, &mut events);
    let answer = packed::unpack_answer(read, events.len(), EVENT_NUMBERS * unpacked_room(PROGRAM_LIST));
    match read {
        Ok(()) => print_events(&events),
        Err((fault, place)) => eprintln!("refused {} at {place}: {fault:?}", answer.code),
    }
    println!("{} {} {}", answer.code, answer.place, answer.count);
}
