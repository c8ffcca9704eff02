//! Measures packing and unpacking of the marked-up sheet's events beside a plain encoder and decoder in Rust (`plain.rs`), in megabytes of records a
//! second: medians of interleaved rounds. Both write into room that is lent, or a vector that has it already, so that no allocation is measured. Status 1
//! if ours is slower.

#[allow(dead_code)]
mod cases;
#[allow(dead_code)]
#[path = "../interface/mivurakol.rs"]
mod mivurakol;
mod plain;
mod timing;

use mivurakol::{code, packed_room, Event, Rooms, EVENT_NUMBERS, OPENER_NUMBERS, QUEUE_NUMBERS};
use std::hint::black_box;
use timing::{passes, quantile, timed, ROUNDS};

/// The events of the marked-up sheet.
fn events() -> Vec<Event> {
    let case = cases::marked_up();
    let [sheet] = &case.sheets[..] else {
        unreachable!("it is one sheet");
    };
    let (mut queue, mut openers) = (vec![0; QUEUE_NUMBERS * (2 * sheet.bytes + 1)], vec![0; OPENER_NUMBERS * sheet.bytes]);
    let (mut events, mut labels) = (vec![0; EVENT_NUMBERS * (sheet.bytes + 1)], vec![0; 4 * sheet.bytes]);
    let mut rooms = Rooms { events: &mut events, queue: &mut queue, openers: &mut openers, labels: &mut labels };
    let answer = mivurakol::read(case.text.as_bytes(), &sheet.lines, 0, &mut rooms);
    assert_eq!(answer.code, code::ACCEPTED, "the sheet is refused");
    events.as_chunks().0[..answer.events as usize].to_vec()
}

/// Measures a pass of the Rust and one of ours, of so many bytes of records, and prints a line. Whether ours is no slower.
fn measure(name: &str, bytes: usize, theirs: &mut dyn FnMut(), ours: &mut dyn FnMut()) -> bool {
    let counts = [passes(theirs), passes(ours)];
    let mut times = [const { Vec::new() }; 2];
    for round in 0..ROUNDS {
        for turn in 0..2 {
            let which = (round + turn) % 2;
            times[which].push(if which == 0 { timed(counts[0], theirs) } else { timed(counts[1], ours) });
        }
    }
    let ratios: Vec<f64> = times[1].iter().zip(&times[0]).map(|(ours, rust)| ours / rust).collect();
    let [rust, ours] = times.map(|t| quantile(&t, 0.5));
    let met = ours <= rust;
    // Bytes in a nanosecond are thousands of megabytes in a second.
    println!(
        "{name:20} {bytes:>7} {:>9.0} {:>8.0} {:>10.2}  {:.2}-{:.2}   the Rust: {}",
        1e3 * bytes as f64 / rust,
        1e3 * bytes as f64 / ours,
        ours / rust,
        quantile(&ratios, 0.25),
        quantile(&ratios, 0.75),
        if met { "met" } else { "MISSED" },
    );
    met
}

fn main() {
    let events = events();
    let numbers = events.as_flattened();
    let bytes = std::mem::size_of_val(numbers);
    let (mut packed, mut unpacked) = (Vec::new(), Vec::new());
    plain::pack(&events, &mut packed).expect("the list of a sheet has no flaw");
    let list = packed.clone();
    let mut out = vec![0; list.len()];
    let mut ample = vec![0; packed_room(events.len())];
    let mut room = vec![0; numbers.len()];
    let answer = mivurakol::pack(numbers, &mut out);
    assert!(answer.code == code::ACCEPTED && out == list, "the packed lists differ");
    let answer = mivurakol::unpack(&list, &mut room);
    plain::unpack(&list, &mut unpacked).expect("a list without a fault");
    assert!(answer.code == code::ACCEPTED && room == numbers && unpacked == events, "the events differ");

    println!("Medians of {ROUNDS} rounds: megabytes of records a second, and ratios of the times to the Rust's.");
    println!("case                    bytes      Rust     ours  ours/Rust  quartiles   ours at most");
    let mut met = measure(
        "m  packing",
        bytes,
        &mut || {
            plain::pack(black_box(&events), &mut packed).expect("no flaw");
            black_box(&packed);
        },
        &mut || {
            black_box(mivurakol::pack(black_box(numbers), &mut out));
            black_box(&out);
        },
    );
    met &= measure(
        "n  unpacking",
        bytes,
        &mut || {
            plain::unpack(black_box(&list), &mut unpacked).expect("no fault");
            black_box(&unpacked);
        },
        &mut || {
            black_box(mivurakol::unpack(black_box(&list), &mut room));
            black_box(&room);
        },
    );
    let cleared = timed(1000, &mut || {
        ample[list.len()..].fill(0);
        black_box(&ample);
    });
    let whole = timed(1000, &mut || {
        black_box(mivurakol::pack(black_box(numbers), &mut ample));
        black_box(&ample);
    });
    println!("m, in ample room: {:.0} MB/s; {:.0}% of it is the clearing behind the list", 1e3 * bytes as f64 / whole, 100.0 * cleared / whole);
    println!("{} events: {bytes} bytes of records, packed in {}, {:.1}%", events.len(), list.len(), 100.0 * list.len() as f64 / bytes as f64);
    if !met {
        std::process::exit(1);
    }
}
