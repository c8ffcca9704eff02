//! A call of the reader for each sheet of one case, for callgrind. Prints the case's name and its bytes.

#[allow(dead_code)]
mod cases;
#[allow(dead_code)]
mod mivurakol {
    include!(env!("READER_RS"));
}

use cases::Case;
use mivurakol::{code, Rooms, EVENT_NUMBERS, OPENER_NUMBERS, QUEUE_NUMBERS};

const CASES: [fn() -> Case; 5] = [cases::cells, cases::marked_up, cases::prose, cases::openers, cases::searches];

fn main() {
    let which = std::env::args().nth(1).and_then(|word| word.parse::<usize>().ok());
    let Some(case) = which.and_then(|which| CASES.get(which)).map(|case| case()) else {
        eprintln!("count: a case is a number below {}", CASES.len());
        std::process::exit(1);
    };
    let most = case.sheets.iter().map(|sheet| sheet.bytes).max().unwrap_or(0);
    let mut events = vec![0; EVENT_NUMBERS * (most + 1)];
    let mut queue = vec![0; QUEUE_NUMBERS * (2 * most + 1)];
    let mut openers = vec![0; OPENER_NUMBERS * most];
    let mut labels = vec![0; 4 * most];
    for sheet in &case.sheets {
        let n = sheet.bytes;
        let mut rooms = Rooms {
            events: &mut events[..EVENT_NUMBERS * (n + 1)],
            queue: &mut queue[..QUEUE_NUMBERS * (2 * n + 1)],
            openers: &mut openers[..OPENER_NUMBERS * n],
            labels: &mut labels,
        };
        let answer = mivurakol::read(case.text.as_bytes(), &sheet.lines, 0, &mut rooms);
        assert_eq!(answer.code, code::ACCEPTED, "{}: refused", case.name);
    }
    println!("{}\t{}", case.name, case.sheets.iter().map(|sheet| sheet.bytes).sum::<usize>());
}
