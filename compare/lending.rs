//! How much room is lent for a sheet.

use crate::expect::Expect;
use crate::mivurakol::{EVENT_NUMBERS, OPENER_NUMBERS, QUEUE_NUMBERS};
use crate::model::Sizes;
use Size::{Bound, Half, Less, More, Nothing};

/// How much of a room is lent, beside what the sheet needs.
#[derive(Clone, Copy, Debug)]
pub enum Size {
    /// So many numbers more.
    More(usize),
    /// So many numbers less.
    Less(usize),
    Half,
    Nothing,
    /// What always suffices: of the event room N + 1 records, of the output room `fragment_room`.
    Bound,
}

impl Size {
    /// Where so much is needed, and so much always suffices.
    pub fn of(self, need: usize, bound: usize) -> usize {
        match self {
            More(n) => need + n,
            Less(n) => need.saturating_sub(n),
            Half => need / 2,
            Nothing => 0,
            Bound => bound,
        }
    }
}

/// What is lent, and the reading, if it is another.
#[derive(Clone, Copy, Debug)]
pub struct Lending {
    pub reading: Option<u32>,
    pub events: Size,
    pub queue: Size,
    pub openers: Size,
    pub labels: Size,
    /// Of a fragment's output room.
    pub out: Size,
}

const EXACT: Lending = Lending { reading: None, events: More(0), queue: More(0), openers: More(0), labels: More(0), out: More(0) };
const NOTHING: Lending = Lending { reading: None, events: Nothing, queue: Nothing, openers: Nothing, labels: Nothing, out: Nothing };

/// Lent for every sheet: with N + 1 event records it is never refused for event room.
pub const SURE: Lending = Lending { events: Bound, ..EXACT };

/// Lent in turn for any sheet.
const ANY: &[Lending] = &[
    EXACT,
    Lending { events: Less(1), ..EXACT },
    Lending { queue: Less(1), ..EXACT },
    Lending { openers: Less(1), ..SURE },
    Lending { events: More(3), queue: More(5), openers: More(1), labels: More(2), ..EXACT },
    Lending { events: Nothing, ..EXACT },
    Lending { queue: Nothing, ..SURE },
    Lending { openers: Nothing, ..EXACT },
    Lending { queue: Less(1), openers: Less(1), ..EXACT },
    Lending { events: More(EVENT_NUMBERS - 1), queue: More(QUEUE_NUMBERS - 1), openers: More(OPENER_NUMBERS - 1), labels: More(40), ..EXACT },
    Lending { events: Less(EVENT_NUMBERS), ..EXACT },
    Lending { queue: Less(QUEUE_NUMBERS), events: Nothing, ..EXACT },
    Lending { openers: Less(OPENER_NUMBERS), labels: Nothing, events: Nothing, ..EXACT },
    NOTHING,
    Lending { events: Half, ..EXACT },
    Lending { queue: Half, ..SURE },
    Lending { reading: Some(2), ..SURE },
    Lending { openers: Half, ..SURE },
    Lending { reading: Some(u32::MAX), ..NOTHING },
    Lending { events: More(10 * EVENT_NUMBERS), queue: More(10 * QUEUE_NUMBERS + 3), openers: More(10 * OPENER_NUMBERS + 2), labels: More(11), ..EXACT },
];

/// For sheets with labels in the label room.
const BUILT: &[Lending] = &[
    Lending { labels: Less(1), ..SURE },
    Lending { labels: Less(1), events: Less(1), ..EXACT },
    Lending { labels: More(1), ..EXACT },
    Lending { labels: Nothing, ..SURE },
    Lending { labels: Half, queue: More(3), openers: More(2), ..SURE },
    Lending { labels: Nothing, events: Nothing, ..EXACT },
    Lending { labels: Nothing, queue: Less(1), ..EXACT },
    Lending { labels: Less(1), openers: Less(1), ..EXACT },
    Lending { labels: More(1000), events: Less(EVENT_NUMBERS), ..EXACT },
    Lending { labels: Less(2), ..SURE },
];

/// For sheets that are refused at an attribute block.
const BRACED: &[Lending] = &[
    Lending { events: Nothing, labels: Nothing, ..EXACT },
    Lending { queue: Less(1), ..SURE },
    Lending { openers: Less(1), ..SURE },
    Lending { events: More(9), queue: More(6), openers: More(2), labels: More(33), ..EXACT },
    Lending {
        events: More(100 * EVENT_NUMBERS),
        queue: More(100 * QUEUE_NUMBERS + 1),
        openers: More(100 * OPENER_NUMBERS + 3),
        labels: More(70),
        ..EXACT
    },
    Lending { reading: Some(2), ..SURE },
];

/// For line lists that are none.
const UNFIT: &[Lending] = &[NOTHING, Lending { labels: More(5), ..SURE }, Lending { reading: Some(3), ..NOTHING }, EXACT];

/// Output rooms, which take turns of their own with all of these. Their number divides none of theirs, so that each lending meets each of them.
pub const OUTPUTS: &[Size] = &[More(0), Less(1), More(1), Nothing, Bound, Half, More(40)];

/// Sorts of sheets that lendings are for.
#[derive(Clone, Copy)]
pub enum Sort {
    Any,
    Built,
    Braced,
    Unfit,
}

impl Sort {
    /// The sorts of a sheet.
    pub fn of(expect: &Expect) -> &'static [Sort] {
        if expect.unfit.is_some() {
            &[Sort::Unfit]
        } else if expect.rust.brace.is_some() {
            &[Sort::Braced]
        } else if expect.rust.labels.is_empty() {
            &[Sort::Any]
        } else {
            &[Sort::Built, Sort::Any]
        }
    }

    pub fn lendings(self) -> &'static [Lending] {
        match self {
            Sort::Any => ANY,
            Sort::Built => BUILT,
            Sort::Braced => BRACED,
            Sort::Unfit => UNFIT,
        }
    }
}

/// Room for all that a sheet needs, counted in numbers and label bytes.
#[derive(Clone, Copy)]
pub struct Need {
    pub exact: Sizes,
    /// N + 1 event records, and the output room that always suffices.
    pub events: usize,
    pub out: usize,
}

impl Need {
    pub fn sizes(&self, lending: &Lending) -> Sizes {
        let Sizes { events, queue, openers, labels, out } = self.exact;
        Sizes {
            events: lending.events.of(events, self.events),
            queue: lending.queue.of(queue, queue),
            openers: lending.openers.of(openers, openers),
            labels: lending.labels.of(labels, labels),
            out: lending.out.of(out, self.out),
        }
    }
}
