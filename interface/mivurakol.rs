//! The reader, the fragment and the packed list for Rust: safe functions over the C interface of the
//! static libraries `libmivurakol.a`, for `fragment` alone `libmivurakol_html.a`, and for `pack` and
//! `unpack` alone `libmivurakol_packed.a`.
//! Any arguments will do, rooms of length 0 included. Its numbers have their names here.

/// Numbers in a record of the event room, of the queue room and of the opener room.
pub const EVENT_NUMBERS: usize = 8;
pub const QUEUE_NUMBERS: usize = 8;
pub const OPENER_NUMBERS: usize = 4;

/// The most bytes of a text, and the most lines.
pub const LARGEST: usize = 1_048_576;

/// Of a longer label room only so many bytes count.
pub const LABEL_LIMIT: usize = 4_294_967_295;

/// The longest run of backticks that opens or closes verbatim.
pub const LONGEST_RUN: usize = 255;

/// Of the program `./sheet`: the most bytes that it reads, and the bytes of its label room.
pub const PROGRAM_BYTES: usize = 1000;
pub const PROGRAM_LABELS: usize = 65_536;

/// Of the program `./unpack`: the most bytes that it reads.
pub const PROGRAM_LIST: usize = 65_536;

/// A record of the event room.
pub type Event = [u32; EVENT_NUMBERS];

/// Where the numbers of an event stand in its record: kind, span, home and the part of it, link
/// number, line. Those with no meaning are 0. The line is the index of the first one that ends after
/// the span's start; the exit of a verbatim that is left open has the last line's.
pub mod field {
    pub const KIND: usize = 0;
    pub const START: usize = 1;
    pub const END: usize = 2;
    pub const HOME: usize = 3;
    pub const HOME_START: usize = 4;
    pub const HOME_END: usize = 5;
    pub const LINK: usize = 6;
    pub const LINE: usize = 7;
}

/// The kinds that neither open nor close.
pub mod kind {
    pub const STR: u32 = 1;
    pub const SOFTBREAK: u32 = 2;
    pub const HARDBREAK: u32 = 3;
    pub const ESCAPE: u32 = 4;
    pub const NBSP: u32 = 5;
    pub const ELLIPSIS: u32 = 6;
    pub const EN_DASH: u32 = 7;
    pub const EM_DASH: u32 = 8;
    pub const LEFT_SINGLE_QUOTE: u32 = 9;
    pub const RIGHT_SINGLE_QUOTE: u32 = 10;
    pub const LEFT_DOUBLE_QUOTE: u32 = 11;
    pub const RIGHT_DOUBLE_QUOTE: u32 = 12;
    pub const SYMBOL: u32 = 13;
    pub const FOOTNOTE_REFERENCE: u32 = 14;
}

/// Container k is entered by an event of kind `ENTER` + k, and left by one of kind `EXIT` + k.
pub const ENTER: u32 = 32;
pub const EXIT: u32 = 64;

/// The containers, in the order of the source's `Container`. A span is never handed out.
pub mod container {
    pub const SPAN: u32 = 0;
    pub const SUBSCRIPT: u32 = 1;
    pub const SUPERSCRIPT: u32 = 2;
    pub const INSERT: u32 = 3;
    pub const DELETE: u32 = 4;
    pub const EMPHASIS: u32 = 5;
    pub const STRONG: u32 = 6;
    pub const MARK: u32 = 7;
    pub const VERBATIM: u32 = 8;
    pub const RAW_FORMAT: u32 = 9;
    pub const INLINE_MATH: u32 = 10;
    pub const DISPLAY_MATH: u32 = 11;
    pub const REFERENCE_LINK: u32 = 12;
    pub const REFERENCE_IMAGE: u32 = 13;
    pub const INLINE_LINK: u32 = 14;
    pub const INLINE_IMAGE: u32 = 15;
    pub const AUTOLINK: u32 = 16;
}

/// Where an event's symbol, footnote label, raw format, address or link label stands.
pub mod home {
    pub const NONE: u32 = 0;
    pub const TEXT: u32 = 1;
    /// The label room.
    pub const LABELS: u32 = 2;
}

/// The codes of an answer. N is the sum of the line lengths.
pub mod code {
    pub const ACCEPTED: u32 = 0;
    /// The reading is neither 0 nor 1.
    pub const READING: u32 = 1;
    /// The text or the line list is over `LARGEST`.
    pub const TOO_LARGE: u32 = 2;
    /// A line does not have start <= end <= text length.
    pub const OUTSIDE: u32 = 3;
    /// A line starts before the end of the one before.
    pub const EARLY: u32 = 4;
    /// The queue room has fewer than 2N + 1 records.
    pub const QUEUE_ROOM: u32 = 5;
    /// The opener room has fewer than N records.
    pub const OPENER_ROOM: u32 = 6;
    /// An attribute block stands outside verbatim. A brace at which none stands is Str.
    pub const BRACE: u32 = 7;
    /// The label room does not hold the labels.
    pub const LABEL_ROOM: u32 = 8;
    /// The event room does not hold the events; never for whoever lends N + 1 records.
    pub const EVENT_ROOM: u32 = 9;
    /// Of a fragment: it would have a link, an image, an autolink or a footnote reference.
    pub const LINKED: u32 = 10;
    /// Of a fragment: the output room is too short; never for whoever lends `fragment_room` bytes.
    pub const OUTPUT_ROOM: u32 = 11;
    /// Of a packed list: an event cannot be packed, or the bytes have a fault.
    pub const FAULTY: u32 = 12;
    /// Of a packed list: the room is too short; never for whoever lends `packed_room` bytes or
    /// `unpacked_room` events.
    pub const PACKED_ROOM: u32 = 13;
}

/// What is answered of a sheet. A refusal has events, labels and looks 0.
#[repr(C)]
#[derive(Clone, Copy, Debug, Default, PartialEq, Eq)]
pub struct Answer {
    /// One of `code`.
    pub code: u32,
    /// After `OUTSIDE` and `EARLY` a line's index, after `BRACE` a place in the text, else 0.
    pub place: u32,
    /// How many events stand in the event room.
    pub events: u32,
    /// How many bytes of labels stand in the label room.
    pub labels: u32,
    /// How long the search got: the opener records looked at for the newest that a token closes, from
    /// the newest back to that one, or all. At most N (N - 1) / 2, N being the sum of the line lengths.
    pub looks: u64,
}

/// What is answered of a fragment. A refusal has events, labels and length 0.
#[repr(C)]
#[derive(Clone, Copy, Debug, Default, PartialEq, Eq)]
pub struct FragmentAnswer {
    /// One of `code`.
    pub code: u32,
    /// As in `Answer`; after `LINKED` a place in the text.
    pub place: u32,
    /// How many events stand in the event room.
    pub events: u32,
    /// How many bytes of labels stand in the label room.
    pub labels: u32,
    /// How many bytes of the fragment stand in the output room.
    pub length: u32,
}

/// What is answered of a packed list. A refusal has count 0.
#[repr(C)]
#[derive(Clone, Copy, Debug, Default, PartialEq, Eq)]
pub struct PackedAnswer {
    /// One of `code`.
    pub code: u32,
    /// After `FAULTY` the index of an event in `pack`, of a byte in `unpack`; else 0.
    pub place: u64,
    /// How many bytes or events were written.
    pub count: u64,
}

/// So many bytes hold the packed list of so many events.
pub const fn packed_room(events: usize) -> usize {
    32 * events + 5
}

/// So many events are the most that so many bytes can hold.
pub const fn unpacked_room(bytes: usize) -> usize {
    bytes / 5
}

/// So many bytes of output room hold the fragment of any sheet with so many bytes in its lines.
pub const fn fragment_room(fed: usize) -> usize {
    5 * fed + 29 * (fed + 1)
}

/// A line of the text: from start to before end.
#[repr(C)]
#[derive(Clone, Copy, Debug, Default, PartialEq, Eq)]
pub struct Line {
    pub start: usize,
    pub end: usize,
}

/// What is lent for writing: records of `EVENT_NUMBERS`, `QUEUE_NUMBERS` and `OPENER_NUMBERS`
/// numbers, and bytes for labels.
pub struct Rooms<'a> {
    pub events: &'a mut [u32],
    pub queue: &'a mut [u32],
    pub openers: &'a mut [u32],
    pub labels: &'a mut [u8],
}

/// A part of the text or of the label room.
#[repr(C)]
struct Part {
    home: u32,
    start: usize,
    len: usize,
}

extern "C" {
    fn mivurakol_read(
        text: *const u8,
        text_len: usize,
        lines: *const Line,
        lines_len: usize,
        reading: u32,
        events: *mut u32,
        events_len: usize,
        queue: *mut u32,
        queue_len: usize,
        openers: *mut u32,
        openers_len: usize,
        labels: *mut u8,
        labels_len: usize,
    ) -> Answer;
    fn mivurakol_fragment(
        text: *const u8,
        text_len: usize,
        lines: *const Line,
        lines_len: usize,
        reading: u32,
        events: *mut u32,
        events_len: usize,
        queue: *mut u32,
        queue_len: usize,
        openers: *mut u32,
        openers_len: usize,
        labels: *mut u8,
        labels_len: usize,
        out: *mut u8,
        out_len: usize,
    ) -> FragmentAnswer;
    fn mivurakol_pack(events: *const u32, events_len: usize, out: *mut u8, out_len: usize) -> PackedAnswer;
    fn mivurakol_unpack(bytes: *const u8, bytes_len: usize, events: *mut u32, events_len: usize) -> PackedAnswer;
    fn mivurakol_label(text: *const u8, text_len: usize, labels: *const u8, labels_len: usize, home: u32, start: u32, end: u32) -> Part;
}

/// Reads a sheet: the lines of a text.
pub fn read(text: &[u8], lines: &[Line], reading: u32, rooms: &mut Rooms) -> Answer {
    let Rooms { events, queue, openers, labels } = rooms;
    // SAFETY: each pointer is that of a slice, with its length. The four that are written to are
    // borrowed mutably, so no two slices overlap where one of them is written to.
    unsafe {
        mivurakol_read(
            text.as_ptr(),
            text.len(),
            lines.as_ptr(),
            lines.len(),
            reading,
            events.as_mut_ptr(),
            events.len(),
            queue.as_mut_ptr(),
            queue.len(),
            openers.as_mut_ptr(),
            openers.len(),
            labels.as_mut_ptr(),
            labels.len(),
        )
    }
}

/// Reads a sheet, as `read`, and writes its fragment of HTML from the front of the output room, with
/// zeros behind it. After a refusal the output room is zero.
pub fn fragment(text: &[u8], lines: &[Line], reading: u32, rooms: &mut Rooms, out: &mut [u8]) -> FragmentAnswer {
    let Rooms { events, queue, openers, labels } = rooms;
    // SAFETY: as above, with a fifth slice that is written to.
    unsafe {
        mivurakol_fragment(
            text.as_ptr(),
            text.len(),
            lines.as_ptr(),
            lines.len(),
            reading,
            events.as_mut_ptr(),
            events.len(),
            queue.as_mut_ptr(),
            queue.len(),
            openers.as_mut_ptr(),
            openers.len(),
            labels.as_mut_ptr(),
            labels.len(),
            out.as_mut_ptr(),
            out.len(),
        )
    }
}

/// Packs the whole records of a list of events from the front of the output room, with zeros behind
/// the bytes. After a refusal the output room is zero. Events that `read` handed out have no fault.
pub fn pack(events: &[u32], out: &mut [u8]) -> PackedAnswer {
    // SAFETY: as above; the one that is written to is borrowed mutably.
    unsafe { mivurakol_pack(events.as_ptr(), events.len(), out.as_mut_ptr(), out.len()) }
}

/// Unpacks a list from the front of the event room, with zeros behind the events. After a refusal
/// the event room is zero.
pub fn unpack(bytes: &[u8], events: &mut [u32]) -> PackedAnswer {
    // SAFETY: as above.
    unsafe { mivurakol_unpack(bytes.as_ptr(), bytes.len(), events.as_mut_ptr(), events.len()) }
}

/// The bytes of an event's home, from the text or from the label room; an impossible home or range
/// gives an empty part of the text.
pub fn label<'a>(text: &'a [u8], labels: &'a [u8], home: u32, start: u32, end: u32) -> &'a [u8] {
    // SAFETY: as above; nothing is written to.
    let part = unsafe { mivurakol_label(text.as_ptr(), text.len(), labels.as_ptr(), labels.len(), home, start, end) };
    let of = if part.home == home::LABELS { labels } else { text };
    &of[part.start..part.start + part.len]
}
