/* The reader of Djot inline text, the fragment of HTML that is written of what it reads, and the
 * packed list of its events, from C: the static libraries of crates/mivurakol, for
 * mivurakol_fragment alone crates/mivurakol_html, and for mivurakol_pack and mivurakol_unpack
 * alone crates/mivurakol_packed.
 *
 * No pointer may be null, also for a length of 0. The rooms lie apart from one another and from the
 * text and the lines. Any lengths and any contents are answered; nothing outside the rooms is
 * written, and nothing is kept after the call.
 */
#ifndef MIVURAKOL_H
#define MIVURAKOL_H

#include <stddef.h>
#include <stdint.h>

#ifdef __cplusplus
extern "C" {
#endif

/* Numbers in a record of the event room, of the queue room and of the opener room. */
#define MIVURAKOL_EVENT_NUMBERS 8
#define MIVURAKOL_QUEUE_NUMBERS 8
#define MIVURAKOL_OPENER_NUMBERS 4

/* The most bytes of a text, and the most lines. */
#define MIVURAKOL_LARGEST 1048576

/* Of a longer label room only so many bytes count. */
#define MIVURAKOL_LABEL_LIMIT 4294967295u

/* The longest run of backticks that opens or closes verbatim. */
#define MIVURAKOL_LONGEST_RUN 255

/* Where the numbers of an event stand in its record: kind, span, home and the part of it, link
 * number, line. Those with no meaning are 0. The line is the index of the first one that ends after
 * the span's start; the exit of a verbatim that is left open has the last line's. */
#define MIVURAKOL_FIELD_KIND 0
#define MIVURAKOL_FIELD_START 1
#define MIVURAKOL_FIELD_END 2
#define MIVURAKOL_FIELD_HOME 3
#define MIVURAKOL_FIELD_HOME_START 4
#define MIVURAKOL_FIELD_HOME_END 5
#define MIVURAKOL_FIELD_LINK 6
#define MIVURAKOL_FIELD_LINE 7

/* The kinds that neither open nor close. */
#define MIVURAKOL_KIND_STR 1
#define MIVURAKOL_KIND_SOFTBREAK 2
#define MIVURAKOL_KIND_HARDBREAK 3
#define MIVURAKOL_KIND_ESCAPE 4
#define MIVURAKOL_KIND_NBSP 5
#define MIVURAKOL_KIND_ELLIPSIS 6
#define MIVURAKOL_KIND_EN_DASH 7
#define MIVURAKOL_KIND_EM_DASH 8
#define MIVURAKOL_KIND_LEFT_SINGLE_QUOTE 9
#define MIVURAKOL_KIND_RIGHT_SINGLE_QUOTE 10
#define MIVURAKOL_KIND_LEFT_DOUBLE_QUOTE 11
#define MIVURAKOL_KIND_RIGHT_DOUBLE_QUOTE 12
#define MIVURAKOL_KIND_SYMBOL 13
#define MIVURAKOL_KIND_FOOTNOTE_REFERENCE 14

/* Container k is entered by an event of kind MIVURAKOL_ENTER + k, and left by one of kind
 * MIVURAKOL_EXIT + k. */
#define MIVURAKOL_ENTER 32
#define MIVURAKOL_EXIT 64

/* The containers, in the order of the source's `Container`. A span is never handed out. */
#define MIVURAKOL_CONTAINER_SPAN 0
#define MIVURAKOL_CONTAINER_SUBSCRIPT 1
#define MIVURAKOL_CONTAINER_SUPERSCRIPT 2
#define MIVURAKOL_CONTAINER_INSERT 3
#define MIVURAKOL_CONTAINER_DELETE 4
#define MIVURAKOL_CONTAINER_EMPHASIS 5
#define MIVURAKOL_CONTAINER_STRONG 6
#define MIVURAKOL_CONTAINER_MARK 7
#define MIVURAKOL_CONTAINER_VERBATIM 8
#define MIVURAKOL_CONTAINER_RAW_FORMAT 9
#define MIVURAKOL_CONTAINER_INLINE_MATH 10
#define MIVURAKOL_CONTAINER_DISPLAY_MATH 11
#define MIVURAKOL_CONTAINER_REFERENCE_LINK 12
#define MIVURAKOL_CONTAINER_REFERENCE_IMAGE 13
#define MIVURAKOL_CONTAINER_INLINE_LINK 14
#define MIVURAKOL_CONTAINER_INLINE_IMAGE 15
#define MIVURAKOL_CONTAINER_AUTOLINK 16

/* Where an event's symbol, footnote label, raw format, address or link label stands: nowhere, in
 * the text, in the label room. */
#define MIVURAKOL_HOME_NONE 0
#define MIVURAKOL_HOME_TEXT 1
#define MIVURAKOL_HOME_LABELS 2

/* The codes of an answer. N is the sum of the line lengths. */
#define MIVURAKOL_CODE_ACCEPTED 0
/* The reading is neither 0 nor 1. */
#define MIVURAKOL_CODE_READING 1
/* The text or the line list is over MIVURAKOL_LARGEST. */
#define MIVURAKOL_CODE_TOO_LARGE 2
/* Line `place` does not have start <= end <= text length. */
#define MIVURAKOL_CODE_OUTSIDE 3
/* Line `place` starts before the end of the one before. */
#define MIVURAKOL_CODE_EARLY 4
/* The queue room has fewer than 2N + 1 records. */
#define MIVURAKOL_CODE_QUEUE_ROOM 5
/* The opener room has fewer than N records. */
#define MIVURAKOL_CODE_OPENER_ROOM 6
/* An attribute block stands at byte `place`, outside verbatim, the first of them. A brace at which
 * none stands is Str. */
#define MIVURAKOL_CODE_BRACE 7
/* The label room does not hold the labels. */
#define MIVURAKOL_CODE_LABEL_ROOM 8
/* The event room does not hold the events; never for whoever lends N + 1 records. */
#define MIVURAKOL_CODE_EVENT_ROOM 9
/* Of a fragment alone: a link, an image, an autolink or a footnote reference, the first of them,
 * begins at byte `place`. */
#define MIVURAKOL_CODE_LINKED 10
/* Of a fragment alone: the output room is shorter than the fragment; never for whoever lends
 * MIVURAKOL_FRAGMENT_ROOM bytes. */
#define MIVURAKOL_CODE_OUTPUT_ROOM 11
/* Of a packed list alone: at `place` stands the first event that cannot be packed, or the first
 * fault of the bytes. */
#define MIVURAKOL_CODE_FAULTY 12
/* Of a packed list alone: the room is too short for the bytes or for the events; never for whoever
 * lends MIVURAKOL_PACKED_ROOM bytes, or MIVURAKOL_UNPACKED_ROOM events. */
#define MIVURAKOL_CODE_PACKED_ROOM 13

/* The answer. A refusal has events, labels and looks 0, and place 0 unless said. After the codes
 * from MIVURAKOL_CODE_READING to MIVURAKOL_CODE_OPENER_ROOM no room is written. After a later code
 * all four are zero. After MIVURAKOL_CODE_ACCEPTED, events and label bytes stand from the front,
 * and all else is zero. */
typedef struct {
    uint32_t code;
    uint32_t place;
    uint32_t events; /* how many */
    uint32_t labels; /* bytes used of the label room */
    /* How long the search got: the opener records looked at for the newest that a token closes, from
     * the newest back to that one, or all. At most N (N - 1) / 2, N the sum of the line lengths. */
    uint64_t looks;
} mivurakol_answer;

/* A line of a text: from start to before end. */
typedef struct {
    size_t start;
    size_t end;
} mivurakol_line;

/* Reads the lines of a text. Reading 0 is the Rust's, 1 the strict one.
 *
 * The bytes between two lines may be anything, and change between two calls, but for the single
 * byte right before a line, which must stay: kinds, spans, lines and link numbers are then the
 * same, unless a call is refused with MIVURAKOL_CODE_LABEL_ROOM. So is each label, but of a link
 * with a link in its destination that runs over such bytes. */
mivurakol_answer mivurakol_read(
    const uint8_t *text, size_t text_len,
    const mivurakol_line *lines, size_t lines_len,
    uint32_t reading,
    uint32_t *events, size_t events_len,
    uint32_t *queue, size_t queue_len,
    uint32_t *openers, size_t openers_len,
    uint8_t *labels, size_t labels_len);

/* The answer of a fragment. A refusal has events, labels and length 0, and place as above. */
typedef struct {
    uint32_t code;
    uint32_t place;
    uint32_t events; /* how many */
    uint32_t labels; /* bytes used of the label room */
    uint32_t length; /* bytes of the fragment */
} mivurakol_fragment_answer;

/* So many bytes of output room hold the fragment of any sheet with N bytes in its lines. */
#define MIVURAKOL_FRAGMENT_ROOM(n) (5 * (size_t)(n) + 29 * ((size_t)(n) + 1))

/* Reads the lines of a text, as mivurakol_read, and writes what it reads as a fragment of HTML from
 * the front of the output room, in UTF-8 if the text is.
 *
 * Subscript, superscript, insert, delete, emphasis, strong, mark and verbatim are the elements sub,
 * sup, ins, del, em, strong, mark and code. Math is <span class="math inline">\( to \)</span> or
 * <span class="math display">\[ to \]</span>. `&`, `<` and `>` of the text become &amp;, &lt; and
 * &gt;. Quotes, dashes, ellipsis and no-break space are their Unicode characters; a symbol stands
 * with its colons; a soft break is a newline, a hard break <br> and a newline. Escapes write
 * nothing, and raw parts are left out.
 *
 * The refusals of mivurakol_read come first, as they are, then MIVURAKOL_CODE_LINKED, then
 * MIVURAKOL_CODE_OUTPUT_ROOM. After these two the four rooms are zero; else they are as
 * mivurakol_read leaves them. The output room is zero behind the fragment, and all of it after any
 * refusal, also where no other room is written. */
mivurakol_fragment_answer mivurakol_fragment(
    const uint8_t *text, size_t text_len,
    const mivurakol_line *lines, size_t lines_len,
    uint32_t reading,
    uint32_t *events, size_t events_len,
    uint32_t *queue, size_t queue_len,
    uint32_t *openers, size_t openers_len,
    uint8_t *labels, size_t labels_len,
    uint8_t *out, size_t out_len);

/* `len` bytes from `start` of the text or of the label room. */
typedef struct {
    uint32_t home;
    size_t start;
    size_t len;
} mivurakol_part;

/* Where the bytes of an event's home stand. An impossible home or range gives an empty part of the
 * text. */
mivurakol_part mivurakol_label(
    const uint8_t *text, size_t text_len,
    const uint8_t *labels, size_t labels_len,
    uint32_t home, uint32_t start, uint32_t end);

/* The answer of a packed list. A refusal has count 0, and place 0 unless said. */
typedef struct {
    uint32_t code;
    uint64_t place; /* of a fault: an event's index in mivurakol_pack, a byte's in mivurakol_unpack */
    uint64_t count; /* bytes or events written */
} mivurakol_packed_answer;

/* So many bytes hold the packed list of so many events; and so many events are the most that so
 * many bytes can hold. */
#define MIVURAKOL_PACKED_ROOM(events) (32 * (uint64_t)(events) + 5)
#define MIVURAKOL_UNPACKED_ROOM(bytes) ((bytes) / 5)

/* Packs a list of events, for a slow port: their count, then of each event kind, start minus the
 * end of the one before (0 before the first), length, line and home; if home is not 0, home start
 * and home length; of links and images the link number. Each number stands in groups of seven bits,
 * the lowest first, the high bit set on all but the last, in the shortest form.
 *
 * The list is the whole records of the slice; numbers behind the last whole record are no event.
 * Of the events that mivurakol_read hands out, which are as many as it answers, none is refused.
 * Else MIVURAKOL_CODE_FAULTY comes first, with the index of the first event that has an unknown
 * kind, a home over 2 or on a kind without one, an end or a home end before its start, a start
 * before the end of the one before, a field without meaning that is not 0, or 4,294,967,295 events
 * before it; then MIVURAKOL_CODE_PACKED_ROOM. The output is zero behind the bytes, and all of it
 * after a refusal. */
mivurakol_packed_answer mivurakol_pack(
    const uint32_t *events, size_t events_len,
    uint8_t *out, size_t out_len);

/* Unpacks a list, of any bytes. What was packed is restored; and what is unpacked, packed again,
 * gives the same bytes. Events need not match, or be those of a sheet.
 *
 * MIVURAKOL_CODE_FAULTY comes first, with the first byte of the number at fault or of what is left
 * over, or with the length where the list is cut short: a number that is longer than needed or
 * over 4,294,967,295, a start, an end or a home end over it, an unknown kind, a home over 2 or on a
 * kind without one; then MIVURAKOL_CODE_PACKED_ROOM. The event room is zero behind the events, and
 * all of it after a refusal. */
mivurakol_packed_answer mivurakol_unpack(
    const uint8_t *bytes, size_t bytes_len,
    uint32_t *events, size_t events_len);

#ifdef __cplusplus
}
#endif

#endif
