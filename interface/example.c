/* Reads a cell of two lines, and prints its events and the labels of its links; packs these events,
 * unpacks them and compares; and prints the fragment of HTML of another cell. */
#include <stdio.h>
#include <string.h>
#include "mivurakol.h"

/* `> ` between the lines belongs to no line. */
static const char cell[] = "*12* [R-07](left\n> .txt) [door][]";
static const mivurakol_line lines[] = {{0, 17}, {19, sizeof cell - 1}};

enum { N = sizeof cell };

static uint32_t events[MIVURAKOL_EVENT_NUMBERS * (N + 1)];
static uint32_t queue[MIVURAKOL_QUEUE_NUMBERS * (2 * N + 1)];
static uint32_t openers[MIVURAKOL_OPENER_NUMBERS * N];
static uint8_t labels[N];

/* A cell for a fragment has no links. A brace at which no attribute block stands is text. */
static const char door[] = "*12* `R-07` < 24 V {left";
static uint8_t out[MIVURAKOL_FRAGMENT_ROOM(sizeof door - 1)];

static void print_label(const uint8_t *text, const uint32_t *e)
{
    mivurakol_part part = mivurakol_label(
        text, sizeof cell - 1, labels, sizeof labels,
        e[MIVURAKOL_FIELD_HOME], e[MIVURAKOL_FIELD_HOME_START], e[MIVURAKOL_FIELD_HOME_END]);
    const uint8_t *home = part.home == MIVURAKOL_HOME_LABELS ? labels : text;
    printf("  label `%.*s`", (int)part.len, (const char *)(home + part.start));
}

/* What goes over the port, and what comes out of it. */
static uint8_t port[MIVURAKOL_PACKED_ROOM(N + 1)];
static uint32_t received[MIVURAKOL_EVENT_NUMBERS * (N + 1)];

static int pack_events(uint32_t count)
{
    const size_t numbers = (size_t)count * MIVURAKOL_EVENT_NUMBERS;
    mivurakol_packed_answer p = mivurakol_pack(events, numbers, port, sizeof port);
    mivurakol_packed_answer u = mivurakol_unpack(port, (size_t)p.count, received, sizeof received / sizeof *received);
    printf("%u events in %u bytes, packed in %u\n", (unsigned)count, (unsigned)(numbers * sizeof *events), (unsigned)p.count);
    return p.code == MIVURAKOL_CODE_ACCEPTED && u.code == MIVURAKOL_CODE_ACCEPTED && u.count == count
        && memcmp(events, received, numbers * sizeof *events) == 0;
}

static int print_fragment(void)
{
    static const char html[] = "<strong>12</strong> <code>R-07</code> &lt; 24 V {left";
    const mivurakol_line line = {0, sizeof door - 1};
    mivurakol_fragment_answer f = mivurakol_fragment(
        (const uint8_t *)door, sizeof door - 1, &line, 1, 0,
        events, sizeof events / sizeof *events, queue, sizeof queue / sizeof *queue,
        openers, sizeof openers / sizeof *openers, labels, sizeof labels, out, sizeof out);
    printf("code %u, place %u: %.*s\n", (unsigned)f.code, (unsigned)f.place, (int)f.length, (const char *)out);
    return f.code == MIVURAKOL_CODE_ACCEPTED && f.length == sizeof html - 1 && memcmp(out, html, sizeof html - 1) == 0;
}

int main(void)
{
    const uint8_t *text = (const uint8_t *)cell;
    mivurakol_answer a = mivurakol_read(
        text, sizeof cell - 1, lines, 2, 0,
        events, sizeof events / sizeof *events, queue, sizeof queue / sizeof *queue,
        openers, sizeof openers / sizeof *openers, labels, sizeof labels);
    uint32_t i;
    for (i = 0; i < a.events; i++) {
        const uint32_t *e = events + MIVURAKOL_EVENT_NUMBERS * i;
        printf("%2u at %2u..%2u, line %u", (unsigned)e[MIVURAKOL_FIELD_KIND],
            (unsigned)e[MIVURAKOL_FIELD_START], (unsigned)e[MIVURAKOL_FIELD_END],
            (unsigned)e[MIVURAKOL_FIELD_LINE]);
        if (e[MIVURAKOL_FIELD_HOME] != MIVURAKOL_HOME_NONE)
            print_label(text, e);
        putchar('\n');
    }
    printf("code %u, place %u, %u events, %u label bytes, %llu openers looked at\n", (unsigned)a.code, (unsigned)a.place, (unsigned)a.events,
           (unsigned)a.labels, (unsigned long long)a.looks);
    if (a.code != MIVURAKOL_CODE_ACCEPTED || a.events != 11 || a.labels != 12 || memcmp(labels, "left.txtdoor", 12) != 0)
        return 1;
    return pack_events(a.events) && print_fragment() ? 0 : 1;
}
