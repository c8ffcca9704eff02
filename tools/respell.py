#!/usr/bin/env python3
"""Brings the repository's own definitions to the spelling of today's Rattle: functions in snake case, facts in camel case.

usage: tools/respell.py [ROOT]

Run once, behind the kit's port script. It rewrites specs/, proofs/, the clauses of src/ and the edits of must-fail/ below ROOT/crates,
and leaves comments alone but for names in backticks. A second run changes nothing.
"""
import os
import re
import sys

NAMES = """
Said-of SaidOf
a-home a_home
a-kind a_kind
a-number a_number
all-blank all_blank
allAre all_are
along-with along_with
amend-last amend_last
another-run another_run
askedLines asked_lines
at-end at_end
autolinkOf autolink_of
becomes-to becomes_to
begunBy begun_by
begunOf begun_of
blank-after blank_after
blank-content blank_content
brace-asterisk brace_asterisk
brace-caret brace_caret
brace-equal brace_equal
brace-hyphen brace_hyphen
brace-plus brace_plus
brace-tilde brace_tilde
brace-underscore brace_underscore
braceOf brace_of
break-of break_of
bySix by_six
byte-before byte_before
bytes-from bytes_from
chOf ch_of
characters-in characters_in
checkedLines checked_lines
close-as close_as
closed-by closed_by
closed-with closed_with
closedAt closed_at
closes-link closes_link
closes-pair closes_pair
closes-span closes_span
closes-verbatim closes_verbatim
closing-of closing_of
comesOut comes_out
comment-to comment_to
container-of container_of
content-in content_in
content-on content_on
content-with content_with
cursorOf cursor_of
cut-to cut_to
dashCounts dash_counts
dashesOf dashes_of
delimiterNumber delimiter_number
display-math display_math
dollarsOf dollars_of
dotCounts dot_counts
dotsOf dots_of
drainedAs drained_as
drops-at drops_at
drops-in drops_in
drops-on drops_on
earlyOf early_of
encode-opener encode_opener
enough-bytes enough_bytes
enough-events enough_events
enter-from enter_from
escape-by escape_by
escapedOf escaped_of
event-from event_from
event-numbers event_numbers
event-read event_read
eventAt event_at
events-from events_from
events-read events_read
exit-from exit_from
exit-of exit_of
fields-all fields_all
first-barred first_barred
first-early first_early
first-flaw first_flaw
first-outside first_outside
firstFrom first_from
flag-of flag_of
flagsSlot flags_slot
flaw-of flaw_of
footnoteOf footnote_of
format-ahead format_ahead
foundBy found_by
fragmented-of fragmented_of
has-home has_home
has-link has_link
here-at here_at
holdingOf holding_of
home-from home_from
home-labels home_labels
home-none home_none
home-read home_read
home-text home_text
homeIn home_in
hyphensOf hyphens_of
if-any if_any
if-sound if_sound
in-comment in_comment
in-neither in_neither
in-quotes in_quotes
in-room in_room
in-text in_text
in-verbatim in_verbatim
inline-image inline_image
inline-link inline_link
inline-math inline_math
insideOf inside_of
is-caret is_caret
is-decided is_decided
is-done is_done
is-format is_format
is-run is_run
is-single is_single
isDigit is_digit
isEscape is_escape
isText is_text
joinedOf joined_of
judged-as judged_as
kindNumber kind_number
label-home label_home
label-limit label_limit
label-room label_room
left-double left_double
left-single left_single
length-kept length_kept
length-same length_same
lexToken lex_token
lines-drop lines_drop
lines-remove lines_remove
link-exit link_exit
link-queue link_queue
link-sort link_sort
list-from list_from
long-l long_l
long-o long_o
long-q long_q
longer-or-shorter longer_or_shorter
may-be-empty may_be_empty
may-close may_close
may-have may_have
may-open may_open
neither-to neither_to
nextBy next_by
no-content no_content
no-str no_str
no-such-home no_such_home
number-as number_as
on-token on_token
open-as open_as
opened-as opened_as
opener-numbers opener_numbers
openerAt opener_at
opens-a opens_a
opens-closed-by opens_closed_by
opens-or opens_or
opens-verbatim opens_verbatim
opens-with opens_with
outcome-of outcome_of
outcome-with outcome_with
outside-raw outside_raw
overOf over_of
packing-as packing_as
partIn part_in
parts-behind parts_behind
parts-of parts_of
peekBy peek_by
peekOf peek_of
pendingOf pending_of
queue-numbers queue_numbers
quotes-to quotes_to
raw-behind raw_behind
raw-bit raw_bit
raw-format raw_format
rawFormatOf raw_format_of
reachedOf reached_of
reference-image reference_image
reference-link reference_link
refused-at refused_at
refusingAt refusing_at
removes-at removes_at
removes-in removes_in
removes-on removes_on
restored-as restored_as
right-double right_double
right-single right_single
role-of role_of
room-code room_code
rooms-of rooms_of
ruledFrom ruled_from
rulesOf rules_of
sameAs same_as
scannedOf scanned_of
sequenceNumber sequence_number
sheet-with sheet_with
sheetOf sheet_of
shown-as shown_as
sixCases six_cases
small_by SmallBy
sort-at sort_at
span-closed span_closed
span-with span_with
spelled-all spelled_all
standsIn stands_in
step-content step_content
step-drops step_drops
step-removes step_removes
steps-content steps_content
steps-drop steps_drop
steps-remove steps_remove
stretchOf stretch_of
symbolNumber symbol_number
text-lines text_lines
token-at token_at
tokenOf token_of
two-way two_way
typedC typed_c
typedL typed_l
unbuiltOf unbuilt_of
unknown-kind unknown_kind
unless-raw unless_raw
uptoOf upto_of
valC val_c
valL val_l
validatorNumber validator_number
validatorState validator_state
walk-by walk_by
weight-of weight_of
with-events with_events
with-home with_home
with-inside with_inside
with-link with_link
with-openers with_openers
with-queue with_queue
with-range with_range
with-refused with_refused
with-span with_span
withinOf within_of
worked-blanks worked_blanks
"""
TABLE = dict(line.split() for line in NAMES.split("\n") if line)
WORD = re.compile(r"[^\s(){}.;,@\"«»\[\]\\`]+")
CODE = re.compile(r"--[^\n]*|//[^\n]*|\"(?:[^\"\\\n]|\\.)*\"|" + WORD.pattern)
NAMED = re.compile(r"`[^`\n]*`")


def word(found):
    return TABLE.get(found.group(0), found.group(0))


def piece(found):
    text = found.group(0)
    if text.startswith(("--", "//")):
        return NAMED.sub(lambda it: WORD.sub(word, it.group(0)), text)
    return text if text.startswith('"') else word(found)


def main(root):
    changed = 0
    for folder, folders, files in os.walk(os.path.join(root, "crates")):
        folders[:] = [it for it in folders if it not in ("out", "Twin")]
        for name in files:
            if not name.endswith((".antt", ".rt", ".edit")):
                continue
            path = os.path.join(folder, name)
            with open(path, encoding="utf-8") as it:
                text = it.read()
            turned = CODE.sub(piece, text)
            if turned != text:
                with open(path, "w", encoding="utf-8") as it:
                    it.write(turned)
                changed += 1
    print(f"{changed} files changed")


if __name__ == "__main__":
    main(sys.argv[1] if len(sys.argv) > 1 else ".")
