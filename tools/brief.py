#!/usr/bin/env python3
"""rt dev NAME | brief.py : the errors, the goals and the last line, with short names. ALL=1 keeps what only follows from other errors."""
import os, re, sys
text = sys.stdin.read().split("\n")
keep_all = os.environ.get("ALL")
cut = int(os.environ.get("CUT", "600"))
skip = None
for line in text:
    if re.match(r"(note: |help: |  was found|  = |  The fields of|library |logic /|rt: |crate )", line):
        skip = "note"
        continue
    if re.match(r"(rattle|fn|struct|enum|logic|holes|/|\S+\.antt:)", line):
        skip = None
    if skip == "note":
        continue
    if not keep_all and re.search(r"was not admitted \(it has holes|: proved$|was tried too", line):
        continue
    if not keep_all and re.match(r"\S+:\d+:\d+: note: ", line):
        skip = "note"
        continue
    if line.startswith("    (computed from:"):
        skip = "computed"
        continue
    if skip == "computed" and (line.startswith("      ") or line.strip() == ""):
        continue
    if skip == "computed":
        skip = None
    line = re.sub(r"(?:[A-Za-z_·0-9-]+\.)+([^\s.()\[\]{}0-9][^\s.()]*)", r"\1", line) if not line.startswith(("/", "fn")) else line
    line = line.replace(os.getcwd() + "/", "")
    if line.strip():
        print(line[:cut])
