#!/usr/bin/env python3
"""names.py: every name in backticks of README.md and docs/ is found in the repository: a path as a file, another name as a word of the crates, the
tools, the comparison, the benchmark or the interface. Every crate stands in README.md, and every must-fail edit in docs/THEOREMS.md. Status 1 if not.

What is no single word (a sheet, a command, a piece of code) is passed over, and so is docs/DIFFERENCES.md, where nearly all that stands in backticks
is a sheet, and docs/DESIGN-PASS.md, which sets old names beside new ones. In docs/CHANGES.md, docs/PORT.md and docs/REVIEW.md, which tell what was, a name may stand in its older spelling (`event-numbers`, `standsIn`). Names of
the source and names that are gone, and are said to be, stand below."""
import glob
import os
import re
import subprocess
import sys

# of the Rust, of the toolchain, of what is built, of the README's snippets and the example in docs/PROVING.md
OUTSIDE = set("""some_of upto_some crates/scan/proofs/upto_some/Answers.antt rattle-kit-13f grind libexports.a cmp lex.rs inline.rs attr.rs
    is_ascii_whitespace set_current_line VecDeque memset perf ../shared/docs crates/door/src/main.rt target/staticlib/libmivurakol.a out/""".split())
# gone, or under another name now, and said to be: in docs/CHANGES.md, docs/PORT.md and docs/REVIEW.md
GONE = set("""Shelved shelved Shelf Shelves Shelving shelve roomy pour pile Bits Telling reader/specs/Asking classes/special_bit_lost
    lexer/line_in_verbatim later_as_str reading/event_too_many Hidden proofs/Twin/ proofs/Twin twin.txt Proof.antt libc Line-of fact_2 labels_after
    out_after put_four groups::put_four spelled_four numbers-listed listed-stored groups/four_with_one_of_two
    printing/eight_numbers""".split())
# gone by the design pass: its page names them, and what states their promise now
if os.path.exists("docs/DESIGN-PASS.md"):
    page = open("docs/DESIGN-PASS.md").read()
    GONE |= set(re.findall(r"`([^`\n]+)`", page)) | {n for pair in re.findall(r"`(\w+::\w+)`", page) for n in [pair, pair.split("::")[1]]}
    GONE |= set("""reader::counted reader::conclude records/lines_unasked inline/gap_fed rooms::moved rooms::unrefused drainedAs Drained
        c.if-n-eq0.true shared_slice_known-1 page::page_lines""".split())
HISTORY = ["docs/CHANGES.md", "docs/PORT.md", "docs/REVIEW.md"]
FOLDERS = ["", "crates/", "crates/*/", "crates/*/*/", "crates/*/*/*/", "tools/"]
PLACES = ["crates", "tools", "compare", "bench", "interface", "sheet", "tokens", "crates.txt", ".ci"]

files = subprocess.run(["git", "ls-files", "-co", "--exclude-standard"], capture_output=True, text=True, check=True).stdout.split()
crates = [line.split(":")[0].split()[0] for line in open("crates.txt") if re.match(r"\w+[\w ]*:", line)]
text = {}
for f in files:
    if f not in ("tools/names.py", "tools/respell.py") and any(f == p or f.startswith(p + "/") for p in PLACES):
        text[f] = open(f, encoding="utf-8", errors="replace").read()
words = set(re.findall(r"[\w-]+", "\n".join(text.values()))) | {part for f in files for part in re.findall(r"[\w-]+", f)}
edits = {f.split("/")[1] + "/" + os.path.basename(f)[: -len(".edit")] for f in files if f.endswith(".edit")}


def found(name):
    if name in OUTSIDE or name in GONE:
        return True
    path = re.sub(r"\b(CRATE|NAME|EDIT|FUNCTION|F)\b", "*", name.removeprefix("./").rstrip("/"))
    if path in edits or any(glob.glob(place + path + end) for place in FOLDERS for end in ["", ".antt"]):
        return True
    if "/" in name or re.search(r"\.(md|sh|py|rt|antt|edit|c|h|rs|txt)$", name):
        return False
    of = re.fullmatch(r"(\w+)::(\w+)", name)
    if of and of[1] in crates:
        return any(re.search(rf"\b{of[2]}\b", text[f]) for f in text if f.startswith(f"crates/{of[1]}/src/"))
    return all(part in words for part in re.split(r"::|[.:]", name) if part)


def respelled(name):
    return re.sub(r"(?<=[a-z0-9])[A-Z]", lambda m: "_" + m[0].lower(), name.replace("-", "_"))


names, lost = 0, []
for doc in ["README.md"] + sorted(glob.glob("docs/*.md")):
    if doc == "docs/DESIGN-PASS.md":
        continue
    prose = re.sub(r"^```.*?^```$", "", open(doc).read(), flags=re.S | re.M)
    prose = "\n".join(line for line in prose.split("\n") if not line.startswith("    "))
    for path in re.findall(r"(?<!\w)(?:docs|tools|crates)/[\w./-]+\w", prose):
        names += 1
        if not found(path):
            lost.append(f"{doc}: {path}")
    if doc == "docs/DIFFERENCES.md":
        continue
    for name in re.findall(r"(?<!`)`([A-Za-z_.][\w./:·-]+)`(?!`)", prose):
        names += 1
        if not found(name) and not (doc in HISTORY and found(respelled(name))):
            lost.append(f"{doc}: {name}")

readme, theorems = open("README.md").read(), open("docs/THEOREMS.md").read()
lost += [f"README.md has not the crate {c}" for c in crates if f"`{c}`" not in readme and f"`_{c.split('_')[-1]}`" not in readme]
lost += [f"docs/THEOREMS.md has not the edit {e}" for e in sorted(edits) if f"`{e.split('/')[1]}`" not in theorems]
print("\n".join(lost + [f"{names} names, {len(crates)} crates, {len(edits)} must-fail edits: {len(lost)} not found"]))
sys.exit(1 if lost else 0)
