#!/usr/bin/env python3
"""tidy.py FILE..: of antt files, the use lines without names that nothing uses, each module once; of a proof file a first line that says what it proves."""
import re
import sys


def uses(name, body):
    def stands(part):
        return re.search(r"(?<![^\s(){}\[\],;.«»λ])" + re.escape(part) + r"(?![^\s(){}\[\],;.«»])", body)
    return stands(name) or all(stands(part) for part in name.split("_") if part)


def lines_of(module, names):
    """One use line, or several where it is too long."""
    line = []
    for name in names:
        if line and len(f"use {module}.{{{', '.join(line + [name])}}}") > 150:
            yield f"use {module}.{{{', '.join(line)}}}"
            line = []
        line.append(name)
    if line:
        yield f"use {module}.{{{', '.join(line)}}}"


def rank(use):
    path = use[4:]
    for k, start in enumerate((("Prim", "mathlib"), ("native",), ("borrow",), ("lib.",))):
        if path.startswith(start):
            return k
    return 6 if path.endswith(".Code.{routine}") or ".Statement." in path or path.endswith("Tie as tie") else 5 if "·proofs.proofs." in path else 4


def tidy(file):
    text = re.sub(r"(?m)^-- src/\S+:\d+:\d+\n", "", open(file).read())
    head = re.match(r"(?:--.*\n)*", text).group(0)
    m = re.match(r"(?:(?:use|mod) .*\n|\n)*", text[len(head):])
    body = text[len(head) + m.end():]
    code, entries = re.sub(r"(?m)^ *--.*$", "", body), {}
    mods = [line for line in m.group(0).split("\n") if line.startswith("mod ")]
    for use in [line for line in m.group(0).split("\n") if line.startswith("use ")]:
        if n := re.match(r"use (.*)\.\{(.*)\}$", use):
            for name in n.group(2).split(", "):
                if uses(name.split(" as ")[-1], code) and name not in entries.setdefault(n.group(1), []):
                    entries[n.group(1)].append(name)
        elif not (n := re.match(r"use .* as (\S+)$", use)) or uses(n.group(1), code):
            entries[use] = None
    out = sorted([line for key, names in entries.items() for line in ([key] if names is None else lines_of(key, names))], key=rank)
    if (m := re.search(r"crates/([^/]+)/proofs/(.*)/Proof.antt", file)) and not head:
        laws = dict.fromkeys(re.findall(r"use Rattle·\w+(?:·proofs\.proofs|\.proofs)\.([A-Z]\w*)\.\{", "\n".join(out)))
        by = ", by the laws of " + " and ".join(f"`{law}`" for law in laws) if laws else ""
        head = f"-- `{m.group(1)}::{m.group(2).replace('/', '::')}` meets its contract{by}.\n"
    open(file, "w").write(head + "\n".join(mods + out) + "\n\n" + body)


for file in sys.argv[1:]:
    tidy(file)
