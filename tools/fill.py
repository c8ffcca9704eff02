#!/usr/bin/env python3
"""fill.py CRATE FILE [FUNCTION..]: fills proof files from answers, after `rt goals CRATE` (or tools/twin.py).

FILE has sections '#### FUNCTION', and in each blocks '== NEED [c PARAMS]' with a proof term behind. In a term '@x' is the path into `c` of
x at that need (as paths.py lists it), which is bound by a `let`; '@f>k' is the k-th argument of the callee f, a `&mut` slice, as the call
left it, and '@f<k' says that its length is kept. '== imports' has use lines; '== inv' and '== measure' the bodies of a loop's."""
import os
import re
import sys

crate, file, only = sys.argv[1], sys.argv[2], sys.argv[3:]


def paths_of(function):
    """The paths into `c` at each need."""
    made = f"crates/{crate}/proofs/Twin/{function}/Lts.antt"
    text = open(made if os.path.exists(made) else f"target/goals/{crate}/Rattle·{crate}·proofs/proofs/{function}/Lts.antt").read()
    records, name = {}, None
    for line in text.split("\n"):
        if m := re.match(r"\s*(?:pub )?record (\S+)", line):
            name = m.group(1)
            records[name] = []
        elif (m := re.match(r"\s+pub (\S+) :(.*)", line)) and name:
            records[name].append((m.group(1), m.group(2).strip()))
    needs = {}
    for m in re.finditer(r"Need-([^\s:]+) =\s+\(c : ([^\s)]+)", text):
        need, record, path, known = m.group(1), m.group(2), "c", {}
        while record in records:
            fields = records[record]
            for field, kind in fields:
                if field != "before" and not kind.startswith("(c :"):
                    known.setdefault(field, f"{path} .{field}")
            before = [kind for field, kind in fields if field == "before"]
            if not before:
                break
            record, path = re.split(r"\s", before[0])[0], path + " .before"
        needs[need] = known
    return needs


def blocks_of(text):
    blocks = []
    for line in text.split("\n"):
        if m := re.match(r"== (\S+)(.*)$", line):
            blocks.append((m.group(1), m.group(2).strip(), []))
        elif blocks:
            blocks[-1][2].append(line)
    return blocks


def bound(term, known, where):
    """The term with each path bound by a `let` before it."""
    lets = {}

    def name(m):
        x = m.group(1)
        if x not in known:
            sys.exit(f"{where}: no {x}; there are {' '.join(known)}")
        short = {"open": "opened", "close": "closed"}.get(x.strip("«»"), x.strip("«»"))
        lets[short] = known[x]
        return short

    for sign, part in ((">", "last"), ("<", "kept")):
        term = re.sub(rf"@(\S+?){sign}(\d)", lambda m: f"(@{m.group(1)} .{part}{' .1' * int(m.group(2))} .0)", term)
    term = re.sub(r"@(\S+?)(?=[\s)\],.]|$)", name, term)
    head = "".join(f"\n    let {x} = {path} in" for x, path in lets.items())
    return head + "\n" + "\n".join("    " + line for line in term.strip("\n").split("\n"))


def fill(function, answers):
    proof = f"crates/{crate}/proofs/{function}/Proof.antt"
    text, needs = open(proof).read(), paths_of(function)
    for need, params, lines in blocks_of(answers):
        body = "\n".join(lines).rstrip("\n")
        if need == "imports":
            text = "".join(use + "\n" for use in lines if use.strip() and use not in text) + text
            continue
        if need in ("inv", "measure"):
            head = {"inv": "Inv-loop", "measure": "μ-loop"}[need]
            m = re.search(rf"(?m)^{head} (?!:)(.*?) =.*\n(?:    .*\n)*", text)
            text = f"{text[:m.start()]}{head} {m.group(1)} = {body.strip()}\n{text[m.end():]}"
            continue
        m = re.search(rf"(?m)^{re.escape(need)}((?: (?!:)\S+)*?) =.*\n(?:    .*\n)*", text)
        if need not in needs or not m:
            sys.exit(f"{function}: no need {need}; there are {' '.join(needs)}")
        term = bound(body, needs[need], f"{function} {need}")
        text = f"{text[:m.start()]}{need} {params or m.group(1).strip()} ={term}\n{text[m.end():]}"
    if re.search(r"search \(?needs", text) and "borrow.Author.Needs" not in text:
        text = "use borrow.Author.Needs.{needs}\n" + text
    open(proof, "w").write(text)


for section in re.split(r"(?m)^#### ", open(file).read())[1:]:
    function, answers = section.split("\n", 1)
    if not only or function.strip() in only:
        fill(function.strip(), answers)
