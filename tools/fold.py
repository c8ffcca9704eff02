#!/usr/bin/env python3
"""fold.py FILE..: a module as the check prints it, with what stands again and again in it named once. `rt fmt` lays it out.

- A list is written with `∷`.
- Types, the entries of tables, the slots of contexts and the arguments of calls have a name each.
- Of definitions that are the same but for their names the first is kept.
- What is known behind a step is named where it is learnt."""
import re
import sys

WIDTH = 180
TOKEN = re.compile(r'"[^"]*"|[(){},;]|[^\s(){},;]+')


# A module as lines: [indentation, text], one for each heading, signature, definition and field.
def deep(text):
    return sum({"(": 1, "{": 1, ")": -1, "}": -1}.get(w, 0) for w in TOKEN.findall(text))


def lines_of(text):
    out, opened = [], 0
    for line in text.split("\n"):
        s, k = line.strip(), len(line) - len(line.lstrip(" "))
        if not s:
            continue
        begins = not out or s.startswith("--") or out[-1][1].startswith("--") or out[-1][1].endswith(" where")
        if begins or not (opened > 0 or k > out[-1][0]):
            out.append([k, s])
            opened = deep(s)
        else:
            out[-1][1] += " " + s
            opened += deep(s)
    return out


def parts(text):
    """What a line defines or declares, and its term, if it has one."""
    m = None if re.match(r"use |mod |--|(pub )?module ", text) or text.endswith(" where") else re.match(r"((?:abbrev )?(?:pub )?\S+ [:=] )(.*)$", text)
    return m.groups() if m else (text, None)


def first(lines, pattern):
    return next((i for i, l in enumerate(lines) if re.match(pattern, l[1])), None)


# A term as a tree: words, and groups of terms: ("(", ..) and ("{", ..).
def parse(text):
    words = iter(TOKEN.findall(text))

    def terms():
        out, term = [], []
        for w in words:
            if w in ("(", "{"):
                term.append((w, terms()))
            elif w in (")", "}"):
                break
            elif w in (",", ";"):
                out.append(term)
                term = []
            else:
                term.append(w)
        return out + [term] if term else out

    return terms()[0]


def show(term):
    return " ".join(x if isinstance(x, str) else shown(*x) for x in term)


def shown(mark, terms):
    if mark == "(":
        inner = ", ".join(map(show, terms))
        return inner if len(terms) == 1 and len(terms[0]) == 1 and isinstance(terms[0][0], str) else f"({inner})"
    inner = "; ".join(map(show, terms))
    return f"{{ {inner} }}" if len(terms) > 1 or "record" in inner else f"{{{inner}}}"


def bare(x):
    """What stands in parentheses, if it is one term."""
    return x[1][0] if not isinstance(x, str) and x[0] == "(" and len(x[1]) == 1 else [x]


def walk(term, f):
    """The term with f of each term in it, the inner ones first; of a field, its value."""
    if len(term) > 2 and term[1] == "=":
        return term[:2] + walk(term[2:], f)
    return f([x if isinstance(x, str) else (x[0], [walk(t, f) for t in x[1]]) for x in term])


def mapped(lines, f):
    for line in lines:
        head, term = parts(line[1])
        if term is not None:
            line[1] = head + show(walk(parse(term), f))


def listed(term):
    """`List._∷_ a (List._∷_ b List.[])` as `a ∷ b ∷ []`."""
    term = ["[]" if x == "List.[]" else x for x in term]
    if len(term) == 3 and term[0] == "List._∷_":
        head, tail = bare(term[1]), ["[]" if x == "List.[]" else x for x in bare(term[2])]
        return ([term[1]] if "λ" in head or "∷" in head else head) + ["∷"] + tail
    return term


# Names.
def counted(lines, heads):
    """The terms with one of some heads, and how often each stands."""
    keys = {}

    def note(term):
        if term and isinstance(term[0], str) and term[0] in heads and not str(term[-1]).startswith("."):
            keys[show(term)] = keys.get(show(term), 0) + 1
        return term

    mapped(lines, note)
    return keys


def replaced(lines, names):
    def put(term):
        out = [x if isinstance(x, str) else names.get(show(bare(x)), x) for x in term]
        return [names[show(out)]] if show(out) in names else out

    mapped(lines, put)


def defined(lines, at, kind, names):
    """Definitions of names, before a line."""
    lines[at:at] = [[lines[at][0], text] for key, name in names.items() for text in (f"abbrev pub {name} : {kind}", f"{name} = {key}")]


def types(lines):
    """Types of the machine, and of what lies behind a reference. One may be built of others, which are named first."""
    for stem, kind, heads in (("c", "RattleType", ["Referent.rtF"]), ("y", "Syntax.Ty", ["Syntax.tyRef", "Syntax.tyStruct", "Syntax.tyEnum"])):
        n = 0
        while keys := [key for key, times in counted(lines, heads).items() if times > 1]:
            inner = [key for key in keys if not any(other != key and other in key for other in keys)]
            names = {key: f"{stem}·{n + i}" for i, key in enumerate(inner)}
            n += len(inner)
            replaced(lines, names)
            behind = [i + 1 for i, l in enumerate(lines) if re.match(r"[cy]·\d+ =", l[1])]
            defined(lines, max([first(lines, r"(?!use |--|mod )")] + behind), kind, names)


def leases(lines):
    """The lifetimes of the signature, as slots."""
    names = {key: f"l·{i}" for i, key in enumerate(counted(lines, ["Row.lease"]))}
    replaced(lines, names)
    defined(lines, first(lines, r"abbrev [gG]\d+ : "), "Row.Life", names)


def entries(lines):
    """The entries of the tables t and, with lifetimes, g."""
    have = {}
    for stem in "tg":
        before = len(have)
        for line in lines:
            if m := re.match(rf"{stem}\d+ = ", line[1]):
                term = parse(line[1][m.end():])
                for i, x in enumerate(term):
                    if not isinstance(x, str):
                        of = f"e{x[1][0][0]}·"
                        term[i] = have.setdefault(shown(*x), f"{of}{sum(name.startswith(of) for name in have.values())}")
                line[1] = m.group(0) + show(term)
        if len(have) > before:
            defined(lines, first(lines, rf"abbrev (pub )?{stem}\d+ : "), "Row.Entry", dict(list(have.items())[before:]))


def slots(lines):
    names = {}
    for line in lines:
        if re.match(r"G\d+ = ", line[1]):
            line[1] = re.sub(r"slots = (.*) }$", lambda m: f"slots = {names.setdefault(m.group(1), f'z·{len(names)}')} }}", line[1])
    defined(lines, first(lines, r"abbrev G\d+ : "), "List.List Row.Life", names)


def same(lines, pattern):
    """Of definitions that are the same the first stays; one that passes on to another is that other."""
    while True:
        seen, names, out = {}, {}, []
        for i, (k, text) in enumerate(lines):
            if i and (m := re.match(rf"abbrev (?:pub )?({pattern}) : ", lines[i - 1][1])) and text.startswith(f"{m.group(1)} = "):
                body = text.split(" = ", 1)[1]
                on = re.fullmatch(rf"λ Ψ\. ({pattern}) Ψ", body)
                name = on.group(1) if on else seen.setdefault((k, lines[i - 1][1].split(" : ", 1)[1], body), m.group(1))
                if name != m.group(1):
                    names[m.group(1)] = names.get(name, name)
                    out.pop()
                    continue
            out.append([k, text])
        lines[:] = out
        if not names:
            return
        mapped(lines, lambda term: [names.get(x, x) if isinstance(x, str) else x for x in term])


def arguments(lines):
    """The arguments of each call, by its context."""
    places, names, out = {"Call.callB": 5, "Called.Called": 4, "Called.given": 4, "Called.called": 4}, {}, []

    def put(term):
        i = places.get(term[0], 0) if term and isinstance(term[0], str) else 0
        if i and len(term) > i + 1 and not isinstance(term[i + 1], str) and re.fullmatch(r"T\d+", term[i]):
            name = names.setdefault((term[1], term[i], shown(*term[i + 1])), f"a·{len(names)}")
            return term[:i + 1] + [name] + term[i + 2:]
        return term

    for line in lines:
        before = len(names)
        mapped([line], put)
        new = [[line[0], text] for (ps, t, args), name in list(names.items())[before:] for text in (f"abbrev pub {name} : ArgsT {ps} ({t} .locals)", f"{name} = {args}")]
        out += new + [out.pop(), line] if new else [line]
    lines[:] = out


# What is known behind a step: a record of what was known before it and of what it gives.
def fields_of(lines):
    """The record of each list of fields, where it is the only one."""
    fields, at = {}, None
    for k, text in lines:
        if m := re.match(r"pub record (\S+) : Type 0 where", text):
            at = (k, m.group(1))
            fields[at[1]] = ()
        elif at and k > at[0] and (m := re.match(r"pub (\S+) : ", text)):
            fields[at[1]] += (m.group(1),)
        else:
            at = None
    return {fs: name for name, fs in fields.items() if list(fields.values()).count(fs) == 1}


def is_known(term, i):
    return term[i] == "record" and i + 1 < len(term) and term[i + 1][1][0][:2] == ["before", "="]


def passed_on(fs):
    """`record { before = c .before; x = c .x }` is c."""
    return fs[0][2] if len(fs[0]) == 4 and all(len(f) == 4 and f[2] == fs[0][2] and f[3] == "." + f[0] for f in fs) else None


def put_known(term, name_of):
    """The term with a name for each of these records that has one."""
    out, i = [], 0
    while i < len(term):
        name = name_of(term[i + 1][1]) if is_known(term, i) else None
        x = term[i]
        out.append(name or (x if isinstance(x, str) else (x[0], [put_known(t, name_of) for t in x[1]])))
        i += 2 if name else 1
    return out


def known_in(term, out):
    for i, x in enumerate(term):
        if is_known(term, i):
            out.append(show(term[i:i + 2]))
        if not isinstance(x, str):
            for t in x[1]:
                known_in(t, out)
    return out


def bound_in(term):
    words = TOKEN.findall(show(term))
    out = set()
    for i, w in enumerate(words):
        if w == "λ":
            j = next(j for j in range(i + 1, len(words)) if words[j].endswith("."))
            out |= {w.rstrip(".") for w in words[i + 1:j + 1]}
    return out


def learnt(term, records, n=0):
    """Under each λ, names for what is known with its variable and stands twice or more."""
    i = term.index("λ") if "λ" in term else len(term)
    out = [x if isinstance(x, str) else (x[0], [learnt(t, records, n) for t in x[1]]) for x in term[:i]]
    if i == len(term):
        return out
    j = next(j for j in range(i, len(term)) if term[j].endswith("."))
    body, lets = term[j + 1:], []
    while True:
        all_known = known_in(body, [])
        later = bound_in(body)
        keys = [r for r in dict.fromkeys(all_known) if all_known.count(r) > 1 and term[j][:-1] in TOKEN.findall(r) and not later & set(TOKEN.findall(r))]
        keys = [r for r in keys if tuple(f[0] for f in parse(r)[1][1]) in records and not any(o != r and o in r for o in keys)]
        if not keys:
            return out + term[i:j + 1] + lets + learnt(body, records, n)
        n += 1
        fs = parse(keys[0])[1][1]
        lets += ["let", f"k{n}", ":", records[tuple(f[0] for f in fs)], "=", *parse(keys[0]), "in"]
        body = put_known(body, lambda fs: f"k{n}" if show(["record", ("{", fs)]) == keys[0] else None)


def steps(lines):
    records = fields_of(lines)
    for line in lines:
        if m := re.match(r"(lay\d*|laid) = ", line[1]):
            line[1] = m.group(0) + show(learnt(put_known(parse(line[1][m.end():]), passed_on), records))


def claims(lines):
    """The claims of the callees, which each part of a proof is told by."""
    at = first(lines, r"abbrev pub Start : ")
    m = at is not None and re.match(r"Start = (?:λ [^.]*\. )?Lts\.Start (\(.*?, .*?\)) ", lines[at + 1][1])
    if m:
        for line in lines:
            line[1] = line[1].replace(m.group(1), "claims")
        defined(lines, at, "Lts.Claims", {m.group(1): "claims"})


# Lines of a page.
def pieces(term):
    """What is not cut: a word, or a tuple or a record that is not too long for a line."""
    out = []
    for x in term:
        if isinstance(x, str):
            new = [x]
        elif len(shown(*x)) < WIDTH and (x[0] == "{" or len(x[1]) > 1):
            new = [shown(*x)]
        else:
            mark, a, b = (";", "{ ", " }") if x[0] == "{" else (",", "(", ")")
            new = [p for t in x[1] for q in [pieces(t)] for p in q[:-1] + [q[-1] + mark]]
            new[0], new[-1] = a + new[0], new[-1][:-1] + b
        if out and out[-1] == "record":
            new[0] = out.pop() + " " + new[0]
        out += new
    return out


def wrapped(k, text):
    head, term = parts(text)
    out, line = [], " " * k
    for w in text.split(" ") if term is None else head.split() + pieces(parse(term)):
        if line.strip() and len(line) + 1 + len(w) > WIDTH:
            out.append(line)
            line = " " * (k + 4) + w
        else:
            line += (" " if line.strip() else "") + w
    return out + [line]


def printed(lines):
    out = []
    for i, (k, text) in enumerate(lines):
        name = re.match(r"(?:abbrev )?(?:pub )?(\S+)", text).group(1)
        heads = re.match(r"(pub )?(module|record) ", text) or i + 1 < len(lines) and lines[i + 1][1].startswith((f"{name} = ", "unfolding "))
        if i and heads and not lines[i - 1][1].endswith(" where"):
            out.append("")
        out += wrapped(k, text)
    return "\n".join(out) + "\n"


def folded(text):
    lines = lines_of(text)
    types(lines)
    derives = first(lines, r"abbrev (pub )?t0 : ") is not None
    if derives:
        leases(lines)
    mapped(lines, listed)
    if derives:
        entries(lines)
        slots(lines)
        same(lines, r"[TG]\d+")
        same(lines, r"at\d+")
        arguments(lines)
        steps(lines)
    claims(lines)
    text = " ".join(text for _, text in lines)
    at = max(i for i, l in enumerate(lines) if l[1].startswith("use ")) + 1
    for word, use in (("∷", "mathlib.Core.List.{[], _∷_}"), ("RattleType", "denote.RattleType.{RattleType}"), ("ArgsT", "borrow.Fn.Args.{ArgsT}")):
        if f" {word} " in text or f" {word}\n" in text or word == "∷" and "[]" in text:
            lines.insert(at, [0, f"use {use}"])
    return printed(lines)


if __name__ == "__main__":
    for name in sys.argv[1:]:
        with open(name) as f:
            text = f.read()
        with open(name, "w") as f:
            f.write(folded(text))
