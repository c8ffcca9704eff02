#!/usr/bin/env python3
"""Counts the places of the points of docs/DESIGN-PASS.md in crates/*/src, of a commit or of the working tree.

    tools/points.py [COMMIT] [--list]

1  enums of the shape of Option or Result: two variants, or at most four of which some carry a value and some do not,
   or all the same; structs with a flag beside other fields; named numbers for kinds, marks, homes and refusals
2  twins: pairs of functions whose bodies differ only in names, types and constants (three lines and more)
3  loops: `while` and `loop`
4  functions by hand for what a derive, From, Display or a library method does
5  facts that stand in the `requires` of three functions and more; parameters that stand together in three and more
6  a slice with a count or a place beside it among the parameters
7  a value that says which step to run: an enum or a number that is matched only to call one function for each case
8  proof files, and their lines
"""
import collections
import re
import subprocess
import sys

ARGS = [a for a in sys.argv[1:] if not a.startswith('--')]
LIST = '--list' in sys.argv
COMMIT = ARGS[0] if ARGS else None


def git(*words):
    return subprocess.run(['git', *words], capture_output=True, text=True, check=True).stdout


def paths(pattern):
    names = git('ls-tree', '-r', '--name-only', COMMIT) if COMMIT else git('ls-files')
    return [n for n in names.split('\n') if re.match(pattern, n)]


def read(path):
    if COMMIT:
        return git('show', COMMIT + ':' + path)
    try:
        with open(path) as f:
            return f.read()
    except FileNotFoundError:
        return ''


SOURCES = {p: read(p) for p in paths(r'crates/\w+/src/\w+\.rt$')}


def crate(path):
    return path.split('/')[1]


def functions():
    """Crate, name, signature with clauses, and body of each function."""
    for path, text in SOURCES.items():
        for m in re.finditer(r'^( *)(?:pub )?(?:extern "C" )?fn (\w+)', text, re.M):
            head = text[m.start():]
            b = re.search(r'(?:^|\n)%s\{\n|\{ *\n|\{[^\n]*\}\n' % m.group(1), head)
            start = head.find('\n' + m.group(1) + '{\n')
            inline = re.search(r'-> [\w<>:, ()&\'\[\];]+ \{\n|\) \{\n', head)
            if inline and (start < 0 or inline.start() < start):
                start = inline.end() - 2
            if start < 0:
                continue
            end = head.find('\n' + m.group(1) + '}\n', start)
            if end < 0:
                continue
            yield crate(path), m.group(2), head[:start], head[start:end]


FUNCTIONS = list(functions())


def show(title, rows):
    print(f'{title}: {len(rows)}')
    if LIST:
        for r in rows:
            print('    ' + r)


# 1
shapes, flags, numbers = [], [], []
for path, text in SOURCES.items():
    for m in re.finditer(r'^(?:pub )?enum (\w+) \{\n(.*?)^\}', text, re.M | re.S):
        rows = [v.strip().rstrip(',') for v in m.group(2).split('\n') if v.strip() and not v.strip().startswith('//')]
        carry = [r for r in rows if '(' in r]
        loads = {r[r.index('('):] for r in carry}
        mixed = len(rows) <= 4 and carry and len(carry) < len(rows)
        if len(rows) == 2 or mixed or (len(rows) <= 4 and len(carry) == len(rows) and len(loads) == 1):
            shapes.append(f'{crate(path)}::{m.group(1)}')
    for m in re.finditer(r'^(?:pub )?struct (\w+)(?:<[^>]*>)? \{\n(.*?)^\}', text, re.M | re.S):
        if re.search(r': bool,', m.group(2)) and m.group(2).count(',\n') > 1:
            flags.append(f'{crate(path)}::{m.group(1)}')
    for m in re.finditer(r'^(?:pub )?const (\w+): u32 =', text, re.M):
        numbers.append(f'{crate(path)}::{m.group(1)}')
show('1  enums of the shape of Option or Result', shapes)
show('1  structs with a flag beside other fields', flags)
show('1  named numbers (u32) for kinds, marks, homes, refusals and limits', numbers)


# 2
def shape(body):
    body = re.sub(r'//[^\n]*', '', body)
    body = re.sub(r'\b[A-Z_][A-Z0-9_]+\b|\b\d+\b|b\'[^\']+\'|b"[^"]*"', 'K', body)
    body = re.sub(r'\b\w+\b', lambda w: w.group(0) if w.group(0) in WORDS else 'x', body)
    return re.sub(r'\s+', ' ', body)


WORDS = {'let', 'mut', 'if', 'else', 'while', 'for', 'in', 'loop', 'match', 'return', 'break', 'K', 'as', 'true', 'false'}
by_shape = collections.defaultdict(list)
for c, name, head, body in FUNCTIONS:
    lines = [l for l in body.split('\n') if l.strip() not in ('{', '}', '')]
    if len(lines) >= 3:
        by_shape[shape(body)].append(f'{c}::{name}')
show('2  groups of functions of one shape', [', '.join(g) for g in by_shape.values() if len(g) > 1])

# 3
loops = []
for c, name, head, body in FUNCTIONS:
    n = len(re.findall(r'^\s*(?:while|loop)\b', body, re.M))
    if n:
        loops.append(f'{c}::{name}' + (f' ({n})' if n > 1 else ''))
show('3  functions with `while` or `loop`', loops)

# 4
hand = []
for c, name, head, body in FUNCTIONS:
    if re.match(r'same_|is_\w+$|write_(delimiter|symbol|sequence|kind|answer)|say|smaller|longer|shorter|held|at_most', name) or \
            re.search(r'(_number|_of|number_of|sort_of|state_of|token_of|mark_of|cursor_of|step_of)$', name) and c in ('exports', 'tables'):
        hand.append(f'{c}::{name}')
show('4  functions by hand for a comparison, a conversion, a copy or a text', hand)

# 5
facts = collections.Counter()
groups = collections.Counter()
for c, name, head, body in FUNCTIONS:
    for clause in re.findall(r'requires (?:\w+ )?\{(.*?)\}', head, re.S):
        facts[re.sub(r'\s+', ' ', clause).strip()] += 1
    params = re.findall(r'(\w+): &?(?:\'\w+ )?(?:mut )?[\[\]\w<>; ]+', head.split('\n    requires')[0].split('\n    ensures')[0])
    params = tuple(sorted(set(params) - {'self'}))
    for i in range(len(params)):
        for j in range(i + 1, len(params)):
            groups[(params[i], params[j])] += 1
show('5  facts that three functions and more require', [f'{n} times: {f}' for f, n in facts.most_common() if n >= 3])
show('5  pairs of parameters that stand together in ten functions and more',
     [f'{n} times: {a}, {b}' for (a, b), n in groups.most_common() if n >= 10])

# 6
beside = []
for c, name, head, body in FUNCTIONS:
    if re.search(r'&(?:mut )?\[[\w\[\]; ]+\],\s*(?:n|count|at|used|from|i|start): usize', head) or \
            re.search(r'\[Line; BYTES\],\s*n: usize', head):
        beside.append(f'{c}::{name}')
show('6  functions with a slice and a count or a place beside it', beside)

# 7
switches = []
for c, name, head, body in FUNCTIONS:
    arms = re.findall(r'=> (?:\w+::)?\w+\(', body)
    if len(arms) >= 3 and 'match' in body:
        switches.append(f'{c}::{name}')
show('7  functions that match a value to call one function for each case', switches)

# 8
proofs = paths(r'crates/\w+/proofs/.*\.antt$')
print(f'8  proof files: {len(proofs)}, lines: {sum(read(p).count(chr(10)) for p in proofs)}')
