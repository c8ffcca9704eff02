#!/usr/bin/env python3
"""repath.py CRATE FUNCTION..: in the proof files of functions, the depth of each path into `c` put right, by its name, after a change of the code. Reads what
`rt goals CRATE` wrote. A path whose name is unknown at its need stays as it is, and is printed."""
import re
import subprocess
import sys

crate, functions = sys.argv[1], sys.argv[2:]
PATH = re.compile(r"(?<![\w.)])c((?: \.before)*) \.([\w«»·-]+)")


def known(function):
    """For each need the depth of each name."""
    out, needs, need = subprocess.run([sys.executable, "tools/paths.py", crate, function], stdout=subprocess.PIPE, text=True).stdout, {}, None
    for line in out.split("\n"):
        if line.startswith("Need-"):
            need = needs.setdefault(line.strip()[5:], {})
        elif m := re.match(r"\s*c((?: \.before)*) \.(\S+)", line):
            need.setdefault(m.group(2), m.group(1).count(".before"))
    return needs


for function in functions:
    name = f"crates/{crate}/proofs/{function.replace('::', '/')}/Proof.antt"
    with open(name) as f:
        text = f.read()
    needs, out = known(function.replace("::", "/")), []
    for block in re.split(r"(?m)^(?=\S+ : tie\.Need-)", text):
        m = re.match(r"\S+ : tie\.Need-(\S+)", block)
        depth = needs.get(m.group(1), {}) if m else {}
        if m and m.group(1) not in needs:
            print(f"{function}: no need {m.group(1)}")

        def put(p):
            if p.group(2) not in depth:
                if m:
                    print(f"{function}: {m.group(1)}: no {p.group(2)}")
                return p.group(0)
            return "c" + " .before" * depth[p.group(2)] + " ." + p.group(2)

        out.append(PATH.sub(put, block))
    with open(name, "w") as f:
        f.write("".join(out))
