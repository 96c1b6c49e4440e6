#!/usr/bin/env python3
"""Respells the names of our own definitions and lemmas: snake case, a dash only between two names.

usage: tools/respell.py, at the top of the repository, once, after the toolchain's port.py.

tools/respell.tsv has a line for each name: the old spelling, a tab, the new one. Names are replaced as whole words in the
.antt, .rt and .edit files below crates/. The proof of a Rust function f, of old written f-spec, is f_spec.
"""

import os
import re
import sys

WORD = "A-Za-z0-9_'′\\-·◌₀-₉"


def main():
    top = os.path.dirname(os.path.dirname(os.path.realpath(__file__)))
    with open(os.path.join(top, "tools", "respell.tsv"), encoding="utf-8") as f:
        table = dict(line.rstrip("\n").split("\t") for line in f)
    files = []
    for folder, dirs, names in os.walk(os.path.join(top, "crates")):
        dirs[:] = [d for d in dirs if d != "out"]
        files += [os.path.join(folder, n) for n in sorted(names) if n.endswith((".antt", ".rt", ".edit"))]
    functions = set()
    for path in files:
        if path.endswith(".rt"):
            with open(path, encoding="utf-8") as f:
                functions |= set(re.findall(r"\bfn (\w+)", f.read()))
    table.update({f.replace("_", "-") + "-spec": f + "_spec" for f in functions if "_" in f})
    table.update({f + "-spec": f + "_spec" for f in functions})
    name = re.compile("(?<![" + WORD + "])(?:" + "|".join(re.escape(n) for n in sorted(table, key=len, reverse=True)) + ")(?![" + WORD + "])")
    changed = 0
    for path in files:
        with open(path, encoding="utf-8") as f:
            old = f.read()
        new = name.sub(lambda m: table[m[0]], old)
        if new != old:
            with open(path, "w", encoding="utf-8") as f:
                f.write(new)
            changed += 1
    print(f"respell: {len(table)} names, {changed} files changed")
    return 0 if changed else 1


if __name__ == "__main__":
    sys.exit(main())
