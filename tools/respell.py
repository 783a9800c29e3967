#!/usr/bin/env python3
"""Brings the names of this repository's definitions and lemmas to one spelling: words in snake case, facts in camel case.

    tools/respell.py            at the top, once, right after port.py

A name goes by where it is defined: in specs/, in proofs/*.antt, or in an answer file for itself alone. Names that the
prover makes of the code (goals, steps of a proof) keep their dashes, and so does one that joins another definition's name.
"""
import glob
import re

MADE = re.compile(r"(returns|loop|invariant|decreases|overflow)-|.*-requires$")
KEPT = {"length-series"}
TOKEN = re.compile(r"(?<![\w.'-])[A-Za-z]\w*(?:-\w+)+(?![\w-])")
SIGNED = re.compile(r"^ *(?:(?:abbrev|unfoldable|pub|record|data) +)*([A-Za-z]\w*(?:-\w+)+) *(?:\(.*\) *|\{.*\} *)?:(?: |$)")
# names of variables and of local words
LOCAL = ["by-range", "never-milder", "new-pile", "new-text", "min-count", "min-end", "min-start", "with-decimals", "After-limit"]


def spelled(name):
    if name[0].isupper():
        return "".join(part[0].upper() + part[1:] for part in name.split("-"))
    return name.replace("-", "_")


def main():
    files = [p for p in glob.glob("crates/*/**/*", recursive=True) if p.endswith((".antt", ".rt")) and "/out/" not in p]
    names = set(LOCAL)
    for path in files:
        if path.endswith(".antt"):
            for line in open(path):
                found = SIGNED.match(line)
                if found and not MADE.match(found[1]):
                    names.add(found[1])
    names -= KEPT
    table = {name: spelled(name) for name in sorted(names)}
    for path in files:
        text = open(path).read()
        new = TOKEN.sub(lambda m: table.get(m[0], m[0]), text)
        if new != text:
            open(path, "w").write(new)
    for name, new in table.items():
        print(name, new)


main()
