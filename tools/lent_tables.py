#!/usr/bin/env python3
"""Names in each contract the moment at which a lent table is read: `header.old`, `header.new`, or `.now` of a table lent to be read.

usage: python3 tools/lent_tables.py        at the top of the repository, once, after tools/respell.py

The library's type of a `&` and that of a `&mut` are two types now, where they were one, so `lent`, `at_entry` and `at_exit`
(rules/specs/Lent) take the lists. A contract wrote `at_exit header accounts journal` and writes `at_exit header.new accounts.now journal.new`.
"""
import os
import re

WORDS = re.compile(r"\b(lent|at_entry|at_exit) (\w+) (\w+) (\w+)(?![\w.])")
FUNCTION = re.compile(r"\bfn \w+\s*\(")
PARAMETER = re.compile(r"(\w+): &(?:'\w+ )?(mut )?")


def moment(word, written):
    if not written:
        return "now"
    return "new" if word == "at_exit" else "old"


def turned(text):
    starts = [m.start() for m in FUNCTION.finditer(text)] + [len(text)]
    out = [text[: starts[0]]]
    for start, end in zip(starts, starts[1:]):
        part = text[start:end]
        head = part.split("\n{", 1)[0]
        written = {m.group(1): bool(m.group(2)) for m in PARAMETER.finditer(head)}

        def one(m):
            word, tables = m.group(1), m.groups()[1:]
            if not all(t in written for t in tables):
                return m.group(0)
            return " ".join([word] + [t + "." + moment(word, written[t]) for t in tables])

        out.append(WORDS.sub(one, part))
    return "".join(out)


def main():
    for folder, dirs, files in os.walk("crates"):
        dirs[:] = sorted(d for d in dirs if d != "out")
        for f in sorted(files):
            if f.endswith(".rt"):
                path = os.path.join(folder, f)
                with open(path, encoding="utf-8") as h:
                    text = h.read()
                new = turned(text)
                if new != text:
                    with open(path, "w", encoding="utf-8") as h:
                        h.write(new)


if __name__ == "__main__":
    main()
