#!/usr/bin/env python3
"""Brings the names of definitions and laws to the library's spelling: words in snake case, types and modules in camel case.

usage: python3 tools/respell.py        at the top of the repository, once, after the kit's port.py

A name that begins with a small letter and has a capital in it is written in snake case, wherever it stands in crates/ (definitions, laws,
contracts, comments, edits), README.md and docs/. The numbers of answers, kinds, states, methods, disputes, modes and events, which had
capitals though they are no types, get a small letter too; an answer's number gets the word `answer` before it, since the refusal that
it numbers has the bare word. Four laws had the name of what they are a law of, but for its spelling: they end in `_lem`.
"""
import os
import re

NAME = re.compile(r"[^\W\d][\w'₀-₉]*(?:-[\w'₀-₉]+)*")
CAMEL = re.compile(r"(?<=[a-z0-9])([A-Z])")

# A law that would have its definition's name.
LAWS = {"zero_word": "zero_word_lem", "row_named": "row_named_lem", "all_left": "all_left_lem", "row_words": "row_words_lem"}

# records/specs/Codes and listing/specs/Runs
CODES = """KindToll KindFee KindReversal KindPayment KindCredit KindRefund StateUnused StateOpen StatePending StateClosed MethodCard MethodCash
MethodCheck MethodCheckReturned LastStage DisputeNever DisputeHeld DisputeEnded DisputeUpheld ModeTag ModePlate EventOpen EventToll
EventPayment EventReturnedCheck EventDispute EventDecision EventTopupResult EventCloseRequest EventTick EventRateList""".split()
SINGLE = {"Yes": "code_yes", "Listed": "run_listed", "Unprinted": "run_unprinted", "Unended": "run_unended"}

# records/specs/Numbers
NUMBERS = """Unsound Malformed Unknown Taken Closed Unclassed Misdated Duplicate Barred NoRow Untimely LastDay Full Ceiling
ListRefused""".split()


def snake(name):
    return CAMEL.sub(lambda m: "_" + m.group(1).lower(), name)


def lowered(name):
    return snake(name[0].lower() + name[1:])


def of_camel(name):
    """The name in snake case, if it is a word with a capital in it: each part between dashes by itself."""
    parts = name.split("-")
    return "-".join(snake(p) if p[:1].islower() else p for p in parts)


def comment_at(line, path):
    """Where the comment of a line begins."""
    mark = "--" if path.endswith(".antt") else "//"
    at = line.find(mark)
    return len(line) if at < 0 else at


def respell(text, path, answers):
    listing = path.startswith("crates/listing/")
    out = []
    for line in text.split("\n"):
        cut = comment_at(line, path) if path.endswith((".antt", ".rt")) else len(line)

        def one(m):
            name = m.group(0)
            if name in LAWS and path.endswith((".antt", ".edit")):
                return LAWS[name]
            if name in CODES:
                return lowered(name)
            if m.start() < cut and name in SINGLE and (listing or name == "Yes"):
                return SINGLE[name]
            if m.start() < cut and answers and name in NUMBERS:
                return "answer_" + lowered(name)
            return of_camel(name)

        out.append(NAME.sub(one, line))
    return "\n".join(out)


def in_page(name):
    """A page's word: options of commands, as -rnE, are no names."""
    if name in CODES:
        return lowered(name)
    return of_camel(name) if re.search(r"[a-z0-9][A-Z][a-z]", name) else name


def reads_numbers(text):
    return "specs.Numbers" in text or text.startswith("-- The numbers of the answers")


def edited_file(text, crate):
    m = re.search(r"^file: (.*)$", text, re.M)
    return os.path.join(crate, m.group(1).strip()) if m else None


def main():
    plain = {}
    for folder, dirs, files in os.walk("crates"):
        dirs[:] = sorted(d for d in dirs if d != "out")
        for f in sorted(files):
            if f.endswith((".antt", ".rt", ".edit")):
                p = os.path.join(folder, f)
                with open(p, encoding="utf-8") as h:
                    plain[p] = h.read()
    for p, text in plain.items():
        answers = reads_numbers(text)
        if p.endswith(".edit"):
            q = edited_file(text, os.path.dirname(os.path.dirname(p)))
            answers = bool(q) and reads_numbers(plain.get(q, ""))
        new = respell(text, p, answers)
        if new != text:
            with open(p, "w", encoding="utf-8") as h:
                h.write(new)
    pages = ["README.md"]
    for folder, _, files in os.walk("docs"):
        pages += [os.path.join(folder, f) for f in sorted(files) if f.endswith(".md")]
    for p in pages:
        with open(p, encoding="utf-8") as h:
            text = h.read()
        new = NAME.sub(lambda m: in_page(m.group(0)), text)
        if new != text:
            with open(p, "w", encoding="utf-8") as h:
                h.write(new)


if __name__ == "__main__":
    main()
