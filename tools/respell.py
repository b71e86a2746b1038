#!/usr/bin/env python3
"""Spells our own definitions and lemmas in snake case, and our types in camel case, by respell.tsv beside this file.

usage: python3 tools/respell.py        at the top of the repository, once, on top of what the toolchain's own script made

Whole words alone turn: in .antt files everywhere outside comments, in .rt files outside comments and strings (a name with
a dash stands only in clauses there), in must-fail edits, and in the code spans of comments and of pages. Names of functions,
of exported symbols, strings, inputs and outputs stay.
"""

import os
import re

TOP = os.path.dirname(os.path.dirname(os.path.abspath(__file__)))
# A name's parts are letters or signs: free-⊕, sum-++.
PART = r"[\w'≼⊕≡+]+"
WORD = re.compile(rf"(?<![\w'≼⊕≡+-]){PART}(?:-{PART})+(?![\w'≼⊕≡+-])")
SPAN = re.compile(r"`[^`\n]*`")
STRING = re.compile(r'"(?:\\.|[^"\\\n])*"')


def table():
    with open(os.path.join(TOP, "tools", "respell.tsv"), encoding="utf-8") as f:
        return dict(line.rstrip("\n").split("\t") for line in f)


def spelled(text, names):
    return WORD.sub(lambda m: names.get(m.group(0), m.group(0)), text)


def spans(text, names):
    return SPAN.sub(lambda m: spelled(m.group(0), names), text)


def outside_strings(text, names):
    out, last = [], 0
    for m in STRING.finditer(text):
        out += [spelled(text[last : m.start()], names), m.group(0)]
        last = m.end()
    return "".join(out) + spelled(text[last:], names)


def line_of_code(line, mark, names):
    m = re.search(r"(^|\s)" + mark, line)
    at = m.start() if m else len(line)
    return outside_strings(line[:at], names) + spans(line[at:], names)


def turned(path, text, names):
    if path.endswith(".antt"):
        return "\n".join(line_of_code(l, "--", names) for l in text.split("\n"))
    if path.endswith(".rt"):
        return "\n".join(line_of_code(l, "//", names) for l in text.split("\n"))
    if path.endswith(".edit"):
        return outside_strings(text, names)
    return spans(text, names)


def files():
    for folder, dirs, found in os.walk(TOP):
        dirs[:] = sorted(d for d in dirs if d not in ("out", ".git", "target", "data"))
        for name in sorted(found):
            # that page says what the old names were
            if name.endswith((".antt", ".rt", ".edit", ".md")) and name != "PORT.md":
                yield os.path.join(folder, name)


def main():
    names = table()
    for path in files():
        with open(path, encoding="utf-8") as f:
            old = f.read()
        new = turned(path, old, names)
        if new != old:
            with open(path, "w", encoding="utf-8") as f:
                f.write(new)


if __name__ == "__main__":
    main()
