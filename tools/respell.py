#!/usr/bin/env python3
"""Respells the definitions and lemmas of this repository's specs/ and proofs/: words in snake case, facts and types in camel case.

usage: python3 tools/respell.py            at the top of the checkout

tools/respelled.tsv has a row for each name: the old spelling, a tab, the new one. A third column `pages` says that the kit's own
script has turned it in the code already, so only the pages still have it. Whole words alone are turned: in .antt and .rt files outside
strings, in must-fail edits, and in the code spans of docs/*.md. In comments only names with a capital inside turn, since a
word with a dash is mostly prose there, but for the lists of names at the head of a file. It was run once, straight after the kit's
script; it is not for a tree that was ported, where names that the check makes, and docs/PORT.md, have old spellings on purpose.
"""

import os
import re

WORD = r"(?<![^\s(){}.;,@\"«»λ`\[\]!])(%s)(?![^\s(){}.;,@\"«»:`\[\]])"
STRING = re.compile(r'"(?:[^"\\]|\\.)*"', re.S)
SPAN = re.compile(r"`[^`\n]+`")


def table():
    code, pages = {}, {}
    with open("tools/respelled.tsv", encoding="utf-8") as f:
        for line in f:
            old, new, *more = line.rstrip("\n").split("\t")
            (pages if more else code)[old] = new
    return code, pages


def turner(names):
    found = re.compile(WORD % "|".join(sorted(map(re.escape, names), key=len, reverse=True)))
    return lambda text: found.sub(lambda m: names[m[1]], text)


def outside_strings(turn, text):
    at, out = 0, []
    for m in STRING.finditer(text):
        out += [turn(text[at : m.start()]), m[0]]
        at = m.end()
    return "".join(out) + turn(text[at:])


def source(text, mark, turn, turn_prose):
    """A .rt or .antt file, line by line: code, and what stands behind the comment's mark."""
    lines = []
    for line in text.split("\n"):
        at = re.search(r"(^|\s)" + re.escape(mark) + r"(?=\s|$)", line)
        if not at:
            lines.append(outside_strings(turn, line))
            continue
        code, prose = line[: at.start()], line[at.start() :]
        lists_names = re.match(r"\s*--   \S", prose)
        lines.append(outside_strings(turn, code) + (turn if lists_names else turn_prose)(prose))
    return "\n".join(lines)


def files():
    for top in ("crates", "docs"):
        for folder, dirs, names in os.walk(top):
            dirs[:] = sorted(d for d in dirs if d != "out")
            for name in sorted(names):
                yield os.path.join(folder, name)
    yield "README.md"


def main():
    code, pages = table()
    turn = turner(code)
    turn_prose = turner({a: b for a, b in code.items() if "-" not in a})
    turn_span = turner(code | pages)
    for path in files():
        if not path.endswith((".rt", ".antt", ".edit", ".md")):
            continue
        with open(path, encoding="utf-8") as f:
            text = f.read()
        if path.endswith(".md"):
            new = SPAN.sub(lambda m: turn_span(m[0]), text)
        elif path.endswith(".edit"):
            new = outside_strings(turn, text)
        else:
            new = source(text, "--" if path.endswith(".antt") else "//", turn, turn_prose)
        if new != text:
            with open(path, "w", encoding="utf-8") as f:
                f.write(new)


if __name__ == "__main__":
    main()
