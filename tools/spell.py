"""Brings this repository's own definitions and lemmas to the spelling of today's Rattle: words in snake case, `′` as an apostrophe.
usage: python3 tools/spell.py [FOLDER]   (the top of a checkout over which the toolchain's port.py has run; here by default)
The names stand in tools/spelling.txt, a line each: OLD NEW. Strings, comments and functions of src/ keep their names, and so does
what a proof file reads off a step of the code (`c.NAME`), which the toolchain names."""
import glob
import os
import re
import sys

root = sys.argv[1] if len(sys.argv) > 1 else os.path.join(os.path.dirname(os.path.abspath(__file__)), "..")
names = dict(line.split() for line in open(os.path.join(os.path.dirname(os.path.abspath(__file__)), "spelling.txt"), encoding="utf-8"))
TOKEN = re.compile(r'"[^"\n]*"|[^\s:(){}\[\],.;∷«»"]+')


def spelled(line, steps):
    def turn(m):
        after_step = steps and re.search(r"(?<![^\s(\[,])c\.$", line[: m.start()])
        return m.group() if after_step else names.get(m.group(), m.group())

    return TOKEN.sub(turn, line)


def turned(text, comment, steps):
    out = []
    for line in text.split("\n"):
        at = line.find(comment)
        code, rest = (line, "") if at < 0 else (line[:at], line[at:])
        out.append(spelled(code, steps) + rest)
    return "\n".join(out)


for pattern, comment in (("crates/*/specs/**/*.antt", "-- "), ("crates/*/proofs/**/*.antt", "-- "), ("crates/*/src/*.rt", "//"),
                         ("crates/*/must-fail/*.edit", "//"), (".ci/tickets/*.edit", "//")):
    for path in sorted(glob.glob(os.path.join(root, pattern), recursive=True)):
        old = open(path, encoding="utf-8").read()
        new = turned(old, comment, os.path.basename(path) in ("Answers.antt", "Invariants.antt", "Choices.antt", "Proof.antt"))
        if new != old:
            open(path, "w", encoding="utf-8").write(new)
            print(os.path.relpath(path, root))
