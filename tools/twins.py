"""Lists functions of crates/*/src whose bodies have one shape: the same but for names, types and numbers.

Called as `python3 tools/twins.py [FOLDER]`, with the folder that holds `crates` (else this one).
Bodies of fewer than 12 words have too little shape to say anything and are passed over.
"""
import collections
import glob
import os
import re
import sys

KEYWORDS = set("as break const continue else enum false fn for if impl in let loop match mod mut pub ref return self Self static struct true type use where while Some None Ok Err".split())


def body_of(text, start):
    depth = 0
    for i in range(start, len(text)):
        if text[i] == "{":
            depth += 1
        elif text[i] == "}":
            depth -= 1
            if depth == 0:
                return text[start + 1 : i]
    return ""


def functions(path):
    text = re.sub(r"//[^\n]*", "", open(path).read())
    for m in re.finditer(r"\bfn ([a-z_0-9]+)", text):
        rest = text[m.end() :]
        # A clause ends its line with a brace; the body opens on a line of its own, or behind the signature.
        open_at = re.search(r"^[ \t]*\{\s*$|\)( -> [^\n{]+)? \{\s*$", rest, re.M)
        semi = re.search(r";", rest)
        if not open_at or (semi and semi.start() < open_at.start() and "requires" not in rest[: open_at.start()] and "ensures" not in rest[: open_at.start()]):
            continue
        start = m.end() + open_at.end() - 1
        while text[start] != "{":
            start -= 1
        yield m.group(1), text.count("\n", 0, m.start()) + 1, body_of(text, start)


def shape(body):
    names, out = {}, []
    for word in re.findall(r"[A-Za-z_][A-Za-z_0-9]*|\d[\w.]*|b?'[^']*'|b?\"[^\"]*\"|\S", body):
        if word in KEYWORDS or not re.match(r"[A-Za-z_\d'\"]|b['\"]", word):
            out.append(word)
        elif re.match(r"\d|b?['\"]", word):
            out.append("0")
        else:
            out.append("n%d" % names.setdefault(word, len(names)))
    return out


def main():
    root = sys.argv[1] if len(sys.argv) > 1 else "."
    groups = collections.defaultdict(list)
    for path in sorted(glob.glob(os.path.join(root, "crates/*/src/**/*.rt"), recursive=True)):
        for name, line, body in functions(path):
            words = shape(body)
            if len(words) >= 12:
                groups[" ".join(words)].append("%s:%d %s" % (os.path.relpath(path, root), line, name))
    found = [g for g in groups.values() if len(g) > 1]
    for group in found:
        print("; ".join(group))
    print("%d groups, %d functions" % (len(found), sum(len(g) for g in found)))


main()
