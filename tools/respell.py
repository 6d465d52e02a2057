#!/usr/bin/env python3
"""Gives the definitions and lemmas of this repository today's spelling: words in snake case, a prime as an apostrophe.

usage: python3 tools/respell.py            at the top of the repository, once, after port.py

respell.tsv, beside this file, has a name and its new spelling a line; the word bare after them limits it to .antt files, outside paths. Only whole names are changed: in .antt files, in the ghost parts of .rt files, and
in must-fail/*.edit. Strings and comments of .rt files stay, and so do comments of .antt files but for names in mixed case. In the proof of one
function a name with a dash that follows a dot is one that Rattle made, and stays.
"""
import os
import re

HERE = os.path.dirname(os.path.realpath(__file__))
ROWS = [line.rstrip("\n").split("\t") for line in open(os.path.join(HERE, "respell.tsv"), encoding="utf-8")]
TABLE = {r[0]: r[1] for r in ROWS if len(r) == 2}
# Lemmas that would have the name of a definition beside them; functions and paths of that name stay.
BARE = {r[0]: r[1] for r in ROWS if len(r) == 3}
NAME = re.compile(r"(?<![\w'′₀-₉·])(\.?)([A-Za-z][\w'′₀-₉-]*)")


def respell(text, of_function, bare=False):
    def new(m):
        dot, name = m.groups()
        if bare and name in BARE and not dot and text[m.end() : m.end() + 1] != ".":
            return BARE[name]
        if name not in TABLE or (dot and of_function and "-" in name):
            return m[0]
        return dot + TABLE[name]

    return NAME.sub(new, text)


def code_parts(line):
    """The parts of a line of Rattle: (text, is it code)."""
    out, start, i = [], 0, 0
    while i < len(line):
        if line.startswith("//", i):
            out += [(line[start:i], True), (line[i:], False)]
            return out
        m = re.match(r'b?"(?:\\.|[^"\\])*"', line[i:])
        if m:
            out += [(line[start:i], True), (m[0], False)]
            i = start = i + m.end()
        else:
            i += 1
    return out + [(line[start:], True)]


def turn_rt(text):
    return "".join("".join(respell(p, False) if code else p for p, code in code_parts(l)) for l in text.splitlines(keepends=True))


def turn_antt(text, of_function):
    out = []
    for l in text.splitlines(keepends=True):
        m = re.match(r"(.*?)(^|\s)(--\s.*\n?)$", l)
        if m:
            comment = NAME.sub(lambda k: k[1] + TABLE[k[2]] if k[2] in TABLE and re.search(r"[a-z][A-Z]", k[2]) else k[0], m[3])
            l = respell(m[1] + m[2], of_function, True) + comment
            out.append(l)
        else:
            out.append(respell(l, of_function, True))
    return "".join(out)


def main():
    changed = 0
    for folder, dirs, files in os.walk("crates"):
        dirs[:] = sorted(d for d in dirs if d != "out")
        for f in sorted(files):
            path = os.path.join(folder, f)
            if not f.endswith((".rt", ".antt", ".edit")):
                continue
            with open(path, encoding="utf-8") as it:
                old = it.read()
            if f.endswith(".antt"):
                new = turn_antt(old, re.search(r"/proofs/.*/", path) is not None)
            elif f.endswith(".rt"):
                new = turn_rt(old)
            else:
                new = "".join(l if l.startswith("file:") or "//" in l else turn_rt(l) for l in old.splitlines(keepends=True))
            if new != old:
                with open(path, "w", encoding="utf-8") as it:
                    it.write(new)
                changed += 1
    print(f"respell: {changed} files")


main()
