#!/usr/bin/env python3
"""Brings this repository's own definitions and lemmas to today's spelling, by the table beside it: words in snake case; a dash
joins names and an underscore adds a plain word; a lemma that had its function's name ends in _lem.

usage: python3 tools/respell.py [TOP]      once, on a tree that the kit's port.py has turned; TOP is its top, else this one's

Names of Rust's functions, strings, comments of src/, and names that Rattle makes stay.
"""
import os
import re
import sys

HERE = os.path.dirname(os.path.realpath(__file__))
TOP = sys.argv[1] if len(sys.argv) > 1 else os.path.dirname(HERE)
with open(os.path.join(HERE, "respell.tsv"), encoding="utf-8") as f:
    TABLE = dict(line.rstrip("\n").split("\t") for line in f)

NAME = re.compile(r'[^\s(){}.;,@"«»·∙]+')
# a name that Rattle makes stands behind these in the answers of a function
MADE = re.compile(r"(?<![^\s(){};,@])(goal|c|l|w|g)((?:\.[^\s(){}.;,@]+)+)")
STRING = re.compile(r'"(?:\\.|[^"\\])*"|//[^\n]*')


def antt(text, answers):
    out = []
    for line in text.split("\n"):
        code, dash, comment = re.match(r"(.*?)((?:^|(?<=\s))--(?=\s|$)|$)(.*)$", line).groups()
        kept = {}

        def keep(m):
            kept[f"\x00{len(kept)}\x00"] = m[0]
            return f"\x00{len(kept) - 1}\x00"

        if answers:
            code = MADE.sub(keep, code)
        code = NAME.sub(lambda m: TABLE.get(m[0], m[0]), code)
        for k, v in kept.items():
            code = code.replace(k, v)
        comment = re.sub(r"(?<![\w-])[a-z]\w*[a-z0-9][A-Z]\w*", lambda m: TABLE.get(m[0], m[0]), comment)
        out.append(code + dash + comment)
    return "\n".join(out)


def rust(text):
    kept = []

    def keep(m):
        kept.append(m[0])
        return f"\x00{len(kept) - 1}\x00"

    text = STRING.sub(keep, text)
    text = re.sub(r"\b[a-z]\w*[a-z0-9][A-Z]\w*", lambda m: TABLE.get(m[0], m[0]), text)
    return re.sub("\x00(\\d+)\x00", lambda m: kept[int(m[1])], text)


for folder, dirs, files in os.walk(os.path.join(TOP, "crates")):
    dirs[:] = sorted(d for d in dirs if d != "out")
    for name in sorted(files):
        path = os.path.join(folder, name)
        if not name.endswith((".antt", ".rt")):
            continue
        with open(path, encoding="utf-8") as f:
            old = f.read()
        new = rust(old) if name.endswith(".rt") else antt(old, name in ("Answers.antt", "Invariants.antt", "Proof.antt"))
        if new != old:
            with open(path, "w", encoding="utf-8") as f:
                f.write(new)
            print(os.path.relpath(path, TOP))
