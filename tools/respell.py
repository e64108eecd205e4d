#!/usr/bin/env python3
"""Brings the definitions and lemmas of this repository to today's spelling.

usage: python3 tools/respell.py [ROOT]      once, after the kit's port.py

tools/spelling.txt has a line 'OLD NEW' for each name. A name is replaced as a whole word, in the files of specs/ and
proofs/ and in the clauses and ghost lines of src/; the code itself, strings and must-fail edits stay as they are.
Behind a dot stands a field, or a step that the prover named after the code: only fields of our records are renamed.
"""
import os
import re
import sys

HERE = os.path.dirname(os.path.realpath(__file__))
WORD = re.compile(r"[^\s(){}\[\]:,;.=|«»`\"⌜⌝]+")
FIELD = re.compile(r"^\s+pub ([^\s(){}:,;.]+) :")


def table():
    with open(os.path.join(HERE, "spelling.txt"), encoding="utf-8") as f:
        return dict(line.split() for line in f)


def files(root):
    for folder, dirs, names in os.walk(os.path.join(root, "crates")):
        dirs[:] = sorted(d for d in dirs if d != "out")
        for name in sorted(names):
            if name.endswith((".antt", ".rt")):
                yield os.path.join(folder, name)


def field_names(root):
    found = set()
    for path in files(root):
        if path.endswith(".antt"):
            with open(path, encoding="utf-8") as f:
                found |= {m.group(1) for m in map(FIELD.match, f) if m}
    return found


def respelled(line, new, fields, comment):
    def one(m):
        word = m.group(0)
        behind_dot = m.start() > 0 and line[m.start() - 1] == "." and not line[m.start():].startswith("{")
        if word not in new or (behind_dot and word not in fields):
            return word
        return new[word]

    cut = line.find(comment)
    code, rest = (line, "") if cut < 0 else (line[:cut], line[cut:])
    # prose in a comment has words like 'so-far': there only names in camel case are meant
    rest = WORD.sub(lambda m: new.get(m.group(0), m.group(0)) if re.search("[a-z][A-Z]", m.group(0)) else m.group(0), rest)
    return WORD.sub(one, code) + rest


def main():
    root = sys.argv[1] if len(sys.argv) > 1 else "."
    new, fields, n = table(), field_names(root), 0
    for path in files(root):
        with open(path, encoding="utf-8") as f:
            old = f.read()
        comment = "--" if path.endswith(".antt") else "//"
        text = "\n".join(respelled(line, new, fields, comment) for line in old.split("\n"))
        if text != old:
            n += 1
            with open(path, "w", encoding="utf-8") as f:
                f.write(text)
    print(f"respell: {n} files")


if __name__ == "__main__":
    main()
