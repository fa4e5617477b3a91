#!/usr/bin/env python3
"""Brings the names of this repository's definitions and lemmas to snake case.

usage: python3 tools/respell.py [FOLDER]     FOLDER: the top of a checkout; without it, the one that holds this script

respell.txt, beside this script, has a line for each name: the old one and the new one. A name stands as a whole word of a clause, a
definition, a proof, an edit or, between backquotes, a document; strings keep theirs, and comments all names but those in camel case.
"""

import os
import re
import sys

HERE = os.path.dirname(os.path.realpath(__file__))
WORD = r"[A-Za-z_][A-Za-z0-9_'′]*(?:-[A-Za-z0-9_'′]+)*"
CAMEL = re.compile(r"(?<![A-Za-z0-9_'′.-])[a-z][a-z0-9]*[A-Z][A-Za-z0-9]*(?![A-Za-z0-9_'′-])")
# fields that the check itself names, after functions and after what is known where branches join, in the proof of a function
FIELDS = {"let-form": "let_form", "case-form": "case_form", "dup-form": "dup_form", "function-type": "function_type", "is-arrow": "is_arrow"}
FIELDS.update((name, name) for name in ("after-first", "at-is", "count-is", "found-is", "nodes-is", "if-test"))
# what a file brings in from the library keeps its name there
LIBRARY = re.compile(r"\buse (?:Rattle\.std|lib|mathlib|Prim)\.[^{};\n]*\{([^}]*)\}")
PROOF_OF_FUNCTION = {"Answers.antt", "Choices.antt", "Invariants.antt", "Proof.antt"}


def table():
    with open(os.path.join(HERE, "respell.txt"), encoding="utf-8") as f:
        return dict(line.split() for line in f)


def in_comment(text, names):
    return CAMEL.sub(lambda m: names.get(m.group(0), m.group(0)), text)


def in_code(text, names, comment, char, of_function):
    parts = re.compile(comment + r'|"(?:[^"\\]|\\.)*"' + ("|" + char if char else "") + "|" + WORD)

    def turn(m):
        word = m.group(0)
        if m.lastgroup == "comment":
            return in_comment(word, names)
        if of_function and word in FIELDS and m.start() and text[m.start() - 1] == ".":
            return FIELDS[word]
        return names.get(word, word)

    return parts.sub(turn, text)


def in_document(text, names):
    def turn(m):
        return re.sub(WORD, lambda w: names.get(w.group(0), w.group(0)), m.group(0))

    return re.sub(r"(?<!`)`[^`\n]+`(?!`)", turn, text)


def respelt(path, text, names):
    base = os.path.basename(path)
    library = {n.split(" as ")[0].strip() for found in LIBRARY.findall(text) for n in found.split(",")}
    names = {old: new for old, new in names.items() if old not in library}
    if path.endswith(".antt"):
        return in_code(text, names, r"(?P<comment>(?<![^\s])--[^\n]*)", "", base in PROOF_OF_FUNCTION)
    if path.endswith((".rt", ".edit")):
        return in_code(text, names, r"(?P<comment>//[^\n]*)", r"b?'(?:[^'\\\n]|\\[^\n])[^'\n]{0,8}'(?![A-Za-z0-9_])", False)
    return in_document(text, names)


def files(top):
    for folder, dirs, found in os.walk(top):
        in_crate = os.path.basename(os.path.dirname(folder)) == "crates"
        dirs[:] = sorted(d for d in dirs if d not in ("out", "target", ".git") and not (in_crate and d == "data"))
        for f in sorted(found):
            if f.endswith((".rt", ".antt", ".edit", ".md")):
                yield os.path.join(folder, f)


def main():
    top = sys.argv[1] if len(sys.argv) > 1 else os.path.dirname(HERE)
    names = table()
    changed = 0
    for path in files(top):
        with open(path, encoding="utf-8") as f:
            text = f.read()
        new = respelt(path, text, names)
        if new != text:
            changed += 1
            with open(path, "w", encoding="utf-8") as f:
                f.write(new)
    print(f"respell: {changed} files changed")


main()
