#!/usr/bin/env python3
"""Brings this repository's own names of definitions and lemmas to the spelling of today's Rattle.

usage: python3 tools/respell.py      at the top, after the toolchain's own script

Each row of spelling.tsv beside this script is an old name, a tab and the new one: definitions, fields and variables in snake case, types
and facts in camel case, and a lemma with a dash only where it joins the names of two functions. Whole names turn, in the antt and the clauses of
crates/, but for strings and comments; in comments and in the pages of the repository the names in code spans turn. A second run changes nothing.
Functions of src/, inputs and outputs keep their names: none of theirs has a dash. The choice between two readers, which was spelled like
the library's own choice between two values, becomes 'given .. then .. else ..' in each file that names it.
"""
import os
import re

HERE = os.path.dirname(os.path.abspath(__file__))
TOP = os.path.dirname(HERE)
NAME = re.compile(r"[^\s(){}.;,@\"«»\[\]\\`]+")
QUIET = {
    ".antt": re.compile(r'"(?:[^"\\\n]|\\.)*"|(?<![^\s(){}.;,@"«»])--[^\n]*|\{-.*?-\}', re.S),
    ".rt": re.compile(r'//[^\n]*|b?"(?:[^"\\]|\\.)*"|b?\'(?:[^\'\\\n]|\\[^\n])\'', re.S),
}
SPAN = re.compile(r"`[^`\n]*`")


def main():
    with open(os.path.join(HERE, "spelling.tsv"), encoding="utf-8") as rows:
        names = dict(row.rstrip("\n").split("\t") for row in rows)

    # A step of a function that is proved, behind 'c.', has the check's own name.
    def turned(text):
        return NAME.sub(lambda m: m[0] if re.search(r"\bc\.\Z", text[: m.start()][-3:]) else names.get(m[0], m[0]), text)

    def chosen(text, has_choice):
        if not has_choice:
            return text
        text = text.replace("if◌then◌else◌", "given◌then◌else◌")
        return re.sub(r"(?<![\w◌-])if(?![\w◌-])", "given", text)

    def spans(text):
        return SPAN.sub(lambda m: turned(m[0]), text)

    def code(text, end):
        out, at = [], 0
        has_choice = end == ".antt" and "if◌then◌else◌" in text
        for m in QUIET[end].finditer(text):
            out += [chosen(turned(text[at : m.start()]), has_choice)]
            out += [spans(m[0]) if m[0].startswith(("--", "//", "{-")) else m[0]]
            at = m.end()
        return "".join(out) + chosen(turned(text[at:]), has_choice)

    paths = [os.path.join(TOP, "README.md")]
    for top in ("crates", "docs"):
        for folder, inner, files in os.walk(os.path.join(TOP, top)):
            inner[:] = [d for d in inner if d != "out"]
            paths += [os.path.join(folder, f) for f in files]
    for path in sorted(paths):
        end = os.path.splitext(path)[1]
        if end not in (".antt", ".rt", ".md"):
            continue
        with open(path, encoding="utf-8", newline="") as f:
            old = f.read()
        new = spans(old) if end == ".md" else code(old, end)
        if new != old:
            with open(path, "w", encoding="utf-8", newline="") as f:
                f.write(new)
            print(os.path.relpath(path, TOP))


main()
