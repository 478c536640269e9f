#!/usr/bin/env python3
"""Respells the repository's own definitions, lemmas and record fields as respell.txt beside this script lists them.

usage: python3 tools/respell.py            at the top of the repository: rewrites crates/*/{src,specs,proofs} in place
       python3 tools/respell.py --look     writes nothing: only says where two names would fall together

It is for one run, on the tree that the toolchain's own script has turned (docs/PORT.md), and has had it. A second run would take some
new names for old ones.

A line of respell.txt is OLD NEW KIND. A 'def' is respelled wherever it stands as a word of its own, and behind a dot only in the path of a
module; a 'field' also behind any other dot. A file that answers a goal of some name keeps that name. Words are in snake case; a dash stays
only between the names of two definitions. Strings and comments keep their text, but for words in camel case, which are names wherever
they stand.
"""

import collections
import os
import re
import sys

HERE = os.path.dirname(os.path.realpath(__file__))
# a word: no space, no bracket, no mark of punctuation
WORD = re.compile(r"[^\s(){}\[\].,;:λ&!?\"]+")


def table():
    defs, fields = {}, {}
    with open(os.path.join(HERE, "respell.txt"), encoding="utf-8") as f:
        for line in f:
            old, new, kind = line.split()
            (fields if kind == "field" else defs)[old] = new
    return defs, fields


def files():
    for folder, dirs, names in os.walk("crates"):
        dirs[:] = sorted(d for d in dirs if d not in ("out", "must-fail", "data"))
        for name in sorted(names):
            if name.endswith((".rt", ".antt")):
                yield os.path.join(folder, name)


def pieces(line, mark):
    """The code of a line and the comment behind it."""
    at = line.find(mark)
    while at > 0 and line[:at].count('"') % 2:
        at = line.find(mark, at + 1)
    return (line, "") if at < 0 else (line[:at], line[at:])


def respelled(line, mark, defs, fields, is_record_field, seen):
    code, comment = pieces(line, mark)

    def code_word(m):
        word, before = m[0], code[: m.start()]
        if before.count('"') % 2:
            return word
        dotted = before.endswith(".") and not before.endswith("..") and (before[:-1] and not before[:-1][-1].isspace())
        written = re.search(r"(^|[{;])\s*$", before) and re.match(r"\s*=", code[m.end() :]) and code.lstrip() != code
        new = None
        if dotted:
            new = fields.get(word)
            # a path: .{a, b} and module.name
            if new is None and re.search(r"(Rattle|proofs|specs)\.[\w.]*$", before):
                new = defs.get(word)
        elif is_record_field or written or word not in defs:
            new = fields.get(word, defs.get(word))
        else:
            new = defs[word]
        if new is None:
            new = word
        seen[new].add(word)
        return new

    def comment_word(m):
        word = m[0]
        return defs.get(word, fields.get(word, word)) if re.search(r"[a-z][A-Z]", word) and "-" not in word else word

    return WORD.sub(code_word, code) + WORD.sub(comment_word, comment)


def main(look):
    defs, fields = table()
    changed = 0
    for path in files():
        with open(path, encoding="utf-8") as f:
            text = f.read()
        mark = "//" if path.endswith(".rt") else "--"
        goals = set(re.findall(r"(?m)^\s*(?:pub )?(\S+)\s*: goal\.", text))
        here = {k: v for k, v in defs.items() if k not in goals}
        seen = collections.defaultdict(set)
        lines, record = [], None
        for line in text.split("\n"):
            indent = len(line) - len(line.lstrip())
            if re.match(r"\s*(pub |abbrev )*record\b(?!.*=\s*record)", line) and " where" in line:
                record = indent
            elif line.strip() and record is not None and indent <= record:
                record = None
            in_record = record is not None and indent > record and re.match(r"\s*(pub )?\S+\s*:", line) is not None
            lines.append(respelled(line, mark, here, fields, in_record, seen))
        for new, olds in seen.items():
            if len(olds) > 1:
                print(f"fall together in {path}: {' '.join(sorted(olds))} -> {new}")
        new_text = "\n".join(lines)
        if new_text != text:
            changed += 1
            if not look:
                with open(path, "w", encoding="utf-8") as f:
                    f.write(new_text)
    print(f"{changed} files {'would change' if look else 'changed'}")


if __name__ == "__main__":
    main("--look" in sys.argv[1:])
