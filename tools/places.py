#!/usr/bin/env python3
"""Counts the places that docs/DESIGN-PASS.md speaks of, point by point, in the src/ of a checkout.

    python3 tools/places.py [ROOT] [--list]
"""
import re
import sys
from collections import defaultdict
from pathlib import Path

root = Path(next((a for a in sys.argv[1:] if not a.startswith("--")), "."))
listing = "--list" in sys.argv
files = sorted(root.glob("crates/*/src/**/*.rt"))


def numbered(path):
    return enumerate(path.read_text().splitlines(), 1)


def place(path, n):
    return f"{path.relative_to(root)}:{n}"


def lines_that(pattern):
    found = re.compile(pattern)
    return [(place(p, n), line.strip()) for p in files for n, line in numbered(p) if found.search(line)]


def show(title, hits):
    print(f"{len(hits):5}  {title}")
    if listing:
        for where, what in hits:
            print(f"         {where}  {what}")


def functions():
    """Each function: its place, name, parameters, and its body as one text."""
    head = re.compile(r"\bfn ([a-z_0-9]+)")
    for p in files:
        lines = p.read_text().splitlines()
        i = 0
        while i < len(lines):
            m = head.search(lines[i])
            if not m or lines[i].lstrip().startswith("//") or re.search(r"\bfn\(", lines[i]):
                i += 1
                continue
            start, indent = i, len(lines[i]) - len(lines[i].lstrip())
            while i < len(lines) and not lines[i].rstrip().endswith("{") and not lines[i].rstrip().endswith(";") and not (
                lines[i].strip() == "{"):
                i += 1
            if i >= len(lines) or lines[i].rstrip().endswith(";"):
                i += 1
                continue
            end = i
            while end < len(lines) and not (lines[end].startswith(" " * indent + "}") and len(lines[end].rstrip()) == indent + 1):
                end += 1
            signature = " ".join(l.strip() for l in lines[start:i + 1])
            body = "\n".join(lines[i + 1:end])
            yield place(p, start + 1), m.group(1), signature, body
            i = end + 1


def parameters(signature):
    m = re.search(r"fn [a-z_0-9]+(?:<.*?>)?\((.*?)\)(?: ->| requires| ensures| where| \{|$)", signature)
    return [x.strip() for x in (m.group(1) if m else "").split(", ") if ":" in x]


def shape(body):
    body = re.sub(r"//.*", "", body)
    body = re.sub(r"\"[^\"]*\"", "s", body)
    body = re.sub(r"\b(for|in|if|else|let|mut|return|match|as|true|false|while|loop|Some|None|Ok|Err|self|unreachable)\b", r"@\1", body)
    body = re.sub(r"(?<!@)\b[A-Za-z_][A-Za-z_0-9]*\b", "x", body)
    body = re.sub(r"\b[0-9][0-9_]*\b", "0", body)
    return re.sub(r"\s+", " ", body).strip()


def clauses():
    for p in files:
        text = p.read_text()
        for m in re.finditer(r"(requires|ensures)[ a-z_0-9]*\{ (.*) \}", text):
            yield m.group(1), place(p, text.count("\n", 0, m.start()) + 1), m.group(2)


all_functions = list(functions())
tests = lambda where: "cases/src" in where

print("1  shapes of Option and Result, flags, numbers for kinds")
show("enums (read each: is it an Option or a Result?)", lines_that(r"^\s*(pub(\([a-z]+\))? )?enum "))
returns = []
for p in files:
    text = p.read_text().splitlines()
    for n, line in enumerate(text):
        if re.search(r"\belse \{$", line) and n + 1 < len(text):
            if re.search(r"return (Err|None|Ok\(None|told|String::from_str|refused)", text[n + 1]):
                returns.append((place(p, n + 1), line.strip() + " " + text[n + 1].strip()))
show("`let .. else` that only returns an error or none", returns)
show("numbers in place of refusals (a function of a test or a law that answers a number)",
     [(w, s[:90]) for w, n, s, b in all_functions if re.search(r"-> u8\b", s) and n in ("answer", "walks_hold")])
show("a bool for success beside what is done", [(w, s[:90]) for w, n, s, b in all_functions if "&mut self" in s and "-> bool" in s])
show("`unreachable()` behind an Option", lines_that(r"unreachable\(\)"))

print("2  twins: functions whose bodies have one shape (names, types and numbers taken out)")
groups = defaultdict(list)
for where, name, signature, body in all_functions:
    s = shape(body)
    if len(s) > 40 and "#[test]" not in body:
        groups[s].append((where, name))
twins = [g for g in groups.values() if len(g) > 1]
show("functions in such groups", [(w, n) for g in twins for w, n in g])
show("range tests written out (lo <= x && x <= hi)", lines_that(r"\b(\S+) <= (\S+) && \2 <= |< \S+ \|\| \S+ > "))

print("3  loops over a counted index")
counted = lines_that(r"^\s*for \w+ in \(?[\w. ()+:]*\.\.")
show("`for i in a..b`", counted)

print("4  equality, order, copying, conversion, printing by hand")
show("impls", lines_that(r"^impl.*\b(PartialEq|Eq|PartialOrd|Ord|Hash|Clone|Copy|Default|Drop|From<.*>|TryFrom<.*>|(fmt::)?Display|(fmt::)?Debug) for "))
show("`as` between numbers", lines_that(r"\bas (u8|u16|u32|u64|usize|i16|i32|i64)\b"))

print("5  facts in three or more contracts, parameters that travel together")
facts = defaultdict(list)
for kind, where, text in clauses():
    facts[(kind, text)].append(where)
repeated = {k: v for k, v in facts.items() if len(v) >= 3}
show("clauses that stand three times or more, all together", [(w, f"{k[0]} {{ {k[1]} }}") for k, v in repeated.items() for w in v])
pairs = defaultdict(list)
for where, name, signature, body in all_functions:
    ps = sorted(set(parameters(signature)))
    for i in range(len(ps)):
        for j in range(i + 1, len(ps)):
            pairs[(ps[i], ps[j])].append(where)
together = {k: v for k, v in pairs.items() if len(v) >= 3}
show("pairs of parameters in three functions or more", [(v[0], f"{k[0]}, {k[1]}: {len(v)} functions") for k, v in together.items()])
show("free functions over a struct of their crate (`fn f(x: &T, ..)`)", [(w, s[:80]) for w, n, s, b in all_functions if re.search(r"fn \w+(<.*>)?\((trace|cell|frame|vertex|values|r|record): &(mut )?(Trace|Cell|CellRecord|Frame|Vertex|Values)\b", s) and not tests(w)])

print("6  arrays of a fixed length that are used in part")
show("fields and results", lines_that(r"(^\s*(pub )?\w+: \[.*; \d+\],?$|-> (Option<|Result<)?\[.*; \d+\])"))

print("7  a switch on which step to run")
show("a parameter that says which", lines_that(r"question: Question"))

print("8  proofs")
for title, pattern in (("lines of proofs/", "crates/*/proofs/**/*.antt"), ("files Answers.antt", "crates/*/proofs/**/Answers.antt"), ("files Invariants.antt", "crates/*/proofs/**/Invariants.antt")):
    found = [f for f in root.glob(pattern)]
    n = sum(len(f.read_text().splitlines()) for f in found) if title.startswith("lines") else len(found)
    print(f"{n:5}  {title}")
