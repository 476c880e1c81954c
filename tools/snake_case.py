#!/usr/bin/env python3
"""Spells the repository's own definitions, lemmas, fields and constructors in snake case, after port.py has run.

usage: snake_case.py [FOLDER]      FOLDER is the top of a checkout, by default the one that this file lies in

A name turns where specs/ or a file right in proofs/ declares it, as a whole word, in clauses, `ghost use` items, specs/ and proofs/: firstLeaf becomes
first_leaf, first-le-last first_le_last. A lemma whose name would meet that of a definition gets _lem. Names in Rust code, paths of crates and what Rattle makes stay.
A second run changes nothing.
"""
import collections
import os
import re
import sys

TOP = os.path.abspath(sys.argv[1] if len(sys.argv) > 1 else os.path.join(os.path.dirname(os.path.realpath(__file__)), ".."))
CRATES = os.path.join(TOP, "crates")
WORD = r'[^\s(){}.;,@"«»:]+'
DECLARED = re.compile(
    r"(?m)^ *(?:(?:pub|abbrev|unfoldable|mutual) )*(?!module\b|data\b|record\b|use\b|let\b|in\b|where\b)(" + WORD + r")(?: \{[^\n{}]*\}| \([^\n()]*\))* :(?=\s)"
)
CLAUSE = re.compile(r"(?m)^\s*(?:requires|ensures)\b.*$|^ghost\b[^\n]*$|^\s+//[^\n]*$|^//[^\n]*$")
# Lemmas that port.py had turned already, and that have the name of a definition: the file that declares each, and those that import it.
MET = {
    "below_key": ["prepare/specs/RowKeys.antt", "prepare/specs/PreparedLaws.antt"],
    "by_end": ["own_line/specs/OwnLine.antt"],
    "by_place": ["passes/specs/OfTable.antt"],
    "from_at": ["schedule_laws/specs/Theorem.antt"],
    "read_table": ["run/specs/Presses.antt", "run/specs/Sound.antt", "run/specs/OfPlan.antt"],
    "run_length": ["matching/specs/Passes.antt"],
}


def snake(name):
    return re.sub(r"(?<=[a-z0-9])[A-Z](?![A-Z])", lambda m: "_" + m[0].lower(), name).replace("-", "_")


def files():
    for folder, dirs, names in os.walk(CRATES):
        dirs[:] = sorted(d for d in dirs if d != "out")
        for n in sorted(names):
            if n.endswith((".antt", ".rt")):
                yield os.path.join(folder, n)


def read(path):
    with open(path, encoding="utf-8", newline="") as f:
        return f.read()


def main():
    declared = collections.defaultdict(set)
    for p in files():
        parts = os.path.relpath(p, CRATES).split(os.sep)
        if p.endswith(".antt") and (parts[1] == "specs" or len(parts) == 3):
            for m in DECLARED.finditer(read(p)):
                declared[m[1]].add(os.path.join(*parts))
    turned = {}
    for n in declared:
        if n[0].isupper() and "-" not in n or not re.search("[A-Z-]", n):
            continue
        if snake(n) != n:
            turned[n] = snake(n)
            turned[n.strip("◌")] = snake(n).strip("◌")
    met = {n for n in MET if any(s == n and "-" not in o for o, s in turned.items())}
    definitions = {s for n, s in turned.items() if "-" not in n} | {n for n in declared if "_" in n and n not in met}
    for n in turned:
        if "-" in n and turned[n] in definitions:
            turned[n] += "_lem"
    by_new = collections.defaultdict(list)
    for n, s in turned.items():
        by_new[s].append(n)
    for s, ns in by_new.items():
        if len(ns) > 1:
            print(f"meet: {s}: {ns}")
    word = re.compile(WORD)
    for p in files():
        text = old = read(p)
        rel = os.path.relpath(p, CRATES)
        local = dict(turned)
        for n in met:
            if rel in MET[n]:
                local[n] = n + "_lem"

        def turn(piece):
            return word.sub(lambda m: local.get(m[0], m[0]), piece)

        if p.endswith(".antt"):
            # The path of a `use` line names crates and modules, which stay.
            lines = []
            for l in text.split("\n"):
                m = re.match(r"(\s*(?:pub )?use [\w.'+]+?\.\{)(.*)$", l)
                lines.append(m[1] + turn(m[2]) if m else l if re.match(r"\s*(?:pub )?use ", l) else turn(l))
            text = "\n".join(lines)
        else:

            def clause(m):
                l = m[0]
                u = re.match(r"(ghost use [\w.'+]+?\.\{)(.*)$", l)
                return u[1] + turn(u[2]) if u else l if l.startswith("ghost use") else turn(l)

            text = CLAUSE.sub(clause, text)
        if text != old:
            with open(p, "w", encoding="utf-8", newline="") as f:
                f.write(text)


main()
