#!/usr/bin/env python3
"""Spells the repository's own definitions, lemmas and fields in snake case: floor-is becomes floor_is, firstBad first_bad.

usage: tools/spelling.py [--list] [ROOT]

It goes over crates/*/specs, crates/*/proofs and the clauses of crates/*/src, once, after port.py. Types and modules keep their camel case, functions of
src/ their names, and what the library or Rattle itself names (a goal, a step of a proof's context) its spelling. A name stays where the new one
would fall together with another in a file that has both, or with a parameter of src/. --list prints the table, old and new, and what stays.
"""

import collections
import os
import re
import sys

NAME = r'[^\s(){}\[\].;,@"«»]+'
TOKEN = re.compile(NAME)
DECLARED = re.compile(
    r"(?m)^ *(?:(?:pub|abbrev|unfoldable|private|ruleset) +)*(%s)(?: \{[^{}\n]*\})* :(?=\s)" % NAME
)
FIELD = re.compile(r"(?m)^ +(?:pub +)?(%s) :(?=\s)" % NAME)
RECORD = re.compile(r"(?m)^(?:(?:pub|abbrev|unfoldable) +)*record .*\n((?: +.*\n|\n)*)")
# Lemmas that had a definition's new name already, or would get a name that another has.
LEMMAS = "after_line all_pass held_by high_end is_digit low_by row_from units_of gap-of low-end".split()
# Names that meet the new one only as a step of a proof's context, a field of another record or a word of a comment.
MEET = "doubledFits naturalAt piecesOf tooLong x-high x-low y-high y-low high-first high-second".split()
USE = re.compile(r"(?m)^ *(?:pub )?use +([^\s{;]+?)\.?(?:\{([^}]*)\}|(?: as (\S+))?)\s*$")
ITEM = re.compile(r"\b(?:const|static|struct|enum|trait|fn|mod) (\w+)")
PARAMETER = re.compile(r"\b(\w+):(?!:)")


def new_spelling(name):
    words = re.sub(r"(?<=[a-z0-9])([A-Z])", lambda m: "_" + m[1].lower(), name) if name[:1].islower() else name
    return re.sub(r"(?<=[\w'₀₁₂₃ℤℕ])-(?=[\w'₀₁₂₃ℤℕ])", "_", words)


def listed(folder, endings):
    for at, below, files in os.walk(folder):
        below[:] = sorted(d for d in below if d not in ("out", "must-fail"))
        for f in sorted(files):
            if f.endswith(endings):
                yield os.path.join(at, f)


def comment_cut(line, mark):
    at = line.find(mark)
    return (line, "") if at < 0 else (line[:at], line[at:])


def main():
    args = [a for a in sys.argv[1:] if a != "--list"]
    root = args[0] if args else "."
    crates = sorted(os.listdir(os.path.join(root, "crates")))
    own = {c for c in crates}
    texts, declared, library, rust = {}, collections.defaultdict(set), {}, {}
    for path in listed(os.path.join(root, "crates"), (".antt", ".rt")):
        texts[path] = open(path, encoding="utf-8").read()
        if path.endswith(".rt"):
            code = re.sub(r"//.*", "", texts[path])
            rust[path] = set(PARAMETER.findall(code))
            continue
        generated = os.path.basename(path) in ("Proof.antt", "Answers.antt", "Invariants.antt") and path.count("/proofs/") and not re.search(
            r"/proofs/[^/]+\.antt$", path
        )
        if not generated:
            for m in DECLARED.finditer(texts[path]):
                declared[m[1]].add(path)
    for path, text in texts.items():
        names = set()
        for m in USE.finditer(text):
            steps = m[1].split(".")
            if len(steps) > 1 and steps[0] == "Rattle" and steps[1] in own:
                continue
            for w in re.split(r"[,\s]+", m[2] or ""):
                names.add(w)
        library[path] = names
    table = {}
    for name in declared:
        to = new_spelling(name)
        if to != name:
            table[name] = to
    for name in LEMMAS:
        table[name] = new_spelling(name) + "_law"
    fields = {f for t in texts.values() for m in RECORD.finditer(t) for f in FIELD.findall(m[1])}
    stays = {}
    by_new = collections.defaultdict(set)
    for old, to in table.items():
        by_new[to].add(old)
    # Where a definition and a lemma fall together, as curveA and curve-a, the lemma is a law.
    for to, olds in by_new.items():
        for o in olds if len(olds) > 1 else ():
            if "-" in o:
                table[o] = to + "_law"
    # The steps of a path are modules.
    tokens = {p: set(TOKEN.findall(re.sub(r"Rattle(\.[\w+]+)+", "", t))) for p, t in texts.items()}
    for old, to in table.items():
        if old in MEET or to[: -len("_law")] in map(new_spelling, LEMMAS):
            continue
        for path, words in tokens.items():
            if old in words and to in (rust[path] if path in rust else words) and to not in LEMMAS:
                stays[old] = f"{to} stands in {os.path.relpath(path, root)}"
                break
    for o in stays:
        table.pop(o, None)
    if "--list" in sys.argv:
        for o in sorted(table):
            print(f"{o}\t{table[o]}")
        for o in sorted(stays):
            print(f"stays: {o}\t{stays[o]}")
        return
    for path, text in texts.items():
        proof = path.endswith("/Proof.antt")
        mark = "//" if path.endswith(".rt") else "-- "
        lines = []
        for line in text.split("\n"):
            code, comment = comment_cut(line, mark)

            def turned(m):
                w = m[0]
                if w not in table or w in library[path] or (mark == "//" and w in LEMMAS):
                    return w
                if proof and code[m.start() - 1 : m.start()] == "." and (w not in fields or w in LEMMAS):
                    return w
                return table[w]

            # In a comment a name stands between backquotes.
            comment = re.sub(r"`[^`]*`", lambda m: TOKEN.sub(lambda k: table.get(k[0].strip("`"), None) and k[0].replace(k[0].strip("`"), table[k[0].strip("`")]) or k[0], m[0]), comment)
            lines.append(TOKEN.sub(turned, code) + comment)
        new = "\n".join(lines)
        if new != text:
            with open(path, "w", encoding="utf-8") as f:
                f.write(new)


main()
