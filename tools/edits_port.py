#!/usr/bin/env python3
"""Brings must-fail edits over from the spelling of an earlier commit to the files as they are now.

usage: tools/edits_port.py COMMIT [--write] [--say]      from the root of the repository

COMMIT is the last one whose files have the old spelling, and whose edits applied to them. Of each pair it finds the line of COMMIT's file that the old
text is in, and the line that stands for it now; it spells both texts as today, and sees that the old one stands once in the file, in that line. How a
word is spelled today is learnt from the files themselves: COMMIT's beside today's, word by word. What it cannot do so is told, and left as it is.
"""
import collections, difflib, glob, json, os, re, subprocess, sys

WORD = re.compile(r"[^\s(){}\[\].;,@\"«»⌜⌝λ&!*?<>:|]+|\S")
commit = next(a for a in sys.argv[1:] if not a.startswith("--"))
write, say = "--write" in sys.argv, "--say" in sys.argv


def landed(path):
    got = subprocess.run(["git", "show", f"{commit}:{path}"], capture_output=True, text=True)
    return got.stdout if got.returncode == 0 else None


def words(text):
    return WORD.findall(text)


def kind(path):
    return "rt" if path.endswith(".rt") else "antt"


def plain(line):
    """The line by rules that need no list of words: `x .f` and `(x .f)`, angle marks, the old frame of a clause."""
    line = line.replace("«", "").replace("»", "").replace("⌜ ", "").replace(" ⌝", "")
    line = re.sub(r"\b_(\S{1,4})_(?=[},\s])", r"◌\1◌", line)
    line = re.sub(r"λ (\w+)\. \1 ≡ ", "result ≡ ", line)
    line = re.sub(r"\bnow (\w+)", r"\1.now", line)
    line = re.sub(r" \.(\w)", r".\1", line)
    line = re.sub(r"(?<=[ (])\(([^\W\d][\w'′-]*(?:\.[\w-]+)+)\)", r"\1", line)
    line = re.sub(r"Rattle·(\w+)·(specs|proofs)\.\2\.", r"Rattle.\1.\2.", line)
    return re.sub(r"Rattle·(\w+)", r"Rattle.\1", line)


files = sorted(p for p in subprocess.run(["git", "ls-tree", "-r", "--name-only", commit, "crates"], capture_output=True, text=True).stdout.split()
               if p.endswith((".rt", ".antt")))
both = {}
for path in files:
    if os.path.exists(path):
        both[path] = (landed(path).split("\n"), open(path, encoding="utf-8").read().split("\n"))

# Words: of two lines that have as many words, which stands for which.
seen = {"rt": collections.defaultdict(collections.Counter), "antt": collections.defaultdict(collections.Counter)}
for path, (old, new) in both.items():
    told = seen[kind(path)]
    a, b = [words(plain(line)) for line in old], [words(line) for line in new]
    shape = lambda ws: " ".join(re.sub(r"[\w'-]+", "w", w) for w in ws)
    match = difflib.SequenceMatcher(None, [shape(w) for w in a], [shape(w) for w in b], autojunk=False)
    for i, j, n in match.get_matching_blocks():
        for k in range(n):
            if len(a[i + k]) == len(b[j + k]):
                for one, other in zip(a[i + k], b[j + k]):
                    told[one][other] += 1
table = {}
for which, told in seen.items():
    table[which] = {}
    for one, others in told.items():
        best, count = others.most_common(1)[0]
        if best != one and count * 2 > sum(others.values()):
            table[which][one] = best


def respelled(text, path, most=True):
    text = plain(text)
    if most:
        return WORD.sub(lambda m: table[kind(path)].get(m[0], m[0]), text)
    return text


aligned = {}


def stands_for(path):
    """For each line of the old file the lines of today's that stand for it: its own, or those between its neighbours'."""
    if path not in aligned:
        old, new = both[path]
        a = [" ".join(words(respelled(line, path))) for line in old]
        b = [" ".join(words(line)) for line in new]
        match = difflib.SequenceMatcher(None, a, b, autojunk=False)
        to = {}
        for tag, i, i2, j, j2 in match.get_opcodes():
            for k in range(i, i2):
                if tag == "equal" or i2 - i == j2 - j:
                    to[k] = range(j + k - i, j + k - i + 1)
                else:
                    to[k] = range(j, j2)
        aligned[path] = to
    return aligned[path]


def pairs_of(text):
    path = old = None
    for number, line in enumerate(text.split("\n")):
        if line.startswith("file: "):
            path = line[6:].strip()
        elif line.startswith("old: "):
            old, at = line[5:], number
        elif line.startswith("new:"):
            yield path, old, line[4:].removeprefix(" "), at, number


def laws(place, crate):
    """A place's law in snake case, and the folder's new file."""
    file, mark, law = place.partition(".antt")
    if re.fullmatch(r"proofs/.+/Proof", file) and not law:
        return file[: -len("Proof")] + "Answers.antt"
    if re.fullmatch(r"proofs/.+/Proof", file):
        return None
    return file + mark + law[:1] + table["antt"].get(law[1:], law[1:])


counts, left = collections.Counter(), []
for edit in sorted(glob.glob("crates/*/must-fail/*.edit")):
    crate = edit.split("/")[1]
    text = landed(edit)
    lines = text.split("\n")
    then, now, good = {}, {}, True
    for file, old, new, at, to in pairs_of(text):
        path = f"crates/{crate}/{file}"
        counts["pairs"] += 1
        if path not in both:
            left.append((edit, at, "no such file today", old, new)); good = False
            continue
        if path not in then:
            then[path], now[path] = list(both[path][0]), list(both[path][1])
        at_line = [k for k, line in enumerate(then[path]) if old in line]
        assert len(at_line) == 1 and then[path][at_line[0]].count(old) == 1, (edit, old)
        k = at_line[0]
        before = then[path][k]
        then[path][k] = after = before.replace(old, new)
        where = stands_for(path)[k]
        done = False
        for most in (False, True) if respelled(old, path) == old and respelled(new, path) == new else (True,):
            for trial in (lambda t: respelled(t, path), lambda t: respelled(t, path).lstrip(), lambda t: t):
                o, n = trial(old), trial(new)
                found = [j for j, line in enumerate(now[path]) if o in line]
                if len(found) == 1 and now[path][found[0]].count(o) == 1 and found[0] in where:
                    done = True
                    break
            if done:
                break
        imports = [re.fullmatch(r"use (\S+)\.\{(.*)\}", respelled(t, path)) for t in (old, new)]
        if not done and all(imports) and imports[0][1] == imports[1][1]:
            # More names of a module are today more names of the Prelude; the old text is the head of its line, whatever else it comes to name.
            had, has = [re.split(r",\s*", m[2]) for m in imports]
            o = "use Rattle.std.specs.Prelude.{"
            n = o + "".join(f"{name}," for name in has if name not in had)
            found = [j for j, line in enumerate(now[path]) if o in line]
            if len(found) == 1 and not set(had) - set(has) and not any(re.search(r"[{ ]" + re.escape(name) + "[,}]", now[path][found[0]]) for name in has if name not in had):
                now[path][found[0]] = now[path][found[0]].replace(o, n)
                counts["an import"] += 1
                lines[at], lines[to] = f"old: {o}", f"new: {n}"
                if say:
                    print(f"{edit}:{at + 1}\n  - {old}\n  - {new}\n  + {o}\n  + {n}")
                continue
        if not done:
            left.append((edit, at, "not found once", old, new, before, [now[path][j] for j in where])); good = False
            continue
        j = found[0]
        was = now[path][j]
        now[path][j] = now[path][j].replace(o, n)
        # The same change: the old line spelled as today, with this change, is today's line with this change.
        one = [w for w in words(respelled(after, path))]
        other = words(now[path][j])
        if one != other:
            base = words(respelled(before, path)), words(was)
            d1 = [(t, base[0][a:b], one[c:d]) for t, a, b, c, d in difflib.SequenceMatcher(None, base[0], one, autojunk=False).get_opcodes() if t != "equal"]
            d2 = [(t, base[1][a:b], other[c:d]) for t, a, b, c, d in difflib.SequenceMatcher(None, base[1], other, autojunk=False).get_opcodes() if t != "equal"]
            if d1 != d2:
                left.append((edit, at, "another change", old, new, before, [was, now[path][j]])); good = False
                continue
        counts["same text" if (o, n) == (old, new) else "respelled"] += 1
        lines[at], lines[to] = f"old: {o}", f"new: {n}" if n else "new:"
        if say and (o, n) != (old, new):
            print(f"{edit}:{at + 1}\n  - {old}\n  - {new}\n  + {o}\n  + {n}")
    for number, line in enumerate(lines):
        if line.startswith("refused: "):
            place = laws(line[9:], crate)
            if place is None:
                left.append((edit, number, "a name in a function's proof", line)); good = False
            else:
                lines[number] = f"refused: {place}"
        elif line.startswith("file: ") and re.search(r"proofs/.+/Proof\.antt$", line):
            good = False
    counts["files" if good else "files left"] += 1
    if write:
        open(edit, "w", encoding="utf-8").write("\n".join(lines))
for it in left:
    print("left:", it[0], "line", it[1] + 1, it[2])
    for part in it[3:]:
        print("    ", part if isinstance(part, str) else "\n      | ".join(["|", *part]))
print(dict(counts))
