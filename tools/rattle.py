"""What rt itself does, for the tools beside this file: how it reads a must-fail edit, checks a crate with it, and what the check says of it."""
import importlib.machinery, importlib.util, os, re, shutil, sys

sys.dont_write_bytecode = True
path = os.path.realpath(shutil.which("rt") or "/opt/rattle/bin/rt")
loader = importlib.machinery.SourceFileLoader("rt", path)
rt = importlib.util.module_from_spec(importlib.util.spec_from_loader("rt", loader))
loader.exec_module(rt)

# An error that only says that another was refused, and one of a proof file that names what the edit took away: neither says anything of the contract.
RESTS = re.compile(r"was not admitted|was rejected|\bdepends? on\b.*\bnot checked")
NAMES = re.compile(r"has no field|has no `[^`]*` that can be named|is not in scope|cannot be named")
GOAL = re.compile(r"note: (src/\S+?):(\d+):\d+: it is not proved that .*\(`([^`]+)`\)(.*)")


def crates(names):
    """The crates of these names, or all, lowest first."""
    every = rt.rtlib.crates_below(os.getcwd())
    return [it for it in every if not names or it.name in names]


def are_left_by_ci(libraries):
    """Whether rt ci has just left its own build of these libraries: rt marks what it has built by a stamp, and rt ci by none."""
    return all(os.path.exists(f"{it.rlib}/format") and not os.path.exists(f"{it.folder}/out/rlib/stamp") for it in libraries)


def programs(text):
    """The wrong programs of an edit: of each its label, or nothing, its pairs as (file, old, new), and the places that must refuse it."""
    found, file, old = [["", [], []]], "", ""
    for line in text.split("\n"):
        if re.fullmatch(r"[a-z0-9_]+:", line):
            found.append([line[:-1], [], []])
        elif line.startswith("file: "):
            file = line[6:].strip()
        elif line.startswith("old: "):
            old = line[5:]
        elif line.startswith("new:"):
            found[-1][1].append((file, old, line[4:].removeprefix(" ")))
        elif line.startswith("refused: "):
            found[-1][2].append(line[9:].strip())
    return [it for it in found if any(it)]


def function_at(file, text, line):
    """The function that stands at this line of a source, as its folder in proofs/ names it."""
    lines = text.split("\n")
    # (an item begins at its attributes)
    while line < len(lines) and re.match(r" *#\[", lines[line - 1]):
        line += 1
    lines = lines[:line]
    module = "" if file in ("src/lib.rt", "src/main.rt") else file[len("src/") : -len(".rt")] + "/"
    for k in range(len(lines) - 1, -1, -1):
        it = re.match(r"( *)(?:pub )?(?:unsafe )?(?:extern \"C\" )?fn (\w+)", lines[k])
        if it:
            above = [re.match(r"impl(?:<.*>)? (?:.* for )?(\w+)", x) for x in lines[k::-1]] if it[1] else []
            return module + next((m[1] + "/" for m in above if m), "") + it[2]
    return ""


def in_proof(file, folder):
    """Whether a file of proofs/ is of the function of which this is the folder: one of its two, or a module that one of them declares."""
    return bool(re.fullmatch(re.escape(folder) + r"/(Answers|Invariants)(/\w+)?(\.antt)?", file))


def told(log, place, source):
    """What a check's words say at a place: 'fact' where a fact of the proof fails, 'false' where a goal was shown to be false, 'name' where the proof only
    names what is gone, 'goal' where the search leaves a goal that has no answer, 'rests' where only another's refusal is told, or nothing.
    source gives the text of a file of src/ as it was checked."""
    file, _, law = place.partition(".antt")
    law, found = law[1:], set()
    folder = file.removesuffix("/Answers")
    for line in log.split("\n"):
        it = re.match(r"(?:\./)?(proofs/\S+?)\.antt:\d+:\d+: error: (.*)", line)
        if it and (in_proof(it[1], folder) if folder != file else it[1] == file) and (not law or it[2].startswith(f"`{law}`")):
            found.add("rests" if RESTS.search(it[2]) else "name" if NAMES.search(it[2]) else "fact")
        it = GOAL.match(line)
        if it and folder != file and law in ("", it[3]) and function_at(it[1], source(it[1]), int(it[2])) == folder[len("proofs/") :].replace("+", ""):
            found.add("false" if "allow values at which this goal is false" in it[4] else "goal")
    return next((it for it in ("fact", "false", "name", "goal", "rests") if it in found), "")


def source_of(folder, texts):
    """The text of a file of the crate, with an edit's own in place of the crate's."""

    def text(file):
        if file in texts:
            return texts[file]
        with open(f"{folder}/{file}", encoding="utf-8") as it:
            return it.read()

    return text


class Tries:
    """Checks crates with their edits, each over what a check of the crate as it stands proved."""

    def __init__(self, names):
        rt.rtlib.guarded()
        rt.share_work(False)
        self.crates = {it.name: it for it in crates(names)}

    def ready(self, name, after_ci=False):
        """Builds what the crate stands on, and says whether all of it is proved. What rt ci built bears no stamp: after_ci takes it as it is."""
        below = self.crates[name].below()
        if after_ci and all(os.path.isdir(it.rlib) and (it.is_built() or not os.path.exists(f"{os.path.dirname(it.rlib)}/stamp")) for it in below):
            return True
        return not any(it.build_rlib(["--jobs", "1"], anew=False) for it in below)

    def seed(self, name, jobs):
        """Proves the crate as it stands, begun with what an earlier check of it kept."""
        rt.adopt(self.crates[name], is_alone=False)
        start = f"{self.crates[name].folder}/out/incremental"
        return rt.seeded(self.crates[name], ["--jobs", str(jobs)], start if os.path.isdir(start) else None)

    def one(self, name, edit, room):
        """Tries one edit over the seed in room, and gives rt's own verdict on it, the texts that it made, and what the check said."""
        texts, why = rt.read_edit(edit, self.crates[name].folder)
        if why:
            return f"BAD EDIT: {why}", {}, ""
        over = f"{room}/{os.path.basename(edit)}"
        rt.linked(f"{room}/seed", over)
        try:
            made = rt.checked(self.crates[name], texts, ["--jobs", "1"], over)
        finally:
            shutil.rmtree(over, ignore_errors=True)
        return verdict(made, texts), texts, made.stdout


def verdict(ran, texts):
    """What rt says of an edit of which the check came to this (must_fail of rt): nothing where it is refused as it must be."""
    lines = ran.stdout.rstrip("\n").split("\n")
    bad = next((it for it in lines if rt.unread(it, texts)), "")
    if bad and ran.returncode == 1:
        return f"BAD EDIT: the prover cannot read the edited text, so no contract was tried: {bad[:200]}"
    if ran.returncode == 1 and lines[-1].startswith("logic=not-proved"):
        return ""
    return "NOT REFUSED" if ran.returncode == 0 else f"NOT TRIED: its check ended with status {ran.returncode}: {' '.join(lines[-3:])[:300]}"
