#!/usr/bin/env python3
"""Checks a crate, and builds the archive, over libraries that are built: for the tools beside this file and for the gate.

    tools/built.py check NAME FOLDER     checks a copy of crates/NAME in FOLDER
    tools/built.py archive NAME          proves crates/NAME, a static library, and builds its out/libNAME.a

Both work from the root of the repository, over the libraries that rt ci has just proved; where it has left none, rt proves what has changed.
"""
import os, subprocess, sys
from rattle import are_left_by_ci, crates, rt


def crate_of(name):
    return crates([name])[0]


def words_of(crate, verb="check"):
    """The command that checks or builds the crate, in its folder or in that of a copy."""
    return [rt.rtlib.RATTLE, verb, *crate.words(["--jobs", "1"], keeps=False)]


def check(name, folder):
    crate = crate_of(name)
    if not are_left_by_ci(crate.below()) and subprocess.run(["rt", "check"], cwd=crate.folder).returncode:
        sys.exit(f"crates/{name} is not proved as it is")
    return subprocess.run(words_of(crate), cwd=folder).returncode


def archive(name):
    crate = crate_of(name)
    if not are_left_by_ci(crate.below()):
        return subprocess.run(["rt", "lib"], cwd=crate.folder).returncode
    os.makedirs(f"{crate.folder}/out", exist_ok=True)
    to = ["--toolchain", f"{rt.KIT}/toolchain", "--backend", "llvm", "-o", f"out/lib{name}.a"]
    return subprocess.run([*words_of(crate, "build"), *to], cwd=crate.folder).returncode


if __name__ == "__main__":
    verb, given = sys.argv[1:2], sys.argv[2:]
    if verb == ["check"] and len(given) == 2:
        sys.exit(check(*given))
    if verb == ["archive"] and len(given) == 1:
        sys.exit(archive(*given))
    sys.exit(__doc__.strip())
