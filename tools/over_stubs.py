#!/usr/bin/env python3
"""Checks a part of a crate over stubs of the crates below it: while one writes a proof, in seconds instead of minutes.

usage: tools/over_stubs.py [--jobs N] [--tree FOLDER] [--alone] [--test] CRATE [PATH..]

PATH is a function or a module by its path below the crate, as `rt check --only` takes it; with none the clauses and definitions are read
and nothing is proved. FOLDER is a checkout, this one where nothing else is said. The functions of the crate that those of PATH call are
checked too, or, with --alone, stand as stubs. With --test the tests are checked too.

A stub is a crate whose functions are endless loops with holes as their proofs, so its contracts, definitions and lemmas are all that is
left of it. What a lemma of it rests on may be wrong: the gate proves every crate over the real ones. The stubs are kept in
~/.cache/pbfcut/stubs, each by a digest of its crate, and so are the checked modules; the folder may be removed.

The last line is `only=N holes=K`. A function of the crate is right if its line reads `no holes`, or `depends on a hole` of a crate below.

Exit status: that of the check.
"""
import argparse
import glob
import hashlib
import os
import re
import shutil
import subprocess
import sys
import tempfile

import build
import planted
from planted import PARTS, files_in, functions_of, leave_out, text_of

KEPT = os.path.join(os.environ.get("XDG_CACHE_HOME") or os.path.expanduser("~/.cache"), "pbfcut", "stubs")


def digest_of(crate):
    """A digest of all that is read of a crate."""
    digest = hashlib.sha256(open(planted.__file__, "rb").read())
    for file in files_in(crate):
        digest.update(file.encode() + b"\0" + text_of(crate, file).encode())
    return digest.hexdigest()[:12]


def copy_stubbed(crate, name, room, asked=()):
    """Copies a crate into a room, with stubs for all functions but those that are asked for, by the file and the name of each."""
    for part in PARTS:
        if os.path.isdir(os.path.join(crate, part)):
            shutil.copytree(os.path.join(crate, part), os.path.join(room, part))
    leave_out(room, name, frozenset(asked))
    # what a function that called itself is measured by: an endless loop calls nothing
    for folder in glob.glob(os.path.join(room, "proofs", "**", "+*"), recursive=True):
        if os.path.basename(folder)[1:] not in {function for _, function in asked}:
            shutil.rmtree(folder)


def make_stub(crate, name):
    """The folder of a crate's stub, which is made where it isn't kept."""
    made = os.path.join(KEPT, f"{name}-{digest_of(crate)}")
    if not os.path.isdir(made):
        room = f"{made}.{os.getpid()}"
        copy_stubbed(crate, name, room)
        try:
            os.rename(room, made)
        except OSError:  # another run has made it meanwhile
            shutil.rmtree(room)
    return made


def functions_at(crate, paths):
    """The functions that these paths name, each by its file and its name."""
    asked = tuple(f"{path.replace('::', '/')}/" for path in paths)
    files = [file for file in files_in(crate) if file.startswith("src/")]
    named = [(file, *found) for file in files for found in functions_of(file, text_of(crate, file))]
    return [(file, name) for file, name, folder, _ in named if f"{folder}/".startswith(asked)]


def words_of(kit, tree, name, jobs):
    """The command that checks a crate over the stubs."""
    crates = build.read_crates(name)
    rlibs = os.path.join(kit, "rlibs")
    folder = os.path.join(tree, "crates", name)
    root = "src/main.rt" if os.path.exists(os.path.join(folder, "src/main.rt")) else "src/lib.rt"
    words = [os.path.join(kit, "bin/rattle"), "check", "--crate-name", name, root, "--extern", f"std={rlibs}/std.rlib"]
    below = build.all_below(crates, name)
    foreign = {other for crate in [name, *below] for other in crates[crate] if other not in crates}
    for other in sorted(foreign):
        words += ["--extern", f"{other}={rlibs}/{other}.rlib"]
    words += ["-L", f"dependency={rlibs}"]
    for other in below:
        stub = make_stub(os.path.join(tree, "crates", other), other)
        words += ["--lib", f"{other}:{','.join(['std', *crates[other]])}={stub}/src/lib.rt"]
    words += ["--antt-project", f"{kit}/rattle/logic/antt-project.json", "--logic-built", f"{kit}/logic_built"]
    words += ["--incremental", os.path.join(KEPT, f"checked-{name}-{hashlib.sha256(folder.encode()).hexdigest()[:8]}")]
    return words + ["--jobs", str(jobs), "--short-goals", "--allow-holes", "--progress"]


def show(lines, name):
    """Prints what is said of the crate itself, and not of stubs."""
    of_stubs = re.compile(rf"{KEPT}|statements |crate |fn (?!{name}::)|\./proofs/\S+/Proof\.antt:.*(has-holes|goal \? in)")
    is_shown = True
    for line in lines:
        text = re.sub("^so far: ", "", line)
        if not text.startswith((" ", "\t", "\n")):
            is_shown = not of_stubs.match(text)
        if is_shown:
            print(line, end="", flush=True)


def main():
    arguments = argparse.ArgumentParser(usage="tools/over_stubs.py [--jobs N] [--tree FOLDER] [--alone] [--test] CRATE [PATH..]")
    arguments.add_argument("--jobs", type=int, default=1)
    arguments.add_argument("--tree", default=build.TOP)
    arguments.add_argument("--alone", action="store_true")
    arguments.add_argument("--test", action="store_true")
    arguments.add_argument("crate")
    arguments.add_argument("paths", nargs="*", metavar="PATH")
    given = arguments.parse_args()
    kit = build.kit_folder()
    if kit is None:
        return build.NOT_THIS_KIT
    tree = os.path.abspath(given.tree)
    build.TOP = tree
    os.makedirs(KEPT, exist_ok=True)
    only = ["--test"] if given.test else []
    only += [word for path in given.paths or [""] for word in ("--only", f"{given.crate}::{path}" if path else "")]
    folder = os.path.join(tree, "crates", given.crate)
    with tempfile.TemporaryDirectory(prefix="alone-") as room:
        if given.alone:
            copy_stubbed(folder, given.crate, room, functions_at(folder, given.paths))
            folder = room
        how = {"cwd": folder, "stdout": subprocess.PIPE, "stderr": subprocess.STDOUT, "text": True, "errors": "replace"}
        with subprocess.Popen(words_of(kit, tree, given.crate, given.jobs) + only, **how) as check:
            show(check.stdout, given.crate)
    return check.returncode


if __name__ == "__main__":
    sys.exit(main())
