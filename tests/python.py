#!/usr/bin/env python3
"""Tests that each Python file of the repository is one for Python 3.9, which the systems with glibc 2.34 have.

usage: tests/python.py [PROGRAM]

PROGRAM is not run. A file has to have the grammar of 3.9, and none of the calls that are newer. Where python3.9 is installed, that compiles each file, too.
"""

import ast
import os
import re
import shutil
import subprocess
import sys

TOP = os.path.dirname(os.path.dirname(os.path.abspath(__file__)))
VERSION = (3, 9)
# what came with 3.10 and later, as far as it is easily used
NEWER = [r"\bfile_digest\b", r"\bzip\([^()]*strict=", r"\.bit_count\(", r"\bslots=", r"\bkw_only=", r"\bpairwise\b", r"\bbatched\b", r"\btomllib\b", r"\bStrEnum\b",
         r"\baiter\(", r"\banext\(", r"\baclosing\b", r"\bTypeAlias\b", r"\bParamSpec\b", r"\bSelf\b", r"\bassert_never\b", r"\badd_note\(", r"\bExceptionGroup\b",
         r"\bsys\.exception\(", r"\bhardlink_to\(", r"\bdelete_on_close=", r"\broot_dir=", r"\bsys\.orig_argv\b", r"\bsys\.stdlib_module_names\b"]


def python_files():
    """Each file that ends with .py, or whose first line names Python."""
    for folder, folders, names in os.walk(TOP):
        folders[:] = sorted(name for name in folders if not name.startswith(".") and name not in ("out", "proofs", "specs"))
        for name in sorted(names):
            path = os.path.join(folder, name)
            if name.endswith(".py"):
                yield path
            elif "." not in name and os.access(path, os.X_OK):
                with open(path, "rb") as file:
                    if re.match(rb"#!.*python", file.readline(100)):
                        yield path


def faults(path: str):
    with open(path, encoding="utf-8") as file:
        text = file.read()
    try:
        ast.parse(text, feature_version=VERSION)
    except SyntaxError as error:
        yield f"line {error.lineno}: {error.msg}"
    if path == os.path.abspath(__file__):
        return
    for number, line in enumerate(text.split("\n"), 1):
        yield from (f"line {number}: {found[0]} is newer" for pattern in NEWER if (found := re.search(pattern, line)))


def working_version():
    """A Python 3.9 that runs, if there is one: its name alone may be a script that finds none."""
    found = shutil.which("python3.9")
    return found if found and subprocess.run([found, "--version"], capture_output=True, check=False).returncode == 0 else None


def main():
    files = list(python_files())
    wrong = [f"tests/python.py: {os.path.relpath(path, TOP)}: {fault}" for path in files for fault in faults(path)]
    older = working_version()
    for path in files if older else []:
        check = "import sys; compile(open(sys.argv[1], encoding='utf-8').read(), sys.argv[1], 'exec')"
        done = subprocess.run([older, "-c", check, path], capture_output=True, text=True, check=False)
        wrong += [f"tests/python.py: {path}: {done.stderr.splitlines()[-1]}"] if done.returncode else []
    if wrong:
        sys.exit("\n".join(wrong))
    print(f"tests/python.py: {len(files)} files are for Python {VERSION[0]}.{VERSION[1]}{', which compiles them' if older else ''}")


if __name__ == "__main__":
    main()
