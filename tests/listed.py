#!/usr/bin/env python3
"""The list of refused bugs, release/REFUSED: what makes a line of it stale, and which bugs tools/planted.py tries then. It proves nothing.

usage: tests/listed.py
"""

import argparse
import os
import sys
import tempfile

TOP = os.path.dirname(os.path.dirname(os.path.abspath(__file__)))
sys.dont_write_bytecode = True
sys.path.insert(0, os.path.join(TOP, "tools"))

from planted import choose, read_list, trial_digests, write, write_list

CRATES = {"low": ["std_like"], "high": ["low"]}
BUG = "high/must-fail/two_more.edit"
FILES = {
    "low/src/lib.rt": "/// One more.\npub fn next(number: u64) -> u64\n    ensures { result ≡ number.now + 1 }\n{\n    number + 1\n}\n\n"
    "const fn limit() -> u64 {\n    7\n}\n\npub const LIMIT: u64 = limit();\n",
    "low/specs/Adds.antt": "abbrev pub most : ℕ\nmost = 7\n",
    "low/proofs/AddLemmas.antt": "pub adds : 1 + 1 ≡ 2\nadds = refl\n",
    "low/proofs/next/Answers.antt": "-- an answer\n",
    "low/must-fail/none_more.edit": "file: src/lib.rt\nold: number + 1\nnew: number\n",
    "high/src/lib.rt": "/// Two more.\npub fn after(number: u64) -> u64\n    ensures { result ≡ number.now + 2 }\n{\n    next(next(number))\n}\n",
    "high/must-fail/two_more.edit": "file: src/lib.rt\nold: next(next(number))\nnew: next(number)\n",
}
# what is changed, what stands there, what then does, and whether the bug of the crate above has to be tried again
CHANGES = [
    ("high/must-fail/two_more.edit", "new: next(number)", "new: number", True),
    ("high/src/lib.rt", "next(next(number))", "next(next(number) )", True),
    ("high/src/lib.rt", "Two more", "Two more each", True),
    ("low/src/lib.rt", "result ≡ number.now + 1", "result ≡ 1 + number.now", True),
    ("low/src/lib.rt", "    7\n", "    8\n", True),
    ("low/specs/Adds.antt", "most = 7", "most = 8", True),
    ("low/proofs/AddLemmas.antt", "refl", "( refl )", True),
    ("low/src/lib.rt", "    number + 1\n", "    1 + number\n", False),
    ("low/proofs/next/Answers.antt", "an answer", "another answer", False),
    ("low/must-fail/none_more.edit", "new: number", "new: 1", False),
]


def digests_of(files, crates=None, version="kit 1"):
    """The digests of the bugs of a tree that has these files."""
    with tempfile.TemporaryDirectory() as top:
        for path, text in files.items():
            write(os.path.join(top, "crates", path), text)
        return trial_digests(top, crates or CRATES, version)


def wrong_lines():
    """What is said of each change whose line is stale and shouldn't be, or the other way round."""
    before = digests_of(FILES)[BUG]
    for path, old, new, is_stale in CHANGES:
        assert FILES[path].count(old) == 1, old
        if (digests_of(FILES | {path: FILES[path].replace(old, new)})[BUG] != before) != is_stale:
            yield f"{path}, {new!r}: the line {'has to be stale and is not' if is_stale else 'is stale and need not be'}"
    if digests_of(FILES, version="kit 2")[BUG] == before:
        yield "another kit: the line has to be stale and is not"
    if digests_of(FILES, CRATES | {"high": ["low", "more"]})[BUG] == before:
        yield "another library: the line has to be stale and is not"


def wrong_choices():
    """What is said of bugs that are tried and need not be, or the other way round."""
    first, others = {f"a/must-fail/{n}" for n in range(100)}, {f"b/more-edits/{n}" for n in range(100)}
    fresh = {f"a/must-fail/{n}" for n in range(90)} | others
    given = argparse.Namespace(set="must-fail", all=False, sample=0, seed="")
    tried, spared = choose(given, first | others, fresh)
    if (tried, spared) != (first - fresh, first & fresh):
        yield "without a sample: not those that the list lacks"
    given.sample, given.seed = 40, "one"
    tried, spared = choose(given, first | others, fresh)
    if not first - fresh < tried or spared != first - tried or (len(tried & first), len(tried & others)) != (50, 40):
        yield "with a sample of 40: not the 10 that the list lacks, 40 that it has, and 40 of the others"
    given.seed = "two"
    if choose(given, first | others, fresh)[1] == spared:
        yield "another seed: the same sample"
    given.set, given.all = "all", True
    if choose(given, first | others, fresh) != (first | others, set()):
        yield "with --all: not all"


def wrong_list():
    """What is said if a list is not read as it was written."""
    with tempfile.TemporaryDirectory() as folder:
        path, digests = os.path.join(folder, "REFUSED"), digests_of(FILES)
        if read_list(path):
            yield "a list that is not there has lines"
        write_list(path, digests)
        if len(digests) != 2 or read_list(path) != digests:
            yield "a list is not read as it was written"


def main():
    wrong = [*wrong_lines(), *wrong_choices(), *wrong_list()]
    if wrong:
        sys.exit("\n".join(f"tests/listed.py: {it}" for it in wrong))
    print(f"tests/listed.py: {len(CHANGES) + 2} changes, each makes a line stale just where it has to")


if __name__ == "__main__":
    main()
