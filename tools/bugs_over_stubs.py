#!/usr/bin/env python3
"""Tries planted bugs of a crate over stubs of the crates below it: while one writes them, before the gate has built those crates.

usage: tools/bugs_over_stubs.py [--jobs N] CRATE EDIT..

EDIT is a file of the crate, as must-fail/NAME.edit. A line says of each whether it is refused, and at which goal. The stubs are those of
tools/over_stubs.py, so what is refused here may still pass over the real crates, if a lemma of theirs is wrong; the gate decides.

Exit status: 0 if all are refused, 1 if one isn't, 2 where another kit is installed.
"""
import argparse
import os
import sys

import build
import over_stubs
import planted

# what planted.Crate.check says by itself
ITS_OWN = {"--short-goals", "--allow-holes", "--progress"}


class StubbedCrate(planted.Crate):
    """A crate whose planted bugs are tried over stubs."""

    def __init__(self, kit, name, jobs):
        super().__init__(kit, build.read_crates(name), name, "", {name})
        self.jobs = jobs

    def words(self):
        words = over_stubs.words_of(self.kit, build.TOP, self.name, self.jobs)
        at = words.index("--incremental")
        return [word for word in words[:at] + words[at + 2 :] if word not in ITS_OWN]


def main():
    arguments = argparse.ArgumentParser(usage="tools/bugs_over_stubs.py [--jobs N] CRATE EDIT..")
    arguments.add_argument("--jobs", type=int, default=1)
    arguments.add_argument("crate")
    arguments.add_argument("edits", nargs="+", metavar="EDIT")
    given = arguments.parse_args()
    kit = build.kit_folder()
    if kit is None:
        return build.NOT_THIS_KIT
    os.makedirs(over_stubs.KEPT, exist_ok=True)
    told = StubbedCrate(kit, given.crate, given.jobs).try_all({f"{given.crate}/{edit}" for edit in given.edits})
    for name, is_refused, place in told:
        print(f"{'refused' if is_refused else 'NOT REFUSED'}  {name}: {place}", flush=True)
    return 0 if told and all(is_refused for _, is_refused, _ in told) else 1


if __name__ == "__main__":
    sys.exit(main())
