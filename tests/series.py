#!/usr/bin/env python3
"""Runs `check` over the small files of vectors/, cut at each byte and with each byte changed, beside the reference.

usage: tests/series.py PROGRAM [--all]

A file has as many of these forms as four times its bytes: cut before a byte, and with the byte changed by 01, 80 and ff (exclusive or). The
reference of vectors/ shares no code with the program, and says of each form what `check` has to print: the counts, or the first fault and its place.
5,000 forms are picked, by a fixed seed; with --all each of them is tried, which takes a while.
"""

import os
import random
import subprocess
import sys
from concurrent.futures import ThreadPoolExecutor
from itertools import islice

TOP = os.path.dirname(os.path.dirname(os.path.abspath(__file__)))
sys.dont_write_bytecode = True
sys.path[:0] = [os.path.dirname(os.path.abspath(__file__)), os.path.join(TOP, "vectors")]

from published import report
from reference import counted, entities_of
from reference_judge import judge
from suite import cases, own_lines

LONGEST = 2_000
PICKED = 5_000
CHANGES = (None, 0x01, 0x80, 0xFF)
SECONDS = 900


def forms(files: list):
    """(file, place, change) of each form of all files."""
    return ((file, at, change) for file, (_, data) in enumerate(files) for at in range(len(data)) for change in CHANGES)


def picked(files: list) -> list:
    """Some of them, of each file in proportion to its length."""
    chance = random.Random(52)
    files_of = chance.choices(range(len(files)), weights=[len(data) for _, data in files], k=PICKED)
    return [(file, chance.randrange(len(files[file][1])), chance.choice(CHANGES)) for file in files_of]


def form(data: bytes, at: int, change) -> bytes:
    return data[:at] if change is None else data[:at] + bytes([data[at] ^ change]) + data[at + 1:]


def wanted(data: bytes) -> tuple:
    """Status, standard output and standard error of `check`, by the reference."""
    judged = judge(data)
    if judged.faults:
        return 1, "", f"pbfcut: refused at {judged.first().text()}\n"
    nodes, ways, relations = counted(entities_of(judged))
    return 0, f"nodes {nodes} ways {ways} relations {relations}\n", ""


def wrong_in(program: str, name: str, data: bytes):
    """What is out of place with a file, if anything is."""
    done = subprocess.run([program, "check", "/dev/stdin"], input=data, capture_output=True, timeout=SECONDS, check=False)
    found = done.returncode, done.stdout.decode(), own_lines(done.stderr).decode()
    right = wanted(data)
    return None if found == right else f"{name}: expected {right!r}, found {found!r}"


def main():
    if len(sys.argv) not in (2, 3) or sys.argv[2:] not in ([], ["--all"]):
        sys.exit(__doc__)
    program = os.path.abspath(sys.argv[1])
    files = [(case.name, case.input()) for case in cases([])]
    files = [(name, data) for name, data in files if 0 < len(data) <= LONGEST]

    def try_form(row: tuple):
        file, at, change = row
        name, data = files[file]
        how = "cut" if change is None else f"changed by {change:02x}"
        return wrong_in(program, f"{name}, {how} at {at}", form(data, at, change))

    rows, count, wrong = iter(forms(files) if sys.argv[2:] else picked(files)), 0, []
    with ThreadPoolExecutor(os.cpu_count() or 1) as pool:
        while part := list(islice(rows, 2_000)):
            count += len(part)
            wrong += [found for found in pool.map(try_form, part) if found]
    report("tests/series.py", wrong, count, f"forms of {len(files)} files judged as the reference does")


if __name__ == "__main__":
    main()
