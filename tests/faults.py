#!/usr/bin/env python3
"""Runs the built program with each request for memory refused, and each read, write, sync and close failing, in turn.

usage: tests/faults.py PROGRAM [--all]

Whatever is refused or fails, the program gives its usual answer, or ends with the one status and line that fits; and what it wrote to
OUT and to standard output is a beginning of what it usually writes. The same of pbfcutz, over compressed files. tests/faults.c does the
refusing, and cc builds it. With --all more files are read, and from each request on all are refused over the sample too. A series of
faults ends at its first run that is out of place.

Exit status: 0 each run ended as it may; 1 one did not; 2 wrong words; 77 there is no cc here, so nothing was run.
"""

import concurrent.futures
import os
import shutil
import subprocess
import sys
import tempfile
import time

HERE = os.path.dirname(os.path.abspath(__file__))
TOP = os.path.dirname(HERE)
VECTORS = os.path.join(TOP, "vectors")
sys.dont_write_bytecode = True
sys.path.insert(0, HERE)

from published import packed
from suite import own_lines

SAMPLE = os.path.join(TOP, "sample", "town.osm.pbf")
SECONDS = 900
# what tests/run calls skipped
NOTHING_TO_RUN = 77
MOST = 20_000

ROWS = ["three_dense_nodes", "relation_and_its_parent", "node_with_metadata_and_a_tag", "second_header", "unknown_required_feature"]
MORE = ["chain_of_relations_and_two_rings", "way_with_locations", "header_with_every_field", "two_plain_nodes_with_every_metadata_field",
        "members_of_three_kinds", "block_of_four_groups", "nodes_with_and_without_a_version", "three_dense_nodes_cut_after_45_bytes",
        "sound_block_before_a_faulty_one", "node_way_and_relation_with_an_unknown_blob_between", "empty_file"]
SMART = ["extract", "-s", "smart", "--types=any", "--box={box}"]
COMMANDS = [["blobs"], ["check"], ["show"], ["show", "--dates"], ["convert"], ["extract", "--box={box}"], ["extract", "--parents", "--box={box}"], SMART,
            ["check", "--digests"], ["extract", "--digests", "--box={box}"]]
# the box of the sample by which ways are added, so that IN is read three times
OLD_TOWN = "9.997,49.999,10.003,50.003"

MEMORY = (4, b": out of memory\n")
READ = (3, b": read failed\n")
WRITE = (3, b": write failed\n")
# A sort of fault, what a run with it may end in beside the usual answer, and whether it may end as usual once the fault was met
SORTS = [
    ("memory", MEMORY, True),
    ("memory-from", MEMORY, False),
    ("read-EIO", READ, False),
    ("read-EINTR", READ, True),
    ("write-EIO", WRITE, False),
    ("write-ENOSPC", WRITE, False),
    ("write-EINTR", WRITE, True),
    ("sync-EIO", WRITE, False),
    ("close-EIO", WRITE, True),
]
LENGTHS = (1, 2, 3, 7, 64, 4_095)


class OutOfPlace(Exception):
    """A run ended as no run may."""


class Bench:
    """The program by one of its names, the library, and a folder for files."""

    def __init__(self, program: str, name: str, library: str, folder: str):
        self.program, self.name = os.path.join(folder, name), name.encode()
        os.symlink(os.path.abspath(program), self.program)
        self.library = library
        self.folder = folder
        self.out = os.path.join(folder, "out")
        self.runs = 0
        self.met = 0

    def run(self, words: list, fault: str) -> tuple:
        """Status, standard output and error, OUT, and whether the fault was met."""
        if os.path.exists(self.out):
            os.remove(self.out)
        reading, writing = os.pipe()
        env = {"LD_PRELOAD": self.library, "FAULTS": f"{fault} {writing}"} if fault else {}
        try:
            done = subprocess.run([self.program, *words], cwd=self.folder, env=env, capture_output=True, timeout=SECONDS, pass_fds=(writing,))
            os.close(writing)
            met = os.read(reading, 1) == b"x"
        finally:
            os.close(reading)
        self.runs += 1
        self.met += met
        out = b""
        if os.path.exists(self.out):
            with open(self.out, "rb") as file:
                out = file.read()
        return done.returncode, done.stdout, own_lines(done.stderr), out, met

    def compare(self, words: list, fault: str, usual: tuple, ends: tuple, may_be_usual: bool) -> bool:
        """Runs with one fault; answers whether it was met."""
        status, text, error, out, met = self.run(words, fault)
        as_usual = (status, text, error, out) == usual[:4]
        # of these files the line that says what they are is told after a second look, which a fault can hit
        may_be_usual = may_be_usual or usual[0] == 1 and usual[2].endswith((b": 11 HeaderLong\n", b": 22 NoHeader\n", b": 55 Feature\n"))
        # a program that had no memory to read its words does not know its name
        named = b"pbfcut" if ends == MEMORY and error == b"pbfcut" + MEMORY[1] else self.name
        ends = ends and (ends[0], named + ends[1])
        fits = ended_so(status, error, usual[2], ends) and usual[1].startswith(text) and usual[3].startswith(out)
        if not (as_usual and (may_be_usual or not met)) and not (fits and met):
            said = error.decode("utf-8", "replace").strip()
            raise OutOfPlace(f"{' '.join(words)} with {fault}: status {status}, {said!r}, {len(text)} and {len(out)} bytes went out")
        return met


def ended_so(status: int, error: bytes, usual: bytes, ends: tuple) -> bool:
    """Whether a run ended with this status and this last line; before it may stand a beginning of what is usually told: the digest of
    what was read of a file that is refused."""
    if not ends or status != ends[0] or not error.endswith(ends[1]):
        return False
    return usual.startswith(error[: len(error) - len(ends[1])])


def series(bench: Bench, words: list, sorts: list):
    """A command with each fault of these sorts, and in pieces."""
    usual = bench.run(words, "")
    for sort, ends, may_be_usual in sorts:
        number = 1
        while bench.compare(words, f"{sort} {number}", usual, ends, may_be_usual):
            number += 1
            if number > MOST:
                raise OutOfPlace(f"{' '.join(words)} with {sort}: no end of faults")
    for length in LENGTHS:
        bench.compare(words, f"short {length}", usual, (), True)


def files(every: bool) -> list:
    """(file, box) of each input."""
    names = ROWS + (MORE if every else [])
    found = [(os.path.join(VECTORS, name, "in.osm.pbf"), "0,0,1,1") for name in names]
    return found + [(SAMPLE, "9.99,49.99,10.01,50.01"), (SAMPLE, OLD_TOWN)]


def build(folder: str) -> str:
    """The library, built by cc; nothing where there is no cc."""
    compiler = shutil.which("cc")
    if compiler is None:
        return ""
    library = os.path.join(folder, "faults.so")
    subprocess.run([compiler, "-shared", "-fPIC", "-O2", "-Wall", "-Werror", os.path.join(HERE, "faults.c"), "-o", library], check=True)
    return library


def run_series(program: str, name: str, library: str, path: str, words: list, sorts: list) -> tuple:
    """One command over one file, in a folder of its own: the runs, the faults that were met, and what was out of place."""
    with open(path, "rb") as file:
        data = file.read()
    with tempfile.TemporaryDirectory() as folder:
        with open(os.path.join(folder, "in"), "wb") as file:
            file.write(packed(data) if name == "pbfcutz" else data)
        bench = Bench(program, name, library, folder)
        try:
            series(bench, words, sorts)
        except OutOfPlace as error:
            return bench.runs, bench.met, f"{name}, {path}: {error}"
    return bench.runs, bench.met, ""


def named_files(every: bool):
    """The name that the program is called by, and (file, box)."""
    for path, box in files(every):
        yield "pbfcut", path, box
        if every or box == OLD_TOWN or os.path.basename(os.path.dirname(path)) in ROWS[:2]:
            yield "pbfcutz", path, box


def all_series(program: str, library: str, every: bool) -> list:
    """Each command over each file, as many at a time as there are processors."""
    with concurrent.futures.ThreadPoolExecutor(os.cpu_count()) as pool:
        waiting = []
        for name, path, box in named_files(every):
            for command in [SMART] if box == OLD_TOWN else COMMANDS:
                words = [word.format(box=box) for word in command] + ["in"]
                words += ["out"] if command[0] in ("convert", "extract") else []
                sorts = [sort for sort in SORTS if every or path != SAMPLE or sort[0] != "memory-from"]
                waiting.append(pool.submit(run_series, program, name, library, path, words, sorts))
        return [task.result() for task in waiting]


def main(words: list) -> int:
    every = "--all" in words
    words = [word for word in words if word != "--all"]
    if len(words) != 1:
        print(__doc__, file=sys.stderr)
        return 2
    began = time.monotonic()
    with tempfile.TemporaryDirectory() as folder:
        library = build(folder)
        if not library:
            print("faults: there is no cc here, so nothing was run")
            return NOTHING_TO_RUN
        done = all_series(words[0], library, every)
    runs, met = sum(one[0] for one in done), sum(one[1] for one in done)
    wrong = [one[2] for one in done if one[2]]
    for line in wrong:
        print(f"faults: {line}")
    print(f"faults: {runs:,} runs, {met:,} with a fault that was met, {len(wrong)} series out of place, {time.monotonic() - began:.0f} seconds")
    return 1 if wrong or not met else 0


if __name__ == "__main__":
    sys.exit(main(sys.argv[1:]))
