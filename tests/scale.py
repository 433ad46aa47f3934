#!/usr/bin/env python3
"""Cuts the sample town by sample/tree.mk, each box out of the extract of a larger one, and compares each cut with that of the whole town.

usage: tests/scale.py PROGRAM

They are the same bytes: by each strategy, and if the larger cut is by a wider strategy than the smaller one. One run makes all cuts of an extract, except by
-s smart. A cut that isn't there is made again, the others of its run aren't, and a box that leaves the one around it is refused. The script of
sample/slurm/, one task after another as a job array runs it, makes the same cuts. Without bash, GNU make 4.3, awk or cmp the test has nothing to run, and
its status is 77.
"""

import os
import re
import shutil
import subprocess
import sys
import tempfile

TOP = os.path.dirname(os.path.dirname(os.path.abspath(__file__)))
TREE = os.path.join("sample", "tree.mk")
ARRAY = os.path.join(TOP, "sample", "slurm")
LEVELS = ["level-1", "level-2", "level-3"]
TOWN = os.path.join("sample", "town.osm.pbf")
# each is wider than those before it
STRATEGIES = {"complete ways": [], "all parents": ["--parents"], "smart": ["-s", "smart", "--types=multipolygon,boundary"],
              "smart of all types": ["-s", "smart", "--types=any"]}
NEEDED = ["bash", "make", "awk", "cmp", "find", "paste"]
NOTHING_TO_RUN = 77
SECONDS = 900


def fail(what: str):
    sys.exit(f"tests/scale.py: {what}")


def run(words: list, folder: str = TOP, **variables):
    """Runs a command as if from a terminal: not as a part of the make that may run this test."""
    environment = {**{name: value for name, value in os.environ.items() if not name.startswith(("MAKE", "MFLAGS"))}, **variables}
    return subprocess.run(words, cwd=folder, env=environment, stdin=subprocess.DEVNULL, stdout=subprocess.PIPE, stderr=subprocess.STDOUT,
                          timeout=SECONDS, check=False)


def succeed(words: list, folder: str = TOP, **variables) -> str:
    done = run(words, folder, **variables)
    if done.returncode:
        fail(f"'{' '.join(words)}' ends with {done.returncode}: {done.stdout.decode()}")
    return done.stdout.decode()


def read(name: str) -> str:
    with open(os.path.join(TOP, name), encoding="utf-8") as file:
        return file.read()


def contents(path: str) -> bytes:
    with open(path, "rb") as file:
        return file.read()


def listed(what: str) -> dict:
    """What sample/tree.mk has of each cut: its `box`, or the cut that it is read `from`."""
    return dict(re.findall(rf"^{what}\.(\w+) := (\S+)$", read(TREE), re.M))


class Tree:
    """The cuts of one run of make, in a folder of their own."""

    def __init__(self, program: str, folder: str, strategy: str):
        self.program, self.folder, self.strategy = program, folder, strategy
        self.options = STRATEGIES[strategy]

    def file(self, name: str) -> str:
        return os.path.join(self.folder, f"{name}.osm.pbf")

    def words(self) -> list:
        return ["make", "-j2", "-f", TREE, f"PBFCUT={self.program}", f"OUT={self.folder}", f"OPTIONS={' '.join(self.options)}"]

    def compare(self, name: str, box: str) -> bytes:
        """Compares a cut with that of the whole town, and returns its bytes."""
        direct = self.file(f"{name}.direct")
        succeed([self.program, "extract", *self.options, f"--box={box}", TOWN, direct])
        succeed(["cmp", direct, self.file(name)])
        os.remove(direct)
        return contents(self.file(name))

    def make(self, *options: str) -> int:
        """Makes what isn't there, and returns how many runs that took."""
        return succeed([*self.words(), *options]).count(self.program + " extract ")

    def compare_all(self) -> dict:
        cuts = {name: self.compare(name, box) for name, box in listed("box").items()}
        if len(set(cuts.values())) != len(cuts) or len(os.listdir(self.folder)) != len(cuts):
            fail(f"{self.folder} has two cuts of the same bytes, or something else")
        return cuts

    def times(self) -> dict:
        return {name: os.stat(self.file(name)).st_mtime_ns for name in listed("box")}

    def interrupt(self, name: str):
        """Leaves what a run leaves that is killed before it has made this cut: a part of it, the configuration, and the other cuts."""
        for path in [self.file(name) + ".123.0.part", os.path.join(self.folder, listed("from")[name] + ".json")]:
            with open(path, "wb") as part:
                part.write(contents(self.file(name))[:100])
        os.remove(self.file(name))


def cut_again(wide: Tree, strategy: str, name: str) -> bytes:
    """A cut by this strategy out of the one above it in the tree."""
    made = wide.file(f"{name}.again")
    succeed([wide.program, "extract", *STRATEGIES[strategy], f"--box={listed('box')[name]}", wide.file(listed("from")[name]), made])
    content = contents(made)
    os.remove(made)
    return content


def cut_out_of_wider(wide: Tree, strategy: str, cuts: dict) -> int:
    """Cuts by a strategy out of cuts by a wider one have the bytes of those out of its own."""
    for name in listed("from"):
        if cut_again(wide, strategy, name) != cuts[name]:
            fail(f"{name} by {strategy}, out of a cut by {wide.strategy}, has other bytes")
    return len(listed("from"))


def compare_strategies(trees: list) -> tuple:
    """The cuts of the first tree, and how many cuts were compared. A wider strategy keeps more, and a cut by it may need what a narrower one drops."""
    parents = {listed("from").get(name, "IN") for name in listed("box")}
    for tree in trees:
        if (count := tree.make()) != len(listed("box") if "smart" in tree.options else parents):
            fail(f"a tree by {tree.strategy} takes {count} runs")
    cuts = [tree.compare_all() for tree in trees]
    count = sum(map(len, cuts))
    if any(cuts[0][name] == cuts[1][name] for name in cuts[0]):
        fail("a cut with parents has the bytes of one without them")
    for number, wide in enumerate(trees):
        count += sum(cut_out_of_wider(wide, tree.strategy, cuts[narrow]) for narrow, tree in enumerate(trees[:number]))
        if number and all(cut_again(trees[number - 1], wide.strategy, name) == cuts[number][name] for name in listed("from")):
            fail(f"no cut by {wide.strategy} needs more than one by {trees[number - 1].strategy}")
    return cuts[0], count


def makes_again(tree: Tree, cuts: dict):
    """A cut that isn't there is made again with all below it, and no other."""
    before = tree.times()
    tree.interrupt("town")
    if (count := tree.make()) != 2 or tree.compare_all() != cuts:
        fail(f"after {count} runs a cut that was made again has other bytes")
    made = {name for name, time in tree.times().items() if before[name] != time}
    if made != {"town", *(name for name, parent in listed("from").items() if parent == "town")}:
        fail(f"with one cut there were made {', '.join(sorted(made))}")
    before = tree.times()
    if tree.make() or not tree.make("-B") or tree.compare_all() != cuts or any(tree.times()[name] == before[name] for name in before):
        fail("make makes all again, or by -B not all")


def refuses_box(program: str, folder: str):
    """A box that leaves the one around it is no part of the tree."""
    for number, strategy in enumerate(STRATEGIES):
        done = run([*Tree(program, f"{folder}_{number}", strategy).words(), "box.town=9.9,49.997,10.004,50.004"])
        if not done.returncode or b"the box of town is not in that of region" not in done.stdout:
            fail(f"a box that leaves the one around it ends with {done.returncode}: {done.stdout.decode()}")


def run_as_array(program: str, folder: str, options: list) -> dict:
    """The cuts by the script of sample/slurm/, level by level, task by task."""
    os.mkdir(folder)
    shutil.copy(os.path.join(TOP, TOWN), os.path.join(folder, "planet.osm.pbf"))
    path = os.pathsep.join([os.path.dirname(program), os.environ["PATH"]])
    found = {}
    for level in LEVELS:
        lines = [line.split() for line in read(os.path.join(ARRAY, level)).splitlines()]
        found.update({name: (parent, box) for parent, name, box in lines})
        count = len({parent for parent, _, _ in lines})
        # the last one again: it is there
        for task in [*range(1, count + 1), count]:
            succeed(["bash", os.path.join(ARRAY, "cut.sh"), os.path.join(ARRAY, level)], folder, SLURM_ARRAY_TASK_ID=str(task), PATH=path,
                    OPTIONS=" ".join(options))
    if found != {name: (listed("from").get(name, "planet"), box) for name, box in listed("box").items()}:
        fail("the lists of sample/slurm/ aren't those of sample/tree.mk")
    return {name: contents(os.path.join(folder, f"{name}.osm.pbf")) for name in found}


def lacks() -> str:
    """What isn't installed here."""
    lacking = [name for name in NEEDED if not shutil.which(name)]
    version = None if lacking else re.match(r"GNU Make (\d+)\.(\d+)", run(["make", "--version"]).stdout.decode())
    return ", ".join(lacking) or ("" if version and (int(version[1]), int(version[2])) >= (4, 3) else "GNU make 4.3")


def main():
    if len(sys.argv) != 2 or not os.access(sys.argv[1], os.X_OK):
        sys.exit(__doc__)
    if lacking := lacks():
        print(f"tests/scale.py: skipped: {lacking} isn't installed")
        sys.exit(NOTHING_TO_RUN)
    with tempfile.TemporaryDirectory(prefix="pbfcut-scale-") as folder:
        program = os.path.join(folder, "pbfcutz")
        os.symlink(os.path.abspath(sys.argv[1]), program)
        trees = [Tree(program, os.path.join(folder, strategy.replace(" ", "_")), strategy) for strategy in STRATEGIES]
        cuts, count = compare_strategies(trees)
        makes_again(trees[0], cuts)
        for tree in trees[:2]:
            if run_as_array(program, f"{tree.folder}_array", tree.options) != {name: contents(tree.file(name)) for name in cuts}:
                fail(f"the script of sample/slurm/ makes other cuts by {tree.strategy}")
        refuses_box(program, os.path.join(folder, "refused"))
    print(f"tests/scale.py: {count} cuts out of cuts are the cuts of the whole town")


if __name__ == "__main__":
    main()
