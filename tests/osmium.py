#!/usr/bin/env python3
"""Gives hand-made files to Osmium and to pbfcut, and compares which ids they keep.

usage: tests/osmium.py PROGRAM

Each case states a rule, and what `osmium extract` keeps with `-s complete_ways` and with `-s smart`, counted by hand. pbfcut with --parents and with
`-s smart` has to keep the same, and so has the reference of vectors/. The known differences are in the cases too, each with its reason. Then come random
files. Osmium counts as members of relations only nodes in the box; with this one rule changed, the reference has to keep what Osmium keeps. If Osmium isn't
installed, the test has nothing to run, and its status is 77.
"""

import os
import random
import shutil
import subprocess
import sys
import tempfile
from collections import Counter
from concurrent.futures import ThreadPoolExecutor
from dataclasses import dataclass, field, replace

sys.dont_write_bytecode = True
sys.path.insert(0, os.path.dirname(os.path.abspath(__file__)))

from published import report
from strategies import BOX, COMPLETED, EDGES, HEADER, shown_by, some_file, wrong_extracts
from reference import entities_of
from reference_entities import DEFAULT_SCALE, Entity, Meta
from reference_judge import judge
from reference_written import extract, write_file

NOTHING_TO_RUN = 77
SECONDS = 900
RANDOM_FILES = 150
# what is added to the ids of a random file, which begin with -2
MOVED = 3

# Node 1 is in the box, and 2 to 6 are outside. Way 1 has a node in the box; 2 and 3 have none.
NODES = "1:in 2:out 3:out 4:out 5:out 6:out"
WAYS = "1:1,2 2:3,4 3:4,5"
# longitude and latitude
PLACES = {"in": (20_000_000, 20_000_000), "out": (80_000_000, 80_000_000), "corner": (0, 40_000_000), "edge": (40_000_000, 10_000_000),
          "beside": (40_000_001, 10_000_000)}
# how pbfcut is run, the strategy of Osmium's that is the nearest, and how the reference is called
DEFAULT, PARENTS, SMART = "complete ways", "all parents", "smart"
RUNS = {DEFAULT: ([], "complete_ways", {}), PARENTS: (["--parents"], "complete_ways", {"parents": True}), SMART: (["-s", "smart"], "smart", {})}
MULTIPOLYGON = "multipolygon"

# why pbfcut keeps something else
MEMBERS = "as members of relations pbfcut counts all nodes of kept ways, and Osmium only nodes in the box"
ABOVE = "Osmium always keeps all parents, and pbfcut with --parents or -s smart"
EMPTY_LIST = "an empty list of types is the word `any` for Osmium, and the empty type for pbfcut"
EMPTY_WORD = "between two commas, or at an end, pbfcut reads the empty type, and Osmium none"


@dataclass
class Case:
    """A rule, and the ids that Osmium keeps. The relations are numbered from 1; a text of one has its types, separated by +, and its members."""
    rule: str
    relations: list
    complete_ways: str
    smart: str
    types: str = MULTIPOLYGON
    nodes: str = NODES
    ways: str = WAYS
    # what pbfcut keeps, where it differs, and why
    ours: dict = field(default_factory=dict)
    why: str = ""

    def osmium(self, strategy: str) -> str:
        return self.smart if strategy == "smart" else self.complete_ways


CASES = [
    # ---- which nodes and ways are kept
    Case("the edges belong to the box", [], "n1 n2 n3 w1", "n1 n2 n3 w1", nodes="1:corner 2:edge 3:beside 4:beside 5:out", ways="1:2,3 2:3,4"),
    Case("a way without a node in the box is dropped, and one without nodes", [], "n1 n2 w1", "n1 n2 w1", ways="1:1,2 2:2,3 3:"),
    Case("a kept way may lack nodes", [], "n1 w1", "n1 w1", ways="1:7,1,8 2:7"),
    # ---- which relations
    Case("a node in the box and a kept way select their relations", [": n1", ": w1", ": w2", ": n6", ":"], "n1 n2 w1 r1 r2", "n1 n2 w1 r1 r2"),
    Case("a node outside the box that completes a way", [": n2"], "n1 n2 w1", "n1 n2 w1", 
         ours={DEFAULT: "n1 n2 w1 r1", PARENTS: "n1 n2 w1 r1", SMART: "n1 n2 w1 r1"}, why=MEMBERS),
    Case("a missing node of a kept way", [": n7"], "n1 w1", "n1 w1", ways="1:1,7",
         ours={DEFAULT: "n1 w1 r1", PARENTS: "n1 w1 r1", SMART: "n1 w1 r1"}, why=MEMBERS),
    Case("such a node completes its multipolygon", ["multipolygon: n2 w2 n6"], "n1 n2 w1", "n1 n2 w1",
         ours={DEFAULT: "n1 n2 w1 r1", PARENTS: "n1 n2 w1 r1", SMART: "n1 n2 n3 n4 n6 w1 w2 r1"}, why=MEMBERS),
    Case("a relation selects its parents, those that come before it too", [": r2", ": r3", ": w1", ": r1"], "n1 n2 w1 r1 r2 r3 r4", "n1 n2 w1 r1 r2 r3 r4",
         ours={DEFAULT: "n1 n2 w1 r3"}, why=ABOVE),
    Case("relations in a circle", ["multipolygon: r2 w1", ": r3", ": r1", ": r5", ": r4"], "n1 n2 w1 r1 r2 r3", "n1 n2 w1 r1 r2 r3",
         ours={DEFAULT: "n1 n2 w1 r1"}, why=ABOVE),
    # ---- which relations are completed
    Case("a kept way completes its multipolygon: nodes, ways, and their nodes", ["multipolygon: w1 w2 n6"],
         "n1 n2 w1 r1", "n1 n2 n3 n4 n6 w1 w2 r1"),
    Case("a node in the box completes its multipolygon", ["multipolygon: n1 w2 n6"], "n1 n2 w1 r1", "n1 n2 n3 n4 n6 w1 w2 r1"),
    Case("a relation that is only a parent isn't completed", ["route: w1", "multipolygon: r1 w2 n6", "multipolygon: r2 w3"],
         "n1 n2 w1 r1 r2 r3", "n1 n2 w1 r1 r2 r3", ours={DEFAULT: "n1 n2 w1 r1"}, why=ABOVE),
    Case("a parent with a kept way of its own is", [": w1", "multipolygon: r1 w1 w2"], "n1 n2 w1 r1 r2", "n1 n2 n3 n4 w1 w2 r1 r2"),
    # ---- what is not added
    Case("member relations are never added", ["multipolygon: w1 r2", "route: w2 n6"], "n1 n2 w1 r1", "n1 n2 w1 r1"),
    Case("not even multipolygons, before or after", ["multipolygon: w2 n6", "multipolygon: w1 r1 r3", "multipolygon: w3"], "n1 n2 w1 r2", "n1 n2 w1 r2"),
    Case("nor the parents of such a member", ["multipolygon: w1 r2", ": w2", ": r2", ": r3"], "n1 n2 w1 r1", "n1 n2 w1 r1"),
    Case("nor the members of a member of another relation", ["route: w1 r2", "multipolygon: w2"], "n1 n2 w1 r1", "n1 n2 w1 r1"),
    Case("an added way selects nothing", ["multipolygon: w1 w2", "route: w2", "multipolygon: w2 w3", ": n3", "multipolygon: n4 w3"],
         "n1 n2 w1 r1", "n1 n2 n3 n4 w1 w2 r1"),
    Case("an added node selects nothing, neither a way nor a relation", ["multipolygon: n1 n4 n6", ": n6", "multipolygon: n4 n5"],
         "n1 n2 w1 r1", "n1 n2 n4 n6 w1 r1"),
    Case("missing members are ignored", ["multipolygon: w1 w9 n9 r9 n6"], "n1 n2 w1 r1", "n1 n2 n6 w1 r1"),
    Case("so are missing nodes of an added way", ["multipolygon: w1 w2"], "n1 n2 w1 r1", "n1 n2 n4 w1 w2 r1", ways="1:1,2 2:7,4,8"),
    Case("an added way may have no nodes", ["multipolygon: w1 w2"], "n1 n2 w1 r1", "n1 n2 w1 w2 r1", ways="1:1,2 2:"),
    Case("a way twice in a relation, and in two", ["multipolygon: w1 w2 w2", "multipolygon: w2 w1"], "n1 n2 w1 r1 r2", "n1 n2 n3 n4 w1 w2 r1 r2"),
    Case("one relation drops a way and a later one adds it", ["route: w2", "multipolygon: w1 w2"], "n1 n2 w1 r2", "n1 n2 n3 n4 w1 w2 r2"),
    # ---- types
    Case("only multipolygons are completed", ["boundary: w1 w2"], "n1 n2 w1 r1", "n1 n2 w1 r1"),
    Case("types that are named", ["boundary: w1 w2", "multipolygon: w1 w3"], "n1 n2 w1 r1 r2", "n1 n2 n3 n4 w1 w2 r1 r2", types="boundary"),
    Case("two types", ["boundary: w1 w2", "multipolygon: w1 n6", "route: w1 w3"], "n1 n2 w1 r1 r2 r3", "n1 n2 n3 n4 n6 w1 w2 r1 r2 r3",
         types="multipolygon,boundary"),
    Case("the word `any`: all relations, also without a type", ["route: w1 w2", ": w1 n6", ": w3"], "n1 n2 w1 r1 r2", "n1 n2 n3 n4 n6 w1 w2 r1 r2", types="any"),
    Case("`any` in a list is a type like others", ["route: w1 w2", "any: w1 n6"], "n1 n2 w1 r1 r2", "n1 n2 n6 w1 r1 r2", types="any,boundary"),
    Case("types are compared byte by byte", ["MultiPolygon: w1 w2", "multipolygon;boundary: w1 w3", "multi: w1 n6", "multipolygons: w1 n6"],
         "n1 n2 w1 r1 r2 r3 r4", "n1 n2 w1 r1 r2 r3 r4"),
    Case("of two tags `type` the first counts", ["route+multipolygon: w1 w2", "multipolygon+route: w1 w3"],
         "n1 n2 w1 r1 r2", "n1 n2 n4 n5 w1 w3 r1 r2"),
    Case("an empty list of types", ["route: w1 w2"], "n1 n2 w1 r1", "n1 n2 n3 n4 w1 w2 r1", types="",
         ours={SMART: "n1 n2 w1 r1"}, why=EMPTY_LIST),
    Case("a comma at the end of the list", ["+: w1 w2"], "n1 n2 w1 r1", "n1 n2 w1 r1", types="boundary,",
         ours={SMART: "n1 n2 n3 n4 w1 w2 r1"}, why=EMPTY_WORD),
]



# Files that Osmium refuses: what it says, and what pbfcut keeps with -s smart, or says too; and why.
IN_ORDER, UNSORTED = "expects the input file to be ordered", "61 Unsorted"
REFUSED = [
    ("negative ids", "n-1:out n-2:in w-1:-2,-1", "Out of memory", "n-1 n-2 w-1", "an id is any number for pbfcut"),
    ("ids that fall", "n3:in n1:out w1:3,1", IN_ORDER, "n3 n1 w1", "pbfcut needs no order of ids, and keeps that of IN"),
    ("two ways of one id", "n1:in n2:out n3:out w1:1,2 w1:3", IN_ORDER, "n1 n2 w1", "pbfcut judges each by itself"),
    ("a node after a way", "n1:in w1:1,2 n2:out", IN_ORDER, UNSORTED, "both need nodes, ways and relations in this order"),
    ("a way after a relation", "n1:in n2:out r:w1 w1:1,2", IN_ORDER, UNSORTED, "both need nodes, ways and relations in this order"),
]


def an_entity(kind: str, number: str, tags: tuple = (), **rest) -> Entity:
    return Entity(kind, int(number), Meta(), tags, DEFAULT_SCALE, **rest)


def node_of(text: str) -> Entity:
    number, place = text.split(":")
    return an_entity("N", number, lat=PLACES[place][1], lon=PLACES[place][0])


def way_of(text: str) -> Entity:
    number, refs = text.split(":")
    return an_entity("W", number, refs=tuple(int(ref) for ref in refs.split(",") if ref))


def relation_of(number: int, text: str) -> Entity:
    """A relation by its types and members. A + by itself is the empty type, and nothing is none."""
    types, members = text.split(":")
    names = [types.strip("+")] if types in ("", "+") else types.split("+")
    tags = tuple((b"type", name.encode()) for name in names if types)
    return an_entity("R", str(number), tags, members=tuple((word[0], int(word[1:]), b"") for word in members.split()))


def entities_of_case(case: Case) -> list:
    relations = [relation_of(number, text) for number, text in enumerate(case.relations, 1)]
    return [node_of(word) for word in case.nodes.split()] + [way_of(word) for word in case.ways.split()] + relations


def entities_in(text: str) -> list:
    """The entities of a file that Osmium refuses."""
    make = {"n": node_of, "w": way_of, "r": lambda word: relation_of(1, word)}
    return [make[word[0]](word[1:]) for word in text.split()]


def ids(entities: list) -> str:
    return " ".join(f"{entity.kind.lower()}{entity.id}" for entity in entities)


class Bench:
    """A folder, both programs, and what was compared."""

    def __init__(self, program: str, folder: str):
        self.program, self.folder = os.path.join(folder, "pbfcut"), folder
        os.symlink(os.path.abspath(program), self.program)
        self.by_osmium = wrong_extracts()["only nodes in the box select relations"]

    def run(self, name: str, entities: list, words: list) -> tuple:
        """The status of a run over these entities, what it says, and OUT."""
        given, made = (os.path.join(self.folder, f"{name}.{end}") for end in ("osm.pbf", "out"))
        with open(given, "wb") as file:
            file.write(write_file(HEADER, entities))
        words = [{"IN": given, "OUT": made}.get(word, word) for word in words]
        done = subprocess.run(words, stdin=subprocess.DEVNULL, stdout=subprocess.PIPE, stderr=subprocess.PIPE, timeout=SECONDS)
        content = b""
        if os.path.exists(made):
            with open(made, "rb") as file:
                content = file.read()
            os.unlink(made)
        return done.returncode, done.stderr.decode(), content

    def osmium(self, name: str, entities: list, strategy: str, types: str) -> str:
        """The ids that Osmium keeps, or what it says."""
        options = ["-S", f"types={types}"] if strategy == "smart" and types != MULTIPOLYGON else []
        words = ["osmium", "extract", "--no-progress", "-b", EDGES, "-s", strategy, *options, "IN", "-f", "opl", "-o", "OUT"]
        status, said, content = self.run(name, entities, words)
        return said if status else " ".join(line.split(" ")[0] for line in content.decode().splitlines())

    def pbfcut(self, name: str, entities: list, run: str, types: str) -> str:
        """The ids that pbfcut keeps, or what it says."""
        options = [f"--types={types}"] if run == SMART and types != MULTIPOLYGON else []
        status, said, content = self.run(name, entities, [self.program, "extract", f"--box={EDGES}", *RUNS[run][0], *options, "IN", "OUT"])
        return said if status else ids(entities_of(judge(content)))

    def case(self, number: int) -> list:
        """What is out of place with a case."""
        case, name = CASES[number], f"case{number}"
        entities, wrong = entities_of_case(case), []
        answers = {strategy: self.osmium(name, entities, strategy, case.types) for strategy in ("complete_ways", "smart")}
        wrong += [f"{case.rule}: by hand Osmium's {strategy} keeps {case.osmium(strategy)!r}, and it keeps {found!r}"
                  for strategy, found in answers.items() if found != case.osmium(strategy)]
        for run, (_, strategy, by) in RUNS.items():
            wanted = case.ours.get(run, case.osmium(strategy))
            by = {"types": case.types} if run == SMART else by
            found = {"pbfcut": self.pbfcut(name, entities, run, case.types), "the reference": ids(extract(entities, BOX, **by))}
            wrong += [f"{case.rule}: {run}: {who} keeps {kept!r}, and by hand {wanted!r}" for who, kept in found.items() if kept != wanted]
            if case.ours.get(run) == case.osmium(strategy):
                wrong.append(f"{case.rule}: {run}: a known difference is none")
        return wrong if bool(case.ours) == bool(case.why) else [*wrong, f"{case.rule}: a known difference has a reason"]

    def refused(self, number: int) -> list:
        """What is out of place with a file that Osmium refuses."""
        rule, text, said, ours, _ = REFUSED[number]
        name, entities = f"refused{number}", entities_in(text)
        osmium, pbfcut = self.osmium(name, entities, "smart", MULTIPOLYGON), self.pbfcut(name, entities, SMART, MULTIPOLYGON)
        wrong = [] if said in osmium else [f"{rule}: Osmium says {osmium!r}, and not {said!r}"]
        if ours != pbfcut and (ours != UNSORTED or ours not in pbfcut):
            wrong.append(f"{rule}: pbfcut keeps {pbfcut!r}, and by hand {ours!r}")
        return wrong + (self.once_sorted(name, entities) if ours == UNSORTED else [])

    def once_sorted(self, name: str, entities: list) -> list:
        """What is out of place once the command of the hint has sorted such a file."""
        _, said, content = self.run(name, entities, ["osmium", "sort", "--no-progress", "IN", "-f", "pbf,pbf_compression=none", "-o", "OUT"])
        if not content:
            return [f"osmium sort: {said}"]
        found = entities_of(judge(content))
        osmium, pbfcut = self.osmium(name, found, "smart", MULTIPOLYGON), self.pbfcut(name, found, SMART, MULTIPOLYGON)
        return [] if osmium == pbfcut == ids(in_order(found, 0)) else [f"sorted: Osmium keeps {osmium!r}, and pbfcut {pbfcut!r}"]

    def random_file(self, seed: int) -> tuple:
        """What is out of place with a random file in the order that Osmium needs, and what it shows."""
        chance = random.Random(seed)
        types = chance.choice((MULTIPOLYGON, "multipolygon,boundary", "boundary", "any", "any,route", "for\u00eat"))
        entities, wrong = in_order(some_file(chance, types, (1,)), MOVED), []
        for strategy, by in (("complete_ways", {"parents": True}), ("smart", {"types": types})):
            osmium, ours = self.osmium(f"random{seed}", entities, strategy, types), ids(self.by_osmium(entities, BOX, **by))
            if osmium != ours:
                wrong.append(f"random file {seed}: {strategy} with {types}: Osmium keeps {osmium!r}, and by its rules {ours!r}")
        return wrong, shown_by(entities, types)


def in_order(entities: list, more: int) -> list:
    """The entities by rising ids, one of each id; all ids are greater by so much."""
    moved = [replace(e, id=e.id + more, refs=tuple(ref + more for ref in e.refs),
                     members=tuple((kind, member + more, role) for kind, member, role in e.members)) for e in entities]
    return sorted({(e.kind, e.id): e for e in moved}.values(), key=lambda e: ("NWR".index(e.kind), e.id))


def main():
    if len(sys.argv) != 2 or not os.access(sys.argv[1], os.X_OK):
        sys.exit(__doc__)
    if not shutil.which("osmium"):
        print("tests/osmium.py: skipped: osmium isn't installed")
        sys.exit(NOTHING_TO_RUN)
    with tempfile.TemporaryDirectory(prefix="pbfcut-osmium-") as folder, ThreadPoolExecutor(os.cpu_count() or 1) as pool:
        bench = Bench(sys.argv[1], folder)
        found = list(pool.map(bench.random_file, range(RANDOM_FILES)))
        lists = [*pool.map(bench.case, range(len(CASES))), *pool.map(bench.refused, range(len(REFUSED))), *(wrong for wrong, _ in found)]
    shown = Counter(name for _, names in found for name in names)[COMPLETED]
    wrong = [line for lines in lists for line in lines]
    if shown < RANDOM_FILES / 2:
        wrong.append(f"only {shown} of {RANDOM_FILES} random files have a relation that is completed")
    differences = sum(1 for case in CASES if case.ours)
    report("tests/osmium.py", wrong, len(lists),
           f"files: {len(CASES)} rules, of which {differences} have a known difference, {len(REFUSED)} that Osmium refuses, and {RANDOM_FILES} random files, "
           f"of which {shown} have a relation that is completed")


if __name__ == "__main__":
    main()
