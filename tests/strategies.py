#!/usr/bin/env python3
"""Cuts random small files by each strategy, and compares OUT with the reference of vectors/, which works on whole lists.

usage: tests/strategies.py PROGRAM [--all]

Each of 1,000 files, or with --all of 3,000, is cut with complete ways, with all parents, and by the smart strategy with random types. There are few ids, so
ways share nodes, and relations contain each other. Some ids come twice, some are negative or far apart, and some refs and members aren't in the file. Some
files have their columns in pieces, some are cut by a polygon with the places of the box, and some are compressed, and cut by pbfcutz. In one file in ten
entities are in disorder: if it isn't sorted by type, the smart extract refuses it, and writes nothing. The smart extract also runs over the cases of
vectors/, which are spelled in odd ways.

A random file may show nothing. So the test also fails if few of the files have relations that are completed, or if one of the wrong rules below keeps the
same as the reference in nearly all of them.
"""

import os
import random
import subprocess
import sys
import tempfile
from collections import Counter
from concurrent.futures import ThreadPoolExecutor

TOP = os.path.dirname(os.path.dirname(os.path.abspath(__file__)))
sys.dont_write_bytecode = True
sys.path.insert(0, os.path.dirname(os.path.abspath(__file__)))

from published import meaning_of, packed, report, told_by_pbfcutz
from packing import fields, frames
from reference import box_of, entities_of, header_of
from reference_entities import DEFAULT_SCALE, Entity, Header, Meta, decode_header
from reference_judge import judge
from reference_written import Box, TextIndex, cuts, extract, first_type, header_out, put_bytes, put_frame, put_number, write_file, write_group, write_header
from suite import cases, own_lines

FEW, MANY = 1_000, 3_000
# so many of the files have to be of each sort that is counted, and in so many has each wrong rule to show; most have to have a relation that is completed
LEAST, HALF = 1 / 20, 1 / 2
SECONDS = 900
# cases of vectors/ of more bytes are left out
LONGEST = 3_000
EDGES = "0,0,4,4"
BOX = Box(0, 0, 4_000_000_000, 4_000_000_000)
SQUARE = b"square\n1\n 0 0\n 4 0\n 4 4\n 0 4\nEND\nEND\n"
# stored numbers of degrees in the box, also on its edges, and of those that are not
INSIDE, OUTSIDE = (0, 1, 20_000_000, 40_000_000), (-1, 40_000_001, 80_000_000)
LISTS = ("multipolygon", "multipolygon,boundary", "boundary", "any", "any", "any,route", "route,", "multi", "for\u00eat", "")
# what is counted of the files
UNSORTED, COMPLETED = "aren't sorted", "complete a relation"
NAMES = (UNSORTED, COMPLETED, "one by nodes", "one by ways", "one by both", "add a node", "add a way", "add one that lacks a node")
STEPS = (1, 1, 1, 129, 1 << 40)
# the columns of dense nodes, ways and relations, by the numbers of their fields
BLOCK = {2: {2: dict.fromkeys((1, 8, 9, 10)), 3: dict.fromkeys((2, 3, 8)), 4: dict.fromkeys((2, 3, 8, 9, 10))}}
HEADER = Header(required=[b"OsmSchema-V0.6", b"DenseNodes"])

KEPT = "        return relation_kept(e)\n"
# Rules that are wrong: a text of the reference, and what stands in its place then.
WRONG = {
    "an added way selects relations": (KEPT, KEPT[:-1] + " or any(kind == 'w' and member in added_ways for kind, member, _ in e.members)\n"),
    "an added node selects relations": (KEPT, KEPT[:-1] + " or any(kind == 'n' and member in added_nodes for kind, member, _ in e.members)\n"),
    "an added node selects ways": ("any(ref in box_ids for ref in e.refs)", "any(ref in box_ids | added_nodes for ref in e.refs)"),
    "a relation that is only a parent is completed": ("if relation_kept(r, of_relations=False)]", "if relation_kept(r)]"),
    "member relations are added": (KEPT, KEPT[:-1] + " or any(('r', e.id) == member[:2] for r in completed for member in r.members)\n"),
    "member nodes are left out": ('if kind == "n"}', "if False}"),
    "member ways are left out": ('if kind == "w"}', "if False}"),
    "ways are added only for the word `any`": ('if kind == "w"}', "if kind == 'w' and types == 'any'}"),
    "nodes of added ways are left out": ("added_nodes |= {", "added_nodes & {"),
    "the last tag `type` counts": ("in relation.tags if", "in reversed(relation.tags) if"),
    "parents are left out": ("if parents or types is not None:", "if parents:"),
    "only nodes in the box select relations": ('kind == "n" and member in node_ids', 'kind == "n" and member in box_ids'),
}


def wrong_extracts() -> dict:
    """The extract by each wrong rule."""
    with open(os.path.join(TOP, "vectors", "reference_written.py"), encoding="utf-8") as file:
        text = file.read()
    made = {}
    for rule, (right, wrong) in WRONG.items():
        if text.count(right) != 1:
            sys.exit(f"tests/strategies.py: {rule}: the reference has {right!r} {text.count(right)} times")
        found = {"__name__": "wrong"}
        exec(compile(text.replace(right, wrong), rule, "exec"), found)
        made[rule] = found["extract"]
    return made


# ---- the files


def present(chance: random.Random, ids: range) -> list:
    """Most of these ids, in rising order or in none; sometimes one of them twice."""
    found = chance.sample(ids, len(ids) * 3 // 4) + chance.choices(ids, k=chance.choice((0, 0, 1)))
    return sorted(found) if chance.random() < 0.5 else found


def some_node(chance: random.Random, number: int) -> Entity:
    """One in six lies in the box."""
    place = [chance.choice(INSIDE), chance.choice(INSIDE)]
    if chance.random() > 1 / 6:
        place[chance.randrange(2)] = chance.choice(OUTSIDE)
    return Entity("N", number, Meta(), (), DEFAULT_SCALE, *place)


def some_tags(chance: random.Random, types: str) -> tuple:
    """Most often a type that is wanted, sometimes two types, of which the first counts, and sometimes none."""
    names = types.encode().split(b",") * 8 + [b"multipolygon", b"route", b"Multipolygon", b""]
    tags = [(b"type", name) for name in chance.choices(names, k=chance.choice((0, 1, 1, 1, 1, 2, 2)))]
    if chance.random() < 0.5:
        tags.insert(chance.randint(0, len(tags)), (chance.choice((b"types", b"Type", b"")), names[0]))
    return tuple(tags)


def some_file(chance: random.Random, types: str, steps: tuple = STEPS) -> list:
    """Nodes, then ways, then relations, whose ids have one of these distances."""
    step = chance.choice(steps)
    ids = {kind: range(-2 * step, end * step, step) for kind, end in (("n", 20), ("w", 10), ("r", 9))}
    nodes = [some_node(chance, number) for number in present(chance, ids["n"])]
    ways = [Entity("W", number, Meta(), (), DEFAULT_SCALE, refs=tuple(chance.choices(ids["n"], k=chance.choice((0, 1, 2, 2, 3, 3)))))
            for number in present(chance, ids["w"])]
    relations = []
    for number in present(chance, ids["r"]):
        kinds = chance.choices("nnwwr", k=chance.choice((0, 1, 2, 3, 4, 4)))
        members = tuple((kind, chance.choice(ids[kind]), b"") for kind in kinds)
        relations.append(Entity("R", number, Meta(), some_tags(chance, types), DEFAULT_SCALE, members=members))
    return nodes + ways + relations


def in_disorder(chance: random.Random, entities: list) -> list:
    """All of them in disorder, or one at another place."""
    found = list(entities)
    if chance.random() < 0.3:
        chance.shuffle(found)
    else:
        found.insert(chance.randrange(len(found)), found.pop(chance.randrange(len(found))))
    return found


def in_one_block(entities: list) -> bytes:
    """The file with all entities in one block, and a frame of an unknown type before the header."""
    texts = TextIndex(entities)
    groups = b"".join(put_bytes(2, write_group(run, texts)) for run in cuts(entities))
    frames = (b"Other", b""), (b"OSMHeader", write_header(HEADER)), (b"OSMData", put_bytes(1, texts.write()) + groups)
    return b"".join(put_frame(kind, payload) for kind, payload in frames)


def in_pieces(chance: random.Random, message: bytes, parts: dict) -> bytes:
    """A message with each column of it, and of the messages in it, in two occurrences. `parts` has None for a column, and the parts of a message."""
    def spelled_again(number: int, wire: int, value) -> bytes:
        if wire == 0:
            return put_number(number, value)
        if number not in parts:
            return put_bytes(number, value)
        if parts[number] is not None:
            return put_bytes(number, in_pieces(chance, value, parts[number]))
        at = chance.choice([0, *(end for end, byte in enumerate(value, 1) if byte < 128)])
        return put_bytes(number, value[:at]) + put_bytes(number, value[at:])

    return b"".join(spelled_again(*field) for field in fields(message))


def respelled(chance: random.Random, data: bytes) -> bytes:
    return b"".join(put_frame(kind, in_pieces(chance, payload, BLOCK) if kind == b"OSMData" else payload) for kind, payload in frames(data))


def is_sorted(entities: list) -> bool:
    kinds = ["NWR".index(entity.kind) for entity in entities]
    return kinds == sorted(kinds)


# ---- what they show


def added_of(entities: list, types: str) -> set:
    """The kinds and ids that the smart extract has, and that with all parents has not."""
    smart, parents = ({(e.kind.lower(), e.id) for e in extract(entities, BOX, **by)} for by in ({"types": types}, {"parents": True}))
    return smart - parents


def shown_by(entities: list, types: str) -> set:
    """What is counted of a file in order."""
    added = added_of(entities, types)
    nodes, names = {e.id for e in entities if e.kind == "N"}, types.encode().split(b",")
    completed = [{kind for kind, member, _ in e.members if (kind, member) in added} for e in extract(entities, BOX)
                 if e.kind == "R" and (types == "any" or first_type(e) in names)]
    lacks_node = any(e.kind == "W" and ("w", e.id) in added and not nodes.issuperset(e.refs) for e in entities)
    does_show = (False, any(completed), {"n"} in completed, {"w"} in completed, {"n", "w"} in completed,
                 any(kind == "n" for kind, _ in added), any(kind == "w" for kind, _ in added), lacks_node)
    return {name for name, shows in zip(NAMES, does_show) if shows}


# ---- the runs: status, standard output, the line on standard error, and OUT


def written(header: Header, kept: list, box: Box) -> tuple:
    """A run that writes these entities."""
    counts = [sum(1 for entity in kept if entity.kind == kind) for kind in "NWR"]
    return 0, "nodes %d ways %d relations %d\n" % tuple(counts), "", write_file(header_out(header, box), kept)


def refused(offset: int, reason: str) -> tuple:
    """A run that writes nothing."""
    return 1, "", f"pbfcut: refused at {offset}: {reason}\n", b""


class Trial:
    """A file, and how it is cut."""

    def __init__(self, seed: int):
        chance = random.Random(seed)
        self.types = chance.choice(LISTS)
        self.entities = some_file(chance, self.types)
        self.shown = shown_by(self.entities, self.types)
        if seed % 10 == 0:
            self.entities = in_disorder(chance, self.entities)
        self.data = in_one_block(self.entities) if chance.random() < 0.3 else write_file(HEADER, self.entities)
        self.data = respelled(chance, self.data) if chance.random() < 0.3 else self.data
        self.area = ["--polygon=square.poly"] if chance.random() < 0.3 else [f"--box={EDGES}"]
        self.is_packed = chance.random() < 0.3
        smart = ["--strategy=smart"] if self.types == "multipolygon" and chance.random() < 0.5 else ["-s", "smart", f"--types={self.types}"]
        more = ["--parents"] if chance.random() < 0.2 else []
        self.runs = [([], {}), (["--parents"], {"parents": True}), (smart + more, {"types": self.types})]

    def wanted(self, by: dict) -> tuple:
        if "types" in by and not is_sorted(self.entities):
            return refused(header_of(judge(self.data)).place, "61 Unsorted")
        return written(HEADER, extract(self.entities, BOX, **by), BOX)


class Bench:
    """A folder with the program by both of its names."""

    def __init__(self, program: str, folder: str):
        self.folder, self.wrong = folder, wrong_extracts()
        for name in "pbfcut", "pbfcutz":
            os.symlink(os.path.abspath(program), os.path.join(folder, name))
        with open(os.path.join(folder, "square.poly"), "wb") as file:
            file.write(SQUARE)

    def run(self, words: list, name: str, data: bytes, is_packed: bool) -> tuple:
        """What a run does; of pbfcutz over the compressed file, with raw blobs in OUT."""
        given, made = (os.path.join(self.folder, f"{name}.{end}") for end in ("in", "out"))
        with open(given, "wb") as file:
            file.write(packed(data) if is_packed else data)
        program = os.path.join(self.folder, "pbfcutz" if is_packed else "pbfcut")
        words = ["extract", *(["--raw"] if is_packed else []), *words, given, made]
        done = subprocess.run([program, *words], cwd=self.folder, stdout=subprocess.PIPE, stderr=subprocess.PIPE, timeout=SECONDS)
        out = b""
        if os.path.exists(made):
            with open(made, "rb") as file:
                out = file.read()
            os.unlink(made)
        os.unlink(given)
        return done.returncode, done.stdout.decode(), own_lines(done.stderr).decode(), out

    def differs(self, words: list, name: str, data: bytes, wanted: tuple, is_packed: bool = False) -> list:
        """What is out of place with a run."""
        if is_packed:
            wanted = (*wanted[:2], told_by_pbfcutz(wanted[2], meaning_of(packed(data))), wanted[3])
        found = self.run(words, name, data, is_packed)
        return [] if found == wanted else [f"{name}: {words}: {found[:3]} and {len(found[3])} bytes, and not {wanted[:3]} and {len(wanted[3])} bytes"]

    def random_file(self, seed: int) -> tuple:
        """What is out of place with the extracts of the file of this seed, and what it shows."""
        trial = Trial(seed)
        wrong = [line for words, by in trial.runs
                 for line in self.differs(trial.area + words, f"file{seed}", trial.data, trial.wanted(by), trial.is_packed)]
        right = extract(trial.entities, BOX, types=trial.types)
        told = {rule for rule, other in self.wrong.items() if other(trial.entities, BOX, types=trial.types) != right}
        return wrong, trial.shown | told | ({UNSORTED} if not is_sorted(trial.entities) else set())

    def case(self, case) -> list:
        """What is out of place with the smart extract of a case of vectors/."""
        data, edges, fault = case.input(), case.told["box"], case.refusal("extract")
        if fault:
            wanted = refused(fault["offset"], f"{fault['number']} {fault['reason']}")
        else:
            judged = judge(data)
            header, entities, box = header_of(judged), entities_of(judged), box_of(edges)
            in_order = is_sorted(entities)
            wanted = written(decode_header(header), extract(entities, box, types="any"), box) if in_order else refused(header.place, "61 Unsorted")
        return self.differs([f"--box={edges}", "-s", "smart", "--types=any"], case.name, data, wanted)


def main():
    if len(sys.argv) not in (2, 3) or sys.argv[2:] not in ([], ["--all"]) or not os.access(sys.argv[1], os.X_OK):
        sys.exit(__doc__)
    files, odd = MANY if sys.argv[2:] else FEW, [case for case in cases([]) if len(case.input()) <= LONGEST]
    with tempfile.TemporaryDirectory(prefix="pbfcut-strategies-") as folder, ThreadPoolExecutor(os.cpu_count() or 1) as pool:
        bench = Bench(sys.argv[1], folder)
        found = list(pool.map(bench.random_file, range(files)))
        wrong = [line for lines in [*(lines for lines, _ in found), *pool.map(bench.case, odd)] for line in lines]
    shown = Counter(name for _, names in found for name in names)
    wrong += [f"only {shown[name]} of {files} files show this: {name}" for name in [*NAMES, *WRONG]
              if shown[name] < files * (HALF if name == COMPLETED else LEAST)]
    counts = ", ".join(f"{shown[name]} {name}" for name in NAMES)
    rarest = min(shown[rule] for rule in WRONG)
    report("tests/strategies.py", wrong, 3 * files + len(odd),
           f"extracts are those of the reference; of {files} files {counts}; each of {len(WRONG)} wrong rules shows in {rarest} or more")


if __name__ == "__main__":
    main()
