#!/usr/bin/env python3
"""Makes a large raw file out of a small one, to measure with.

usage: bench/make.py SMALL LARGE MEGABYTES

LARGE has the entities of SMALL over and over, each copy a quarter of a degree further east, until it has so many megabytes: first the
nodes of all copies, then their ways, then their relations, each sorted by id. The ids are numbered anew, from 1 on, those of the nodes nearly
without gaps, since some programs keep room for each id below the greatest. It prints how many copies there are, the three boxes that hold
about 1 %, 25 % and 100 % of them, and one that cuts through each of a row of copies: there no block is wholly in the box, as in real extracts. SMALL is raw, sorted, has dense nodes, and is less than a quarter of a degree wide.
"""
import os
import sys

import wire

NODE, WAY, RELATION = 0, 1, 2  # the types of members
CELL = 250_000_000  # a quarter of a degree, in nanodegrees
COLUMNS = 600  # copies side by side; then a row further north
HALF = "47.133"  # half of Liechtenstein's nodes lie south of it


def signed(number: int) -> int:
    return number >> 1 if number & 1 == 0 else -(number + 1 >> 1)


def zigzag(number: int) -> bytes:
    return wire.varint(number << 1 if number >= 0 else (-number << 1) - 1)


def column(content) -> list:
    """The numbers of a packed column of differences."""
    numbers, number, at = [], 0, 0
    while at < len(content):
        difference, at = wire.read_varint(content, at)
        number += signed(difference)
        numbers.append(number)
    return numbers


class Shifted:
    """A column of differences of which only the first changes from copy to copy."""

    def __init__(self, number: int, numbers: list):
        self.number, self.numbers = number, numbers[:1]
        self.rest = b"".join(zigzag(after - before) for before, after in zip(numbers, numbers[1:]))

    def moved(self, by: int) -> bytes:
        return b"".join(wire.nested(self.number, zigzag(first + by) + self.rest) for first in self.numbers)


def field(number: int, value) -> bytes:
    return wire.scalar(number, value) if isinstance(value, int) else wire.nested(number, bytes(value))


def members(kind: int, message) -> list:
    """What a way or a relation refers to: pairs of a type and an id."""
    found = dict(wire.fields(message))
    if kind == WAY:
        return [(NODE, ref) for ref in column(found.get(8, b""))]
    return list(zip(bytes(found.get(10, b"")), column(found.get(9, b""))))


class Ids:
    """The ids of SMALL, those that it only refers to among them, numbered anew for each type."""

    def __init__(self, payloads: list):
        found = {NODE: set(), WAY: set(), RELATION: set()}
        for payload in payloads:
            for kind, number in self.met(payload):
                found[kind].add(number)
        self.new = {kind: {old: 1 + place for place, old in enumerate(sorted(ids))} for kind, ids in found.items()}
        self.step = max(len(ids) for ids in found.values())

    @staticmethod
    def met(payload):
        for group in (value for number, value in wire.fields(payload) if number == 2):
            for number, message in wire.fields(group):
                if number == 2:
                    yield from ((NODE, id) for id in column(dict(wire.fields(message))[1]))
                elif number in (3, 4):
                    yield number - 2, dict(wire.fields(message))[1]
                    yield from members(number - 2, message)

    def __call__(self, pairs) -> list:
        return [self.new[kind][number] for kind, number in pairs]


class Dense:
    """A dense message, in parts: ids, latitudes and longitudes move."""

    def __init__(self, message, granularity: int, ids: Ids):
        found = wire.fields(message)
        numbers = {number: column(value) for number, value in found if number in (1, 8, 9)}
        numbers[1] = ids((NODE, number) for number in numbers[1])
        self.columns = [Shifted(number, numbers[number]) for number in (1, 8, 9)]
        self.other = b"".join(field(number, value) for number, value in found if number not in (1, 8, 9))
        self.granularity, self.step = granularity, ids.step

    def moved(self, copy: int) -> bytes:
        east, north = copy % COLUMNS * CELL, copy // COLUMNS * CELL
        by = (copy * self.step, north // self.granularity, east // self.granularity)
        return wire.nested(2, b"".join(map(Shifted.moved, self.columns, by)) + self.other)


class Linked:
    """A way or a relation, in parts: its id moves, and the ids in its column of refs or of members."""

    def __init__(self, kind: int, message, ids: Ids):
        found, number_of_column = wire.fields(message), 8 if kind == WAY else 9
        self.kind, self.step = kind, ids.step
        self.id = ids([(kind, dict(found)[1])])[0]
        self.column = Shifted(number_of_column, ids(members(kind, message)))
        self.other = b"".join(field(number, value) for number, value in found if number not in (1, number_of_column))

    def moved(self, copy: int) -> bytes:
        by = copy * self.step
        return wire.nested(self.kind + 2, wire.scalar(1, self.id + by) + self.other + self.column.moved(by))


class Block:
    """A block of SMALL: its fields beside the groups, and its groups by parts."""

    def __init__(self, payload, ids: Ids):
        found = wire.fields(payload)
        granularity = dict(found).get(17, 100)
        self.other = b"".join(field(number, value) for number, value in found if number != 2)
        self.groups = [[self.part(*part, granularity, ids) for part in wire.fields(group)] for number, group in found if number == 2]
        self.kinds = {getattr(part, "kind", NODE) for group in self.groups for part in group}

    @staticmethod
    def part(number: int, message, granularity: int, ids: Ids):
        if number == 2:
            return Dense(message, granularity, ids)
        if number in (3, 4):
            return Linked(number - 2, message, ids)
        sys.exit("bench/make.py: SMALL has plain nodes or changesets")

    def moved(self, copy: int) -> bytes:
        groups = (wire.nested(2, b"".join(part.moved(copy) for part in group)) for group in self.groups)
        return wire.frame(b"OSMData", wire.nested(1, self.other + b"".join(groups)))


def read_small(path: str):
    header, payloads = b"", []
    for kind, content, payload in wire.frames(path):
        if kind == b"OSMHeader":
            header = content
        elif kind == b"OSMData":
            payloads.append(payload)
    ids = Ids(payloads)
    return header, [Block(payload, ids) for payload in payloads]


def degrees(nano: int) -> str:
    return f"{nano / 1_000_000_000:.9f}".rstrip("0").rstrip(".")


def boxes(copies: int):
    """Boxes over the first of the copies, for SMALL between 9 and 10 degrees east and south of 48 north."""
    for share in (1, 25, 100):
        width = max(1, copies * share // 100)
        east = 9_400_000_000 + min(width, COLUMNS) * CELL
        yield f"{share} %", f"9.4,47,{degrees(east)},{degrees(47_500_000_000 + (copies // COLUMNS) * CELL)}"
    yield "half of each", f"9.4,47,{degrees(9_400_000_000 + min(copies, COLUMNS) * CELL)},{HALF}"


def main(small: str, large: str, megabytes: str):
    header, blocks = read_small(small)
    size = os.path.getsize(small)
    copies = max(1, int(megabytes) * 1_000_000 // size)
    with open(large, "wb") as file:
        file.write(header)
        for kind in (NODE, WAY, RELATION):
            for copy in range(copies):
                file.write(b"".join(block.moved(copy) for block in blocks if kind in block.kinds))
    print(f"copies {copies}, {os.path.getsize(large)} bytes")
    for share, box in boxes(copies):
        print(f"{share} {box}")


if __name__ == "__main__":
    if len(sys.argv) != 4:
        sys.exit(__doc__)
    main(*sys.argv[1:])
