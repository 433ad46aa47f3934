#!/usr/bin/env python3
"""Runs the commands over files that grow, and tests that time and memory grow no faster.

usage: tests/growth.py PROGRAM [--table] [NAME..]

Each shape is a kind of file that is odd, costly or hostile, made at 1, 2, 4 and 8 times a size. The commands run over it as pbfcut, and over the same
file compressed as pbfcutz; what counts is the time of a processor and the greatest memory. A run is out of place if

- it takes more than 6 times as long as over a quarter of the file: a loop that goes over all that is left, for each part that it takes, needs 16
  times as long. (Half the file says less: where memory is first asked of the system by the page, one step is dear and the next one cheap.)
- it takes more than 25 times as long as the program needs to read and hash as many bytes as it reads, unpacks and writes;
- it takes more than 2.6 times as long as over the same blobs in their usual form;
- it holds more than 2.6 times the memory of a run over half the file, and more than every file may need.

NAME runs the shapes whose names begin so; --table prints what each run took.
"""

import ast
import math
import os
import random
import shutil
import struct
import sys
import tempfile
import zlib

sys.dont_write_bytecode = True
sys.path.insert(0, os.path.dirname(os.path.abspath(__file__)))

from program import EMPTY_HEADER, deltas, field, scalar, varint, zigzag

SIZES = (1, 2, 4, 8)
# over four times the file
MOST_GROWTH = 6
# over twice the file, and over another form of it
MOST_MEMORY, MOST_BESIDE = 2.6, 2.6
MOST_PASSES = 25
# so much memory may each run need, in KB, whatever the file is
ANY_FILE = 70_000
# so long, in seconds, has a run to take before its growth says anything
LONG_ENOUGH = 0.03
TRIES = 6
# packing a frame of OUT takes as long as hashing so many bytes, however short the frame is: its tables are cleared first
PACKED_FRAME = 400
# how many bytes are read and hashed for comparison
PASSED_OVER = 2_000_000

FAR = 200_000_000  # twenty degrees, out of the box
TABLE = field(1, b"\x0a\x00")
MULTIPOLYGONS = field(1, field(1, b"") + field(1, b"type") + field(1, b"multipolygon"))


def growing(count: int) -> bytes:
    """The ids 1, 2, .. as a column."""
    return b"\x02" * count


def dense(ids: bytes, lats: bytes, lons: bytes, *rest: bytes) -> bytes:
    """A group of dense nodes, by the bytes of its columns."""
    return field(2, field(2, field(1, ids) + field(8, lats) + field(9, lons) + b"".join(rest)))


def nodes(count: int, *rest: bytes) -> bytes:
    """A group of so many nodes in the box."""
    return dense(growing(count), bytes(count), bytes(count), *rest)


def way(number: int, refs: bytes, *rest: bytes) -> bytes:
    return field(3, scalar(1, number) + b"".join(rest) + field(8, refs))


def relation(number: int, ids: bytes, kinds: bytes, *rest: bytes) -> bytes:
    return field(4, scalar(1, number) + b"".join(rest) + field(8, bytes(len(kinds))) + field(9, ids) + field(10, kinds))


def block(*groups: bytes, table: bytes = TABLE) -> tuple:
    return b"OSMData", table + b"".join(groups)


def texts(*each: bytes) -> bytes:
    """A table of these texts, after the empty one."""
    return field(1, field(1, b"") + b"".join(field(1, text) for text in each))


# ---- the shapes: a list of frames by the size


def kept_nodes_in_one_message(size: int) -> list:
    return [block(nodes(40_000 * size))]


def kept_nodes_with_gaps(size: int) -> list:
    """All are kept, and none has a neighbour."""
    count = 80_000 * size
    return [block(dense(b"\x04" * count, bytes(count), bytes(count)))]


def dropped_nodes_in_one_message(size: int) -> list:
    count = 40_000 * size
    return [block(dense(growing(count), bytes(count), varint(zigzag(FAR)) + bytes(count - 1)))]


def every_second_node_kept(size: int) -> list:
    pairs = 10_000 * size
    return [block(dense(growing(2 * pairs), bytes(2 * pairs), (varint(zigzag(FAR)) + varint(zigzag(-FAR))) * pairs))]


def nodes_of_a_long_user(size: int) -> list:
    """A block has room for a hundred of them."""
    count = 4_000 * size
    zeros = bytes(count)
    info = field(5, field(1, zeros) + field(2, zeros) + field(3, zeros) + field(4, zeros) + field(5, b"\x02" + bytes(count - 1)))
    return [block(dense(b"\x04" * count, zeros, zeros, info), table=texts(b"u" * 120_000))]


def a_long_key_in_each_node(size: int) -> list:
    count = 2_000 * size
    return [block(nodes(count, field(10, b"\x01\x01\x00" * count)), table=texts(b"k" * 20_000))]


def a_long_key_in_each_way(size: int) -> list:
    ways = b"".join(way(number, b"\x02\x02", field(2, b"\x01"), field(3, b"\x01")) for number in range(1, 2_000 * size))
    return [block(nodes(2)), block(field(2, ways), table=texts(b"k" * 20_000))]


def nodes_of_a_thousand_tags(size: int) -> list:
    count = 40 * size
    tags = b"".join(varint(1 + number % 100) * 2 for number in range(1_000)) + b"\x00"
    return [block(nodes(count, field(10, tags * count)), table=texts(*(b"%d" % number for number in range(100))))]


def texts_that_differ(size: int) -> list:
    count = 8_000 * size
    tags = b"".join(varint(number) * 2 + b"\x00" for number in range(1, count + 1))
    return [block(nodes(count, field(10, tags)), table=texts(*(b"text %d" % number for number in range(count))))]


def ways_of_refs_that_spread(size: int) -> list:
    """Each way has 2,000 refs, which lie as far apart as there are ids."""
    count = 5_000 * size
    step, refs = count // 2_000 + 1, []
    for number in range(10 * size):
        refs.append(deltas([1 + (number + index * step) % count for index in range(2_000)]))
    return [block(nodes(count)), block(field(2, b"".join(way(number + 1, column) for number, column in enumerate(refs))))]


def ways_of_refs_that_are_nowhere(size: int) -> list:
    count = 2_000 * size
    refs = deltas([1 << 40, 5, 1 << 50, 7, 1 << 45])
    return [block(nodes(count)), block(field(2, b"".join(way(number, refs) for number in range(1, count))))]


def ids_far_apart(size: int) -> list:
    count = 10_000 * size
    return [block(dense(varint(zigzag(1 << 45)) * count, bytes(count), bytes(count)))]


def ids_that_fall(size: int) -> list:
    count = 20_000 * size
    ids = varint(zigzag(1 << 40)) + b"\x01" * (count - 1)
    return [block(dense(ids, bytes(count), bytes(count)))]


def ids_that_fall_far(size: int) -> list:
    count = 5_000 * size
    ids = varint(zigzag(1 << 61)) + varint(zigzag(-(1 << 40))) * (count - 1)
    return [block(dense(ids, bytes(count), bytes(count)))]


def ids_in_two_rising_rows(size: int) -> list:
    """An id of a row, and then one of the other, far away."""
    pairs = 5_000 * size
    ids = varint(zigzag(1)) + (varint(zigzag(1 << 40)) + varint(zigzag(1 - (1 << 40)))) * pairs
    return [block(dense(ids, bytes(2 * pairs + 1), bytes(2 * pairs + 1)))]


def ids_in_runs_of_a_page(size: int) -> list:
    """Runs of 127, 128 and 129 ids, each with a gap before it, and ways whose refs lie on both sides of a gap."""
    runs = 40 * size
    ids = b"".join(varint(zigzag(1_000)) + b"\x02" * (126 + run % 3) for run in range(runs))
    count = sum(127 + run % 3 for run in range(runs))
    refs = deltas([1_127, 1_126, 2_127, 2_126, 3_256, 3_255])
    ways = field(2, b"".join(way(number, refs) for number in range(1, 1_000 * size)))
    return [block(dense(ids, bytes(count), bytes(count))), block(ways)]


def relations_of_30000_members(size: int) -> list:
    ids, kinds = b"\x02" * 30_000, bytes(30_000)
    return [block(nodes(1_000)), block(field(2, b"".join(relation(number, ids, kinds) for number in range(1, 1 + 2 * size))))]


def parents_in_a_chain(size: int) -> list:
    """Each relation has the next one as its member; the last has a node."""
    count = 5_000 * size
    chain = b"".join(relation(number, varint(zigzag(number + 1)), b"\x02") for number in range(1, count))
    return [block(nodes(1)), block(field(2, chain + relation(count, b"\x02", b"\x00")))]


def parents_in_circles(size: int) -> list:
    """Relations that have each other, the one before and the one after, as members; one has a node."""
    count = 2_500 * size
    circle = [relation(1 + number, deltas([1 + (number - 1) % count, 1 + (number + 1) % count]), b"\x02\x02") for number in range(count)]
    return [block(nodes(1)), block(field(2, b"".join(circle) + relation(1, b"\x02", b"\x00")))]


def a_parent_of_many(size: int) -> list:
    """A relation with many relations as its members, and each of these with it."""
    count = 5_000 * size
    parent = relation(count + 1, deltas(list(range(1, count + 1))), b"\x02" * count)
    children = b"".join(relation(number, varint(zigzag(count + 1)), b"\x02") for number in range(1, count + 1))
    return [block(nodes(1)), block(field(2, parent + children + relation(1, b"\x02", b"\x00")))]


def multipolygon(number: int, ids: bytes, kinds: bytes) -> bytes:
    """A relation of that type, by the table MULTIPOLYGONS."""
    return relation(number, ids, kinds, field(2, b"\x01"), field(3, b"\x02"))


def a_multipolygon_of_many_ways(size: int) -> list:
    """Each way has two nodes of its own outside the box. The relation has a node in the box, and each way twice."""
    count = 4_000 * size
    outside = dense(varint(zigzag(2)) + growing(2 * count - 1), varint(zigzag(FAR)) + bytes(2 * count - 1), bytes(2 * count))
    ways = b"".join(way(number, deltas([2 * number, 2 * number + 1])) for number in range(1, count + 1))
    ids = deltas([1, *range(1, count + 1), *range(count, 0, -1)])
    return [block(nodes(1)), block(outside), block(field(2, ways)),
            block(field(2, multipolygon(1, ids, b"\x00" + b"\x01" * (2 * count))), table=MULTIPOLYGONS)]


def multipolygons_of_a_way(size: int) -> list:
    """Each has the node in the box, and a way and a node outside, whose ids fall from one relation to the next."""
    count = 3_000 * size
    outside = dense(varint(zigzag(2)) + growing(2 * count - 1), varint(zigzag(FAR)) + bytes(2 * count - 1), bytes(2 * count))
    ways = b"".join(way(number, deltas([2 * number, 2 * number + 1])) for number in range(1, count + 1))
    relations = b"".join(multipolygon(number, deltas([1, count + 1 - number, 2 * (count + 1 - number)]), b"\x00\x01\x00") for number in range(1, count + 1))
    return [block(nodes(1)), block(outside), block(field(2, ways)), block(field(2, relations), table=MULTIPOLYGONS)]


def multipolygons_of_one_way(size: int) -> list:
    """All of them have the same two ways: one is kept, and the other has as many refs as there are relations."""
    count = 4_000 * size
    ways = way(1, b"\x02\x02") + way(2, b"\x06" + growing(count - 1))
    relations = b"".join(multipolygon(number, deltas([1, 2]), b"\x01\x01") for number in range(1, count + 1))
    outside = dense(varint(zigzag(3)) + growing(count - 1), varint(zigzag(FAR)) + bytes(count - 1), bytes(count))
    return [block(nodes(2)), block(outside), block(field(2, ways)), block(field(2, relations), table=MULTIPOLYGONS)]


def multipolygons_in_a_chain(size: int) -> list:
    """Each has the next one and a way outside as members; the last has a node. So all are kept, and only the last is completed."""
    count = 4_000 * size
    ways = b"".join(way(number, deltas([2, 3])) for number in range(1, count + 1))
    chain = b"".join(multipolygon(number, deltas([number + 1, number]), b"\x02\x01") for number in range(1, count))
    return [block(nodes(1)), block(field(2, ways)), block(field(2, chain + multipolygon(count, deltas([1, count]), b"\x00\x01")), table=MULTIPOLYGONS)]


def ways_and_relations_in_turn(size: int) -> list:
    """Each way is a member of the relation after it. The ways have a node in the box and ten that are nowhere, whose ids fall: a set of them has to be
    sorted before it is asked for a relation, and each way but the first comes after a relation."""
    pairs = b""
    for number in range(1, 1 + 1_000 * size):
        refs = deltas([1, *((1 << 40) - 10 * number - index for index in range(10))])
        pairs += field(2, way(number, refs)) + field(2, relation(number, varint(zigzag(number)), b"\x01"))
    return [block(nodes(10_000 * size)), (b"OSMData", TABLE + pairs)]


def an_id_column_in_single_numbers(size: int) -> list:
    """Each number of the columns is an occurrence of its field by itself."""
    count = 12_500 * size
    message = scalar(1, 2) * count + scalar(8, 0) * count + scalar(9, 0) * count
    return [block(field(2, field(2, message)))]


def refs_in_single_numbers(size: int) -> list:
    count = 12_500 * size
    return [block(nodes(1_000)), block(field(2, field(3, scalar(1, 1) + scalar(8, 2) + scalar(8, 0) * count)))]


def members_in_single_numbers(size: int) -> list:
    count = 8_000 * size
    return [block(nodes(1_000)), block(field(2, field(4, scalar(1, 1) + (scalar(8, 0) + scalar(9, 0) + scalar(10, 0)) * count)))]


def ids_of_many_ways(size: int) -> list:
    """The id of one way, told again and again."""
    return [block(nodes(2)), block(field(2, field(3, scalar(1, 7) * (40_000 * size) + field(8, b"\x02\x02"))))]


def unknown_fields(size: int) -> list:
    unknown = scalar(99, 0) * (20_000 * size)
    message = field(1, growing(2)) + field(8, bytes(2)) + field(9, bytes(2)) + unknown
    ways = field(2, unknown + field(3, scalar(1, 1) + unknown + field(8, b"\x02\x02")))
    return [(b"OSMData", unknown + TABLE + field(2, unknown + field(2, message)) + ways)]


def groups_of_a_node(size: int) -> list:
    return [(b"OSMData", TABLE + nodes(1) * (10_000 * size))]


def empty_groups(size: int) -> list:
    return [block(nodes(2)), (b"OSMData", TABLE + field(2, b"") * (40_000 * size))]


def plain_nodes(size: int) -> list:
    return [block(field(2, field(1, scalar(1, 2) + scalar(8, 0) + scalar(9, 0)) * (10_000 * size)))]


def entities_of_odd_spelling(size: int) -> list:
    """Numbers that are spelled longer than they have to be."""
    count = 10_000 * size
    return [block(dense(b"\x82\x00" * count, b"\x80\x80\x00" * count, b"\x80\x00" * count))]


def columns_of_mixed_spelling(size: int) -> list:
    """Numbers of one byte, and between them those that are spelled longer, at each distance from 1 to 40; of two nodes that come together one is kept."""
    short_or_long = [b"\x02" if number % (1 + number // 300 % 40) else b"\x82\x80\x00" for number in range(36_000)]
    count = 36_000 * size
    places = [(varint(zigzag(FAR)), varint(zigzag(-FAR)) if number % 7 else b"\xff\x87\xde\xbe\x81\x00") for number in range(18_000)]
    zeros = b"".join(b"\x80\x80\x00" if number % 33 == 5 else b"\x00" for number in range(36_000))
    return [block(dense(b"".join(short_or_long) * size, zeros * size, b"".join(map(b"".join, places)) * size)), block(field(2, way(1, deltas([1, count]))))]


def users_and_tags_that_change(size: int) -> list:
    """Nodes of one user without tags, in rows of each length from 1 to 40, between those of another user and those with a tag."""
    count = 40_000
    rows = [1 + number // 200 % 40 for number in range(count)]
    # the last node has the first user again, so that the column may be repeated
    users = [1 if number % (1 + row) == 0 and number + 1 < count else 0 for number, row in enumerate(rows)]
    steps = b"".join(varint(zigzag(user - before)) for before, user in zip([0] + users, users))
    tags = b"".join(b"\x02\x02\x00" if number % (2 + row) == 0 else b"\x00" for number, row in enumerate(rows))
    zeros = bytes(count * size)
    info = field(5, b"".join(field(number, column) for number, column in enumerate([zeros] * 4 + [steps * size], 1)))
    return [block(nodes(count * size, info, field(10, tags * size)), table=texts(b"user", b"tag"))]


def nodes_with_metadata_that_differs(size: int) -> list:
    """Of two nodes that come together only one may have a time, so that each is a block of its own."""
    group = field(1, scalar(1, 2) + scalar(8, 0) + scalar(9, 0)) + field(1, scalar(1, 4) + field(4, scalar(2, 1)) + scalar(8, 0) + scalar(9, 0))
    return [block(field(2, group * (1_000 * size)))]


def a_header_of_many_features(size: int) -> list:
    """Each of the optional features is another short text."""
    features = b"".join(field(5, b"%d" % number) for number in range(20_000 * size))
    return [(b"OSMHeader", features), block(nodes(2))]


def tiny_frames(size: int) -> list:
    return [(b"OSMData", TABLE)] * (3_000 * size)


def frames_of_unknown_kinds(size: int) -> list:
    return [(b"Other", b"x")] * (3_000 * size)


SHAPES = [shape for name, shape in list(globals().items()) if callable(shape) and getattr(shape, "__annotations__", {}).get("return") is list]


# ---- the files


def framed(kind: bytes, blob: bytes) -> bytes:
    header = field(1, kind) + scalar(3, len(blob))
    return struct.pack(">I", len(header)) + header + blob


def begin_of(frames: list) -> bytes:
    """The header that comes before these frames, if they don't begin with one."""
    return b"" if frames[0][0] == b"OSMHeader" else EMPTY_HEADER


def raw_file(frames: list) -> bytes:
    return begin_of(frames) + b"".join(framed(kind, field(1, payload)) for kind, payload in frames)


def zlib_file(frames: list, pack=lambda payload: zlib.compress(payload, 1), has_size: bool = True) -> bytes:
    def blob(payload: bytes) -> bytes:
        return (scalar(2, len(payload)) if has_size else b"") + field(3, pack(payload))

    made = {frame: framed(frame[0], blob(frame[1])) for frame in set(frames)}
    return begin_of(frames) + b"".join(made[frame] for frame in frames)


def stored(payload: bytes) -> bytes:
    return zlib.compress(payload, 0)


def after_blocks(bits: str, count: int):
    """Packs into streams that begin with so many blocks without content, each of these bits, the first bit of each first."""
    def pack(payload: bytes) -> bytes:
        # the block with the payload is stored: its three bits, and then whole bytes
        text = bits * count + "100"
        text += "0" * (-len(text) % 8)
        begun = int(text[::-1], 2).to_bytes(len(text) // 8, "little")
        end = struct.pack("<HH", len(payload), 65535 - len(payload)) + payload + struct.pack(">I", zlib.adler32(payload))
        return b"\x78\x01" + begun + end

    return pack


FIXED = "0" + "10" + "0000000"
# codes of one bit for the end of the block, for a length and for a distance, by the lengths of 258 and of 1 symbols
LENGTHS = "".join("100" if symbol in (18, 1) else "000" for symbol in (16, 17, 18, 0, 8, 7, 9, 6, 10, 5, 11, 4, 12, 3, 13, 2, 14, 1))
DYNAMIC = "0" + "01" + "10000" + "00000" + "0111" + LENGTHS + "".join("1" + format(run - 11, "07b")[::-1] for run in (138, 118)) + "000" + "0"

# name: the frames by the size, and the file that is made of them by the size; and whether the usual form of it is to be as quick
ZLIB_SHAPES = {
    "blocks of fixed codes": (lambda size: [block(nodes(1_000))], lambda frames, size: zlib_file(frames, after_blocks(FIXED, 50_000 * size)), False),
    "blocks of their own codes": (lambda size: [block(nodes(1_000))], lambda frames, size: zlib_file(frames, after_blocks(DYNAMIC, 3_000 * size)), False),
    "blobs without raw_size": (lambda size: [block(nodes(11_000))] * (10 * size), lambda frames, size: zlib_file(frames, has_size=False), True),
    "stored blobs without raw_size": (lambda size: [block(nodes(11_000))] * (10 * size), lambda frames, size: zlib_file(frames, stored, False), True),
    "a blob without raw_size": (lambda size: [block(nodes(40_000 * size))], lambda frames, size: zlib_file(frames, has_size=False), True),
}

# ---- polygons


def scattered(count: int) -> list:
    """Nodes all over a square of a degree."""
    chance = random.Random(1)
    place = [[chance.randrange(10_000_000) for _ in range(count)] for _ in range(2)]
    return [block(dense(growing(count), deltas(place[0]), deltas(place[1])))]


def ring(edges: int, inner: float) -> bytes:
    """A ring round the middle of that square, of which each second place lies this far from it."""
    lines = []
    for number in range(edges):
        angle, far = 2 * math.pi * number / edges, 0.45 if number % 2 else inner
        lines.append(f" {0.5 + far * math.cos(angle):.9f} {0.5 + far * math.sin(angle):.9f}\n")
    return ("ring\n1\n" + "".join(lines) + "END\nEND\n").encode()


def zigzag_ring(edges: int) -> bytes:
    """A ring through that square that goes from pole to pole and back with each two edges."""
    lines = [f" {number / edges:.9f} {89 if number % 2 else -89}\n" for number in range(edges)]
    return ("ring\n1\n" + "".join(lines) + " 1 -89.5\n 0 -89.5\nEND\nEND\n").encode()


def far_rings(edges: int) -> bytes:
    """A ring in the thousandth part of that square, and two triangles that lie far from it: one at its latitudes, and one near a pole. So without finer
    parts all its edges lie in a few bands, and there in one cell."""
    dense = ring(edges, 0.4499).decode().splitlines()[2:-2]
    lines = ["rings", "ring", *(" ".join(f"{0.5 + (float(number) - 0.5) / 1_000:.9f}" for number in line.split()) for line in dense), "END"]
    for lon, lat in ((170, 0), (0, 88)):
        lines += ["far", f"{lon} {lat}", f"{lon + 1} {lat}", f"{lon} {lat + 1}", "END"]
    return "\n".join([*lines, "END", ""]).encode()


def in_the_dense_ring(count: int) -> list:
    """Nodes all over the thousandth part of that square."""
    chance = random.Random(3)
    place = [[4_995_000 + chance.randrange(10_000) for _ in range(count)] for _ in range(2)]
    return [block(dense(growing(count), deltas(place[0]), deltas(place[1])))]


def as_geojson(text: bytes) -> bytes:
    """The ring of a .poly file as GeoJSON."""
    places = [line.split() for line in text.decode().splitlines()[2:-2]]
    return b'{"type": "Polygon", "coordinates": [[%s]]}' % ", ".join(f"[{lon}, {lat}]" for lon, lat in places + places[:1]).encode()


def nested(depth: int) -> bytes:
    """GeoJSON with members beside the ring that nest as deep as is read, one after another."""
    beside = ", ".join(["[" * 126 + "]" * 126] * depth)
    return b'{"properties": [%s], %s' % (beside.encode(), as_geojson(ring(100, 0.4499))[1:])


def islands(count: int) -> bytes:
    """So many squares in that square as GeoJSON, in no order, each with the tenth part of what it would have if they lay side by side."""
    chance, side = random.Random(2), math.sqrt(0.1 / count)
    polygons = []
    for _ in range(count):
        west, south = chance.random() * (1 - side), chance.random() * (1 - side)
        corners = [(west, south), (west + side, south), (west + side, south + side), (west, south + side), (west, south)]
        polygons.append("[[%s]]" % ", ".join(f"[{lon:.9f}, {lat:.9f}]" for lon, lat in corners))
    return b'{"type": "MultiPolygon", "coordinates": [%s]}' % ", ".join(polygons).encode()


# by the size: the nodes, and the ring. An edge of a coast crosses few latitudes, and each edge of a zigzag all, but few longitudes. Each edge of a
# star goes near its middle; so a star takes as long as its edges and the nodes, multiplied
POLYGONS = {
    "coast of more edges": (lambda size: scattered(10_000), lambda size: ring(8_000 * size, 0.4499)),
    "coast with more nodes": (lambda size: scattered(40_000 * size), lambda size: ring(10_000, 0.4499)),
    "zigzag of more edges with more nodes": (lambda size: scattered(10_000 * size), lambda size: zigzag_ring(4_000 * size)),
    "star of more edges": (lambda size: scattered(10_000), lambda size: ring(200 * size, 0.01)),
    "dense ring of more edges with more nodes and two far rings": (lambda size: in_the_dense_ring(5_000 * size), lambda size: far_rings(4_000 * size)),
    "geojson of more edges": (lambda size: scattered(10_000), lambda size: as_geojson(ring(8_000 * size, 0.4499))),
    "geojson of more lists": (lambda size: scattered(10_000), lambda size: nested(400 * size)),
    "islands in the sea": (lambda size: scattered(20_000 * size), lambda size: islands(1_000 * size)),
    "star with more nodes": (lambda size: scattered(10_000 * size), lambda size: ring(200, 0.01)),
}
# an edge of a ring may cost as much as hashing so many bytes, and each node that a star is asked for so many for each of its edges
EDGE, ASKED = 1_500, 2


def polygon_files(shape: str, size: int) -> dict:
    make_nodes, make_ring = POLYGONS[shape]
    text = make_ring(size)
    raw = raw_file(make_nodes(size))
    edges = text.count(b"[" if text.startswith(b"{") else b"\n")
    asked = len(raw) // 8 * edges * ASKED if shape.startswith("star") else 0
    return {"pbfcut": (raw, edges * EDGE + asked), "ring": (text, 0)}


# ---- several areas in one run


def overlapping(count: int) -> bytes:
    """So many areas, boxes and polygons in turn, each with all of that square, into a folder."""
    square = "[[[0, 0], [1, 0], [1, 1], [0, 1], [0, 0]]]"
    kinds = '"bbox": [0, 0, 1, 1]', f'"polygon": {square}'
    return configuration([f'{{"output": "out{number}", {kinds[number % 2]}}}' for number in range(count)])


def side_by_side(count: int) -> bytes:
    """So many areas, each with its part of that square."""
    return configuration([f'{{"output": "out{number}", "bbox": [{number / count:.9f}, 0, {(number + 1) / count:.9f}, 1]}}' for number in range(count)])


def small_boxes(count: int) -> bytes:
    """So many boxes all over that square, each with the ten-thousandth part of it."""
    chance = random.Random(4)
    corners = [(chance.randrange(990) / 1_000, chance.randrange(990) / 1_000) for _ in range(count)]
    return configuration([f'{{"output": "out{number}", "bbox": [{west:.3f}, {south:.3f}, {west + 0.01:.3f}, {south + 0.01:.3f}]}}'
                          for number, (west, south) in enumerate(corners)])


def configuration(extracts: list) -> bytes:
    return ('{"extracts": [%s]}' % ",\n".join(extracts)).encode()


def numbered(count: int, area: str, last: str) -> bytes:
    """So many extracts of one area, and a last one of another."""
    return configuration([f'{{"output": "out{number}", {area}}}' for number in range(count)] + [f'{{"output": "last", {last}}}'])


GOOD_BOX, BAD_BOX = '"bbox": [0, 0, 1, 1]', '"bbox": [0, 0, 1, 91]'
RING_FILE, NO_FILE = '"polygon": {"file_name": "ring"}', '"polygon": {"file_name": "nowhere"}'
TRIANGLE, OPEN_RING = '"polygon": [[[0, 0], [1, 0], [0, 1], [0, 0]]]', '"polygon": [[[0, 0], [1, 0], [0, 1], [1, 1]]]'

# by the size: the nodes, the configuration, how many bytes as it costs to cut out its areas may be hashed meanwhile, and the exit status. A
# configuration is refused for its last extract, which says how long it takes to read all of it
CONFIGURATIONS = {
    "areas that overlap": (lambda size: scattered(20_000), overlapping, lambda size: 40_000 * size, 0),
    "areas side by side": (lambda size: scattered(40_000), side_by_side, lambda size: 40_000 * size, 0),
    "small areas": (lambda size: scattered(20_000), lambda size: small_boxes(40 * size), lambda size: 400_000 * size, 0),
    "areas with more nodes": (lambda size: scattered(5_000 * size), lambda size: overlapping(8), lambda size: 80_000 * size, 0),
    "extracts of which the last is wrong": (lambda size: [block(nodes(1))], lambda size: numbered(8_000 * size, GOOD_BOX, BAD_BOX), lambda size: 0, 2),
    "polygons of which the last is wrong": (lambda size: [block(nodes(1))], lambda size: numbered(4_000 * size, TRIANGLE, OPEN_RING), lambda size: 0, 2),
    "files of polygons of which the last is missing": (lambda size: [block(nodes(1))], lambda size: numbered(1_000 * size, RING_FILE, NO_FILE),
                                                       lambda size: 300_000 * size, 3),
}


def configured_files(shape: str, size: int) -> dict:
    make_nodes, make_configuration, cost, _ = CONFIGURATIONS[shape]
    text = make_configuration(size)
    return {"pbfcutz": (zlib_file(make_nodes(size)), len(text) + cost(size)), "areas": (text, 0), "ring": (ring(8, 0.4), 0)}


# ---- the runs

# what follows the program, and how often it reads IN at most
COMMANDS = {
    "check": (["check", "in"], 1),
    "show": (["show", "in"], 2),
    "convert": (["convert", "in", "out"], 2),
    "extract": (["extract", "--box=0,0,1,1", "in", "out"], 3),
    "extract --parents": (["extract", "--parents", "--box=0,0,1,1", "in", "out"], 4),
    "extract -s smart": (["extract", "-s", "smart", "--box=0,0,1,1", "in", "out"], 3),
    "extract --polygon": (["extract", "--polygon=ring", "in", "out"], 3),
    "extract --config": (["extract", "--config=areas", "--directory=outs", "in"], 3),
    "pack": (["pack", "in", "out"], 2),
    "unpack": (["unpack", "in", "out"], 2),
    "info": (["info", "in"], 1),
    "info --json": (["info", "--json", "in"], 1),
}
# those of any file, and those that only pbfcutz has; `info --json` differs from `info` only by the header
ANY, ZLIB_ONLY = ("check", "show", "convert", "extract", "extract --parents"), ("pack", "unpack", "info")
# what these say in full is longer than the file by far
NOT_SHOWN = {nodes_of_a_long_user, a_long_key_in_each_node, a_long_key_in_each_way}
OF_THE_HEADER = {a_header_of_many_features}
# shapes for members that are added, and others for which the smart extract may be slow by itself; it differs from that with all parents only by relations
OF_MEMBERS = {a_multipolygon_of_many_ways, multipolygons_of_a_way, multipolygons_of_one_way, multipolygons_in_a_chain}
OF_RELATIONS = {parents_in_a_chain, parents_in_circles, a_parent_of_many}


def files_of(shape, size: int) -> dict:
    """The files of a shape, each with how many bytes it unpacks to: for pbfcut and for pbfcutz, or for pbfcutz alone and in the usual form."""
    if shape in POLYGONS:
        return polygon_files(shape, size)
    if shape in CONFIGURATIONS:
        return configured_files(shape, size)
    if callable(shape):
        frames = shape(size)
        raw = raw_file(frames)
        return {"pbfcut": (raw, 0), "pbfcutz": (zlib_file(frames), len(raw))}
    make_frames, make, has_usual = ZLIB_SHAPES[shape]
    frames = make_frames(size)
    unpacked = len(raw_file(frames))
    files = {"pbfcutz": (make(frames, size), unpacked)}
    if has_usual:
        files["usual"] = zlib_file(frames, stored if "stored" in shape else zlib.compress), unpacked
    return files


def made_apart(make) -> dict:
    """Writes files, in a process of its own, since the memory of this one counts as that of each program that it starts. It answers how many bytes
    a pass over each of them reads and unpacks."""
    reading, writing = os.pipe()
    pid = os.fork()
    if pid == 0:
        read = {}
        for name, (content, unpacked) in make().items():
            with open(name, "wb") as opened:
                opened.write(content)
            read[name] = len(content) + unpacked
        os.write(writing, repr(read).encode())
        os._exit(0)
    os.close(writing)
    with os.fdopen(reading) as told:
        read = told.read()
    if os.waitpid(pid, 0)[1]:
        sys.exit("tests/growth.py: a file can't be made")
    return ast.literal_eval(read)


class Failed(Exception):
    """A run that ended with another status than it has to."""


def number_in(spelling: bytes) -> int:
    """The number that these bytes begin with."""
    length = next(at for at, byte in enumerate(spelling, 1) if byte < 128)
    return sum((byte & 127) << 7 * at for at, byte in enumerate(spelling[:length]))


def packed_bytes(path: str) -> int:
    """How many bytes were packed for OUT, and what its frames cost beside."""
    total = 0
    with open(path, "rb") as out:
        while prefix := out.read(4):
            header = out.read(int.from_bytes(prefix, "big"))
            size = number_in(header[2 + header[1] + 1:])  # behind the type and the tag of datasize
            blob = out.read(min(size, 12))
            out.seek(size - len(blob), os.SEEK_CUR)
            total += PACKED_FRAME + (number_in(blob[1:]) if blob[:1] == b"\x10" else size)
    return total


def run(program: str, words: list, file: str, wanted: int = 0) -> tuple:
    """The seconds of a processor, the greatest memory in KB, and how many bytes were printed and written, with what packing takes beside."""
    for name in ("out", "said"):
        open(name, "wb").close()
    os.unlink("out")
    shutil.rmtree("outs", ignore_errors=True)
    os.mkdir("outs")
    actions = [(os.POSIX_SPAWN_OPEN, 0, os.devnull, os.O_RDONLY, 0), (os.POSIX_SPAWN_OPEN, 1, "said", os.O_WRONLY, 0)]
    if wanted:
        actions.append((os.POSIX_SPAWN_OPEN, 2, os.devnull, os.O_WRONLY, 0))
    words = [program, *(file if word == "in" else word for word in words)]
    pid = os.posix_spawn(program, words, os.environ, file_actions=actions)
    _, status, usage = os.wait4(pid, 0)
    if os.waitstatus_to_exitcode(status) != wanted:
        raise Failed(f"{words}: status {os.waitstatus_to_exitcode(status)}")
    outs = [name for name in ("out", *(os.path.join("outs", name) for name in os.listdir("outs"))) if os.path.exists(name)]
    written = sum(os.path.getsize(name) for name in ("said", *outs))
    if program == "pbfcutz":
        written += sum(map(packed_bytes, outs))
    return usage.ru_utime + usage.ru_stime, usage.ru_maxrss, written


class Row:
    """One command over one file that grows. A machine may be slower for some seconds, so what is compared was run one after the other, and what
    counts is the least of some tries."""

    def __init__(self, name: str, file: str, command: str, read: dict):
        self.name, self.file, self.read = f"{file} {command}: {name}", file, read
        self.status = CONFIGURATIONS[name][3] if name in CONFIGURATIONS else 0
        self.words, self.passes = COMMANDS[command]
        self.has_usual = f"usual.{SIZES[0]}" in read
        self.seconds, self.memory = {}, {}
        # by size: the time beside that of a quarter of the file, of as many bytes hashed, and of the usual form; the memory beside that of half the file
        self.growth, self.share, self.beside, self.memory_growth = {}, {}, {}, {}

    def least(self, kept: dict, size: int, found: float):
        kept[size] = min(found, kept.get(size, found))

    def run(self):
        """Runs it once over each size of the file."""
        second_per_byte = run("pbfcut", ["check", "--digests", "in"], "passed.over")[0] / PASSED_OVER
        took, held = {}, {}
        for size in SIZES:
            for name in ("ring", "areas"):
                if f"{name}.{size}" in self.read:
                    shutil.copyfile(f"{name}.{size}", name)
            seconds, memory, written = run(self.file, self.words, f"{self.file}.{size}", self.status)
            self.least(self.seconds, size, seconds)
            self.least(self.memory, size, memory)
            most = MOST_PASSES * second_per_byte * (self.read[f"{self.file}.{size}"] * self.passes + written)
            self.least(self.share, size, seconds / (most + LONG_ENOUGH))
            took[size], held[size] = seconds, memory
            if size // 4 in took:
                self.least(self.growth, size, seconds / took[size // 4] if seconds > LONG_ENOUGH else 0)
            if size // 2 in held:
                self.least(self.memory_growth, size, memory / held[size // 2] if memory > ANY_FILE else 0)
            if self.has_usual:
                usual = run(self.file, self.words, f"usual.{size}")[0]
                self.least(self.beside, size, seconds / usual if seconds > LONG_ENOUGH else 0)

    def faults(self):
        for size in SIZES:
            seconds = f"{self.seconds[size]:.3f} s over {size} times the file"
            if self.share[size] > 1:
                yield f"{seconds}, {self.share[size]:.2f} times as long as is right"
            if self.growth.get(size, 0) > MOST_GROWTH:
                yield f"{seconds}, {self.growth[size]:.2f} times as long as over a quarter of it"
            if self.beside.get(size, 0) > MOST_BESIDE:
                yield f"{seconds}, {self.beside[size]:.2f} times as long as over its usual form"
            if self.memory_growth.get(size, 0) > MOST_MEMORY:
                yield f"{self.memory[size]} KB over {size} times the file, {self.memory_growth[size]:.2f} times as much as over half of it"

    def line(self) -> str:
        times = " ".join(f"{self.seconds[size] * 1000:7.1f}" for size in SIZES)
        last = SIZES[-1]
        return f"{self.name:70} {times} ms {self.growth[last]:5.2f} {self.share[last]:5.2f} {self.memory[last] // 1000:4} MB"


def commands_of(shape, program: str) -> list:
    """The commands that a program runs over a shape."""
    if shape in POLYGONS:
        return ["extract --polygon"]
    if shape in CONFIGURATIONS:
        return ["extract --config"]
    if shape in OF_MEMBERS:
        return ["extract --parents", "extract -s smart"]
    found = [command for command in ANY if not (shape in NOT_SHOWN and command == "show")]
    found += ["extract -s smart"] if shape in OF_RELATIONS else []
    found += ZLIB_ONLY if program == "pbfcutz" else ()
    return found + (["info --json"] if program == "pbfcutz" and shape in OF_THE_HEADER else [])


def rows_of(shape) -> list:
    """The rows of a shape, each run again as long as it is out of place: other processes may be in its way."""
    read = {}
    for size in SIZES:
        read.update(made_apart(lambda: {f"{name}.{size}": made for name, made in files_of(shape, size).items()}))
    name = shape.__name__.replace("_", " ") if callable(shape) else shape
    programs = [program for program in ("pbfcut", "pbfcutz") if f"{program}.{SIZES[0]}" in read]
    rows = [Row(name, program, command, read) for program in programs for command in commands_of(shape, program)]
    for row in rows:
        row.run()
        for _ in range(TRIES):
            if list(row.faults()):
                row.run()
    return rows


def main():
    words = [word for word in sys.argv[1:] if not word.startswith("--")]
    if not words or {word for word in sys.argv[1:] if word.startswith("--")} - {"--table"}:
        sys.exit(__doc__)
    program, names = os.path.abspath(words[0]), tuple(words[1:])
    wrong, count = [], 0
    with tempfile.TemporaryDirectory(prefix="pbfcut-growth-") as folder:
        os.chdir(folder)
        for name in ("pbfcut", "pbfcutz"):
            os.symlink(program, name)
        made_apart(lambda: {"passed.over": (EMPTY_HEADER + framed(b"Other", bytes(PASSED_OVER)), 0)})
        for shape in SHAPES + list(ZLIB_SHAPES) + list(POLYGONS) + list(CONFIGURATIONS):
            if names and not (shape.__name__ if callable(shape) else shape).startswith(names):
                continue
            try:
                rows = rows_of(shape)
            except Failed as failed:
                sys.exit(f"tests/growth.py: {failed}")
            count += len(rows)
            wrong += [f"tests/growth.py: {row.name}: {fault}" for row in rows for fault in row.faults()]
            for row in rows if "--table" in sys.argv else []:
                print(row.line(), flush=True)
        os.chdir("/")
    if wrong:
        sys.exit("\n".join(wrong))
    print(f"tests/growth.py: {count} commands take at most {MOST_GROWTH} times as long over four times the file")


if __name__ == "__main__":
    main()
