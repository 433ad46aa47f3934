"""Spells PBF files field by field, for recipes.py."""

from packing import frame, spelled, varint


def zigzag(value: int) -> int:
    return value * 2 if value >= 0 else -value * 2 - 1


def number(field: int, value: int) -> bytes:
    """A field of wire type 0; below zero it has ten bytes."""
    return varint(field * 8) + varint(value % 2**64)


def signed(field: int, value: int) -> bytes:
    """A field of the types sint32 and sint64."""
    return number(field, zigzag(value))


def part(field: int, *content: bytes) -> bytes:
    """A field of wire type 2: a text, or a message of its fields."""
    return spelled(field, b"".join(content))


def column(field: int, values: list, spell=varint) -> bytes:
    """A packed column of numbers."""
    return part(field, *(spell(value % 2**64) for value in values))


def deltas(field: int, values: list, spell=varint) -> bytes:
    """A packed column of sint64 or sint32, each as its difference from the one before."""
    return column(field, [zigzag(value - before) for value, before in zip(values, [0, *values])], spell)


def ten_bytes(value: int) -> bytes:
    """A number spelled in ten bytes, whatever it needs."""
    return bytes(value >> 7 * place & 127 | (0 if place == 9 else 128) for place in range(10))


# ---- messages


def header(*fields: bytes) -> bytes:
    """The frame of a header, which needs no field."""
    return frame(b"OSMHeader", part(1, *fields))


def data(*fields: bytes) -> bytes:
    """A frame of data."""
    return frame(b"OSMData", part(1, *fields))


def table(*texts: str) -> bytes:
    """The string table: the empty text comes first."""
    return part(1, *(part(1, text.encode()) for text in ("", *texts)))


def group(*fields: bytes) -> bytes:
    return part(2, *fields)


def node(number_: int, *fields: bytes, place=(1, 1)) -> bytes:
    return part(1, signed(1, number_), *fields, signed(8, place[0]), signed(9, place[1]))


def dense(ids: list, *fields: bytes, spell=varint) -> bytes:
    """Dense nodes, all at one place in the box 0,0,1,1. Fields 5 and 10 may follow."""
    places = [1] * len(ids)
    return part(2, deltas(1, ids, spell), deltas(8, places), deltas(9, places), *fields)


def way(number_: int, refs: list, *fields: bytes, spell=varint) -> bytes:
    return part(3, number(1, number_), *fields, deltas(8, refs, spell))


def relation(number_: int, members: list, *fields: bytes) -> bytes:
    """`members` are triples of the kind (0 node, 1 way, 2 relation), the id, and the role's index."""
    kinds, ids, roles = ([member[i] for member in members] for i in range(3))
    return part(4, number(1, number_), *fields, column(8, roles), deltas(9, ids), column(10, kinds))
