#!/usr/bin/python3
"""Prints the entities of a file as the suite's JSON lines, as ReadOSM (libreadosm1) reads them: the library of SpatiaLite's tools."""

import calendar
import ctypes
import json
import sys
import time

import batch

UNDEFINED = -1234567890
KINDS = {7361: "n", 6731: "w", 3671: "r"}


class Tag(ctypes.Structure):
    _fields_ = [("key", ctypes.c_char_p), ("value", ctypes.c_char_p)]


class Member(ctypes.Structure):
    _fields_ = [("kind", ctypes.c_int), ("id", ctypes.c_longlong), ("role", ctypes.c_char_p)]


METADATA = [("version", ctypes.c_int), ("changeset", ctypes.c_longlong), ("user", ctypes.c_char_p), ("uid", ctypes.c_int)]
METADATA += [("timestamp", ctypes.c_char_p)]
TAGS = [("tag_count", ctypes.c_int), ("tags", ctypes.POINTER(Tag))]


class Node(ctypes.Structure):
    _fields_ = [("id", ctypes.c_longlong), ("latitude", ctypes.c_double), ("longitude", ctypes.c_double), *METADATA, *TAGS]


class Way(ctypes.Structure):
    _fields_ = [("id", ctypes.c_longlong), *METADATA, ("ref_count", ctypes.c_int), ("refs", ctypes.POINTER(ctypes.c_longlong)), *TAGS]


class Relation(ctypes.Structure):
    _fields_ = [("id", ctypes.c_longlong), *METADATA, ("member_count", ctypes.c_int), ("members", ctypes.POINTER(Member)), *TAGS]


def text_of(value) -> str:
    return (value or b"").decode("utf-8", "replace")


def nano(degrees: float) -> int:
    return round(degrees * 1_000_000_000)


def told(kind: str, thing, **more):
    """Prints an entity; what ReadOSM calls undefined is left out."""
    entity = {"kind": kind, "id": thing.id}
    for name in ("version", "changeset", "uid"):
        if getattr(thing, name) != UNDEFINED:
            entity[name] = getattr(thing, name)
    if thing.timestamp:
        entity["time"] = calendar.timegm(time.strptime(text_of(thing.timestamp), "%Y-%m-%dT%H:%M:%SZ")) * 1000
    entity["user"] = text_of(thing.user)
    entity["tags"] = [[text_of(thing.tags[i].key), text_of(thing.tags[i].value)] for i in range(thing.tag_count)]
    print(json.dumps({**entity, **more}, ensure_ascii=False))
    return 0


def node(_, pointer):
    thing = pointer.contents
    return told("node", thing, lat=nano(thing.latitude), lon=nano(thing.longitude))


def way(_, pointer):
    thing = pointer.contents
    return told("way", thing, refs=[thing.refs[i] for i in range(thing.ref_count)])


def relation(_, pointer):
    thing = pointer.contents
    members = (thing.members[i] for i in range(thing.member_count))
    return told("relation", thing, members=[[KINDS.get(member.kind, "?"), member.id, text_of(member.role)] for member in members])


def main(file: str) -> int:
    library = ctypes.CDLL("libreadosm.so.1")
    handle = ctypes.c_void_p()
    status = library.readosm_open(file.encode(), ctypes.byref(handle))
    if status == 0:
        calls = [ctypes.CFUNCTYPE(ctypes.c_int, ctypes.c_void_p, ctypes.POINTER(kind)) for kind in (Node, Way, Relation)]
        status = library.readosm_parse(handle, None, calls[0](node), calls[1](way), calls[2](relation))
        library.readosm_close(handle)
    if status != 0:
        print(f"ReadOSM's status {status}", file=sys.stderr)
    return 1 if status else 0


if __name__ == "__main__":
    sys.stdout.reconfigure(errors="surrogateescape")
    batch.run(main)
