"""Protobuf's wire encoding and the frames of raw files, as far as bench/make.py needs them: for sound files only."""

import os
import sys

sys.path.insert(0, os.path.join(os.path.dirname(os.path.dirname(os.path.abspath(__file__))), "sample"))
from town import varint  # noqa: E402

TYPE, DATASIZE, RAW = 1, 3, 1


def scalar(number: int, value: int) -> bytes:
    return varint(number * 8) + varint(value)


def nested(number: int, payload: bytes) -> bytes:
    return varint(number * 8 + 2) + varint(len(payload)) + payload


def read_varint(message, at: int):
    """The number at this index, and the index after it."""
    number = shift = 0
    while True:
        byte = message[at]
        number |= (byte & 127) << shift
        at, shift = at + 1, shift + 7
        if byte < 128:
            return number, at


def fields(message) -> list:
    """The fields of a message, each a number with its value: a number, or a view of bytes."""
    message, at, found = memoryview(message), 0, []
    while at < len(message):
        tag, at = read_varint(message, at)
        value, at = read_varint(message, at)
        if tag & 7 == 2:
            value, at = message[at:at + value], at + value
        found.append((tag >> 3, value))
    return found


def frame(kind: bytes, blob: bytes) -> bytes:
    header = nested(TYPE, kind) + scalar(DATASIZE, len(blob))
    return len(header).to_bytes(4, "big") + header + blob


def frames(path: str):
    """The frames of a raw file: of each its type, its bytes and its payload."""
    with open(path, "rb") as file:
        while prefix := file.read(4):
            header = file.read(int.from_bytes(prefix, "big"))
            last = dict(fields(header))
            blob = file.read(last[DATASIZE])
            yield bytes(last[TYPE]), prefix + header + blob, bytes(dict(fields(blob))[RAW])
