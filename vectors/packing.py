"""Packed twins: a case's file with its blobs in zlib's form."""

import zlib


def varint(number: int) -> bytes:
    out = bytearray()
    while number > 127:
        out.append(number & 127 | 128)
        number >>= 7
    return bytes(out) + bytes((number,))


def spelled(number: int, payload: bytes) -> bytes:
    return varint(number * 8 + 2) + varint(len(payload)) + payload


def first_number(message: bytes, at: int):
    """The varint at a place, and what follows it."""
    value = shift = 0
    while True:
        value |= (message[at] & 127) << shift
        at += 1
        shift += 7
        if message[at - 1] < 128:
            return value, at


def fields(message: bytes) -> list:
    """(number, wire type, value) of each field, or an error of index where the message is spoiled."""
    found, at = [], 0
    while at < len(message):
        tag, at = first_number(message, at)
        if tag % 8 == 0:
            value, at = first_number(message, at)
        else:
            length, at = first_number(message, at) if tag % 8 == 2 else ({1: 8, 5: 4}[tag % 8], at)
            value = message[at : at + length]
            at += length
            if len(value) != length:
                raise IndexError
        found.append((tag // 8, tag % 8, value))
    return found


FEATURES = spelled(4, b"OsmSchema-V0.6") + spelled(4, b"DenseNodes")


def frame(kind: bytes, body: bytes) -> bytes:
    """A frame of a Blob with these bytes."""
    header = spelled(1, kind) + varint(24) + varint(len(body))
    return len(header).to_bytes(4, "big") + header + body


def frames(data: bytes) -> list:
    """(type, raw payload) of each frame, or an error of index, key or type where they can't be read."""
    found, at = [], 0
    while at < len(data):
        length = int.from_bytes(data[at : at + 4], "big")
        header = {number: value for number, _, value in fields(data[at + 4 : at + 4 + length])}
        at += 4 + length
        size = header[3] & 0xFFFFFFFF
        blob = {number: value for number, _, value in fields(data[at : at + size])}
        if at + size > len(data) or set(blob) & {3, 4, 5, 6, 7}:
            raise IndexError
        at += size
        found.append((header[1], blob[1]))
    return found


def packed(data: bytes):
    """The file with each raw blob in zlib's form, and its BlobHeaders spelled anew; None where its frames can't be read. A header
    that requires no feature gets the two usual ones, without which some readers of packed files stop at once."""
    out = b""
    try:
        for kind, raw in frames(data):
            if kind == b"OSMHeader" and b"OsmSchema-V0.6" not in raw:
                raw = FEATURES + raw
            out += frame(kind, varint(16) + varint(len(raw)) + spelled(3, zlib.compress(raw)))
    except (IndexError, KeyError, TypeError):
        return None
    return out
