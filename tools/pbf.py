"""Reads OpenStreetMap PBF files for the tools that draw: raw or compressed by zlib, one frame after the other.

It notices what keeps it from reading on; `pbfcutz check` finds every other fault. Longitudes and latitudes are whole numbers of nanodegrees.
"""

import itertools
import zlib
from typing import NamedTuple, Optional

# by docs/FORMAT.md: of a BlobHeader, of a Blob, and of what is in it
HEADER_LIMIT, BLOB_LIMIT, PAYLOAD_LIMIT = 65_536, 33_555_456, 33_554_432
KNOWN_FEATURES = (b"OsmSchema-V0.6", b"DenseNodes")
KINDS = "nwr"


class Damaged(Exception):
    """What cannot be read, as a sentence that names the byte."""


class Header(NamedTuple):
    box: Optional[tuple]  # west, south, east, north; none if it isn't there or has no inside


class Node(NamedTuple):
    id: int
    lon: int
    lat: int
    tags: dict


class Way(NamedTuple):
    id: int
    tags: dict
    refs: list
    places: list  # of its nodes, longitude and latitude, or empty


class Relation(NamedTuple):
    id: int
    tags: dict
    members: list  # pairs of a letter of KINDS and an id


def varint(data: bytes, at: int) -> tuple:
    """The number that begins there, and the index after it."""
    value = shift = 0
    while data[at] > 127:
        value |= (data[at] & 127) << shift
        at, shift = at + 1, shift + 7
    return value | data[at] << shift, at + 1


def fields(data: bytes):
    """The number and the value of each field of a message: a number, or bytes."""
    at = 0
    while at < len(data):
        tag, at = varint(data, at)
        length = {1: 8, 5: 4}.get(tag & 7, 0)
        if tag & 7 == 0:
            value, at = varint(data, at)
        elif tag & 7 == 2:
            length, at = varint(data, at)
        elif not length:
            raise ValueError("a field of an unknown type")
        if tag & 7:
            value, at = data[at:at + length], at + length
        if at > len(data):
            raise ValueError("a field that is cut short")
        yield tag >> 3, value


def gathered(data: bytes) -> dict:
    """The values of a message by the numbers of their fields."""
    found = {}
    for number, value in fields(data):
        found.setdefault(number, []).append(value)
    return found


def signed(value: int) -> int:
    """A number of 64 bits in two's complement."""
    return value - (1 << 64) if value >> 63 else value


def unzigzag(value: int) -> int:
    return value >> 1 ^ -(value & 1)


def numbers(columns: list) -> list:
    """The numbers of a column, packed or one by one."""
    found, value, shift = [], 0, 0
    for column in columns:
        if isinstance(column, int):
            found.append(column)
            continue
        for byte in column:
            if byte > 127:
                value |= (byte & 127) << shift
                shift += 7
            else:
                found.append(value | byte << shift)
                value = shift = 0
        if shift:
            raise ValueError("a number that is cut short")
    return found


def sums(columns: list) -> list:
    """The numbers of a column that stores differences."""
    return list(itertools.accumulate(map(unzigzag, numbers(columns))))


def paired(*columns: list):
    """The rows of columns, which have to be of one length."""
    if len(set(map(len, columns))) > 1:
        raise ValueError("columns of different lengths")
    return zip(*columns)


class Block:
    """A PrimitiveBlock: its strings, and how it stores places."""

    def __init__(self, payload: bytes):
        message = gathered(payload)
        self.strings = [text.decode("utf-8", "replace") for text in gathered(message[1][-1]).get(1, [])]
        self.groups = [gathered(group) for group in message.get(2, [])]
        self.granularity = message.get(17, [100])[-1] & 0xffff_ffff
        self.lat_offset, self.lon_offset = (signed(message.get(number, [0])[-1]) for number in (19, 20))

    def tags(self, message: dict) -> dict:
        keys, values = (numbers(message.get(number, [])) for number in (2, 3))
        return {self.strings[key]: self.strings[value] for key, value in paired(keys, values)}

    def lat(self, number: int) -> int:
        return self.lat_offset + self.granularity * number

    def lon(self, number: int) -> int:
        return self.lon_offset + self.granularity * number

    def entities(self):
        for group in self.groups:
            for message in map(gathered, group.get(1, [])):
                lat, lon = (unzigzag(message[number][-1]) for number in (8, 9))
                yield Node(unzigzag(message[1][-1]), self.lon(lon), self.lat(lat), self.tags(message))
            for message in map(gathered, group.get(2, [])):
                ids, lats, lons = (sums(message.get(number, [])) for number in (1, 8, 9))
                tags = self.dense_tags(numbers(message.get(10, [])), len(ids))
                yield from (Node(id, self.lon(lon), self.lat(lat), tags) for id, lon, lat, tags in paired(ids, lons, lats, tags))
            for message in map(gathered, group.get(3, [])):
                lats, lons = (sums(message.get(number, [])) for number in (9, 10))
                places = [(self.lon(lon), self.lat(lat)) for lon, lat in paired(lons, lats)]
                yield Way(signed(message[1][-1]), self.tags(message), sums(message.get(8, [])), places)
            for message in map(gathered, group.get(4, [])):
                kinds = [KINDS[kind] for kind in numbers(message.get(10, []))]
                yield Relation(signed(message[1][-1]), self.tags(message), list(paired(kinds, sums(message.get(9, [])))))

    def dense_tags(self, keys_and_values: list, count: int) -> list:
        """The tags of each dense node. If no node of the group has any, the column may be empty."""
        if not keys_and_values:
            return [{}] * count
        found, tags, entries = [], {}, iter(keys_and_values)
        for key in entries:
            if key:
                tags[self.strings[key]] = self.strings[next(entries, len(self.strings))]
            else:
                found.append(tags)
                tags = {}
        return found


def header_of(payload: bytes) -> Header:
    message = gathered(payload)
    for feature in message.get(4, []):
        if feature not in KNOWN_FEATURES:
            raise ValueError(f"a required feature that is unknown here: {feature.decode('utf-8', 'replace')}")
    if 1 not in message:
        return Header(None)
    box = gathered(message[1][-1])
    west, south, east, north = (unzigzag(box[number][-1]) for number in (1, 4, 2, 3))
    return Header((west, south, east, north) if west <= east and south <= north else None)


def payload_of(blob: bytes) -> bytes:
    message = gathered(blob)
    if 1 in message:
        return message[1][-1]
    if 3 not in message:
        raise ValueError("data compressed by something other than zlib")
    unpacking = zlib.decompressobj()
    payload = unpacking.decompress(message[3][-1], PAYLOAD_LIMIT)
    if not unpacking.eof:
        raise ValueError("compressed data that are cut short or too long")
    return payload


def frames(file):
    """The offset, the type and the Blob of each frame."""
    at = 0
    while prefix := file.read(4):
        size = int.from_bytes(prefix, "big")
        head = file.read(size) if size < HEADER_LIMIT else b""
        try:
            message = gathered(head)
            kind, length = message[1][-1], message[3][-1]
            blob = file.read(length) if length < BLOB_LIMIT else b""
        except (IndexError, KeyError, TypeError, ValueError):
            raise Damaged(f"byte {at}: no frame begins here, or it is cut short" if at else "it is no PBF file") from None
        if len(blob) < length:
            raise Damaged(f"byte {at}: the file ends within the frame that begins here, or the frame is too long")
        yield at, kind, blob
        at += 4 + size + length


def entities(file):
    """The header of a file that is open for reading bytes, and then its nodes, ways and relations; raises Damaged."""
    begun = False
    for at, kind, blob in frames(file):
        try:
            if kind == b"OSMHeader" and not begun:
                begun = True
                yield header_of(payload_of(blob))
            elif kind == b"OSMData" and begun:
                yield from Block(payload_of(blob)).entities()
            elif kind in (b"OSMHeader", b"OSMData"):
                raise ValueError("a second header, or data before the header")
        except (AttributeError, IndexError, KeyError, TypeError, ValueError, zlib.error) as error:
            what = str(error) if isinstance(error, ValueError) else "no message of the format"
            raise Damaged(f"byte {at}: the frame that begins here has {what}") from None
    if not begun:
        raise Damaged("it is empty, or has no OpenStreetMap data")
