#!/usr/bin/env python3
"""Prints the entities of a file as the suite's JSON lines, as pbfcutz reads them, which is pbfcut for packed files.

The environment variable PBFCUTZ names the program pbfcutz, if it isn't on the path.
"""

import json
import os
import re
import subprocess

import batch

QUOTED = rb'"(?:[^"\\]|\\.)*"'
WORD = re.compile(rb"(?:%s=%s|s%s|[nwr]-?\d+@%s|\S+)" % ((QUOTED,) * 4))
KINDS = {b"N": "node", b"W": "way", b"R": "relation"}
NUMBERS = {b"v": "version", b"t": "time", b"c": "changeset", b"u": "uid"}


def unquoted(text: bytes):
    """A text of `show`: a string, or the hex of what isn't UTF-8."""

    def plain(found):
        return bytes.fromhex(found[1][1:].decode()) if found[1].startswith(b"x") else found[1]

    plain_bytes = re.sub(rb"\\(x[0-9a-f]{2}|.)", plain, text[1:-1])
    try:
        return plain_bytes.decode("utf-8")
    except UnicodeDecodeError:
        return {"hex": plain_bytes.hex()}


def add(entity: dict, word: bytes):
    """Takes one word of a line into the entity."""
    sort, rest = word[:1], word[1:]
    if sort == b'"':
        key, value = re.match(rb"(%s)=(%s)$" % (QUOTED, QUOTED), word).groups()
        entity.setdefault("tags", []).append([unquoted(key), unquoted(value)])
    elif sort == b"s":
        entity["user"] = unquoted(rest)
    elif sort in NUMBERS:
        entity[NUMBERS[sort]] = int(rest)
    elif sort == b"d":
        entity["visible"] = rest == b"1"
    elif entity["kind"] == "relation":
        number, _, role = rest.partition(b"@")
        entity.setdefault("members", []).append([sort.decode(), int(number), unquoted(role)])
    else:
        ref, _, place = rest.partition(b"@")
        entity.setdefault("refs", []).append(int(ref))
        if place:
            entity.setdefault("locations", []).append([int(part) for part in place.split(b",")])


def entity_of(line: bytes) -> dict:
    words = WORD.findall(line)
    entity = {"kind": KINDS[words[0]], "id": int(words[1])}
    rest = 2
    if entity["kind"] == "node":
        entity["lat"], entity["lon"] = int(words[2]), int(words[3])
        rest = 4
    for word in words[rest:]:
        add(entity, word)
    return entity


def main(file: str) -> int:
    shown = subprocess.run([os.environ.get("PBFCUTZ", "pbfcutz"), "show", file], stdout=subprocess.PIPE, check=False)
    for line in shown.stdout.split(b"\n"):
        if line and not line.startswith(b"H "):
            print(json.dumps(entity_of(line), ensure_ascii=False))
    return shown.returncode


if __name__ == "__main__":
    batch.run(main)
