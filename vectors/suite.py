"""The cases of the suite: what is read of them, and how an entity is told."""

import datetime
import hashlib
import json
import os
import re

HERE = os.path.dirname(os.path.abspath(__file__))
CALLS = ("convert", "extract", "parents")
# what a case is: HARMLESS is a broken file that gives no wrong data to a reader that reads it
SOUND, BROKEN, HARMLESS, CHOICE = SORTS = ("sound", "broken", "harmless", "choice")


class Case:
    """One folder of the suite."""

    is_packed = False

    def __init__(self, name: str):
        self.name = name
        self.folder = os.path.join(HERE, name)
        with open(os.path.join(self.folder, "case.json"), encoding="utf-8") as file:
            self.told = json.load(file)
        self.made = {}
        rule = os.path.join(self.folder, "make.json")
        if os.path.exists(rule):
            with open(rule, encoding="utf-8") as file:
                self.made = json.load(file)

    def sort(self) -> str:
        """One of SORTS."""
        return HARMLESS if HARMLESS in self.told else self.told["verdict"]

    def bytes_of(self, file: str) -> bytes:
        """The bytes of one of the case's files, from the folder or by the rule."""
        if file in self.made:
            return b"".join(bytes.fromhex(unit) * times for unit, times in self.made[file])
        with open(os.path.join(self.folder, file), "rb") as found:
            return found.read()

    def input(self) -> bytes:
        return self.bytes_of("in.osm.pbf")

    def refusal(self, call: str):
        """The fault by which a call refuses the file, or None. `call` is check, show or one of CALLS."""
        return self.told.get("refused") or (self.told.get("unwritten") if call in CALLS else None)

    def written(self, call: str) -> bytes:
        """What a call writes."""
        return b"" if self.refusal(call) else self.bytes_of(self.told["writes"][call])


def nanodegrees(degrees: str) -> int:
    """A decimal number of degrees in nanodegrees; digits beyond the ninth are cut."""
    whole, _, fraction = degrees.lstrip("-").partition(".")
    value = int(whole) * 1_000_000_000 + int((fraction + "000000000")[:9])
    return -value if degrees.startswith("-") else value


def own_lines(error: bytes) -> bytes:
    """What pbfcut writes to standard error, without the line below its own that names the file that it is about."""
    return re.sub(rb"(\A|\n)(pbfcutz?: [^\n]*\n)pbfcutz?: [^\n]+: [^\n]+\n\Z", rb"\1\2", error)


def processors() -> int:
    """How many processors this program may use."""
    return len(os.sched_getaffinity(0)) if hasattr(os, "sched_getaffinity") else os.cpu_count() or 1


def count_of_sorts(cases: list) -> dict:
    """How many cases there are of each of SORTS."""
    return {sort: sum(1 for case in cases if case.sort() == sort) for sort in SORTS}


def names() -> list:
    return sorted(entry.name for entry in os.scandir(HERE) if os.path.exists(os.path.join(entry.path, "case.json")))


def cases(words: list) -> list:
    """All cases, or those in whose name one of the words stands."""
    return [Case(name) for name in names() if not words or any(word in name for word in words)]


def digest(lines: bytes) -> dict:
    """What stands in case.json in the place of many lines."""
    return {"lines": lines.count(b"\n"), "sha256": hashlib.sha256(lines).hexdigest()}


# ---- the text of `show`


def text_bytes(text) -> bytes:
    """A text of case.json: a string, or the hex of what isn't UTF-8."""
    return bytes.fromhex(text["hex"]) if isinstance(text, dict) else text.encode("utf-8")


def quoted(text) -> bytes:
    """A text in quotes, with what can't be seen by its hex."""
    plain = not isinstance(text, dict)
    out = bytearray(b'"')
    for byte in text_bytes(text):
        if byte in b'"\\':
            out += bytes((0x5C, byte))
        elif byte < 0x20 or byte == 0x7F or (byte >= 0x80 and not plain):
            out += b"\\x%02x" % byte
        else:
            out.append(byte)
    return bytes(out) + b'"'


def time_text(millis: int, dates: bool) -> bytes:
    """A time as `show` prints it: milliseconds, or a date of the years 1970 to 2099."""
    if not dates or not 0 <= millis < 4_102_444_800_000:
        return b"t%d" % millis
    seconds, rest = divmod(millis, 1000)
    moment = datetime.datetime(1970, 1, 1) + datetime.timedelta(seconds=seconds)
    return b"t" + moment.strftime("%Y-%m-%dT%H:%M:%S").encode() + b".%03dZ" % rest


def shown(entity: dict, dates: bool) -> bytes:
    """The line of `show` for an entity."""
    kind = entity["kind"]
    parts = [b"%s %d" % (kind[0].upper().encode(), entity["id"])]
    if kind == "node":
        parts.append(b"%d %d" % (entity["lat"], entity["lon"]))
    if "version" in entity:
        parts.append(b"v%d" % entity["version"])
    if "time" in entity:
        parts.append(time_text(entity["time"], dates))
    if "changeset" in entity:
        parts.append(b"c%d" % entity["changeset"])
    if "uid" in entity:
        parts.append(b"u%d" % entity["uid"])
    if "user" in entity:
        parts.append(b"s" + quoted(entity["user"]))
    if "visible" in entity:
        parts.append(b"d1" if entity["visible"] else b"d0")
    parts += [quoted(key) + b"=" + quoted(value) for key, value in entity.get("tags", ())]
    places = entity.get("locations") or [None] * len(entity.get("refs", ()))
    for ref, place in zip(entity.get("refs", ()), places):
        parts.append(b"n%d" % ref + (b"@%d,%d" % tuple(place) if place else b""))
    parts += [b"%s%d@%s" % (kind.encode(), member, quoted(role)) for kind, member, role in entity.get("members", ())]
    return b" ".join(parts) + b"\n"


def entity_lines(entities: list) -> bytes:
    """Entities as JSON lines: the form of which case.json has the digest where they are many."""
    return b"".join(json.dumps(e, ensure_ascii=False, separators=(",", ":")).encode() + b"\n" for e in entities)
