"""What readers print, and how it is compared with what is to be read."""

import datetime
import json
import re
import xml.etree.ElementTree as ElementTree

from suite import Case, nanodegrees

EPOCH = datetime.datetime(1970, 1, 1)
KINDS = {"n": "node", "w": "way", "r": "relation"}


# ---- the forms: each gives a list of entities as case.json tells them, but times in whole seconds


def unescaped(text: str) -> str:
    """A text of OPL."""
    return re.sub(r"%([0-9a-fA-F]+)%", lambda found: chr(int(found.group(1), 16)), text)


def seconds_of(stamp: str) -> int:
    return int((datetime.datetime.strptime(stamp, "%Y-%m-%dT%H:%M:%SZ") - EPOCH).total_seconds())


def opl_place(text: str):
    """`x1.5y2` as latitude and longitude in nanodegrees."""
    lon, _, lat = text.lstrip("x").partition("y")
    return (nanodegrees(lat), nanodegrees(lon)) if lon and lat else None


def opl_entity(line: str) -> dict:
    """A line of OPL."""
    words = line.split(" ")
    entity = {"kind": KINDS[words[0][0]], "id": int(words[0][1:])}
    place = {}
    for word in words[1:]:
        sort, rest = word[:1], word[1:]
        if sort in "vci" and rest:
            entity[{"v": "version", "c": "changeset", "i": "uid"}[sort]] = int(rest)
        elif sort == "t" and rest:
            entity["time"] = seconds_of(rest)
        elif sort == "u":
            entity["user"] = unescaped(rest)
        elif sort == "T" and rest:
            entity["tags"] = [[unescaped(part) for part in tag.split("=")] for tag in rest.split(",")]
        elif sort in "xy" and rest:
            place[sort] = nanodegrees(rest)
        elif sort == "N" and rest:
            refs = [re.match(r"n(-?\d+)(.*)", ref).groups() for ref in rest.split(",")]
            entity["refs"] = [int(ref) for ref, _ in refs]
            places = [opl_place(where) for _, where in refs]
            if any(places):
                entity["locations"] = places
        elif sort == "M" and rest:
            members = [re.match(r"([nwr])(-?\d+)@(.*)", member).groups() for member in rest.split(",")]
            entity["members"] = [[kind, int(number), unescaped(role)] for kind, number, role in members]
    if place:
        entity["lat"], entity["lon"] = place["y"], place["x"]
    return entity


def opl(text: bytes) -> list:
    return [opl_entity(line) for line in text.decode("utf-8").split("\n") if line]


def lines(text: bytes) -> list:
    """The suite's own form: case.json's entities, one a line."""
    found = [json.loads(line) for line in text.decode("utf-8").split("\n") if line]
    for entity in found:
        if "time" in entity:
            entity["time"] //= 1000
    return found


def xml(text: bytes) -> list:
    """OpenStreetMap's XML."""
    found = []
    for element in ElementTree.fromstring(text):
        if element.tag not in ("node", "way", "relation"):
            continue
        told = element.attrib
        entity = {"kind": element.tag, "id": int(told["id"])}
        for name in ("version", "changeset", "uid"):
            if name in told:
                entity[name] = int(told[name])
        if "timestamp" in told:
            entity["time"] = seconds_of(told["timestamp"])
        if "user" in told:
            entity["user"] = told["user"]
        if "lat" in told:
            entity["lat"], entity["lon"] = nanodegrees(told["lat"]), nanodegrees(told["lon"])
        entity["tags"] = [[tag.get("k"), tag.get("v")] for tag in element.iter("tag")]
        entity["refs"] = [int(ref.get("ref")) for ref in element.iter("nd")]
        entity["members"] = [[m.get("type")[0], int(m.get("ref")), m.get("role")] for m in element.iter("member")]
        found.append(entity)
    return found


def counted(text: bytes) -> tuple:
    """The numbers of nodes, ways and relations: the last three of `nodes N ways N relations N` or `Nodes=N Ways=N Relations=N`."""
    found = re.findall(rb"(?i)nodes[ =](\d+) ways[ =](\d+) relations[ =](\d+)", text)
    return tuple(int(number) for number in found[-1])


def status(_: bytes) -> None:
    """Nothing: only whether the reader refuses a file is known."""
    return None


FORMS = {"opl": opl, "lines": lines, "xml": xml, "counts": counted, "status": status}


# ---- what is compared

NUMBERS = ("version", "time", "changeset", "uid")


def plain(entity: dict, form: str) -> dict:
    """What every form can tell: a number of the metadata that is absent, or -1 as some readers print that, is 0; and `visible` says
    nothing without history."""
    told = {"kind": entity["kind"], "id": entity["id"], "user": entity.get("user", "")}
    for name in NUMBERS:
        value = entity.get(name, 0)
        told[name] = 0 if value == -1 else value
    told["version"] = max(told["version"], 0)
    for name in ("tags", "refs", "members"):
        told[name] = [list(part) if isinstance(part, (list, tuple)) else part for part in entity.get(name, [])]
    told["place"] = (entity.get("lat"), entity.get("lon"))
    told["locations"] = [] if form == "xml" else [tuple(place) if place else None for place in entity.get("locations", [])]
    return told


def near(one: tuple, other: tuple) -> bool:
    """Whether two places are less than a step of seven digits apart."""
    if one is None or other is None or None in one or None in other:
        return one == other
    return all(abs(a - b) < 100 for a, b in zip(one, other))


def is_same(name: str, one, other) -> bool:
    if name == "place":
        return near(one, other)
    if name == "locations":
        return len(one) == len(other) and all(map(near, one, other))
    return one == other


def kinds_counted(entities: list) -> tuple:
    return tuple(sum(1 for entity in entities if entity["kind"] == kind) for kind in ("node", "way", "relation"))


def difference(meant, read, reader) -> str:
    """What a reader tells otherwise, or nothing. `meant` is a list of entities or their counts; `read` a list of entities, their
    counts, or None."""
    if read is None:
        return ""
    if isinstance(read, tuple) or isinstance(meant, tuple):
        return counts_differ(meant, read, reader.kinds)
    if reader.kinds:
        meant = [entity for entity in meant if entity["kind"] in reader.kinds]
    if len(meant) != len(read):
        return f"{len(read)} entities, and not {len(meant)}"
    for one, other in zip((plain(e, reader.form) for e in meant), (plain(e, reader.form) for e in read)):
        for name, value in one.items():
            if name not in reader.without and not is_same(name, value, other[name]):
                return f"{one['kind']} {one['id']}: {name} is {other[name]}, and not {value}"
    return ""


def counts_differ(meant, read, kinds: list) -> str:
    """The counts of nodes, ways and relations, those of `kinds` alone if there are such."""
    told = [counts if isinstance(counts, tuple) else kinds_counted(counts) for counts in (read, meant)]
    looked = [i for i, kind in enumerate(("node", "way", "relation")) if not kinds or kind in kinds]
    read, meant = ([counts[i] for i in looked] for counts in told)
    return "" if read == meant else f"{read} nodes, ways and relations, and not {meant}"


def meant_entities(case: Case):
    """What is to be read, with times in whole seconds; the counts of each kind where case.json has a digest for many; None of a file
    that is to be refused."""
    told = case.told.get("entities")
    if told is None:
        return None
    if isinstance(told, dict):
        return tuple(case.told["all"])
    return [{**entity, "time": entity["time"] // 1000} if "time" in entity else entity for entity in told]


PARTS = ("version", "time", "changeset", "uid", "user", "tags", "refs", "members", "lat", "lon", "locations")


def shown_entity(entity: dict) -> str:
    """An entity on a line, for reports: numbers of the metadata that count as absent are left out."""
    parts = [f"{entity['kind']} {entity['id']}"]
    for name in PARTS:
        value = entity.get(name)
        if value not in ([], "", None) and not (name in NUMBERS and value in (0, -1)):
            parts.append(f"{name} {json.dumps(value, ensure_ascii=False, separators=(',', ':'))}")
    text = "  ".join(parts)
    return text if len(text) <= 1000 else text[:1000] + " and so on"
