#!/usr/bin/env python3
"""Makes a page of what an extract has, and where its map may have holes: one HTML file that needs no network.

usage: tools/preview.py IN [--box BOX | --polygon FILE] [-o OUT.html]

  IN          a PBF file, raw or compressed by zlib
  --box       west,south,east,north in degrees: the page shows what a cut of IN by this box would keep
  --polygon   the same with the polygons of a .poly or GeoJSON file
  -o          the page; without it, IN with .html after its name

Without an area IN is taken to be an extract: all of it counts as kept, and the area is the box of its header. The page has a map, which can be zoomed and
dragged: the kept ways, their parts outside the area in red, and the other ways near the area. Below it are the counts of what people look for when
a map has holes: ways across the area without a node in it, relations that lost members, open rings, missing nodes.

It is for files of up to some 30 MB, compressed: one of 3.3 million nodes takes 45 seconds and 0.5 GB of memory. The page has up to 8 bytes for each node of
a way that it draws; with a million of them a browser takes seconds to draw the map. History files are refused.
Exit status: 0 done; 1 IN can't be read or OUT can't be written; 2 the command line or the polygon is wrong.
"""

import gc
import math
import os
import sys
from array import array
from bisect import bisect_left
from collections import Counter
from decimal import Decimal
from html import escape
from itertools import chain, compress, groupby, islice
from operator import gt
from string import Template
from typing import NamedTuple

from area import DEGREE, Area, Arguments, bounds_of, boxes_meet, read_box, read_polygons
from pbf import Damaged, Header, Node, Relation, Way, entities

# the longer side of the area, in units of the map
SPAN = 20_000
METRES_PER_DEGREE = 111_320
WAYS_PER_PATH = 100
MOST_ROWS = 10
# the types of relations that are made of rings
RING_TYPES = ("multipolygon", "boundary")
# the keys that say what an object is
MAIN_KEYS = ("highway", "railway", "waterway", "aerialway", "power", "route", "boundary", "building", "natural", "landuse", "leisure")
# the index of a node that the file doesn't have
LACKING = -1


class Nodes:
    """The places of nodes, by their ids in rising order."""

    def __init__(self):
        self.ids, self.lons, self.lats = array("q"), array("q"), array("q")

    def add(self, node: Node):
        self.ids.append(node.id)
        self.lons.append(node.lon)
        self.lats.append(node.lat)

    def sort(self):
        if any(map(gt, self.ids, islice(self.ids, 1, None))):
            order = sorted(range(len(self.ids)), key=self.ids.__getitem__)
            self.ids, self.lons, self.lats = (array("q", map(column.__getitem__, order)) for column in (self.ids, self.lons, self.lats))

    def index(self, ref: int) -> int:
        at = bisect_left(self.ids, ref)
        return at if at < len(self.ids) and self.ids[at] == ref else LACKING

    def place(self, index: int) -> tuple:
        return self.lons[index], self.lats[index]


class PlacedWay(NamedTuple):
    """A way: `nodes` has the index of each of its nodes, or LACKING, and `ends` the ids of the first and the last."""

    id: int
    tags: dict
    ends: tuple
    nodes: array

    def is_closed(self) -> bool:
        return len(self.nodes) > 3 and self.ends[0] == self.ends[1]


class File:
    """What a file has. `lacking` are the nodes that its ways refer to and that it doesn't have."""

    def __init__(self, path: str):
        self.nodes, self.relations, self.lacking = Nodes(), [], set()
        ways = []
        with open(path, "rb") as file:
            for entity in entities(file):
                if isinstance(entity, Node):
                    self.nodes.add(entity)
                elif isinstance(entity, Way):
                    ways.append((entity.id, entity.tags, array("q", entity.refs)))
                elif isinstance(entity, Header):
                    self.box = entity.box
                else:
                    self.relations.append(entity)
        self.nodes.sort()
        self.ways = [self.placed(*way) for way in ways]

    def placed(self, id: int, tags: dict, refs: array) -> PlacedWay:
        nodes = array("l", map(self.nodes.index, refs))
        self.lacking.update(ref for ref, index in zip(refs, nodes) if index == LACKING)
        return PlacedWay(id, tags, (refs[0], refs[-1]) if refs else (), nodes)

    def places(self, way: PlacedWay) -> list:
        """Of those nodes of a way that are there."""
        return [self.nodes.place(index) for index in way.nodes if index != LACKING]


class Selection:
    """What is in the area, and what a cut by it keeps: complete ways, without parent relations. Of an extract all is kept."""

    def __init__(self, file: File, area: Area, is_extract: bool):
        self.file = file
        # a byte for each node, and one for LACKING
        self.inside = bytearray(map(area.contains, zip(file.nodes.lons, file.nodes.lats))) + b"\0"
        ways = [way for way in file.ways if any(map(self.inside.__getitem__, way.nodes))]
        self.in_area = sum(self.inside), len(ways), len(self.relations_with(self.inside, ways))
        if is_extract:
            self.nodes, self.ways, self.relations = bytearray(b"\1" * len(file.nodes.ids) + b"\0"), file.ways, file.relations
        else:
            self.nodes, self.ways = self.completed(ways), ways
            self.relations = self.relations_with(self.nodes, ways)
        self.kept = sum(self.nodes), len(self.ways), len(self.relations)
        self.way_ids, self.relation_ids = {way.id for way in self.ways}, {relation.id for relation in self.relations}

    def completed(self, ways: list) -> bytearray:
        """The nodes inside, and all those of these ways."""
        nodes = self.inside[:]
        for way in ways:
            for index in way.nodes:
                nodes[index] = 1
        nodes[LACKING] = 0
        return nodes

    def relations_with(self, nodes: bytearray, ways: list) -> list:
        """The relations that have one of these nodes or ways as a member."""
        ids = {way.id for way in ways}
        return [relation for relation in self.file.relations
                if any(id in ids if kind == "w" else kind == "n" and nodes[self.file.nodes.index(id)] for kind, id in relation.members)]

    def lacks(self, member: tuple) -> bool:
        kind, id = member
        if kind == "n":
            return not self.nodes[self.file.nodes.index(id)]
        return id not in (self.way_ids if kind == "w" else self.relation_ids)


class Findings:
    """What people look for when a map has holes."""

    def __init__(self, file: File, area: Area, selection: Selection):
        self.across, self.around = [], []
        for way in file.ways:
            places = [] if any(map(selection.inside.__getitem__, way.nodes)) else file.places(way)
            if places and boxes_meet(bounds_of(places), area.bounds):
                if any(map(area.is_crossed, places, places[1:])):
                    self.across.append(way)
                elif way.is_closed() and area.is_within(places):
                    self.around.append(way)
        self.reaching = [way for way in selection.ways if any(index != LACKING and not selection.inside[index] for index in way.nodes)]
        lost = [(relation, sum(map(selection.lacks, relation.members))) for relation in selection.relations]
        self.losing = sorted((found for found in lost if found[1]), key=lambda found: (-found[1], found[0].id))
        ends = {way.id: way.ends for way in selection.ways}
        self.open = [(relation, found) for relation in selection.relations if (found := open_ends(relation, ends))]
        self.ways_lacking = sum(LACKING in way.nodes for way in file.ways)


def open_ends(relation: Relation, ends: dict) -> list:
    """The nodes in which the rings of a relation are open, made of those member ways that have ends here: an odd number of them ends there."""
    if relation.tags.get("type") not in RING_TYPES:
        return []
    counts = Counter(end for way in {id for kind, id in relation.members if kind == "w"} for end in ends.get(way, ()))
    return sorted(node for node, count in counts.items() if count % 2)


class Map:
    """The map's units: to the east and to the south of the north-western corner of the area, and what it has as paths of SVG."""

    def __init__(self, bounds: tuple):
        west, south, east, north = bounds
        self.west, self.north = west, north
        # The box of a header may have any numbers.
        self.narrow = abs(math.cos(math.radians((south + north) / 2 / DEGREE)))
        self.unit = max((east - west) * self.narrow, north - south, SPAN) / SPAN

    def point(self, place: tuple) -> tuple:
        return round((place[0] - self.west) * self.narrow / self.unit), round((self.north - place[1]) / self.unit)

    def path(self, places: list, end="") -> str:
        """The line through these places, or a dot if all are on one point."""
        points = [point for point, _ in groupby(map(self.point, places))]
        if not points:
            return ""
        steps = " ".join(f"{x - last_x} {y - last_y}" for (x, y), (last_x, last_y) in zip(points[1:], points))
        return f"M{points[0][0]} {points[0][1]}" + ("l" + steps.replace(" -", "-") if steps else "h0") + end

    def view(self, bounds: tuple) -> list:
        """The corner, the width and the height of what shows these bounds, with a margin."""
        west, north = self.point((bounds[0], bounds[3]))
        east, south = self.point((bounds[2], bounds[1]))
        margin = max(east - west, south - north, SPAN // 100) // 10
        return [west - margin, north - margin, east - west + 2 * margin, south - north + 2 * margin]


class Page:
    def __init__(self, file: File, area: Area, is_extract: bool):
        self.file, self.area, self.map = file, area, Map(area.bounds)
        self.selection = Selection(file, area, is_extract)
        self.findings = Findings(file, area, self.selection)

    def lines(self, ways) -> str:
        """The ways as paths of WAYS_PER_PATH ways each: a browser draws many short paths faster than a long one."""
        paths, found = [], map(self.map.path, map(self.file.places, ways))
        while part := list(islice(found, WAYS_PER_PATH)):
            paths.append('<path d="' + "\n".join(part) + '"/>')
        return "\n".join(paths)

    def layers(self) -> dict:
        """The parts of the map, and what its buttons show."""
        ends = {self.file.nodes.index(end) for _, found in self.findings.open for end in found} - {LACKING}
        polygons = ["".join(self.map.path(ring, "z") for ring in rings) for rings in self.area.polygons]
        kept = compress(zip(self.file.nodes.lons, self.file.nodes.lats), self.selection.nodes)
        return {
            "kept": self.lines(self.selection.ways),
            "others": self.lines(self.others()),
            "across": self.lines(self.findings.across),
            "ends": "".join(self.map.path([self.file.nodes.place(index)]) for index in sorted(ends)),
            "area": "".join(polygons),
            "clips": "".join(f'<path clip-rule="evenodd" d="{polygon}"/>' for polygon in polygons),
            "view_of_area": self.map.view(self.area.bounds),
            "view_of_all": self.map.view(bounds_of(chain(self.area.corners(), kept))),
            "metres": self.map.unit / DEGREE * METRES_PER_DEGREE,
        }

    def others(self):
        """The ways that are not kept and are around the area."""
        west, south, east, north = self.area.bounds
        around = (2 * west - east, 2 * south - north, 2 * east - west, 2 * north - south)
        for way in self.file.ways:
            if way.id not in self.selection.way_ids and (places := self.file.places(way)) and boxes_meet(bounds_of(places), around):
                yield way

    def counts(self) -> dict:
        found = self.findings
        rows = {"in_file": (len(self.file.nodes.ids), len(self.file.ways), len(self.file.relations)),
                "in_area": self.selection.in_area, "kept": self.selection.kept}
        return {
            **{f"{kind}_{name}": count for name, row in rows.items() for kind, count in zip(("nodes", "ways", "relations"), row)},
            "ways_across": len(found.across), "ways_around": len(found.around), "ways_reaching": len(found.reaching),
            "relations_losing": len(found.losing), "members_lost": sum(count for _, count in found.losing),
            "relations_open": len(found.open), "open_ends": sum(len(ends) for _, ends in found.open),
            "nodes_lacking": len(self.file.lacking), "ways_lacking": found.ways_lacking,
        }

    def tables(self) -> dict:
        found = self.findings
        losing = [[f"r{it.id}", it.tags.get("type", ""), it.tags.get("name", ""), f"{count} of {len(it.members)}"] for it, count in found.losing]
        across = [[f"w{it.id}", what_is(it.tags), it.tags.get("name", "")] for it in found.across]
        open_rings = [[f"r{it.id}", what_is(it.tags), it.tags.get("name", ""), str(len(ends))] for it, ends in found.open]
        return {
            "table_losing": table("Relations that lost the most members", ["Relation", "Type", "Name", "Lost"], losing),
            "table_across": table("Ways across the area without a node in it", ["Way", "What", "Name"], across),
            "table_open": table("Relations with open rings", ["Relation", "What", "Name", "Open ends"], open_rings),
        }

    def html(self, title: str, source: str) -> str:
        with open(os.path.join(os.path.dirname(os.path.abspath(__file__)), "preview.html"), encoding="utf-8") as file:
            template = Template(file.read())
        counts = {name: f"{count:,}" for name, count in self.counts().items()}
        return template.substitute(**self.layers(), **counts, **self.tables(), title=escape(title), source=escape(source))


def what_is(tags: dict) -> str:
    """The tag that says it, or the first one, as key=value."""
    key = next((key for key in MAIN_KEYS if key in tags), next(iter(tags), None))
    return f"{key}={tags[key]}" if key else ""


def table(title: str, heads: list, rows: list) -> str:
    """The first rows, if there are any."""
    if not rows:
        return ""
    head = "".join(f"<th>{text}</th>" for text in heads)
    lines = ["<tr>" + "".join(f"<td><bdi>{escape(text)}</bdi></td>" for text in row) + "</tr>" for row in rows[:MOST_ROWS]]
    more = f"<p>and {len(rows) - MOST_ROWS:,} more</p>" if len(rows) > MOST_ROWS else ""
    return f"<h3>{title}</h3>\n<table>\n<tr>{head}</tr>\n" + "\n".join(lines) + f"\n</table>\n{more}"


def page_of(given) -> str:
    file = File(given.path)
    box = given.box or file.box
    if not box and not given.polygon:
        raise Damaged("its header has no box; name an area by --box or --polygon")
    area = Area(given.polygon) if given.polygon else Area.of_box(box)
    is_extract = not (given.box or given.polygon)
    edges = ",".join(f"{Decimal(edge) / DEGREE:f}" for edge in area.bounds)
    source = f"What a cut by {'a polygon within' if given.polygon else 'the box'} {edges} would keep."
    if is_extract:
        source = f"What this extract has. Its area is the box of its header, {edges}."
    return Page(file, area, is_extract).html(os.path.basename(given.path), source)


def main():
    arguments = Arguments(prog="tools/preview.py", description=__doc__)
    arguments.add_argument("path", metavar="IN")
    areas = arguments.add_mutually_exclusive_group()
    areas.add_argument("--box", type=read_box)
    areas.add_argument("--polygon", type=read_polygons)
    arguments.add_argument("-o", dest="out", metavar="OUT.html")
    given = arguments.parse_args()
    out = given.out or given.path + ".html"
    if os.path.exists(out) and os.path.exists(given.path) and os.path.samefile(out, given.path):
        arguments.error(f"{out}: IN is not to be replaced by its page")
    # Nothing here refers to itself, and the search for what does takes a sixth of the time.
    gc.disable()
    try:
        page = page_of(given)
    except Damaged as error:
        sys.exit(f"tools/preview.py: {given.path}: {error}")
    except OverflowError:
        sys.exit(f"tools/preview.py: {given.path}: a number is out of range")
    except OSError as error:
        sys.exit(f"tools/preview.py: {given.path}: {error.strerror}")
    try:
        with open(out, "w", encoding="utf-8", errors="replace") as file:
            file.write(page)
    except OSError as error:
        sys.exit(f"tools/preview.py: {out}: {error.strerror}")


if __name__ == "__main__":
    main()
