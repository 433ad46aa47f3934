#!/usr/bin/env python3
"""Draws an OpenStreetMap PBF file, raw or compressed by zlib, as an SVG picture for light and dark pages.

usage: tools/draw.py FILE [--box BOX] [--view BOX] [--nodes] [--title TEXT] [--note TEXT] >OUT.svg

  --box     west,south,east,north in degrees: draws the edges of this box; without it, of the box of the file's header
  --view    draws what lies in this box; without it, the box and a quarter of its size around it. Without any box, all nodes
  --nodes   draws each node of a way: blue, but red if it is outside the box
  --title   says what the picture shows
  --note    is printed in the lower right corner, as whose data this is

Ways are drawn by their tags, areas and multipolygons filled, nodes with tags as dots. The ways of a multipolygon whose rings have a
gap are dotted and red. It holds all nodes: it is for towns, of up to some 100,000 nodes. Exit status: 0 done; 1 FILE can't be read;
2 the command line is wrong.
"""

import math
import sys
from xml.sax.saxutils import escape

from area import DEGREE, Arguments, bounds_of, boxes_meet, read_box
from pbf import Damaged, Header, Node, Way, entities

WIDTH = 740
MARGIN = 1 / 4

# the classes of areas and lines, in the order in which they are drawn, each with the tags that make it: a key, and the values
# or none for all
AREAS = {
    "green": {"leisure": ("park", "garden", "pitch"), "landuse": ("forest", "grass", "meadow"), "natural": ("wood", "scrub")},
    "water": {"natural": ("water",), "waterway": ("riverbank",), "landuse": ("reservoir",)},
    "building": {"building": ()},
}
LINES = {
    "border": {"boundary": ()},
    "river": {"waterway": ()},
    "path": {"highway": ("footway", "path", "steps", "cycleway", "track", "pedestrian", "bridleway")},
    "main": {"highway": ("motorway", "trunk", "primary", "secondary")},
    "street": {"highway": ()},
    "rail": {"railway": ()},
    "cable": {"aerialway": (), "power": ()},
    "line": {},
}
# the ways of a multipolygon whose rings have a gap
OPEN = "open"

STYLE = """
    .page { fill: #ffffff }
    path { fill: none; stroke-linejoin: round; stroke-linecap: round }
    .green { fill: #cfe8c6; fill-rule: evenodd }
    .water { fill: #a9cdee; fill-rule: evenodd }
    .building { fill: #d8cfc4; stroke: #a99b8a; stroke-width: .8; fill-rule: evenodd }
    .border { stroke: #9b59a8; stroke-width: 1.6; stroke-dasharray: 8 4 2 4 }
    .river { stroke: #6aa7dd; stroke-width: 5 }
    .street { stroke: #8b949e; stroke-width: 2.2 }
    .main { stroke: #d9822b; stroke-width: 3.4 }
    .path { stroke: #b0684a; stroke-width: 1.5; stroke-dasharray: 3 3 }
    .rail { stroke: #57606a; stroke-width: 2; stroke-dasharray: 6 3 }
    .cable { stroke: #57606a; stroke-width: 1.2; stroke-dasharray: 1 4 }
    .line { stroke: #c8ccd0; stroke-width: 1 }
    .open { stroke: #cf222e; stroke-width: 2; stroke-dasharray: 1 5 }
    .dot { fill: #1a7f37 }
    .inside { stroke: #35659c; stroke-width: 1.8 }
    .outside { stroke: #cf222e; stroke-width: 4.4 }
    .box { fill: none; stroke: #35659c; stroke-width: 2; stroke-dasharray: 7 4 }
    .note { fill: #57606a; font: 11px sans-serif; text-anchor: end }
    @media (prefers-color-scheme: dark) {
      .page { fill: #161b22 }
      .green { fill: #1f3a24 }
      .water { fill: #1c3d5a }
      .building { fill: #3d3832; stroke: #6e6459 }
      .river { stroke: #2f6da3 }
      .street { stroke: #7d8590 }
      .main { stroke: #c9772a }
      .border { stroke: #b57ac0 }
      .rail, .cable { stroke: #9198a1 }
      .line { stroke: #3d444d }
      .dot { fill: #3fb950 }
      .box, .inside { stroke: #79aee8 }
      .open, .outside { stroke: #ff7b72 }
      .note { fill: #9198a1 }
    }
"""


def degrees(edges: tuple) -> tuple:
    return tuple(edge / DEGREE for edge in edges)


class Map:
    """The places of nodes in degrees, the tagged ones, the ways, the multipolygons and the header's box of a file."""

    def __init__(self, path: str):
        self.places, self.dots, self.ways, self.rings = {}, [], {}, []
        with open(path, "rb") as file:
            for entity in entities(file):
                if isinstance(entity, Node):
                    self.add_node(entity)
                elif isinstance(entity, Way):
                    self.add_way(entity)
                elif isinstance(entity, Header):
                    self.box = entity.box and degrees(entity.box)
                elif entity.tags.get("type") == "multipolygon":
                    self.rings.append(([id for kind, id in entity.members if kind == "w"], entity.tags))

    def add_node(self, node: Node):
        place = degrees((node.lon, node.lat))
        self.places[node.id] = place
        if node.tags:
            self.dots.append(place)

    def add_way(self, way: Way):
        for ref, place in zip(way.refs, way.places):
            self.places.setdefault(ref, degrees(place))
        self.ways[way.id] = (way.refs, way.tags)

    def bounds(self) -> tuple:
        return bounds_of(self.places.values() or [(0, 0)])


def around(box: tuple) -> tuple:
    """The box and its margin."""
    west, south, east, north = box
    width, height = (east - west) * MARGIN, (north - south) * MARGIN
    return west - width, south - height, east + width, north + height


def class_of(tags: dict, classes: dict):
    """The first class that a tag makes, or None."""
    for name, wanted in classes.items():
        if any(key in tags and (not values or tags[key] in values) for key, values in wanted.items()):
            return name
    return None


def rings_of(lines: list) -> list:
    """The rings that these lines of refs make if they are joined at their ends; none if one stays open, or has no inside."""
    rest, rings = [line for line in lines if line], []
    while rest:
        ring = rest.pop(0)
        while ring[0] != ring[-1]:
            following = next((line for line in rest if ring[-1] in (line[0], line[-1])), None)
            if not following:
                return []
            rest.remove(following)
            ring = ring + (following[1:] if following[0] == ring[-1] else following[-2::-1])
        rings.append(ring)
    return rings if all(len(ring) > 3 for ring in rings) else []


class Picture:
    def __init__(self, drawn: Map, view: tuple):
        self.map, self.drawn = drawn, set()
        self.west, self.south, self.east, self.north = view
        south = self.south
        self.narrow = math.cos(math.radians((south + self.north) / 2))
        self.scale = WIDTH / max((self.east - self.west) * self.narrow, 1e-9)
        self.height = min(max(round((self.north - south) * self.scale), 40), 4 * WIDTH)
        self.paths = {name: [] for name in [*AREAS, *LINES, OPEN]}

    def point(self, place: tuple) -> str:
        lon, lat = place
        return f"{(lon - self.west) * self.narrow * self.scale:.1f} {(self.north - lat) * self.scale:.1f}"

    def path(self, refs: list, closed: bool) -> str:
        """The line through those nodes that are there."""
        there = [ref for ref in refs if ref in self.map.places]
        if len(there) < 2 or not self.is_in_view([self.map.places[ref] for ref in there]):
            return ""
        self.drawn.update(there)
        points = [self.point(self.map.places[ref]) for ref in there]
        return "M" + "L".join(points[:-1] if closed else points) + ("Z" if closed else "")

    def is_in_view(self, places: list) -> bool:
        """Whether the line through these places may be seen."""
        return boxes_meet(bounds_of(places), (self.west, self.south, self.east, self.north))

    def nodes(self, box):
        """The nodes of what is drawn, as dots: those in the box, and the others."""
        west, south, east, north = box or (-180, -90, 180, 90)
        dots = {"inside": [], "outside": []}
        for ref in sorted(self.drawn):
            lon, lat = self.map.places[ref]
            dots["inside" if south <= lat <= north and west <= lon <= east else "outside"].append(f"M{self.point((lon, lat))}h0")
        return [f'  <path class="{kind}" d="' + "\n".join(found) + '"/>' for kind, found in dots.items() if found]

    def gather(self):
        """Puts each way and multipolygon to its class."""
        in_rings, in_gaps = set(), set()
        for members, tags in self.map.rings:
            kind, there = class_of(tags, AREAS), [member for member in members if member in self.map.ways]
            rings = rings_of([self.map.ways[member][0] for member in there])
            if kind and rings:
                self.paths[kind].append("".join(self.path(refs, True) for refs in rings))
            (in_rings if rings else in_gaps).update(there if kind else [])
        for number, (refs, tags) in self.map.ways.items():
            closed = len(refs) > 3 and refs[0] == refs[-1]
            area = class_of(tags, AREAS) if closed else None
            if tags or number not in in_rings:
                other = OPEN if number in in_gaps and not tags else "line"
                self.paths[area or class_of(tags, LINES) or other].append(self.path(refs, closed))

    def svg(self, box, title: str, note: str, has_nodes: bool) -> str:
        self.gather()
        parts = [f'<svg xmlns="http://www.w3.org/2000/svg" viewBox="0 0 {WIDTH} {self.height}" width="{WIDTH}" '
                 f'height="{self.height}" role="img" aria-labelledby="title">',
                 f'  <title id="title">{escape(title)}</title>', f"  <style>{STYLE}  </style>",
                 f'  <rect class="page" width="{WIDTH}" height="{self.height}"/>']
        for kind, paths in self.paths.items():
            if any(paths):
                parts.append(f'  <path class="{kind}" d="' + "\n".join(path for path in paths if path) + '"/>')
        parts += self.nodes(box) if has_nodes else []
        for place in [] if has_nodes else [place for place in self.map.dots if self.is_in_view([place])]:
            x, y = self.point(place).split(" ")
            parts.append(f'  <circle class="dot" cx="{x}" cy="{y}" r="2.6"/>')
        if box:
            west, south, east, north = box
            corners = [(west, south), (east, south), (east, north), (west, north)]
            parts.append('  <path class="box" d="M' + "L".join(map(self.point, corners)) + 'Z"/>')
        if note:
            parts.append(f'  <text class="note" x="{WIDTH - 6}" y="{self.height - 6}">{escape(note)}</text>')
        return "\n".join([*parts, "</svg>", ""])


def main():
    arguments = Arguments(prog="tools/draw.py", description=__doc__)
    arguments.add_argument("path", metavar="FILE")
    arguments.add_argument("--box", type=read_box)
    arguments.add_argument("--view", type=read_box)
    arguments.add_argument("--nodes", action="store_true")
    arguments.add_argument("--title", default="A map drawn from a PBF file")
    arguments.add_argument("--note", default="")
    given = arguments.parse_args()
    try:
        drawn = Map(given.path)
    except Damaged as error:
        sys.exit(f"tools/draw.py: {given.path}: {error}")
    except OSError as error:
        sys.exit(f"tools/draw.py: {given.path}: {error.strerror}")
    box = degrees(given.box) if given.box else drawn.box
    view = degrees(given.view) if given.view else around(box) if box else drawn.bounds()
    sys.stdout.reconfigure(encoding="utf-8")
    sys.stdout.write(Picture(drawn, view).svg(box, given.title, given.note, given.nodes))


if __name__ == "__main__":
    main()
