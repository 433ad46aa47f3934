#!/usr/bin/env python3
"""The drawings of towns and of a lake in docs/ are those that tools/draw.py makes of them and of what the built program cuts out of them.

usage: tests/pictures.py [--write] [--real=FILE] PROGRAM

With --write they are written. What must be in the drawings is counted in what the program shows. The file of the real town is not part
of the repository (sample/README.md says which it is): without --real its drawings are only counted.
"""

import math
import os
import re
import subprocess
import sys
import tempfile

TOP = os.path.dirname(os.path.dirname(os.path.abspath(__file__)))
sys.dont_write_bytecode = True
sys.path.insert(0, os.path.join(TOP, "sample"))

from town import Entity, Form, Town, block, frame, header_block

TOWN = os.path.join(TOP, "sample", "town.osm.pbf")
BOX = "9.997,49.999,10.003,50.003"
VIEW = "9.975,49.991,10.025,50.009"
TITLES = {"town.svg": "The sample town, and the box that is cut out of it",
          "town-cut.svg": "The extract: ways with a node in the box, whole; red: their nodes outside the box"}
# by sample/README.md, which counts them
OUTSIDE = 46
LAKE_BOX = "9.984,49.9945,9.997,50.0055"
LAKE_VIEW = "9.98,49.992,10.02,50.008"
LAKE_TITLES = {"lake-cut.svg": "A lake at the border, cut by the default: dotted, what is there of a shore that has a gap",
               "lake-smart.svg": "The same cut by -s smart: the lake and its island are whole"}
# by lake(), counted by hand: the program's counts, the nodes outside the box, and the rings that are filled with water
LAKE_COUNTS = {"lake-cut.svg": (b"nodes 40 ways 9 relations 1\n", 13, 0),
               "lake-smart.svg": (b"nodes 55 ways 12 relations 1\n", 28, 2)}
REAL_BOX = "9.491,47.061,9.497,47.064"
REAL_VIEW = "9.4808,47.0598,9.5012,47.0692"
REAL_TITLES = {"balzers.svg": "A part of Balzers, and the box that is cut out of it",
               "balzers-cut.svg": "The extract: ways with a node in the box, whole; red: their nodes outside the box"}
NOTE = "© OpenStreetMap contributors"
# by the latitudes and longitudes of the text of the extract
REAL_OUTSIDE = 184
MOST_BYTES = 150_000


def fail(what: str):
    sys.exit(f"tests/pictures.py: {what}")


def run(words: list, **options) -> bytes:
    return subprocess.run(words, check=True, stdout=subprocess.PIPE, timeout=900, **options).stdout


def draw(path: str, options: list) -> bytes:
    return run([sys.executable, os.path.join(TOP, "tools", "draw.py"), path, *options])


def count_outside(name: str, drawing: bytes, most: int):
    dots = re.search(rb'class="outside" d="([^"]*)"', drawing)
    if not dots or dots[1].count(b"M") != most:
        fail(f"{name} has not {most} nodes outside the box")


def count_parts(name: str, text: bytes, drawing: bytes):
    """A dot for each node with tags, and a ring for each house and for the two ways of the town hall."""
    buildings = 2 + sum(1 for line in text.splitlines() if line.startswith(b"W ") and b' "building"=' in line)
    dots = 0 if "-cut" in name else sum(1 for line in text.splitlines() if line.startswith(b"N ") and b'"=' in line)
    if drawing.count(b"<circle") != dots:
        fail(f"{name} has {drawing.count(b'<circle')} dots for {dots} nodes with tags")
    houses = re.search(rb'class="building" d="([^"]*)"', drawing)
    if not houses or houses[1].count(b"Z") != buildings:
        fail(f"{name} has not {buildings} rings of buildings")


def draw_lines():
    """Two nodes and a way on a view of one degree and of the box with its margin: the points are reckoned by hand."""
    # places are counted from 50 N 10 E
    nodes = [Entity(1, {}, place=(-50_000_000, -10_000_000)), Entity(2, {'a"b': "N 3"}, place=(-49_000_000, -9_000_000))]
    data = block(Form(), dense=nodes, ways=[Entity(7, {"highway": "trunk"}, refs=[1, 2])])
    with tempfile.TemporaryDirectory(prefix="pbfcut-pictures-") as folder:
        path = os.path.join(folder, "two.osm.pbf")
        with open(path, "wb") as file:
            file.write(frame("OSMHeader", header_block()) + frame("OSMData", data))
        view = ["--view=0,-1,1,1"]
        parts = [b'class="main" d="M0.0 740.0L740.0 0.0"', b'<circle class="dot" cx="740.0" cy="0.0"', b'height="1480"']
        expect("a drawing of two nodes", draw(path, view), parts)
        parts = [b'class="inside" d="M0.0 740.0h0"', b'class="outside" d="M740.0 0.0h0"']
        expect("a drawing of two nodes and a box", draw(path, [*view, "--nodes", "--box=0,-1,0.5,0.5"]), parts)
        # The box is 2/3 of the width of the view and of its height, the equator in the middle.
        parts = [b'class="box" d="M123.3 616.7L616.7 616.7L616.7 123.3L123.3 123.3Z"', b'height="740"', b'class="main" d="M370.0 370.0L']
        expect("a drawing of a box", draw(path, ["--box=-0.2,-0.2,0.2,0.2"]), parts)


def closed(town: Town, places: list, **tags: str) -> int:
    """A closed way and its new nodes."""
    refs = [town.node(*place) for place in places]
    return town.way([*refs, refs[0]], **tags)


def lake() -> bytes:
    """A lake whose shore is five ways, one of them drawn the other way round, with an island, two roads, six houses and a forest.

    Three ways of the shore have a node in LAKE_BOX, and so have one road, four houses and the forest.
    In the box are 9 of the 24 nodes of the shore, 2 of the 6 of a road, 14 corners of four houses, and 2 of the 4 of the forest."""
    town = Town()
    angles = [turn * math.pi / 12 for turn in range(24)]
    shore = [town.node(round(4500 * math.sin(angle)), 2000 + round(12000 * math.cos(angle))) for angle in angles]
    pieces = [[shore[turn % 24] for turn in range(first, last + 1)] for first, last in ((0, 6), (6, 10), (10, 16), (16, 19), (19, 24))]
    pieces[3].reverse()
    outer = [town.way(refs) for refs in pieces]
    island = closed(town, [(1200, 8000), (1700, 9500), (900, 11000), (-300, 10400), (-200, 8600)])
    town.line([(-5200, east) for east in (-19000, -12000, -4000, 4000, 12000, 19000)], highway="secondary")
    town.line([(-7000, 17000), (0, 16500), (7000, 17200)], highway="residential")
    for north, east in ((-4300, -14000), (-4300, -12500), (-3000, -12600), (1000, -16400), (2500, 14800), (-2500, 15000)):
        town.ring(north, east, 500, 800, building="house")
    closed(town, [(4500, -15000), (4700, -7000), (6800, -6500), (6900, -14400)], landuse="forest")
    members = [*((1, way, "outer") for way in outer), (1, island, "inner")]
    town.relation(members, type="multipolygon", natural="water")
    data = block(Form(), dense=town.nodes, ways=town.ways, relations=town.relations)
    return frame("OSMHeader", header_block()) + frame("OSMData", data)


def draw_lake(program: str):
    """The name and the drawing of each cut of the lake; what must be in them is counted."""
    with tempfile.TemporaryDirectory(prefix="pbfcut-pictures-") as folder:
        path, cut = os.path.join(folder, "lake.osm.pbf"), os.path.join(folder, "cut.osm.pbf")
        with open(path, "wb") as file:
            file.write(lake())
        for (name, title), strategy in zip(LAKE_TITLES.items(), [[], ["-s", "smart"]]):
            counts, outside, rings = LAKE_COUNTS[name]
            if run([program, "extract", *strategy, f"--box={LAKE_BOX}", path, cut]) != counts:
                fail(f"{name}: the program counts otherwise")
            drawing = draw(cut, ["--nodes", f"--box={LAKE_BOX}", f"--view={LAKE_VIEW}", f"--title={title}"])
            os.remove(cut)
            count_outside(name, drawing, outside)
            water = re.search(rb'class="water" d="([^"]*)"', drawing)
            if (water[1].count(b"Z") if water else 0) != rings or (b'class="open"' in drawing) != (not rings):
                fail(f"{name} has not {rings} rings of water")
            yield name, drawing


def expect(what: str, drawing: bytes, parts: list):
    for part in parts:
        if part not in drawing:
            fail(f"{what} lacks {part.decode()}")


def compare(name: str, drawing: bytes, write: bool):
    place = os.path.join(TOP, "docs", name)
    if write:
        with open(place, "wb") as file:
            file.write(drawing)
    with open(place, "rb") as file:
        if file.read() != drawing:
            fail(f"docs/{name} is another drawing; --write draws it anew")


def draw_pair(program: str, path: str, box: str, view: str, titles: dict, note: list):
    """The name, the text and the drawing of a file, and of its extract, with the nodes of its ways."""
    with tempfile.TemporaryDirectory(prefix="pbfcut-pictures-") as folder:
        cut = os.path.join(folder, "cut.osm.pbf")
        run([program, "extract", f"--box={box}", path, cut])
        for (name, title), place, nodes in zip(titles.items(), [path, cut], [[], ["--nodes"]]):
            options = [f"--box={box}", f"--view={view}", f"--title={title}", *nodes, *note]
            yield name, run([program, "show", place]), draw(place, options)


def count_real():
    """What can be seen of the drawings of the real town without its file."""
    for name in REAL_TITLES:
        with open(os.path.join(TOP, "docs", name), "rb") as file:
            drawing = file.read()
        if len(drawing) > MOST_BYTES or NOTE.encode() not in drawing or b'class="box"' not in drawing:
            fail(f"docs/{name} is too large, or lacks its box or whose data it is")
        if "-cut" in name:
            count_outside(name, drawing, REAL_OUTSIDE)


def main():
    words = sys.argv[1:]
    write = "--write" in words
    real = next((word.partition("=")[2] for word in words if word.startswith("--real=")), None)
    programs = [word for word in words if not word.startswith("--")]
    if len(programs) != 1 or not os.access(programs[0], os.X_OK):
        sys.exit(__doc__)
    program = os.path.abspath(programs[0])
    draw_lines()
    for name, text, drawing in draw_pair(program, TOWN, BOX, VIEW, TITLES, []):
        compare(name, drawing, write)
        count_parts(name, text, drawing)
        if "-cut" in name:
            count_outside(name, drawing, OUTSIDE)
    for name, drawing in draw_lake(program):
        compare(name, drawing, write)
    if real:
        for name, _, drawing in draw_pair(program, real, REAL_BOX, REAL_VIEW, REAL_TITLES, [f"--note={NOTE}"]):
            compare(name, drawing, write)
    count_real()
    print("tests/pictures.py: the drawings in docs are current")


if __name__ == "__main__":
    main()
