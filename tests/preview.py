#!/usr/bin/env python3
"""The page that tools/preview.py makes: its counts, of the sample town and of files made here, and what a browser makes of its script.

usage: tests/preview.py PROGRAM

The counts of the sample are those of sample/README.md, those of the files made here are counted by hand, and what is kept of the cases of vectors/
is as many as case.json has. Chromium loads the page, if it is installed (on Debian: apt-get install chromium).
"""

import glob
import json
import os
import re
import shutil
import subprocess
import sys
import tempfile
import zlib

TOP = os.path.dirname(os.path.dirname(os.path.abspath(__file__)))
sys.dont_write_bytecode = True
sys.path[:0] = [os.path.join(TOP, name) for name in ("sample", "tools")]

from area import Area, read_box
from pbf import Damaged
from preview import File, Selection
from town import Entity, Form, block, frame, header_block, nested, scalar

TOWN = os.path.join(TOP, "sample", "town.osm.pbf")
SECONDS = 900
TOWN_BOX = "9.997,49.999,10.003,50.003"
TOWN_COUNTS = {
    "nodes_in_file": 272, "nodes_in_area": 75, "nodes_kept": 121, "ways_in_file": 64, "ways_in_area": 23, "ways_kept": 23,
    "relations_in_file": 13, "relations_in_area": 6, "relations_kept": 7,
    # the cable car; of Bus 1 a street and two stops, of the border its two ways; the river, 6 streets of the grid, 6 houses
    "ways_across": 1, "ways_around": 0, "ways_reaching": 13, "relations_losing": 2, "members_lost": 5,
    "relations_open": 0, "open_ends": 0, "nodes_lacking": 0, "ways_lacking": 0,
}
CUT_COUNTS = {**TOWN_COUNTS, "nodes_in_file": 121, "ways_in_file": 23, "relations_in_file": 7, "ways_across": 0}

# Places are north and east of 50 N 10 E in millionths of a degree. The box has 10,000 of them on each side; the box of the header reaches
# 20,000 to the north and the south, and 30,000 to the east and the west.
BOX = "10,50,10.01,50.01"
PLACES = {
    1: (5000, 5000), 2: (5000, 15000), 3: (-5000, 5000), 4: (15000, 5000),
    5: (0, 10000),  # a corner of the box
    6: (-20000, -20000), 7: (-20000, 30000), 8: (30000, 30000), 9: (30000, -20000),  # around the box
    10: (-1000, 9000), 11: (1000, 11000),  # on a line that meets the box only in that corner
    12: (-2000, 9000), 13: (1000, 12000),  # on a line that passes it
    14: (9500, 1000), 15: (12000, 1000), 16: (12000, 3000),
    17: (2000, 2000), 18: (2000, 3000), 19: (3000, 3000),
    20: (40000, 0),  # of no way
    21: (10000, 3000), 22: (10000, 6000),  # on the northern edge
    # a horseshoe: the box is between its arms
    23: (-15000, -15000), 24: (-15000, 25000), 25: (25000, 25000), 26: (25000, 24000),
    27: (-14000, 24000), 28: (-14000, -14000), 29: (25000, -14000), 30: (25000, -15000),
}
WAYS = {
    31: [1, 2],            # kept, with a tail
    32: [3, 4],            # across
    33: [6, 7, 8, 9, 6],   # around
    34: [10, 11],          # across, by the corner
    35: [12, 13],          # neither
    36: [5, 98, 99],       # kept, and two of its nodes are missing
    37: [1, 14, 15],       # kept: of the ring 37, 38, 39
    38: [15, 16],          # dropped, so that the ring is open at 15 and 16
    39: [16, 1],           # kept
    40: [17, 18, 19, 17],  # kept, a closed ring
    41: [97, 12],          # dropped, and one of its nodes is missing
    42: [21, 22],          # kept
    43: [23, 24, 25, 26, 27, 28, 29, 30, 23],  # neither across nor around
}
RELATIONS = {
    51: ({"type": "multipolygon", "natural": "water"}, "w37 w38 w39"),      # kept, lost 1, 2 open ends
    52: ({"type": "multipolygon"}, "w40"),                                  # kept
    53: ({"type": "route", "name": "<i>Line & 1</i>"}, "n1 n4 w32"),        # kept, lost 2
    54: ({"type": "route"}, "n4 r2"),                                       # dropped; there is a node 2, and no relation
    55: ({"type": "restriction"}, "n2 r51 r54"),                            # kept, for the tail of 31; lost 1
    56: ({"type": "boundary"}, "w31 w39 w37"),                              # kept; three of its ways end in 1, one each in 2, 15 and 16
}
HAND_COUNTS = {
    "nodes_in_file": 30, "nodes_in_area": 8, "nodes_kept": 11, "ways_in_file": 13, "ways_in_area": 6, "ways_kept": 6,
    "relations_in_file": 6, "relations_in_area": 4, "relations_kept": 5,
    "ways_across": 2, "ways_around": 1, "ways_reaching": 3, "relations_losing": 3, "members_lost": 4,
    "relations_open": 2, "open_ends": 6, "nodes_lacking": 3, "ways_lacking": 2,
}
# without a box: nodes 8, 9, 20, 25, 26, 29 and 30 are outside the header's, 54 lacks a relation, and only 56 is open
WHOLE_COUNTS = {
    **HAND_COUNTS, "nodes_in_area": 23, "nodes_kept": 30, "ways_in_area": 13, "ways_kept": 13, "relations_in_area": 6, "relations_kept": 6,
    "ways_across": 0, "ways_around": 0, "ways_reaching": 2, "relations_losing": 1, "members_lost": 1, "relations_open": 1, "open_ends": 4,
}
SQUARE = [[10, 50], [10.01, 50], [10.01, 50.01], [10, 50.01]]
HOLE = [[10.001, 50.001], [10.004, 50.001], [10.004, 50.004], [10.001, 50.004]]
# the text of a file with polygons, and what is counted then
POLYGONS = {
    "box.poly": ("box\n1\n 10 50\n 10.01 50\n 10.01 50.01\n 1.0e1 50.01\nEND\nEND\n", HAND_COUNTS),
    "box.geojson": (f'{{"type": "Polygon", "coordinates": [{SQUARE}]}}', HAND_COUNTS),
    # what two polygons have in common is in their area
    "twice.geojson": (f'{{"type": "MultiPolygon", "coordinates": [[{SQUARE}], [{SQUARE}]]}}', HAND_COUNTS),
    # the half of the box in the south-west: it has node 1 on its long edge
    "half.poly": ("half\n1\n 10 50\n 10.01 50\n 10 50.01\n 10 50\nEND\nEND\n", {"nodes_in_area": 5}),
    # with a corner due east of node 1, and node 18 on an edge; it has node 19, too
    "diamond.poly": ("diamond\n1\n 10.005 50\n 10.01 50.005\n 10.005 50.01\n 10 50.005\nEND\nEND\n", {"nodes_in_area": 3}),
    # nodes 17, 18 and 19 are in the hole, but 19 is in another polygon
    "hole.geojson": (f'{{"type": "Feature", "geometry": {{"type": "MultiPolygon", "coordinates": [[{SQUARE}, {HOLE}], '
                     '[[[10.0025, 50.0025], [10.0035, 50.0025], [10.0035, 50.0035]]]]}}', {"nodes_in_area": 6}),
    # way 33 is around the first of these squares, and not around both
    "two.geojson": ('{"type": "MultiPolygon", "coordinates": [[[[10.002, 50.006], [10.003, 50.006], [10.003, 50.007], [10.002, 50.007]]], '
                    '[[[10.05, 50], [10.051, 50], [10.051, 50.001], [10.05, 50.001]]]]}', {"nodes_in_area": 0, "ways_across": 0, "ways_around": 0}),
    # the shape of a U, with nodes 5 and 14: ways 31, 32 and 34 are across, and 42 leads from one of its tops towards the other
    "letter.poly": ("letter\n1\n 10 50\n 10.01 50\n 10.01 50.01\n 10.009 50.01\n 10.009 50.001\n 10.001 50.001\n 10.001 50.01\n 10 50.01\n"
                    "END\nEND\n", {"nodes_in_area": 2, "ways_across": 3}),
}
# cases that have two objects of a kind with one id; the others that pbfcut reads, and that are refused here, have numbers that no real file has
IDS_TWICE = {"node_twice_in_and_out", "two_nodes_and_two_ways_with_one_id"}
FEWEST_VECTORS = 590
# what a script in the page does: it turns the wheel, drags the map by 100 pixels to the right, and presses the buttons
ACTIONS = """<script>
const seen = [], middle = {clientX: 300, clientY: 300, bubbles: true, cancelable: true};
const note = () => seen.push(map.getAttribute("viewBox"));
note();
map.dispatchEvent(new WheelEvent("wheel", {deltaY: -400, ...middle}));
note();
map.dispatchEvent(new PointerEvent("pointerdown", middle));
map.dispatchEvent(new PointerEvent("pointermove", {...middle, clientX: 400}));
map.dispatchEvent(new PointerEvent("pointerup", middle));
map.dispatchEvent(new PointerEvent("pointermove", middle));
note();
for (const name of ["all", "area", "farther", "nearer"]) { document.getElementById(name).click(); note(); }
document.body.dataset.seen = seen.join(";");
</script>"""


def fail(what: str):
    sys.exit(f"tests/preview.py: {what}")


def zlib_frame(kind: str, payload: bytes, field=3, lost=0) -> bytes:
    """A frame whose blob is compressed; `field` says how, and `lost` bytes are missing at the end of it."""
    packed = zlib.compress(payload)
    blob = scalar(2, len(payload)) + nested(field, packed[:len(packed) - lost])
    header = nested(1, kind.encode()) + scalar(3, len(blob))
    return len(header).to_bytes(4, "big") + header + blob


def member(word: str) -> tuple:
    return "nwr".index(word[0]), int(word[1:]), ""


def blocks() -> list:
    """The payloads of the file that is counted by hand: its nodes, dense and plain, its ways and its relations."""
    nodes = [Entity(id, {"name": "Eck"} if id == 5 else {}, place=place) for id, place in PLACES.items()]
    ways = [Entity(id, {"highway": "path", "name": f"Way {id}"}, refs=refs) for id, refs in WAYS.items()]
    relations = [Entity(id, tags, members=list(map(member, members.split()))) for id, (tags, members) in RELATIONS.items()]
    form = Form(granularity=1000, lat_offset=7_000_000, lon_offset=-5000)
    return [block(Form(), dense=nodes[:9]), block(form, nodes=nodes[9:]), block(form, ways=ways), block(Form(), relations=relations)]


def file_of(payloads: list, make_frame=frame, header=None) -> bytes:
    return b"".join([make_frame("OSMHeader", header or header_block()), *(make_frame("OSMData", payload) for payload in payloads)])


def dense_block(ids: bytes, places: bytes) -> bytes:
    """A block of dense nodes with these columns."""
    return nested(1, b"") + nested(2, nested(2, nested(1, ids) + nested(8, places) + nested(9, places)))


class Folder:
    """Where files and pages are made."""

    def __init__(self, path: str):
        self.path = path

    def write(self, name: str, data: bytes) -> str:
        path = os.path.join(self.path, name)
        with open(path, "wb") as file:
            file.write(data)
        return path

    def preview(self, *words: str):
        return subprocess.run([sys.executable, os.path.join(TOP, "tools", "preview.py"), *words], capture_output=True, text=True, check=False,
                              timeout=SECONDS)

    def page(self, path: str, *words: str) -> str:
        out = os.path.join(self.path, "page.html")
        done = self.preview(path, *words, "-o", out)
        if done.returncode or done.stdout or done.stderr:
            fail(f"{path} {words}: {done.returncode}, {done.stdout}{done.stderr}")
        with open(out, encoding="utf-8") as file:
            return file.read()


def expect_counts(what: str, page: str, counts: dict):
    for name, count in counts.items():
        if f'id="{name}">{count}<' not in page:
            found = re.search(f'id="{name}">([^<]*)<', page)
            fail(f"{what}: {name} is {found and found[1]}, and not {count}")


def count_town(folder: Folder, program: str):
    """The whole town, and its extract, whose area is the box of its header."""
    whole = folder.page(TOWN, "--box", TOWN_BOX)
    expect_counts("the town", whole, TOWN_COUNTS)
    cut = os.path.join(folder.path, "cut.osm.pbf")
    subprocess.run([program, "extract", f"--box={TOWN_BOX}", TOWN, cut], check=True, stdout=subprocess.DEVNULL)
    extract = folder.page(cut)
    expect_counts("the extract", extract, CUT_COUNTS)
    for row in ("<td><bdi>r106</bdi></td><td><bdi>route</bdi></td><td><bdi>Bus 1: Łąka → Ελιά</bdi></td><td><bdi>3 of 6</bdi></td>",
                "<td><bdi>r103</bdi></td><td><bdi>boundary</bdi></td><td><bdi>Musterbrück</bdi></td><td><bdi>2 of 3</bdi></td>"):
        if row not in whole or row not in extract:
            fail(f"a page of the town lacks {row}")


def count_hand_made(folder: Folder):
    path = folder.write("hand.osm.pbf", file_of(blocks()))
    page = folder.page(path, "--box", BOX)
    expect_counts("the file made by hand", page, HAND_COUNTS)
    for part in ("<td><bdi>r53</bdi></td><td><bdi>route</bdi></td><td><bdi>&lt;i&gt;Line &amp; 1&lt;/i&gt;</bdi></td><td><bdi>2 of 3</bdi></td>",
                 "<td><bdi>w34</bdi></td><td><bdi>highway=path</bdi></td><td><bdi>Way 34</bdi></td>",
                 "<td><bdi>r51</bdi></td><td><bdi>natural=water</bdi></td><td><bdi></bdi></td><td><bdi>2</bdi></td>",
                 # The box is 20,000 units high and 20,000 cos 50.005 = 12,854.4 wide. Way 32 is at the half of it; way 31 leads from there to 1.5 of it.
                 '<g class="across"><path d="M6427 30000l0-40000', 'M6427 10000l12855 0'):
        if part not in page:
            fail(f"the page of the file made by hand lacks {part}")
    for name, data in {"packed": file_of(blocks(), zlib_frame), "unsorted": file_of(blocks()[::-1])}.items():
        folder.write("hand.osm.pbf", data)
        if folder.page(path, "--box", BOX) != page:
            fail(f"the page of the {name} file is another one")
    if page.index("r53") > page.index("r51"):
        fail("a relation that lost two members comes after one that lost one")
    for name, (text, counts) in POLYGONS.items():
        expect_counts(name, folder.page(path, "--polygon", folder.write(name, text.encode())), counts)
    expect_counts("the file made by hand, with the box of its header", folder.page(path), WHOLE_COUNTS)


def count_vectors() -> int:
    """What is kept of each case of vectors/ that is read here, by its box; how many there are."""
    count = 0
    for path in sorted(glob.glob(os.path.join(TOP, "vectors", "*", "case.json"))):
        folder = os.path.dirname(path)
        with open(path, encoding="utf-8") as case:
            told = json.load(case)
        if "refused" in told or os.path.basename(folder) in IDS_TWICE or not os.path.exists(os.path.join(folder, "in.osm.pbf")):
            continue
        try:
            file = File(os.path.join(folder, "in.osm.pbf"))
        except (Damaged, OverflowError):
            continue
        kept = Selection(file, Area.of_box(read_box(told["box"])), is_extract=False).kept
        if list(kept) != told["counts"]["extract"]:
            fail(f"{folder}: {kept} are kept, and not {told['counts']['extract']}")
        count += 1
    return count


def refuse(folder: Folder):
    """What can't be read, or is misspelled, gets one line and its status."""
    good = file_of(blocks())
    no_box, head = nested(4, b"OsmSchema-V0.6"), file_of([])
    cases = [
        (b"<osm></osm>", [], 1, "it is no PBF file"),
        (b"", [], 1, "it is empty"),
        (good[:-3], [], 1, "the file ends within the frame"),
        (good + b"\0\0", [], 1, f"byte {len(good)}: no frame begins here"),
        (file_of([blocks()[0][:-1] + b"\xff"]), [], 1, "no message of the format"),
        (file_of([nested(1, b"") + b"\x12\x05abc"]), [], 1, "a field that is cut short"),
        (file_of([dense_block(b"\x02\x80", b"\x02")]), [], 1, "a number that is cut short"),
        (file_of([dense_block(b"\x02\x02", b"\x02")]), [], 1, "columns of different lengths"),
        (file_of([], header=header_block() + nested(4, b"HistoricalInformation")), [], 1, "HistoricalInformation"),
        (file_of([], header=no_box), [], 1, "its header has no box"),
        (head + zlib_frame("OSMData", blocks()[0], field=6), [], 1, "other than zlib"),
        (head + zlib_frame("OSMData", blocks()[0], lost=4), [], 1, "compressed data that are cut short"),
        (head + head, [], 1, "a second header"),
        (good, ["--box", "10,50,10.01"], 2, "four numbers"),
        (good, ["--box", "50,10,49,11"], 2, "the order is"),
        (good, ["--polygon", os.path.join(folder.path, "missing.poly")], 2, "No such file"),
        (good, ["--polygon", TOWN], 2, "no polygon"),
        (good, ["--box", BOX, "--polygon", TOWN], 2, ""),
        (good, ["more"], 2, "unrecognized"),
        (good, ["--box", BOX, "-o", os.path.join(folder.path, "bad.osm.pbf")], 2, "not to be replaced"),
        (good, ["--box", BOX, "-o", os.path.join(folder.path, "missing", "page.html")], 1, "No such file"),
    ]
    for data, words, status, part in cases:
        done = folder.preview(folder.write("bad.osm.pbf", data), *words)
        lines = done.stderr.splitlines()
        if done.returncode != status or len(lines) != 1 or part not in lines[0] or os.path.exists(os.path.join(folder.path, "bad.osm.pbf.html")):
            fail(f"{words}, {part!r}: {done.returncode}, {done.stderr}")


def load(browser: str, folder: Folder, page: str) -> tuple:
    """The page as the browser has it when it has loaded, and what its console says."""
    path = folder.write("loaded.html", page.encode())
    words = [browser, "--headless", "--disable-gpu", "--disable-dev-shm-usage", "--no-sandbox", "--window-size=1000,900", "--enable-logging=stderr",
             "--dump-dom", f"--user-data-dir={folder.path}/profile", f"file://{path}"]
    done = subprocess.run(words, capture_output=True, text=True, check=False, timeout=SECONDS)
    return done.stdout, [line for line in done.stderr.splitlines() if "CONSOLE" in line]


def browse(browser: str, folder: Folder) -> str:
    """The script of the page runs, and moves the map. What is said of it; a browser may be unable to run here, or to read this folder."""
    if not browser or "<p>it loads</p>" not in load(browser, folder, "<p>it loads</p>")[0]:
        return "skipped, there is no chromium that loads a page"
    page = folder.page(TOWN, "--box", TOWN_BOX)
    spoilt = page.replace("show(areaView);\n</script>", "sho(areaView);\n</script>")
    if spoilt == page or not any("sho is not defined" in line for line in load(browser, folder, spoilt)[1]):
        fail(f"{browser} reports no error of a script that has one")
    loaded, console = load(browser, folder, page.replace("</body>", ACTIONS + "</body>"))
    if console:
        fail(f"{browser} says {console}")
    expect_counts("the page in a browser", loaded, TOWN_COUNTS)
    if not re.search(r'<div id="scale" style="width: [\d.]+px;">\d+ m</div>', loaded):
        fail("the page in a browser has no scale")
    views = [[float(number) for number in view.split(" ")] for view in re.search(r'data-seen="([^"]*)"', loaded)[1].split(";")]
    area, wheel, drag, whole, again, farther, nearer = views
    is_near = all(abs(one - other) < 1 for one, other in zip(nearer, area))
    if not (abs(wheel[2] * 2.718281828 - area[2]) < 1 and drag[0] < wheel[0] and drag[1:] == wheel[1:] and again == area and is_near
            and farther[2] > area[2] and whole[2] > 4 * area[2]):
        fail(f"the map moves from one to the next of {views}")
    return "no error"


def main():
    if len(sys.argv) != 2 or not os.access(sys.argv[1], os.X_OK):
        sys.exit(__doc__)
    browser = next(filter(None, map(shutil.which, ("chromium", "chromium-browser", "google-chrome"))), None)
    with tempfile.TemporaryDirectory(prefix="pbfcut-preview-") as path:
        folder = Folder(path)
        count_town(folder, os.path.abspath(sys.argv[1]))
        count_hand_made(folder)
        refuse(folder)
        vectors = count_vectors()
        if vectors < FEWEST_VECTORS:
            fail(f"only {vectors} cases of vectors/ are read")
        told = browse(browser, folder)
    print(f"tests/preview.py: the pages have their counts, {vectors} cases of vectors/, too; in a browser: {told}")


if __name__ == "__main__":
    main()
