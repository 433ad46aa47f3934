#!/usr/bin/env python3
"""Gives what pbfcutz and pbfcut write to the programs that read such files, and compares how much each of them finds with what `check` counts.

usage: tests/readers.py PROGRAM

IN is the sample, and a single node, as Osmium writes them. The readers are those of Debian's packages that are installed (tools/readers.sh installs
them); without Osmium, or with fewer than three of them, the test has nothing to run, and its status is 77. A reader that makes tiles or layers
can't be asked for counts: it has to find the same in a file as in what Osmium makes of that file.
"""

import json
import os
import re
import shutil
import subprocess
import sys
import tempfile

TOP = os.path.dirname(os.path.dirname(os.path.abspath(__file__)))
SAMPLE = os.path.join(TOP, "sample", "town.osm.pbf")
NOTHING_TO_RUN = 77
FEWEST = 3
SECONDS = 900
BOX = "--box=9.997,49.999,10.003,50.003"
# a node with a tag, since readers that make layers leave out others
NODE = ('<osm version="0.6"><node id="1" version="1" timestamp="2020-01-01T00:00:00Z" lat="50.001" lon="10.001">'
        '<tag k="place" v="town"/><tag k="name" v="Alone"/></node></osm>')
KINDS = ["node", "way", "relation"]
# Debian's pyosmium is for Debian's own Python.
PYTHON = "/usr/bin/python3"
COUNTING = """
import osmium, sys
class Counting(osmium.SimpleHandler):
    counts = [0, 0, 0]
    def node(self, _): self.counts[0] += 1
    def way(self, _): self.counts[1] += 1
    def relation(self, _): self.counts[2] += 1
counting = Counting()
counting.apply_file(sys.argv[1])
print(*counting.counts)
"""
LAYERS = ["points", "lines", "multilinestrings", "multipolygons", "other_relations"]
TILES = {"layers": {"all": {"minzoom": 0, "maxzoom": 0}},
         "settings": {"minzoom": 0, "maxzoom": 0, "basezoom": 0, "include_ids": False, "compress": "none", "name": "all", "version": "1",
                      "description": "all"}}
TAGGED = """
node_keys = {"amenity", "barrier", "highway", "natural", "place", "shop", "name"}
function init_function() end
function exit_function() end
function node_function(node) print("\\nfound node " .. node:Id()) end
function way_function(way) print("\\nfound way " .. way:Id()) end
"""


def fail(what: str):
    sys.exit(f"tests/readers.py: {what}")


def run(words: list, **how) -> subprocess.CompletedProcess:
    return subprocess.run(words, stdin=subprocess.DEVNULL, stdout=subprocess.PIPE, stderr=subprocess.PIPE, timeout=SECONDS, **how)


def said(words: list, **how) -> str:
    """What a command prints, on both of its streams. It has to succeed."""
    done = run(words, **how)
    text = (done.stdout + done.stderr).decode(errors="replace")
    if done.returncode:
        fail(f"{' '.join(words)} ends with {done.returncode}: {text[-1_000:]}")
    return text


def osmium(path: str, folder: str):
    count = json.loads(said(["osmium", "fileinfo", "--no-progress", "-e", "-j", path]))["data"]["count"]
    return tuple(count[f"{kind}s"] for kind in KINDS)


def pyosmium(path: str, folder: str):
    return tuple(int(word) for word in said([PYTHON, "-c", COUNTING, path]).split())


def osmconvert(path: str, folder: str):
    found = dict(re.findall(r"^(\w+): (\d+)$", said(["osmconvert", path, "--out-statistics"]), re.M))
    return tuple(int(found.get(f"{kind}s", 0)) for kind in KINDS)


def outline(path: str, folder: str):
    found = said(["osmpbf-outline", path])
    return tuple(sum(int(number) for number in re.findall(rf"^ +(?:dense )?{kind}s: (\d+)", found, re.M)) for kind in KINDS)


def osmosis(path: str, folder: str):
    found = said(["osmosis", "-q", "--read-pbf", path, "--write-xml", "-"])
    return tuple(len(re.findall(rf"<{kind} ", found)) for kind in KINDS)


def splitter(path: str, folder: str):
    """It leaves out what lies in no tile, so it counts nodes alone."""
    tiles = os.path.join(folder, "tiles")
    os.mkdir(tiles)
    said(["mkgmap-splitter", f"--output-dir={tiles}", "--output=xml", "--keep-complete=false", "--max-threads=1", path])
    names = [name for name in os.listdir(tiles) if name.endswith(".osm.gz")]
    found = "".join(said(["gzip", "-dc", os.path.join(tiles, name)]) for name in names)
    shutil.rmtree(tiles)
    return tuple(len(re.findall(rf"<{kind} ", found)) for kind in KINDS)


def gdal(path: str, folder: str):
    """The names of the features of each layer."""
    return [sorted(re.findall(r"^OGRFeature\(\w+\):\d+|osm_(?:way_)?id \(String\) = \d+", said(["ogrinfo", "-ro", "-q", path, layer]), re.M)) for layer in LAYERS]


def tilemaker(path: str, folder: str):
    """What it gives to the program that chooses what is drawn."""
    with open(os.path.join(folder, "config.json"), "w", encoding="utf-8") as file:
        json.dump(TILES, file)
    with open(os.path.join(folder, "process.lua"), "w", encoding="utf-8") as file:
        file.write(TAGGED)
    made = os.path.join(folder, "tiles.mbtiles")
    text = said(["tilemaker", "--input", path, "--output", made, "--config", os.path.join(folder, "config.json"),
                 "--process", os.path.join(folder, "process.lua"), "--threads", "1"])
    os.unlink(made)
    return sorted(re.findall(r"^found \w+ \d+$", text, re.M))


# How each is found, how it is asked, whether it counts, and whether it reads raw blobs.
READERS = {"osmium": ("osmium", osmium, True, True), "pyosmium": (PYTHON, pyosmium, True, True), "osmconvert": ("osmconvert", osmconvert, True, False),
           "osmpbf-outline": ("osmpbf-outline", outline, True, False), "osmosis": ("osmosis", osmosis, True, True),
           "mkgmap-splitter": ("mkgmap-splitter", splitter, False, True), "GDAL": ("ogrinfo", gdal, False, True),
           "tilemaker": ("tilemaker", tilemaker, False, False)}


def is_there(name: str) -> bool:
    if name == "pyosmium":
        return os.path.exists(PYTHON) and run([PYTHON, "-c", "import osmium"]).returncode == 0
    return shutil.which(READERS[name][0]) is not None


class Bench:
    """A folder with the program under both of its names, and the readers that are there."""

    def __init__(self, program: str, folder: str, readers: list):
        self.folder, self.readers, self.count = folder, readers, 0
        self.programs = {}
        for name in "pbfcut", "pbfcutz":
            self.programs[name] = os.path.join(folder, name)
            os.symlink(os.path.abspath(program), self.programs[name])

    def path(self, name: str) -> str:
        return os.path.join(self.folder, f"{name}.osm.pbf")

    def counts(self, path: str):
        return tuple(int(number) for number in re.findall(r"\d+", said([self.programs["pbfcutz"], "check", path])))

    def again(self, path: str) -> str:
        """The same file, as Osmium writes it."""
        other = self.path("again")
        said(["osmium", "cat", "--no-progress", "--overwrite", "-o", other, path])
        return other

    def ask(self, path: str, is_raw: bool):
        wanted = self.counts(path)
        for name in self.readers:
            _, find, does_count, reads_raw = READERS[name]
            # the splitter makes no tile of one node
            if is_raw and not reads_raw or name == "mkgmap-splitter" and sum(wanted) == 1:
                continue
            found = find(path, self.folder)
            right = wanted if does_count else find(self.again(path), self.folder)
            if found != right:
                fail(f"{name} finds {found} in {os.path.basename(path)}, and should find {right}")
            self.count += 1

    def written(self, program: str, words: list, name: str) -> str:
        path = self.path(name)
        said([self.programs[program], *words, path])
        return path

    def packed(self, words: list, source: str):
        """What pbfcutz writes, to all readers."""
        # Osmosis takes no = in a name
        name = "-".join(word.lstrip("-").replace("=", "-") for word in words if word != BOX)
        self.ask(self.written("pbfcutz", [*words, source], f"{name}-of-{os.path.basename(source).split('.')[0]}"), False)

    def raw(self, name: str):
        """What both programs write raw, to the readers that read that."""
        raw = self.written("pbfcutz", ["unpack", self.path(name)], f"{name}-raw")
        self.ask(raw, True)
        self.ask(self.written("pbfcut", ["extract", BOX, raw], f"{name}-raw-cut"), True)


def main():
    if len(sys.argv) != 2:
        sys.exit("usage: tests/readers.py PROGRAM")
    readers = [name for name in READERS if is_there(name)]
    absent = [name for name in READERS if name not in readers]
    if "osmium" not in readers or len(readers) < FEWEST:
        print(f"osmium and two more readers are needed; not there: {', '.join(absent)}")
        sys.exit(NOTHING_TO_RUN)
    with tempfile.TemporaryDirectory() as folder:
        bench = Bench(sys.argv[1], folder, readers)
        said(["osmium", "cat", "--no-progress", "-o", bench.path("town"), SAMPLE])
        with open(os.path.join(folder, "node.osm"), "w", encoding="utf-8") as file:
            file.write(NODE)
        said(["osmium", "cat", "--no-progress", "-o", bench.path("node"), os.path.join(folder, "node.osm")])
        for name in "town", "node":
            bench.raw(name)
            bench.packed(["extract", BOX], bench.path(name))
        bench.packed(["extract", BOX], bench.path("town-raw"))
        bench.packed(["extract", "--parents", BOX], bench.path("town"))
        bench.packed(["extract", "-s", "smart", "--types=any", BOX], bench.path("town"))
        bench.packed(["convert"], bench.path("town"))
        bench.packed(["pack"], bench.path("town-raw"))
    print(f"{bench.count} files read by {len(readers)} programs" + (f"; not there: {', '.join(absent)}" if absent else ""))


if __name__ == "__main__":
    main()
