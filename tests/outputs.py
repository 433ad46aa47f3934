#!/usr/bin/env python3
"""Runs pbfcutz with what pbfcut does not have: pack, unpack and info, OUT as an option, on standard output and in place of a file, polygons;
and looks at what a run leaves that fails, is stopped by a signal, or can't print.

usage: tests/outputs.py PROGRAM

Called by the name pbfcutz, the program is pbfcutz. What it packs is read here by Python's zlib.
"""

import hashlib
import json
import os
import random
import re
import resource
import shutil
import signal
import subprocess
import sys
import tempfile
import time

from published import SAMPLE, Folder, frame, frame_at, meaning_of, packed, pieces_of, spelled, unpacked, varint
from reference import box_of, entities_of, header_of
from reference_entities import decode_header
from reference_judge import judge
from reference_written import extract, header_out, write_file

TOP = os.path.dirname(os.path.dirname(os.path.abspath(__file__)))
CUT = ["extract", "--box=9.997,49.999,10.003,50.003"]
COUNTS = "nodes 121 ways 23 relations 7\n"
ALL = "nodes 272 ways 64 relations 13\n"
ENDS = [signal.SIGTERM, signal.SIGINT, signal.SIGHUP, signal.SIGQUIT]
SECONDS = 900
# A ring round the same places as the box of CUT, in the form in which such files are published.
# the same ring as GeoJSON, as osmium takes it, and alone
FEATURE = '{"type": "Feature", "properties": {}, "geometry": %s}'
RING_JSON = '{"type": "Polygon", "coordinates": [[[9.997, 49.999], [10.003, 49.999], [1.0003e1, 50.003], [9.997, 50.003], [9.997, 49.999]]]}'
RING = "town\n1\n   9.997E+00   4.9999E+01\n   10.003   49.999\n   10.003   50.003\n   9.997   50.003\n   9.997   49.999\nEND\nEND\n"


def square(west, south, east, north) -> str:
    """The coordinates of a polygon."""
    return f"[[[{west}, {south}], [{east}, {south}], [{east}, {north}], [{west}, {north}], [{west}, {south}]]]"


def multi(*polygons: str) -> str:
    return '{"type": "MultiPolygon", "coordinates": [%s]}' % ", ".join(polygons)


def features(*polygons: str) -> str:
    return '{"type": "FeatureCollection", "features": [%s]}' % ", ".join(FEATURE % multi(polygon) for polygon in polygons)


# Polygons that have the same places together: twice the same, two that overlap, one within another, and one that fills another's hole.
WHOLE, WEST, EAST, CITY = (square(9.997, 49.999, 10.003, 50.003), square(9.997, 49.999, 10.001, 50.003), square(9.999, 49.999, 10.003, 50.003),
                           square(9.999, 50, 10.001, 50.001))
UNIONS = [features(WHOLE, WHOLE), multi(WEST, EAST), features(EAST, WEST), features(WHOLE, CITY), multi(CITY, WHOLE[:-1] + ", " + CITY[1:])]
# Other programs, and how each prints what it reads.
READERS = {"osmium": ["cat", "--no-progress", "-f", "opl", "FILE"], "ogrinfo": ["-ro", "-al", "FILE"],
           "osmosis": ["-q", "--read-pbf", "FILE", "--write-xml", "-"]}
COMMANDS = {"extract": ["--box", "--polygon", "--parents", "--strategy", "--types", "--progress", "--digests", "--raw", "--output", "--overwrite",
                        "--config", "--directory"],
            "convert": ["--progress", "--digests", "--raw", "--output", "--overwrite"],
            "pack": ["--progress", "--digests", "--output", "--overwrite"], "unpack": ["--progress", "--digests", "--output", "--overwrite"],
            "check": ["--progress", "--digests"], "show": ["--dates", "--progress"], "info": ["--json"], "blobs": []}
# what the synopsis of the manual names by its letter
BY_LETTER = {"--strategy": "Fl s Ar"}


def shown(value) -> str:
    """A value, or how long it is."""
    return repr(value) if len(repr(value)) < 1_000 else f"{len(value)} bytes"


def expect(what: str, wanted, found):
    if wanted != found:
        sys.exit(f"tests/{os.path.basename(sys.argv[0])}: {what}: expected {shown(wanted)}, found {shown(found)}")


class Bench(Folder):
    """A folder with a raw file, a compressed one and a polygon, and the program under its other name."""

    def __init__(self, program: str, folder: str, elsewhere: str):
        super().__init__(folder)
        self.count = 0
        self.pbfcutz = os.path.join(elsewhere, "pbfcutz")
        os.symlink(os.path.abspath(program), self.pbfcutz)
        with open(SAMPLE, "rb") as file:
            self.raw = file.read()
        # the frames of the sample in written form, as those of the compressed file mean
        packed_sample = packed(self.raw)
        self.raw = unpacked(packed_sample)
        self.write("raw", self.raw)
        self.write("in", packed_sample)
        self.write("ring.poly", RING.encode())
        self.write("ring.geojson", RING_JSON.encode())
        self.write("feature.geojson", (FEATURE % RING_JSON).encode())
        self.start_files = set(os.listdir(folder))
        # what OUT has to be
        self.cut = self.made(["--raw", "in", "out"], CUT)

    def start(self, words: list, most: int = 0, **pipes):
        def limit():
            # whoever runs the tests may ignore signals, as a shell does for what it runs in the background
            for number in [*ENDS, signal.SIGXFSZ]:
                signal.signal(number, signal.SIG_DFL if number != signal.SIGXFSZ else signal.SIG_IGN)
            if most:
                resource.setrlimit(resource.RLIMIT_FSIZE, (most, most))

        pipes = {"stdout": subprocess.PIPE, "stderr": subprocess.PIPE, **pipes}
        return subprocess.Popen([self.pbfcutz, *words], cwd=self.folder, preexec_fn=limit, **pipes)

    def case(self, words: list, status: int = 0, out: str = "", said: str = "", left: tuple = (), **how):
        """A run, its status, what it prints, a part of what it says, and which files are new afterwards."""
        self.count += 1
        before = set(os.listdir(self.folder))
        process = self.start(words, **how)
        found, errors = process.communicate(timeout=SECONDS)
        name = f"{words} ({errors.decode(errors='replace')})"
        expect(f"{name}: exit status", status, process.returncode)
        expect(f"{name}: standard output", out, (found or b"").decode())
        expect(f"{name}: {said!r} in standard error", True, said in errors.decode(errors="replace") if said else not errors)
        expect(f"{name}: the folder", before | set(left), set(os.listdir(self.folder)))

    def printed(self, words: list) -> bytes:
        """What a run prints that ends well."""
        self.count += 1
        return subprocess.run([self.pbfcutz, *words], cwd=self.folder, capture_output=True, check=True, timeout=SECONDS).stdout

    def made(self, words: list, command: list, counts: str = COUNTS) -> bytes:
        """What a run writes to 'out', which goes away."""
        self.case([*command, *words], out=counts, left=("out",))
        content = self.read("out")
        os.unlink(self.path("out"))
        return content


def copies(bench: Bench):
    """The bytes of a file in other blobs, there and back."""
    long = bench.made(["raw", "out"], ["pack"], ALL)
    expect("what is packed means the raw file", bench.raw, unpacked(long))
    expect("what is unpacked", bench.raw, bench.made(["in", "out"], ["unpack"], ALL))
    bench.write("packed", long)
    expect("unpacked again", bench.raw, bench.made(["packed", "out"], ["unpack"], ALL))
    expect("packed again", long, bench.made(["packed", "out"], ["pack"], ALL))
    os.unlink(bench.path("packed"))
    # One block of many nodes, which gets shorter.
    wide = bench.made(["raw", "out"], ["convert", "--raw"], ALL)
    bench.write("wide", wide)
    short = bench.made(["wide", "out"], ["pack"], ALL)
    expect("it gets shorter", True, len(short) < len(wide) * 0.8)
    expect("what is short means the same", wide, unpacked(short))
    os.unlink(bench.path("wide"))
    bench.write("bad", bench.raw[:-1])
    for command in "pack", "unpack":
        bench.case([command, "bad", "out"], status=1, said="pbfcutz: refused at")
        bench.case([command, "absent", "out"], status=3, said="pbfcutz: cannot open\n")
        bench.case([command, "/dev/stdin", "out"], status=3, said="IN must be a file, not a pipe", stdin=subprocess.PIPE)
        bench.count += 1
        done = subprocess.run([bench.pbfcutz, command, "--digests", "in", "out"], cwd=bench.folder, capture_output=True, timeout=SECONDS)
        lines = done.stdout.decode().splitlines()
        of = {name: hashlib.sha256(bench.read(name)).hexdigest() for name in ("in", "out")}
        raw = hashlib.sha256(bench.raw).hexdigest()
        meant = [f"# unpacked {raw}"]
        wanted = [ALL.strip(), f"{of['in']}  in", *meant, f"{of['out']}  out", *(meant if command == "pack" else [])]
        expect(f"digests of {command}", wanted, lines)
        os.unlink(bench.path("out"))
    os.unlink(bench.path("bad"))


def told(lines: str, stored: str, blocks: int, others: int = 0) -> str:
    """What `info` prints of a file with these lines of its header."""
    return f'{lines}H stored "{stored}"\nH frames OSMHeader 1 OSMData {blocks} other {others}\n'


def text_of(quoted: bytes) -> str:
    """A string as lines have it, as JSON has it."""
    text = re.sub(rb"\\(x..|.)", lambda found: bytes([int(found[1][1:], 16)]) if found[1][1:] else found[1], quoted[1:-1])
    try:
        return text.decode()
    except UnicodeDecodeError:
        return text.decode("latin-1")


def object_of(lines: bytes) -> dict:
    """What the lines of `info` say, as an object."""
    found = {}
    for word, value in re.findall(rb"^H (\w+) (.*)\n", lines, re.M):
        name = word.decode()
        if name == "frames":
            words = value.decode().split()
            found[name] = dict(zip(words[::2], map(int, words[1::2])))
        elif name in ("required", "optional"):
            found.setdefault(name, []).append(text_of(value))
        elif value.startswith(b'"'):
            found[name] = text_of(value)
        else:
            found[name] = [int(number) for number in value.split()] if name == "bbox" else int(value)
    return found


def info(bench: Bench, name: str, lines):
    """What `info` prints of a file: these lines, and the same in JSON, in their order, of which only empty lists of features are no line."""
    wanted = lines if isinstance(lines, bytes) else lines.encode()
    expect(f"info of {name}", wanted, bench.printed(["info", name]))
    printed = bench.printed(["info", "--json", name])
    expect(f"line ends in info --json of {name}", (1, True), (printed.count(b"\n"), printed.endswith(b"}\n")))
    found = json.loads(printed.decode())
    keys = list(found)
    for word in "required", "optional":
        if found[word] == []:
            del found[word]
    expect(f"info --json of {name}", object_of(wanted), found)
    order = ["bbox", "required", "optional", "program", "source", "timestamp", "sequence", "url", "stored", "frames"]
    expect(f"the order of info --json of {name}", [word for word in order if word in keys], keys)


def headers(bench: Bench):
    """What a file says of itself."""
    shown = subprocess.run([bench.pbfcutz, "show", "in"], cwd=bench.folder, capture_output=True, check=True).stdout.decode()
    lines = "".join(line for line in shown.splitlines(True) if line.startswith("H "))
    blocks = len(list(pieces_of(bench.raw))) - 1
    info(bench, "in", told(lines, "zlib", blocks))
    info(bench, "raw", told(lines, "raw", blocks))
    # The header may stand behind frames of other types, whose blobs don't count.
    header, _, end = frame_at(bench.raw, 0)
    expect("the first frame", (b"OSMHeader", True), (header, end < len(bench.raw) // 4))
    other = frame(b"OSMOther", b"\xff\xff")
    bench.write("cut", other + bench.raw[:end] + other + bench.raw[end:] + other)
    info(bench, "cut", told(lines, "raw", blocks, 3))
    bench.write("cut", bench.raw[:end])
    info(bench, "cut", told(lines, "raw", 0))
    # Some blobs are zlib data, and some are raw.
    packed = bench.read("in")
    bench.write("cut", packed[:frame_at(packed, 0)[2]] + bench.raw[end:])
    info(bench, "cut", told(lines, "mixed", blocks))
    bench.write("cut", bench.raw[:end] + packed[frame_at(packed, 0)[2]:])
    info(bench, "cut", told(lines, "mixed", blocks))
    # All frames are read, and nothing is printed of a file that is refused.
    bench.write("cut", bench.raw[:-1])
    bench.case(["info", "cut"], status=1, said="pbfcutz: refused at")
    bench.write("cut", bench.raw + bench.raw[:end])
    bench.case(["info", "cut"], status=1, said=f"pbfcutz: refused at {len(bench.raw)}: ")
    bench.write("cut", other)
    bench.case(["info", "cut"], status=1, said=f"pbfcutz: refused at {len(other)}: ")
    bench.write("cut", bench.raw[:end - 1])
    bench.case(["info", "cut"], status=1, said="pbfcutz: refused at")
    bench.case(["info", "/dev/stdin"], out=told(lines, "raw", blocks), stdin=open(bench.path("raw"), "rb"))
    # A header without a box, with strings of all bytes, one of which is not UTF-8, and with nothing.
    strange = bytes(range(128)), "\u00e9\u2028\U0001f600".encode(), bytes(range(128, 256)), b""
    header = b"".join(spelled(number, text) for number, text in zip((5, 5, 16, 17), strange)) + spelled(4, b"OsmSchema-V0.6")
    header += varint(32 * 8) + varint(2**64 - 1) + varint(33 * 8) + varint(2**63 - 1)
    for number, content in enumerate((header, spelled(5, strange[2]), b"")):
        bench.write("cut", frame(b"OSMHeader", spelled(1, content)))
        printed = bench.printed(["show", "cut"])
        expect(f"the lines of header {number}", (7, 1, 0)[number], printed.count(b"\n"))
        info(bench, "cut", printed + told("", "raw", 0).encode())
    bench.case(["info", "--json", "--json", "cut"], status=2, said="cannot be used multiple times")
    bench.write("cut", b"<osm>")
    bench.case(["info", "cut"], status=1, said="pbfcutz: refused at 0: ")
    bench.write("cut", b"")
    bench.case(["info", "cut"], status=1, said="pbfcutz: refused at 0: ")
    os.unlink(bench.path("cut"))


def options(bench: Bench):
    """OUT as an option, in place of a file, and on standard output; the names that the options have elsewhere."""
    box = CUT[1].split("=")[1]
    for words in [["-b", box, "in", "-o", "out"], ["-b", box, "-oout", "in"], [f"--bbox={box}", "--output=out", "in"],
                  ["-o", "out", "-b", box, "--", "in"], ["-p", "ring.poly", "in", "out"], ["--polygon=ring.poly", "in", "-o", "out"],
                  ["-p", "ring.geojson", "in", "out"], ["-p", "feature.geojson", "in", "out"]]:
        expect(f"{words}", bench.cut, bench.made(["--raw", *words], ["extract"]))
    # Osmium's words for what is done anyway
    for words in [["-s", "complete_ways", "--set-bounds", "--fsync", "--no-progress", "-f", "pbf", "-F", "pbf"], ["-scomplete_ways", "-fpbf", "-Fpbf"],
                  ["--strategy=complete_ways", "--output-format=pbf", "--input-format=pbf", "--progress", "--no-progress"],
                  ["--strategy", "complete_ways", "--output-format", "pbf", "--input-format", "pbf"]]:
        expect(f"{words}", bench.cut, bench.made(["--raw", *words, "in", "out"], CUT))
    for command in ["convert", "--raw"], ["pack"], ["unpack"]:
        words = ["in", "--fsync", "--no-progress", "-f", "pbf", "-F", "pbf", "out"]
        expect(f"{command} with {words}", bench.made(["in", "out"], command, ALL), bench.made(words, command, ALL))
    for text in UNIONS:
        bench.write("union.geojson", text.encode())
        expect(text, bench.cut, bench.made(["--raw", "-p", "union.geojson", "in", "out"], ["extract"]))
    os.unlink(bench.path("union.geojson"))
    for words, said in [(["in"], "  <OUT>\n"), (["in", "out", "-o", "other"], "'--output <OUT>' cannot be used with '[OUT]'"),
                        (["in", "-o"], "a value is required"), (["in", "-o", "a", "-o", "b"], "cannot be used multiple times")]:
        bench.case([*CUT, *words], status=2, said=said)
    bench.case(["extract", "in", "out"], status=2, said="  --box <WEST,SOUTH,EAST,NORTH>\n")
    bench.case([*CUT, "-p", "ring.poly", "in", "out"], status=2, said="cannot be used with '--polygon <FILE>'")
    bench.case(["extract", "-p", "absent", "in", "out"], status=3, said="pbfcutz: cannot open\n")
    bench.case(["extract", "-p", "in", "in", "out"], status=2, said="pbfcutz: polygon: ")
    # a name in Latin-1
    bench.write("latin.poly", RING.replace("town", "Z\u00fcrich").encode("latin-1"))
    bench.case(["extract", "--raw", "-p", "latin.poly", "in", "out"], out=COUNTS, left=("out",))
    expect("the places of a polygon with a name in Latin-1", unpacked(bench.cut), unpacked(bench.read("out")))
    for name in "out", "latin.poly":
        os.unlink(bench.path(name))
    for text, fault in [("", "line 1, column 1: 1 Ended"), ("a\n1\nx\n", "line 3, column 1: 2 Number"), ("a\n1\n 0  200\n", "line 3, column 5: 3 Range"),
                        ("a\n1\n0 0\n1 1\n  END\nEND\n", "line 5, column 3: 4 Short"), ("a\nEND\n", "line 3, column 1: 5 Empty"),
                        (RING + "b\n", "line 10, column 1: 6 Rest"), (RING_JSON + "}", "7 Json"), (FEATURE % "null", "8 Shape"),
                        (RING_JSON.replace("50.003]", "90.1]", 1), "ring 1, position 3: 3 Range"), (RING_JSON.replace("9.997", "9.9", 1), "ring 1, position 5: 9 Open"),
                        (RING_JSON.replace("10.003", "-179", 1).replace("9.997", "9"), "ring 1, position 2: 10 Long"), (RING[5:], "line 2, column 4: 11 Name"),
                        (features(WHOLE, WHOLE.replace("50.003", "95", 1)), "ring 2, position 3: 3 Range"), ("1\n0 0\n", "line 2, column 1: 11 Name")]:
        bench.write("bad.poly", text.encode())
        bench.case(["extract", "-p", "bad.poly", "in", "out"], status=2, said=f"pbfcutz: polygon: {fault}\n")
    os.unlink(bench.path("bad.poly"))

    bench.write("out", b"kept")
    bench.case([*CUT, "in", "out"], status=3, said="pbfcutz: OUT exists\n")
    expect("the file that was there", b"kept", bench.read("out"))
    bench.case([*CUT, "-O", "absent", "out"], status=3, said="pbfcutz: cannot open\n")
    expect("after a run that failed", b"kept", bench.read("out"))
    bench.case([*CUT, "--raw", "-O", "in", "out"], out=COUNTS)
    expect("after one that replaced it", bench.cut, bench.read("out"))
    bench.write("out", bench.read("in"))
    bench.case([*CUT, "--raw", "--overwrite", "out", "-o", "out"], status=3, said="pbfcutz: cannot open\n")
    expect("IN isn't replaced by its extract", bench.read("in"), bench.read("out"))
    os.unlink(bench.path("out"))
    os.symlink("raw", bench.path("link"))
    os.mkdir(bench.path("room"))
    for name in "link", "room", "/dev/null":
        bench.case([*CUT, "-O", "in", name], status=3, said="pbfcutz: OUT exists\n")
    os.unlink(bench.path("link"))
    os.rmdir(bench.path("room"))
    expect("what a link names", bench.raw, bench.read("raw"))

    for name in "-", "/dev/stdout":
        bench.count += 1
        done = subprocess.run([bench.pbfcutz, *CUT, "--raw", "--digests", "in", name], cwd=bench.folder, capture_output=True, timeout=SECONDS)
        expect(f"OUT on {name}", (0, bench.cut), (done.returncode, done.stdout))
        lines = done.stderr.decode().splitlines()
        expect("counts on standard error", (COUNTS.strip(), f"{hashlib.sha256(bench.cut).hexdigest()}  {name}"), (lines[0], lines[-1]))
    bench.write("bad", bench.raw[:-1])
    bench.case([*CUT, "bad", "-"], status=1, said="pbfcutz: refused at")
    os.unlink(bench.path("bad"))


def smart(bench: Bench):
    """The strategy and its types as they can be written: OUT is what the reference keeps. What isn't sorted by type is refused, and leaves nothing."""
    judged = judge(bench.raw)
    header, entities, box = decode_header(header_of(judged)), entities_of(judged), box_of(CUT[1].split("=")[1])
    for types, counts in [("any", "nodes 131 ways 26 relations 9\n"), ("multipolygon,boundary", "nodes 127 ways 25 relations 9\n"),
                          ("multipolygon", "nodes 121 ways 23 relations 9\n")]:
        wanted = write_file(header_out(header, box), extract(entities, box, types=types))
        for words in [["-s", "smart", "--types", types], ["-ssmart", f"--types={types}"], [f"--types={types}", "--strategy=smart", "--parents"],
                      ["--strategy", "smart", f"--types={types}"], *([["-s", "smart"]] if types == "multipolygon" else [])]:
            for name in "in", "raw":
                expect(f"{words} of {name}", wanted, bench.made(["--raw", *words, name, "out"], CUT, counts))
        packed_cut = bench.made(["-s", "smart", f"--types={types}", "in", "out"], CUT, counts)
        expect(f"what is packed of types {types}", (wanted, True), (unpacked(packed_cut), len(packed_cut) < len(wanted)))
        for ring in "ring.poly", "ring.geojson":
            expect(f"types {types} by {ring}", wanted, bench.made(["--raw", "-s", "smart", f"--types={types}", "-p", ring, "in", "out"], ["extract"], counts))
        bench.count += 1
        done = subprocess.run([bench.pbfcutz, *CUT, "--raw", "-s", "smart", f"--types={types}", "in", "-"], cwd=bench.folder, capture_output=True,
                              timeout=SECONDS)
        expect(f"types {types} on standard output", (0, wanted, counts.encode()), (done.returncode, done.stdout, done.stderr))
    # the header, and then the blocks from the last one on
    pieces = [piece.packed for piece in meaning_of(bench.read("in"))]
    bench.write("turned", pieces[0] + b"".join(reversed(pieces[1:])))
    said = "pbfcutz: refused in the blob at 0, byte 0 of its payload: 61 Unsorted\n"
    bench.case([*CUT, "-s", "smart", "turned", "out"], status=1, said=said)
    bench.write("out", b"kept")
    bench.case([*CUT, "-s", "smart", "-O", "turned", "out"], status=1, said=said)
    expect("the file that was there", b"kept", bench.read("out"))
    for name in "turned", "out":
        os.unlink(bench.path(name))


def names(bench: Bench):
    """Names that OUT can't have, and odd ones that it can."""
    os.mkdir(bench.path("folder"))
    for name in ["", "o/", "folder/", ".", "folder/..", "nowhere/out", "raw/out", "o" * 256]:
        bench.case([*CUT, "in", name], status=3, said="pbfcutz: ")
    bench.case([*CUT, "in", "folder"], status=3, said="pbfcutz: OUT exists\n")
    os.rmdir(bench.path("folder"))
    for name in ["na\u00efve out", "-out", "o" * 240]:
        bench.case([*CUT, "--raw", "--", "in", name], out=COUNTS, left=(name,))
        expect(f"OUT {name!r}", bench.cut, bench.read(name))
        os.unlink(bench.path(name))


def closed(bench: Bench):
    """Standard output and standard error may be full or closed: OUT is whole, and the status says that something failed."""
    def shell(script: str, *words):
        bench.count += 1
        return subprocess.run(["sh", "-c", script, "sh", bench.pbfcutz, *words], cwd=bench.folder, capture_output=True, timeout=SECONDS)

    for way in ">/dev/full", ">&-":
        done = shell(f'exec "$@" {way}', *CUT, "--raw", "in", "out")
        said = b"pbfcutz: write failed\npbfcutz: out: OUT is complete; the counts could not be printed: "
        expect(f"{way}: status and lines", (3, said), (done.returncode, done.stderr[:len(said)]))
        expect(f"{way}: OUT", bench.cut, bench.read("out"))
        os.unlink(bench.path("out"))
        done = shell(f'exec "$@" {way}', *CUT, "--raw", "in", "-")
        said = b"pbfcutz: write failed\npbfcutz: standard output: "
        expect(f"{way}: OUT on it", (3, said), (done.returncode, done.stderr[:len(said)]))
    for way in "2>/dev/full", "2>&-", "2>&- <&-", "<&-":
        done = shell(f'exec "$@" {way}', *CUT, "--raw", "in", "out")
        expect(f"{way}: status, counts and OUT", (0, COUNTS.encode(), bench.cut), (done.returncode, done.stdout, bench.read("out")))
        os.unlink(bench.path("out"))
        done = shell(f'exec "$@" {way}', *CUT, "--raw", "in", "-")
        expect(f"{way}: OUT on standard output", (0, bench.cut), (done.returncode, done.stdout))
        done = shell(f'exec "$@" {way}', "check", "ring.poly")
        expect(f"{way}: a refusal", 1, done.returncode)
    reading, writing = os.pipe()
    os.close(reading)
    bench.case([*CUT, "in", "-"], status=3, said="pbfcutz: write failed\n", stdout=writing)
    os.close(writing)
    expect("no file is left", bench.start_files, set(os.listdir(bench.folder)))


def disks(bench: Bench):
    """A full disk: nothing is left."""
    for words in [[*CUT, "--raw"], [*CUT, "--raw", "-s", "smart", "--types=any"], ["convert", "--raw"], ["unpack"], ["pack"]]:
        bench.case([*words, "raw", "out"], status=3, said="pbfcutz: write failed\n", most=len(bench.cut) // 4)
        bench.write("out", b"kept")
        bench.case([*words, "-O", "raw", "out"], status=3, said="pbfcutz: write failed\n", most=len(bench.cut) // 4)
        expect("the file that was there", b"kept", bench.read("out"))
        os.unlink(bench.path("out"))


def nodes_of(raw: bytes) -> bytes:
    """The second frame of a file."""
    begin = frame_at(raw, 0)[2]
    return raw[begin:frame_at(raw, begin)[2]]


def signals(bench: Bench):
    """Signals at any time: OUT is whole, or there is none; what a run had written has a name that says so."""
    choice = random.Random(time.time())
    # A file that takes some tenths of a second: many blocks of nodes.
    bench.write("long", bench.raw[:frame_at(bench.raw, 0)[2]] + nodes_of(bench.raw) * 3_000)
    begun = time.monotonic()
    bench.case(["convert", "long", "whole"], out=f"nodes {64 * 3_000} ways 0 relations 0\n", left=("whole",))
    span, whole, before = time.monotonic() - begun, bench.read("whole"), set(os.listdir(bench.folder))
    ended = {True: 0, False: 0}
    for turn in range(40):
        bench.count += 1
        process = bench.start(["convert", "long", "out"])
        time.sleep(choice.uniform(0, 1.2) * span)
        process.send_signal(choice.choice([*ENDS, signal.SIGKILL]))
        process.communicate(timeout=SECONDS)
        left = set(os.listdir(bench.folder)) - before
        is_whole = process.returncode == 0
        ended[is_whole] += 1
        may_stay = {"out", f"out.{process.pid}.0.part"}
        expect(f"turn {turn}: {process.returncode} and {left}", True, left == {"out"} if is_whole else left <= may_stay)
        if "out" in left:
            expect("OUT", whole, bench.read("out"))
        for name in left:
            os.unlink(bench.path(name))
    expect(f"runs that ended, and that were stopped: {ended}", True, ended[False] > 0)
    for name in "long", "whole":
        os.unlink(bench.path(name))


def readers(bench: Bench):
    """Other programs read the same in a compressed extract as in its raw twin."""
    bench.write("raw.osm.pbf", bench.cut)
    bench.case([*CUT, "in", "packed.osm.pbf"], out=COUNTS, left=("packed.osm.pbf",))
    for program, words in READERS.items():
        if shutil.which(program):
            bench.count += 1
            read = [subprocess.run([program, *(word.replace("FILE", name) for word in words)], cwd=bench.folder, capture_output=True, check=True,
                                   timeout=SECONDS).stdout.replace(name.encode(), b"FILE") for name in ("raw.osm.pbf", "packed.osm.pbf")]
            expect(f"what {program} reads", read[0], read[1])
            expect(f"{program} reads something", True, len(read[0]) > 500)
    for name in "raw.osm.pbf", "packed.osm.pbf":
        os.unlink(bench.path(name))


def pages(bench: Bench):
    """Help, the manual page and the completions name each command and each option."""
    with open(os.path.join(TOP, "docs", "pbfcutz.1"), encoding="utf-8") as file:
        manual = file.read()
    for command, named in COMMANDS.items():
        text = subprocess.run([bench.pbfcutz, command, "--help"], capture_output=True, check=True).stdout.decode()
        listed = re.findall(r"^ +(?:-[a-zA-Z], )?(--[a-z]+)", text, re.M)
        expect(f"the options of {command}", {*named, "--help"}, set(listed))
        expect(f"long lines of {command}'s help", [], [line for line in text.splitlines() if len(line) > 90])
        expect(f"the manual has {command}", True, f"Cm {command}\n" in manual)
        for option in named:
            expect(f"the manual has {option}", True, BY_LETTER.get(option, f"Fl {option[1:]}") in manual)
    for name in "pbfcut.bash", "_pbfcut", "pbfcut.fish":
        with open(os.path.join(TOP, "completions", name), encoding="utf-8") as file:
            text = file.read().replace("-l ", "--")
        for word in {*COMMANDS, *(option for named in COMMANDS.values() for option in named)}:
            expect(f"{name} has {word}", True, word in text)
    bench.count += 1


def main():
    if len(sys.argv) != 2 or not os.access(sys.argv[1], os.X_OK):
        sys.exit(__doc__)
    with tempfile.TemporaryDirectory(prefix="pbfcut-outputs-") as folder, tempfile.TemporaryDirectory() as elsewhere:
        bench = Bench(sys.argv[1], folder, elsewhere)
        for part in [copies, headers, options, smart, names, closed, disks, signals, readers, pages]:
            part(bench)
    print(f"tests/outputs.py: {bench.count} cases as they have to be")


if __name__ == "__main__":
    main()
