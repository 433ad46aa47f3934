#!/usr/bin/env python3
"""Cuts several areas out of a file in one run of pbfcutz, as a configuration names them: each OUT has to be what a run for its area writes, and a run
that fails leaves none of them, and every other file as it was.

usage: tests/several.py PROGRAM
"""

import hashlib
import json
import os
import random
import signal
import subprocess
import sys
import tempfile
import time

from outputs import CUT, ENDS, RING, RING_JSON, SECONDS, Bench, expect, nodes_of, square
from published import frame_at, unpacked
from terminal import run as run_on_terminal

BOX = CUT[1].partition("=")[2]
WEST, SOUTH, EAST, NORTH = map(float, BOX.split(","))
# a box, and polygons, as a configuration has them
NARROW = [WEST, SOUTH, 10, 50]
CORNERS = dict(zip(("left", "bottom", "right", "top"), NARROW))
POLYGON = json.loads(square(9.999, 49.999, 10.001, 50.001))
POLYGONS = [POLYGON, json.loads(square(10.0005, 50, 10.003, 50.002))]
# how many files a process has open before its OUTs: the standard ones, three for those that are closed, and IN for each of three passes
OPEN_BEFORE = 9


def configuration(extracts: list, **members) -> bytes:
    return json.dumps({**members, "extracts": extracts}).encode()


def box(output: str, bounds=(WEST, SOUTH, EAST, NORTH)) -> dict:
    """An extract of a box."""
    return {"output": output, "bbox": list(bounds)}


TWO = configuration([box("one"), {"output": "two", "polygon": POLYGON}])


class Areas(Bench):
    """The folder of a bench, with configurations."""

    def single(self, words: list) -> tuple:
        """What a run for one area writes, and its line of counts."""
        printed = self.printed(["extract", *words, "in", "single"])
        written = self.read("single")
        os.unlink(self.path("single"))
        return written, printed.decode().strip()

    def gone(self, *names: str):
        for name in names:
            os.unlink(self.path(name))

    def fails(self, words: list, status: int, said: str, **how):
        """A run that fails: no file is new, and those that are there are as they were."""
        before = self.files()
        self.case(["extract", *words], status=status, said=said, **how)
        expect(f"the files after {words}", before, self.files())

    def files(self) -> dict:
        """What each file has, and its mode."""
        return {name: (self.read(name), os.stat(self.path(name)).st_mode) for name in os.listdir(self.folder) if os.path.isfile(self.path(name))}

    def two(self) -> tuple:
        """The OUTs of TWO."""
        self.write("two.geojson", b'{"type": "Polygon", "coordinates": %s}' % json.dumps(POLYGON).encode())
        outs = [self.single(words) for words in (["-b", BOX], ["-p", "two.geojson"])]
        self.gone("two.geojson")
        return outs


def each(areas: Areas):
    """Boxes and polygons of all kinds: each OUT has the bytes of its own run, and the counts too."""
    os.mkdir(areas.path("rings"))
    for name, text in [("rings/ring.poly", RING), ("rings/ring.geojson", RING_JSON)]:
        areas.write(name, text.encode())
    geojson = {"type": "MultiPolygon", "coordinates": [POLYGON]}, {"type": "MultiPolygon", "coordinates": POLYGONS}
    for name, value in zip(("one.geojson", "many.geojson"), geojson):
        areas.write(name, json.dumps(value).encode())
    extracts = [
        (["-b", BOX], {"bbox": [WEST, SOUTH, EAST, NORTH]}),
        (["-b", ",".join(map(str, NARROW))], {"bbox": CORNERS, "description": "the same box once more", "output_format": "pbf"}),
        (["-p", "one.geojson"], {"polygon": POLYGON}),
        (["-p", "many.geojson"], {"multipolygon": POLYGONS}),
        (["-p", "ring.poly"], {"polygon": {"file_name": "ring.poly", "file_type": "poly"}}),
        (["-p", "ring.geojson"], {"multipolygon": {"file_name": "ring.geojson", "file_type": "geojson"}}),
        (["-b", "0,0,1,1"], {"bbox": [0, 0, 1, 1]}),
    ]
    outs = [f"out{number}" for number in range(len(extracts))]
    areas.write("rings/areas.json", configuration([{"output": out, **area} for out, (_, area) in zip(outs, extracts)]))
    turned(areas)
    for file in "in", "raw", "turned":
        for options in [], ["--raw"], ["--parents"], ["--parents", "--raw"]:
            wanted = []
            for words, _ in extracts:
                printed = areas.printed(["extract", *options, *words, file, "single"]).decode().strip()
                wanted.append((areas.read("single"), printed))
                areas.gone("single")
            expect(f"extracts that differ, of {file} with {options}", len(extracts) - 2, len({written for written, _ in wanted}))
            lines = "".join(f"{printed} {out}\n" for out, (_, printed) in zip(outs, wanted))
            areas.case(["extract", *options, "-c", "rings/areas.json", file], out=lines, left=tuple(outs))
            for out, (written, _) in zip(outs, wanted):
                expect(f"{out} of {file} with {options}", written, areas.read(out))
            areas.gone(*outs)
    areas.gone("one.geojson", "many.geojson", "rings/ring.poly", "rings/ring.geojson", "rings/areas.json", "turned")
    os.rmdir(areas.path("rings"))


def turned(areas: Areas):
    """A file that isn't sorted by type, so that it is read once more."""
    ends = [0]
    while ends[-1] < len(areas.raw):
        ends.append(frame_at(areas.raw, ends[-1])[2])
    frames = [areas.raw[begin:end] for begin, end in zip(ends, ends[1:])]
    areas.write("turned", frames[0] + b"".join(reversed(frames[1:])))


def places(areas: Areas):
    """In which folder an OUT is."""
    for name in "there", "other":
        os.mkdir(areas.path(name))
    (one, counts), _ = areas.two()
    here, absolute = configuration([box("one")]), os.path.join(areas.folder, "other", "far")
    named, far = configuration([box("one")], directory="there"), configuration([box(absolute)], directory="there")
    areas.write("other/areas.json", named)
    for text, words, path in [(here, [], "one"), (here, ["-d", "there"], "there/one"), (here, ["--directory=there/"], "there/one"), (named, [], "there/one"),
                              (named, ["-d", "other"], "other/one"), (far, [], absolute), (far, ["-dthere"], absolute),
                              (configuration([box("there/one")]), [], "there/one"), (configuration([box("../one")], directory="there"), [], "there/../one")]:
        areas.write("areas.json", text)
        before = set(os.listdir(areas.folder))
        areas.case(["extract", *words, "-c", "areas.json", "in"], out=f"{counts} {path}\n", left=("one",) if path in ("one", "there/../one") else ())
        expect(f"{text} with {words}", one, areas.read(path))
        os.unlink(os.path.join(areas.folder, path))
        expect(f"the folder after {text} with {words}", before, set(os.listdir(areas.folder)))
    # `directory` begins where the program runs, and not beside the configuration
    areas.case(["extract", "--config=other/areas.json", "in"], out=f"{counts} there/one\n")
    areas.gone("there/one")
    areas.fails(["-c", "areas.json", "-d", "nowhere", "in"], 3, "pbfcutz: cannot open\npbfcutz: nowhere/../one: it can't be made: its folder isn't there\n")
    areas.write("areas.json", configuration([box("one"), box("nowhere/two")]))
    areas.fails(["-c", "areas.json", "in"], 3, "pbfcutz: cannot open\npbfcutz: nowhere/two: it can't be made: its folder isn't there\n")
    areas.gone("other/areas.json", "areas.json")
    for name in "there", "other":
        os.rmdir(areas.path(name))


def digests(areas: Areas):
    """Below the lines of IN come those of each OUT."""
    (one, counts), (two, others) = areas.two()
    for options in [], ["--raw"]:
        written = [unpacked(out) if options else out for out in (one, two)]
        areas.count += 1
        lines = areas.printed(["extract", "--digests", *options, "-c", "areas.json", "in"]).decode()
        of = [hashlib.sha256(content).hexdigest() for content in (areas.read("in"), areas.raw, *written, *map(unpacked, (one, two)))]
        meant = ["" if options else f"# unpacked {digest}\n" for digest in of[4:]]
        wanted = f"{of[0]}  in\n# unpacked {of[1]}\n{counts} one\n{of[2]}  one\n{meant[0]}{others} two\n{of[3]}  two\n{meant[1]}"
        expect(f"digests with {options}", wanted, lines)
        areas.gone("one", "two")


def existing(areas: Areas):
    """An OUT that is there is refused, unless it is to be replaced; no file is replaced that the run reads or makes itself."""
    (one, counts), (two, others) = areas.two()
    lines = f"{counts} one\n{others} two\n"
    for name in "one", "two":
        areas.write(name, b"kept")
        # before IN is opened
        for file in "in", "absent", "ring.poly":
            areas.fails(["-c", "areas.json", file], 3, f"pbfcutz: OUT exists\npbfcutz: {name}: it is there, with 4 bytes\n")
        os.chmod(areas.path(name), 0o600)
        areas.case(["extract", "-O", "-c", "areas.json", "in"], out=lines, left=("one", "two"))
        expect(f"what is written over {name}", (one, two), (areas.read("one"), areas.read("two")))
        expect(f"the mode of {name}", 0o600, os.stat(areas.path(name)).st_mode & 0o777)
        areas.gone("one", "two")
    os.mkdir(areas.path("two"))
    areas.fails(["-O", "-c", "areas.json", "in"], 3, "pbfcutz: OUT exists\npbfcutz: two: it is a folder\n")
    os.rmdir(areas.path("two"))
    os.symlink("raw", areas.path("two"))
    areas.fails(["-O", "-c", "areas.json", "in"], 3, "pbfcutz: OUT exists\npbfcutz: two: it is there, ")
    areas.gone("two")
    for name in "in", "again.json", "ring.poly", "./ring.poly":
        areas.write("again.json", configuration([box("one"), {"output": name, "polygon": {"file_name": "ring.poly"}}]))
        areas.fails(["-c", "again.json", "in"], 3, "pbfcutz: OUT exists\npbfcutz: " + name)
        areas.fails(["-O", "-c", "again.json", "in"], 3, f"pbfcutz: cannot open\npbfcutz: {name}: it is a file that this run reads\n")
    os.symlink(".", areas.path("round"))
    for name in "./one", "round/one", os.path.join(areas.folder, "one"):
        areas.write("again.json", configuration([box("one"), box("other"), box(name)]))
        said = f"pbfcutz: OUT exists\npbfcutz: {name}: an earlier extract has the same output, by another name\n"
        areas.fails(["-c", "again.json", "in"], 3, said)
        areas.fails(["-O", "-c", "again.json", "in"], 3, said)
    areas.gone("again.json", "round")


def refused(areas: Areas):
    """A run that fails leaves no OUT, and with -O the old ones."""
    areas.write("bad", areas.raw[:-1])
    areas.write("worse", areas.raw[:-1] + b"\xff")
    areas.write("lost.json", configuration([box("one"), {"output": "two", "polygon": {"file_name": "lost.poly"}}]))
    for old in False, True:
        options = ["-O"] if old else []
        for name in ("one", "two") if old else ():
            areas.write(name, b"kept")
        for file in "bad", "worse":
            areas.fails([*options, "-c", "areas.json", file], 1, "pbfcutz: refused ")
        for most in 1, 300, 4_096:
            areas.fails([*options, "--raw", "-c", "areas.json", "in"], 3, "pbfcutz: write failed\npbfcutz: one: File too large", most=most)
        areas.fails([*options, "-c", "areas.json", "absent"], 3, "pbfcutz: cannot open\npbfcutz: absent: No such file")
        areas.fails([*options, "-c", "lost.json", "in"], 3, "pbfcutz: cannot open\npbfcutz: lost.poly: No such file")
        areas.fails([*options, "-c", "absent.json", "in"], 3, "pbfcutz: cannot open\npbfcutz: absent.json: No such file")
        areas.fails([*options, "-c", "in", "in"], 2, "pbfcutz: config: 1 Json\npbfcutz: in: ")
        areas.fails([*options, "-c", "areas.json", "/dev/stdin"], 3, "IN must be a file, not a pipe", stdin=subprocess.PIPE)
        areas.gone(*(("one", "two") if old else ()))
    # one OUT is too long, and the other is not: the line is about the long one
    sizes = [len(unpacked(out)) for out, _ in areas.two()]
    expect("the first OUT is the longer one", True, sizes[0] > sizes[1] + 1_000)
    areas.write("turned.json", configuration([{"output": "two", "polygon": POLYGON}, box("one")]))
    areas.fails(["--raw", "-c", "turned.json", "in"], 3, "pbfcutz: write failed\npbfcutz: one: File too large", most=sizes[1] + 500)
    areas.gone("turned.json")
    # the counts can't be printed: each OUT is there
    for way in ">/dev/full", ">&-":
        areas.count += 1
        done = subprocess.run(["sh", "-c", f'exec "$@" {way}', "sh", areas.pbfcutz, "extract", "-c", "areas.json", "in"], cwd=areas.folder,
                              capture_output=True, timeout=SECONDS)
        said = b"pbfcutz: write failed\npbfcutz: each OUT is complete; the counts could not be printed: "
        expect(f"{way}: status and lines", (3, said), (done.returncode, done.stderr[:len(said)]))
        expect(f"{way}: OUTs", [out for out, _ in areas.two()], [areas.read("one"), areas.read("two")])
        areas.gone("one", "two")
    areas.gone("bad", "worse", "lost.json")


def open_files(areas: Areas):
    """As many OUTs as may be open can be written; one more is refused before the work."""
    limit = 20
    outs = [f"out{number}" for number in range(limit - OPEN_BEFORE + 1)]

    areas.write("fits.json", configuration([box(out) for out in outs[:-1]]))
    areas.write("many.json", configuration([box(out) for out in outs]))

    def limited(name: str, *options: str) -> list:
        return ["-c", f'ulimit -n {limit}; exec "$@"', "sh", areas.pbfcutz, "extract", *options, "-c", name, "in"]

    def run(name: str, *options: str):
        areas.count += 1
        return subprocess.run(["sh", *limited(name, *options)], cwd=areas.folder, capture_output=True, timeout=SECONDS)

    written, counts = areas.single(["-b", BOX])
    done = run("fits.json")
    expect("as many OUTs as may be open", (0, "".join(f"{counts} {out}\n" for out in outs[:-1]), b""), (done.returncode, done.stdout.decode(), done.stderr))
    for out in outs[:-1]:
        expect(out, written, areas.read(out))
    for out in outs[-2:]:
        areas.write(out, b"kept")
    before = areas.files()
    said = f"pbfcutz: cannot open\npbfcutz: {outs[-1]}: Too many open files (os error 24)\n"
    done = run("many.json", "-O")
    # to replace a file, it is opened too
    replacing = said.replace(outs[-1], outs[-2])
    expect("one more, over old ones", (3, b"", replacing), (done.returncode, done.stdout, done.stderr.decode()))
    expect("the old ones", before, areas.files())
    areas.gone(*outs)
    before = areas.files()
    done = run("many.json")
    expect("one more", (3, b"", said), (done.returncode, done.stdout, done.stderr.decode()))
    expect("no OUT is left", before, areas.files())
    try:
        seen = run_on_terminal("/bin/sh", limited("many.json"), areas.folder, "", None)
    except OSError:  # there are no terminals here
        pass
    else:
        hint = "hint: each OUT is open until the run ends: allow more open files, as by ulimit -n 4096, or cut fewer areas in a run\n"
        expect("one more, on a terminal", (3, "", said + hint), seen)
    areas.gone("fits.json", "many.json")


def long_file(areas: Areas) -> tuple:
    """A file that takes some tenths of a second, as "long", and the OUTs of TWO of it."""
    areas.write("long", areas.raw[:frame_at(areas.raw, 0)[2]] + nodes_of(areas.raw) * 2_000)
    areas.printed(["extract", "-c", "areas.json", "long"])
    wanted = {name: areas.read(name) for name in ("one", "two")}
    areas.gone("one", "two")
    return wanted


def signals(areas: Areas, wanted: dict):
    """A run that is stopped at any time leaves parts of its OUTs by names that say so. An OUT by its own name is whole."""
    choice = random.Random(time.time())
    begun = time.monotonic()
    areas.printed(["extract", "-c", "areas.json", "long"])
    span = time.monotonic() - begun
    areas.gone("one", "two")
    before, seen, stopped = set(os.listdir(areas.folder)), set(), 0
    for turn in range(40):
        areas.count += 1
        process = areas.start(["extract", "-c", "areas.json", "long"])
        time.sleep(choice.uniform(0, 1.1) * span)
        process.send_signal(choice.choice([*ENDS, signal.SIGKILL]))
        process.communicate(timeout=SECONDS)
        left = set(os.listdir(areas.folder)) - before
        parts = {f"{name}.{process.pid}.0.part" for name in wanted}
        expect(f"turn {turn}: {process.returncode} and {left}", True, left == set(wanted) if process.returncode == 0 else left <= {*wanted, *parts})
        stopped += process.returncode != 0
        for name in left & set(wanted):
            expect(f"turn {turn}: {name}", wanted[name], areas.read(name))
        seen |= {name.partition(".")[0] for name in left & parts}
        areas.gone(*left)
    expect("runs that were stopped, and what they left parts of", (True, set(wanted)), (stopped > 0, seen))


def at_once(areas: Areas, wanted: dict):
    """Of two runs with the same OUTs one succeeds, or with -O both."""
    for options in [], ["-O"]:
        for turn in range(8):
            areas.count += 1
            before = set(os.listdir(areas.folder))
            runs = [areas.start(["extract", *options, "-c", "areas.json", "long"]) for _ in range(2)]
            said = [run.communicate(timeout=SECONDS)[1].decode() for run in runs]
            ended = sorted(run.returncode for run in runs)
            expect(f"turn {turn}: two runs at once with {options} ({said})", [0, 0] if options else [0, 3], ended)
            failed = [text for text in said if text]
            expect(f"turn {turn}: what the other one says ({said})", True, all(text.startswith("pbfcutz: OUT exists\npbfcutz: one: it is there") for text in failed))
            expect(f"turn {turn}: the folder", before | set(wanted), set(os.listdir(areas.folder)))
            for name, written in wanted.items():
                expect(f"turn {turn}: {name}", written, areas.read(name))
            areas.gone(*wanted)


def met_late(areas: Areas, wanted: dict):
    """An OUT that somebody makes during the run stays, and so do the OUTs before it. Those after it are not made."""
    areas.write("three.json", configuration([box("zero"), *json.loads(TWO)["extracts"]]))
    names, before = ["zero", "one", "two"], set(os.listdir(areas.folder))
    for at, name in enumerate(names):
        areas.count += 1
        process = areas.start(["extract", "-c", "three.json", "long"])
        part = areas.path(f"two.{process.pid}.0.part")
        end = time.monotonic() + SECONDS
        while not os.path.exists(part) and time.monotonic() < end:
            time.sleep(0.001)
        areas.write(name, b"kept")
        _, said = process.communicate(timeout=SECONDS)
        expect(f"{name} is made late", (3, f"pbfcutz: OUT exists\npbfcutz: {name}: it is there, with 4 bytes\n"), (process.returncode, said.decode()))
        expect(f"the folder after {name}", before | set(names[:at + 1]), set(os.listdir(areas.folder)))
        expect(name, b"kept", areas.read(name))
        for other in names[:at]:
            expect(f"{other} before {name}", wanted["one"] if other == "zero" else wanted[other], areas.read(other))
        areas.gone(*names[:at + 1])
    areas.gone("three.json")


def main():
    if len(sys.argv) != 2 or not os.access(sys.argv[1], os.X_OK):
        sys.exit(__doc__)
    with tempfile.TemporaryDirectory(prefix="pbfcut-several-") as folder, tempfile.TemporaryDirectory() as elsewhere:
        areas = Areas(sys.argv[1], folder, elsewhere)
        each(areas)
        places(areas)
        areas.write("areas.json", TWO)
        for part in [digests, existing, refused, open_files]:
            part(areas)
        wanted = long_file(areas)
        for part in [signals, at_once, met_late]:
            part(areas, wanted)
        expect("no file is left", areas.start_files | {"areas.json", "long"}, set(os.listdir(areas.folder)))
    print(f"tests/several.py: {areas.count} cases as they have to be")


if __name__ == "__main__":
    main()
