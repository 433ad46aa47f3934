#!/usr/bin/env python3
"""Makes the mistakes of tests/mistakes.txt on a terminal: each has to end with the status and the lines below it.

usage: tests/mistakes.py PROGRAM

A line of the table that begins with $ is a command line in a folder with the files that `files` makes; BOX is the box of the town. After -> comes the
exit status. Below it is what is on the terminal then, but of a command line that is no command without its usage and without the line about --help, which
all such have. Each mistake has a next step: a hint, a tip, or what is missing. On a machine without terminals nothing is run, and the status is 77.
"""

import os
import pty
import re
import shlex
import shutil
import sys
import tempfile
import zlib
from concurrent.futures import ThreadPoolExecutor

HERE = os.path.dirname(os.path.abspath(__file__))
sys.path.insert(0, HERE)

from terminal import TOWN, field, frame, header_with, run

TABLE = os.path.join(HERE, "mistakes.txt")
BOX = "9.997,49.999,10.003,50.003"
HELP = ["For more information, try '--help'."]
# what is a next step besides a hint and a tip
NEXT = ("not provided", "[subcommands: ", "cannot be used", "a value is required", "unexpected value")


def files(folder: str):
    """The files that the command lines name."""
    def write(name: str, content: bytes):
        with open(os.path.join(folder, name), "wb") as file:
            file.write(content)

    with open(TOWN, "rb") as file:
        town = file.read()
    xml = b"<?xml version='1.0' encoding='UTF-8'?>\n<osm version=\"0.6\">\n" + b" " * 100
    write("town", town)
    write("second", town[:100])
    write("short", town[:-1])
    # a block of nodes again, at the end
    write("unsorted", town + town[194:1_024])
    write("empty", b"")
    write("town.osm", xml)
    write("town.osm.bz2", b"BZh91AY&SY" + bytes(100))
    write("town.osm.gz", b"\x1f\x8b\x08\x00" + bytes(100))
    write("town.zip", b"PK\x03\x04" + bytes(100))
    write("town.o5m", b"\xff\xe0\x04o5m2" + bytes(100))
    write("town.opl", b"n1 v1 dV c1 t2020-01-01T00:00:00Z i1 uA T x9.99 y50.0\n" * 3)
    write("changes.osc", xml.replace(b"<osm ", b"<osmChange "))
    write("page", b"<!DOCTYPE html><html><body>404 Not Found</body></html>" + b" " * 100)
    write("message", b'{"error": "not found"}' + b" " * 100)
    write("packed", frame(field(3, zlib.compress(b""))))
    write("lz4", frame(field(6, b"xyz")))
    write("history", header_with(b"HistoricalInformation"))
    write("feature", header_with(b"Elsewise"))
    write("area.poly", b"area\n1\n 9.997 49.999\n 10.003 49.999\n 10.003 50.003\nEND\nEND\n")
    write("far.poly", b"area\n1\n 9.997 49.999\n 10.003 99.999\n 10.003 50.003\nEND\nEND\n")
    write("open.poly", b"area\n1\n 9.997 49.999\n 10.003 49.999\n 10.003 50.003\n")
    square = "[[[9, 49], [10, 49], [10, 50], [9, 49]]]"
    write("area.geojson", b'{"type": "Polygon", "coordinates": %s}' % square.encode())
    write("broken.geojson", b'{"type": "Polygon", "coordinates": %s' % square.encode())
    write("point.geojson", b'{"type": "Point", "coordinates": [9, 49]}')
    write("ring.geojson", b'{"type": "Polygon", "coordinates": [[[9, 49], [10, 49], [10, 50], [10, 51]]]}')
    write("long.geojson", b'{"type": "Polygon", "coordinates": [[[179, -20], [-179, -20], [-179, -15], [179, -20]]]}')
    write("nameless.poly", b"1\n 9.997 49.999\n 10.003 49.999\n 10.003 50.003\nEND\nEND\n")
    write("metres.geojson", b'{"type": "Polygon", "coordinates": [[[900000, 49], [10, 49], [10, 50], [900000, 49]]]}')
    write("misspelt.json", b'{"extracts": [{"ouput": "one.osm.pbf", "bbox": [9, 49, 10, 50]}]}')
    write("none.json", b'{"extracts": []}')
    write("twice.json", b'{"extracts": [%s, %s]}' % ((b'{"output": "one.osm.pbf", "bbox": [9, 49, 10, 50]}',) * 2))
    write("north.json", b'{"extracts": [{"output": "one.osm.pbf", "bbox": [9, 49, 10, 95]}]}')
    write("lost.json", b'{"extracts": [{"output": "one.osm.pbf", "polygon": {"file_name": "nowhere.poly"}}]}')
    write("far.json", b'{"extracts": [{"output": "one.osm.pbf", "polygon": {"file_name": "far.poly"}}]}')
    one = b'{"output": "one.osm.pbf", "bbox": [9.997, 49.999, 10.003, 50.003]}'
    for name, output in [("both", "two.osm.pbf"), ("taken", "second"), ("itself", "town"), ("inside", "folder"), ("homeless", "nowhere/two.osm.pbf"),
                         ("again", "./one.osm.pbf"), ("screen", "/dev/stdout"), ("form", "two.osm.bz2")]:
        write(f"{name}.json", b'{"extracts": [%s, %s]}' % (one, one.replace(b"one.osm.pbf", output.encode())))
    os.mkdir(os.path.join(folder, "folder"))
    os.mkfifo(os.path.join(folder, "pipe"))
    os.symlink("nowhere", os.path.join(folder, "link"))


def table() -> list:
    """(command line, status, lines) of each mistake."""
    mistakes = []
    with open(TABLE, encoding="utf-8") as file:
        for line in file.read().splitlines():
            begins = re.fullmatch(r"\$ (.*) -> (\d)", line)
            if begins:
                mistakes.append((begins[1], int(begins[2]), []))
            elif line.startswith("    "):
                mistakes[-1][2].append(line[4:])
            elif line and not line.startswith("#"):
                sys.exit(f"tests/mistakes.py: a line of the table: {line!r}")
    return mistakes


def lines_of(text: str) -> list:
    """What is on the terminal, as the table has it."""
    lines = [line for line in text.splitlines() if line]
    if lines and lines[0].startswith("error: "):
        if lines[-1:] != HELP:
            return ["without the line about --help", *lines]
        lines = lines[:-1]
        if lines[-1].startswith("Usage: "):
            lines = lines[:-1]
    return lines


def made(program: str, command: str) -> tuple:
    """The status of a command line, and its lines on the terminal."""
    with tempfile.TemporaryDirectory(prefix="pbfcut-mistakes-") as folder:
        work = os.path.join(folder, "work")
        os.mkdir(work)
        files(work)
        for name in ["pbfcut", "pbfcutz"]:
            os.symlink(program, os.path.join(folder, name))
        words = [word.replace("BOX", BOX) for word in shlex.split(command)]
        status, out, said = run(os.path.join(folder, words[0]), words[1:], work, "", None)
    return status, lines_of(said), out


def wrong_with(program: str, mistake: tuple) -> list:
    command, status, lines = mistake
    found, said, _ = made(program, command)
    wrong = []
    if (found, said) != (status, lines):
        wrong.append(f"$ {command}: expected {status}, {lines!r}, found {found}, {said!r}")
    if not any(line.startswith(("hint: ", "  tip: ")) or any(part in line for part in NEXT) for line in lines):
        wrong.append(f"$ {command}: no next step in {lines!r}")
    return wrong


def main():
    program, mistakes = os.path.abspath(sys.argv[1]), table()
    try:
        for end in pty.openpty():
            os.close(end)
    except OSError:
        print("tests/mistakes.py: there are no terminals here")
        sys.exit(77)
    with ThreadPoolExecutor(os.cpu_count() or 1) as pool:
        wrong = [line for found in pool.map(lambda mistake: wrong_with(program, mistake), mistakes) for line in found]
    for line in wrong[:20]:
        print(f"tests/mistakes.py: {line}")
    if wrong:
        sys.exit(f"tests/mistakes.py: {len(wrong)} of {len(mistakes)} are not as they have to be")
    print(f"tests/mistakes.py: {len(mistakes)} mistakes have the lines that they have to, each with a next step")


if __name__ == "__main__":
    if len(sys.argv) != 2 or not os.access(sys.argv[1], os.X_OK):
        sys.exit(__doc__)
    main()
