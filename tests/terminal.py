#!/usr/bin/env python3
"""Runs the built program with standard error on a terminal: below its own line comes one with the file that it is about, and one that says what to do
next.

usage: tests/terminal.py PROGRAM

If standard error is no terminal there is no such hint, as each case shows in a second run. On a machine without terminals nothing is run, and the status
is 77.
"""

import os
import pty
import resource
import select
import signal
import subprocess
import sys
import tempfile
import time
import zlib

TOP = os.path.dirname(os.path.dirname(os.path.abspath(__file__)))
TOWN = os.path.join(TOP, "sample", "town.osm.pbf")
SECONDS = 900
BOX = "--box=9.997,49.999,10.003,50.003"

def by_osmium(form: str) -> str:
    return f"this makes a PBF file of it: osmium cat -F {form} IN -f pbf,pbf_compression=none -o RAW"


HISTORY = "this takes the state of now out of it: osmium time-filter IN -o NOW.osm.pbf"


def field(number: int, content: bytes) -> bytes:
    """A field of fewer than 128 bytes."""
    return bytes([number * 8 + 2, len(content)]) + content


def frame(blob: bytes) -> bytes:
    header = field(1, b"OSMHeader") + bytes([24, len(blob)])
    return len(header).to_bytes(4, "big") + header + blob


def header_with(feature: bytes) -> bytes:
    return frame(field(1, field(4, feature)))


# what IN begins with, what is said of it, and what to do
FORMATS = {
    "bzip2": (b"BZh91AY&SY", "it is compressed as a whole, by bzip2", "this unpacks it: bunzip2 -c IN >UNPACKED"),
    "gzip": (b"\x1f\x8b\x08\x00", "it is compressed as a whole, by gzip", "this unpacks it: gunzip -c IN >UNPACKED"),
    "xz": (b"\xfd7zXZ\0", "it is compressed as a whole, by xz", "this unpacks it: unxz -c IN >UNPACKED"),
    "ZIP": (b"PK\x03\x04", "it is a ZIP archive, not a PBF file", "this unpacks it: unzip IN"),
    "XML": (b"<?xml version='1.0'?>\n<osm>", "it is an XML file, not a PBF file", by_osmium("xml")),
    "XML without its first line": (b"<osm version='0.6'>", "it is an XML file, not a PBF file", by_osmium("xml")),
    "XML behind a mark and a line": (b"\xef\xbb\xbf\n<?xml version='1.0'?>", "it is an XML file, not a PBF file", by_osmium("xml")),
    "changes": (b"<?xml version='1.0' encoding='UTF-8'?>\n<osmChange version='0.6'>", "it is a change file (.osc), which has no map",
                "this applies it to a map: osmium apply-changes MAP.osm.pbf IN -o NEW.osm.pbf"),
    "o5m": (b"\xff\xe0\x04o5m2", "it is an o5m file, not a PBF file", by_osmium("o5m")),
    "OPL": (b"n1 v1 dV c1", "it is an OPL file, not a PBF file", by_osmium("opl")),
    "HTML": (b"<!DOCTYPE html><html>", "it is a web page, not a PBF file", "the download failed: fetch the file again"),
    "XHTML": (b"<?xml version='1.0'?><!DOCTYPE html>", "it is a web page, not a PBF file", "the download failed: fetch the file again"),
    "JSON": (b'{"error": "not found"}', "it is a JSON text, not a PBF file",
             "it may be a server's message that the download failed: look at it, and fetch the file again"),
    "GeoJSON": (b'{"type": "FeatureCollection", "features": []}', "it is a GeoJSON file, not a PBF file",
                "is it the area? Then IN is missing: --polygon=FILE IN OUT"),
    "something": (b"something else", "it does not begin as a PBF file does",
                  "'file IN' may know what it is; if it was downloaded, fetch it again"),
}


def long_frame(data: bytes) -> bytes:
    """A header frame with so many bytes of zlib data that their length takes three."""
    blob = bytes([3 * 8 + 2, len(data) & 127 | 128, len(data) >> 7 & 127 | 128, len(data) >> 14]) + data
    size = len(blob)
    header = field(1, b"OSMHeader") + bytes([24, size & 127 | 128, size >> 7 & 127 | 128, size >> 14])
    return len(header).to_bytes(4, "big") + header + blob


def run(program: str, words: list, folder: str, to: str, prepare):
    """The exit status, and what was written to standard output, if that isn't a device, and to the terminal."""
    ours, theirs = pty.openpty()
    target = open(to, "wb") if to else subprocess.PIPE
    process = subprocess.Popen([program, *words], cwd=folder, stdin=subprocess.DEVNULL, stdout=target, stderr=theirs, preexec_fn=prepare)
    os.close(theirs)
    seen, end = b"", time.monotonic() + SECONDS
    while time.monotonic() < end:
        if select.select([ours], [], [], 0.1)[0]:
            try:
                part = os.read(ours, 4096)
            except OSError:  # the other end is closed
                break
            if not part:
                break
            seen += part
    os.close(ours)
    out = process.communicate(timeout=SECONDS)[0] or b""
    return process.returncode, out.decode(), seen.decode().replace("\r\n", "\n")


def clear(folder: str):
    if os.path.exists(os.path.join(folder, "out")):
        os.unlink(os.path.join(folder, "out"))


def main():
    if len(sys.argv) != 2 or not os.access(sys.argv[1], os.X_OK):
        sys.exit(__doc__)
    program, count = os.path.abspath(sys.argv[1]), 0
    try:
        for end in pty.openpty():
            os.close(end)
    except OSError:
        print("tests/terminal.py: there are no terminals here")
        sys.exit(77)
    with tempfile.TemporaryDirectory(prefix="pbfcut-terminal-") as folder:

        def case(name: str, words: list, status: int, *lines: str, given: bytes = b"", out: str = "", to: str = "", prepare=None):
            nonlocal count
            count += 1
            with open(os.path.join(folder, "in"), "wb") as file:
                file.write(given)
            found = run(program, words, folder, to, prepare)
            wanted = (status, out, "".join(line + "\n" for line in lines))
            if found != wanted:
                sys.exit(f"tests/terminal.py: {name}: expected {wanted!r}, found {found!r}")
            clear(folder)
            # without a terminal the same, but no hint
            with open(to or os.devnull, "wb") as target:
                done = subprocess.run([program, *words], cwd=folder, stdin=subprocess.DEVNULL, stdout=target, stderr=subprocess.PIPE,
                                      preexec_fn=prepare, timeout=SECONDS)
            told = "".join(line + "\n" for line in lines if not line.startswith("hint: "))
            if (done.returncode, done.stderr.decode()) != (status, told):
                sys.exit(f"tests/terminal.py: {name}, no terminal: expected {told!r}, found {done.stderr!r}")
            clear(folder)

        zlib_blob = frame(field(3, b"xyz"))
        left = "hint: this run made OUT, and left it empty: remove it, or name another"
        zlib_fact = "pbfcut: in: its blobs are compressed by zlib"
        case("zlib, extract", ["extract", BOX, "in", "out"], 1, "pbfcut: refused at 17: 17 Zlib", zlib_fact,
             "hint: this cuts it: pbfcutz extract --box=BOX IN NEW", left, given=zlib_blob)
        case("zlib, check", ["check", "in"], 1, "pbfcut: refused at 17: 17 Zlib", zlib_fact,
             "hint: pbfcutz, which has the same commands, reads it", given=zlib_blob)
        program = os.path.join(folder, "pbfcutz")
        os.symlink(os.path.abspath(sys.argv[1]), program)
        damage, again, sound = "pbfcutz: in: the compressed data of a blob is damaged", "hint: fetch the file again", "hint: ask the author of the file for a sound one"
        case("pbfcutz, damaged data", ["check", "in"], 1, "pbfcutz: refused at 17: 17 Zlib: Header", damage, again, given=zlib_blob)
        empty = zlib.compress(b"")
        case("pbfcutz, data twice", ["check", "in"], 1, "pbfcutz: refused at 17: 17 Zlib",
             "pbfcutz: in: a blob has its data twice, in zlib's form and in another", sound, given=frame(field(3, empty) + field(1, b"")))
        case("pbfcutz, another length", ["check", "in"], 1, "pbfcutz: refused at 19: 17 Zlib: RawSize",
             "pbfcutz: in: a blob names another length than its data has", sound, given=frame(b"\x10\x01" + field(3, empty)))
        case("pbfcutz, two occurrences of data", ["check", "in"], 1, f"pbfcutz: refused at {17 + 2 + len(empty)}: 17 Zlib: Header",
             damage, again, given=frame(field(3, empty) + field(3, b"xyz")))
        case("pbfcutz, too long a payload", ["check", "in"], 1, "pbfcutz: refused at 19: 17 Zlib: Long",
             "pbfcutz: in: a blob unpacks to 32 MiB or more, which the format does not allow", sound,
             given=long_frame(zlib.compress(bytes(33_554_432), 9)))
        header = zlib.compress(field(4, b"Elsewise"))
        case("pbfcutz, a fault in a blob", ["check", "in"], 1, "pbfcutz: refused in the blob at 0, byte 0 of its payload: 55 Feature",
             "pbfcutz: in: it requires a feature that is not known here", f"hint: if IN has history, {HISTORY}", given=frame(field(3, header)))
        program = os.path.abspath(sys.argv[1])
        rare = "few programs read these: let the program that wrote it write it again, compressed by zlib or not at all"
        lz4 = "this makes a raw file of it: osmium cat IN -f pbf,pbf_compression=none -o RAW"
        for number, name, method, hint in [(4, "18 Lzma", "LZMA", rare), (5, "19 Bzip2", "bzip2", rare), (6, "20 Lz4", "LZ4", lz4),
                                           (7, "21 Zstd", "Zstandard", rare)]:
            case(name, ["check", "in"], 1, f"pbfcut: refused at 17: {name}", f"pbfcut: in: its blobs are compressed by {method}", f"hint: {hint}",
                 given=frame(field(number, b"xyz")))
        case("an empty file", ["check", "in"], 1, "pbfcut: refused at 0: 22 NoHeader", "pbfcut: in: it is empty",
             "hint: whatever made it has failed: make it or fetch it again")
        os.mkdir(os.path.join(folder, "place"))
        case("a folder", ["check", "place"], 3, "pbfcut: read failed", "pbfcut: place: it is a folder, and not a file", "hint: name a file in it: ls place")
        for name, (start, fact, hint) in FORMATS.items():
            case(name, ["check", "in"], 1, "pbfcut: refused at 0: 11 HeaderLong", f"pbfcut: in: {fact}", f"hint: {hint}", given=start + bytes(100))
        case("a file that ends too early", ["check", "in"], 1, "pbfcut: refused at 0: 10 PrefixCut",
             "pbfcut: in: it ends inside the four bytes that begin a frame", "hint: most often a download broke off: fetch the file again", given=b"\0\0")
        other = "hint: ask the author of the file for one without it"
        case("a required feature", ["check", "in"], 1, "pbfcut: refused at 19: 55 Feature",
             "pbfcut: in: it requires the feature Elsewise, which pbfcut does not know", other, given=header_with(b"Elsewise"))
        case("a feature that would move the cursor", ["check", "in"], 1, "pbfcut: refused at 19: 55 Feature",
             "pbfcut: in: it requires a feature that is not known here", other, given=header_with(b"\x1b[2J"))
        case("history", ["check", "in"], 1, "pbfcut: refused at 19: 55 Feature",
             "pbfcut: in: it requires the feature HistoricalInformation, which pbfcut does not know",
             "hint: this takes the state of now out of the history: osmium time-filter IN -o NOW.osm.pbf", given=header_with(b"HistoricalInformation"))
        case("another fault", ["check", "in"], 1, "pbfcut: refused at 17: 15 NoRaw", "pbfcut: in: a blob has no data of any kind",
             "hint: fetch the file again; if that doesn't help, ask its author for a sound one", given=frame(b""))
        os.mkfifo(os.path.join(folder, "pipe"))
        case("a pipe that is to be read twice", ["show", "pipe"], 3, "pbfcut: IN must be a file, not a pipe",
             "pbfcut: pipe: it is a pipe, which can be read only once",
             "hint: IN is read more than once: write what the pipe has to a file first; 'check' and 'blobs' read a pipe")
        where = "hint: is its name right? A name without / is looked for in the folder that 'pwd' prints"
        case("no IN", ["check", "nowhere"], 3, "pbfcut: cannot open", "pbfcut: nowhere: No such file or directory (os error 2)", where)
        case("no folder for OUT", ["convert", "in", "no/out"], 3, "pbfcut: cannot open", "pbfcut: no/out: it can't be made: its folder isn't there",
             "hint: make its folder first: mkdir -p no")
        case("an OUT that is IN", ["convert", "in", "in"], 3, "pbfcut: OUT exists", "pbfcut: in: it is IN", "hint: IN is never changed: name another OUT")
        order = "hint: the box is west,south,east,north in degrees, as --box=-0.5,51.25,0.3,51.7"
        for box, fault, hint in [
            ("1,2", "Shape", "it is four numbers with commas between them, and no spaces"),
            ("a,0,1,1", "Digit", "a number has no letters or signs but -, and up to nine digits after the point"),
            ("181,0,182,1", "Range", "longitudes are from -180 to 180, latitudes from -90 to 90"),
            ("2,0,1,1", "LeftOverRight", "across the antimeridian two boxes are cut, one on each side"),
            ("0,2,1,1", "BottomOverTop", "south is the lower latitude"),
        ]:
            case(f"a box: {fault}", ["extract", f"--box={box}", "in", "out"], 2, f"pbfcut: box: {fault}", order, f"hint: {hint}")
        with open(TOWN, "rb") as file:
            town = file.read()
        case("a box without a node", ["extract", "--box=0,0,1,1", "in", "out"], 0,
             "hint: no node of IN lies in the box, west,south,east,north: 'pbfcutz info IN' prints IN's own box", given=town, out="nodes 0 ways 0 relations 0\n")
        case("an extract", ["extract", BOX, "in", "out"], 0, given=town, out="nodes 121 ways 23 relations 7\n")
        case("a check", ["check", "in"], 0, given=town, out="nodes 272 ways 64 relations 13\n")
        room = "hint: make room: df -h shows how much is left"
        full = "No space left on device (os error 28)"
        limit, out_of = resource.RLIMIT_FSIZE, "File too large (os error 27)"
        case("a disk that is full", ["convert", "in", "out"], 3, "pbfcut: write failed", f"pbfcut: out: {out_of}",
             "hint: write to another OUT, maybe on another disk", "hint: this run made OUT, and left it incomplete: remove it, or name another", given=town,
             prepare=lambda: (signal.signal(signal.SIGXFSZ, signal.SIG_IGN), resource.setrlimit(limit, (1_000, 1_000))))
        case("counts that can't be printed", ["check", "in"], 3, "pbfcut: write failed", f"pbfcut: standard output: {full}", room, given=town, to="/dev/full")
        case("a text that can't be printed", ["show", "in"], 3, "pbfcut: write failed", f"pbfcut: standard output: {full}", room, given=town, to="/dev/full")
        case("counts that can't be printed, and OUT", ["convert", "in", "out"], 3, "pbfcut: write failed",
             f"pbfcut: out: OUT is complete; the counts could not be printed: {full}", "hint: OUT can be used; 'check' counts it again", given=town, to="/dev/full")
    print(f"tests/terminal.py: {count} cases as they have to be")


if __name__ == "__main__":
    main()
