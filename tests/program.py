#!/usr/bin/env python3
"""Runs the built program and compares what it does with what it has to do: standard output, standard error, the bytes of
OUT and the exit status.

usage: tests/program.py [PROGRAM]

PROGRAM is crates/pbfcut_run/out/pbfcut_run where it is left out. The files that are read are made here, but for the sample. It stops
at the first difference, with status 1.
"""

import fcntl
import hashlib
import itertools
import os
import re
import resource
import shutil
import signal
import subprocess
import sys
import tempfile
import termios
import time

sys.dont_write_bytecode = True
sys.path.insert(0, os.path.dirname(os.path.abspath(__file__)))

from published import packed
from suite import own_lines

TOP = os.path.dirname(os.path.dirname(os.path.abspath(__file__)))
BUILT = os.path.join(TOP, "crates", "pbfcut_run", "out", "pbfcut_run")
SECONDS = 900
NOBODY = 65534

# Linux's number for setting the size of a pipe, and its least size
SET_PIPE_SIZE, PAGE = 1031, 4096


# ---- the wire form, as far as the files below need it


def hexed(text: str) -> bytes:
    return bytes.fromhex(text)


def varint(number: int) -> bytes:
    number &= (1 << 64) - 1
    spelled = bytearray()
    while number > 127:
        spelled.append(number & 127 | 128)
        number >>= 7
    spelled.append(number)
    return bytes(spelled)


def zigzag(number: int) -> int:
    return 2 * number if number >= 0 else -2 * number - 1


def field(number: int, payload: bytes) -> bytes:
    """A field of bytes: a text, a message or a packed column."""
    return varint(number * 8 + 2) + varint(len(payload)) + payload


def scalar(number: int, value: int) -> bytes:
    return varint(number * 8) + varint(value)


def deltas(values: list) -> bytes:
    """A packed column of zigzag differences."""
    return b"".join(varint(zigzag(b - a)) for a, b in zip([0] + values, values))


def frame(kind: str, payload: bytes) -> bytes:
    blob = field(1, payload)
    header = field(1, kind.encode()) + scalar(3, len(blob))
    return len(header).to_bytes(4, "big") + header + blob


def dense(ids: list, lats: list, lons: list, rest: bytes = b"") -> bytes:
    """A group of dense nodes."""
    return field(2, field(2, field(1, deltas(ids)) + field(8, deltas(lats)) + field(9, deltas(lons)) + rest))


def way(number: int, refs: list) -> bytes:
    """A group of one way."""
    return field(2, field(3, scalar(1, number) + field(8, deltas(refs))))


def relation(number: int, members: list) -> bytes:
    """A group of one relation, whose members, each an id and a kind, have empty roles; 0 is a node, 2 a relation."""
    roles = field(8, bytes(len(members)))
    ids = field(9, deltas([member for member, _ in members]))
    return field(2, field(4, scalar(1, number) + roles + ids + field(10, bytes(kind for _, kind in members))))


def data(*groups: bytes, table: bytes = b"\x0a\x00", rest: bytes = b"") -> bytes:
    """A data frame; by default with the empty text alone."""
    return frame("OSMData", field(1, table) + b"".join(groups) + rest)


# ---- the files, in the bytes of the format

EMPTY_HEADER = hexed("00 00 00 0d 0a 09 4f 53 4d 48 65 61 64 65 72 18 02 0a 00")
DENSE_FRAME = hexed(
    "00 00 00 0b 0a 07 4f 53 4d 44 61 74 61 18 19 0a 17 0a 02 0a 00 12 11 12 0f 0a 03 14 02 08 42 03 02 03 04 4a 03 02"
    "00 00"
)
THREE_DENSE = EMPTY_HEADER + DENSE_FRAME
THREE_DENSE_IN_PIECES = EMPTY_HEADER + hexed(
    "00 00 00 0b 0a 07 4f 53 4d 44 61 74 61 18 1c 0a 1a 0a 02 0a 00 12 14 12 12 0a 01 14 0a 01 02 08 08 42 03 02 03 04"
    "4a 03 02 00 00"
)
WAY_FRAME = hexed("00 00 00 0b 0a 07 4f 53 4d 44 61 74 61 18 11 0a 0f 0a 02 0a 00 12 09 1a 07 08 07 42 03 02 02 02")
NODE_FRAME = hexed(
    "00 00 00 0b 0a 07 4f 53 4d 44 61 74 61 18 16 0a 14 0a 02 0a 00 12 0e 12 0c 0a 02 02 02 42 02 02 03 4a 02 02 00"
)
WAY_BEFORE_NODES = EMPTY_HEADER + WAY_FRAME + NODE_FRAME
TAGGED_FRAME = frame("OSMData", hexed(
    "0a 16 0a 00 0a 07 68 69 67 68 77 61 79 0a 04 73 74 6f 70 0a 03 61 6e 6e 12 1f 12 1d 0a 01 02 2a 0d 0a 01 02 12 05"
    "a4 8b b0 99 09 2a 01 06 42 01 02 4a 01 02 52 03 01 02 00"
))
TAGGED_NODE = EMPTY_HEADER + TAGGED_FRAME
EMPTY_KEY = EMPTY_HEADER + data(
    dense([1], [1], [1], field(10, b"\x05\x01\x00")),
    table=hexed("0a 00 0a 01 61 0a 01 62 0a 01 63 0a 01 64 0a 00"),
)

# the header that `extract` writes for the box 0,0,1,1, and the one that `convert` writes
BOX_HEADER = hexed(
    "00 00 00 0d 0a 09 4f 53 4d 48 65 61 64 65 72 18 39 0a 37 0a 10 08 00 10 80 a8 d6 b9 07 18 80 a8 d6 b9 07 20 00 22"
    "0e 4f 73 6d 53 63 68 65 6d 61 2d 56 30 2e 36 22 0a 44 65 6e 73 65 4e 6f 64 65 73 82 01 06 70 62 66 63 75 74"
)
PLAIN_HEADER = BOX_HEADER[:16] + hexed("27 0a 25") + BOX_HEADER[37:]
THREE_DENSE_CUT = BOX_HEADER + hexed(
    "00 00 00 0b 0a 07 4f 53 4d 44 61 74 61 18 16 0a 14 0a 02 0a 00 12 0e 12 0c 0a 02 14 0a 42 02 02 00 4a 02 02 00"
)
EMPTY_KEY_CUT = BOX_HEADER + hexed(
    "00 00 00 0b 0a 07 4f 53 4d 44 61 74 61 18 1d 0a 1b 0a 07 0a 00 0a 00 0a 01 61 12 10 12 0e 0a 01 02 42 01 02 4a 01"
    "02 52 03 01 02 00"
)
NODE_IN_BOX = hexed("00 00 00 0b 0a 07 4f 53 4d 44 61 74 61 18 13 0a 11 0a 02 0a 00 12 0b 12 09 0a 01 02 42 01 02 4a 01 02")
TWO_RELATIONS = hexed(
    "00 00 00 0b 0a 07 4f 53 4d 44 61 74 61 18 22 0a 20 0a 02 0a 00 12 1a 22 0b 08 08 42 01 00 4a 01 02 52 01 00 22 0b"
    "08 09 42 01 00 4a 01 10 52 01 02"
)
TWO_RELATIONS_CUT = hexed(
    "00 00 00 0b 0a 07 4f 53 4d 44 61 74 61 18 24 0a 22 0a 04 0a 00 0a 00 12 1a 22 0b 08 08 42 01 01 4a 01 02 52 01 00"
    "22 0b 08 09 42 01 01 4a 01 10 52 01 02"
)
# A multipolygon of the node in the box and a way outside, in written form, and beside it a way and a relation that are not kept.
FAR_NODES = data(dense([1, 2, 3], [1, 1, 1], [1, 20_000_000, 20_000_000]))
FAR_WAY = data(way(7, [2, 3]))
MULTIPOLYGON = data(field(2, field(4, scalar(1, 8) + field(2, b"\x01") + field(3, b"\x02") + field(8, b"\x03\x03") + field(9, deltas([1, 7]))
                                   + field(10, b"\x00\x01"))), table=b"".join(field(1, text) for text in (b"", b"type", b"multipolygon", b"")))
WITH_MEMBERS = EMPTY_HEADER + FAR_NODES + FAR_WAY + data(way(9, [3])) + MULTIPOLYGON + data(relation(10, [(3, 0)]))


class Difference(Exception):
    """The program did otherwise than it has to."""


class Bench:
    """The program in a folder of its own, and the cases that were run."""

    def __init__(self, program: str, folder: str):
        self.folder = folder
        self.program = os.path.join(folder, "pbfcut_run")
        self.count = 0
        os.chmod(folder, 0o755)
        shutil.copy(program, self.program)
        os.chmod(self.program, 0o755)

    def case(self, name: str, words: list, **expected) -> bytes:
        """Runs one case, in a new folder; answers OUT's bytes, empty where there are none."""
        self.count += 1
        try:
            return Case(self, name, words, **expected).run()
        except Difference as difference:
            sys.exit(f"tests/program.py: {name}: {difference}")


class Case:
    def __init__(self, bench, name, words, *, given=None, status=0, stdout=b"", stderr=b"", out=None, files=None,
                 folders=(), locked=(), output=None, most=None, fifo=None, kept=()):
        self.bench = bench
        self.folder = os.path.join(bench.folder, f"case{bench.count}")
        self.words = words
        self.files = dict(files or {})
        if given is not None:
            self.files["in"] = given
        self.folders, self.locked, self.kept = folders, locked, kept
        self.status, self.stdout, self.stderr, self.out = status, stdout, stderr, out
        # the device that stands for standard output, the greatest length of a file, and what a pipe at IN gives, to how
        # many readers
        self.output, self.most, self.fifo = output, most, fifo

    def run(self) -> bytes:
        self.prepare()
        status, stdout, stderr = self.start()
        self.unlock()
        compare("exit status", self.status, status)
        compare("standard error", self.stderr, own_lines(stderr))
        if status == 1:
            compare("the line that names IN", True, b"\npbfcut: in: " in b"\n" + stderr)
        if self.output is None:
            compare("standard output", self.stdout, stdout)
        for name in self.kept:
            with open(os.path.join(self.folder, name), "rb") as file:
                compare(f"the bytes of {name}", self.files[name], file.read())
        path = os.path.join(self.folder, "out")
        found = None
        if os.path.isfile(path):
            with open(path, "rb") as file:
                found = file.read()
        if self.out != "any":
            compare("OUT", self.out, found)
        shutil.rmtree(self.folder)
        return found or b""

    def prepare(self):
        os.mkdir(self.folder)
        os.chmod(self.folder, 0o777)
        for name in self.folders:
            os.mkdir(os.path.join(self.folder, name))
        for name, content in self.files.items():
            with open(os.path.join(self.folder, name), "wb") as file:
                file.write(content)
        if self.fifo:
            os.mkfifo(os.path.join(self.folder, "in"), 0o666)
        for name in self.locked:
            path = os.path.join(self.folder, name)
            os.chmod(path, 0o555 if os.path.isdir(path) else 0)

    def unlock(self):
        """So that an ordinary user can look at what is there."""
        for name in self.locked:
            os.chmod(os.path.join(self.folder, name), 0o755)

    def limit(self):
        """In the program's process, before it begins."""
        signal.signal(signal.SIGXFSZ, signal.SIG_IGN)
        if self.most is not None:
            resource.setrlimit(resource.RLIMIT_FSIZE, (self.most, self.most))
        if self.locked and os.getuid() == 0:
            os.setgid(NOBODY)
            os.setuid(NOBODY)

    def start(self):
        target = open(self.output, "wb") if self.output else subprocess.PIPE
        words = [word if isinstance(word, bytes) else word.encode() for word in self.words]
        process = subprocess.Popen([self.bench.program.encode(), *words], cwd=self.folder, stdin=subprocess.DEVNULL,
                                   stdout=target, stderr=subprocess.PIPE, preexec_fn=self.limit, restore_signals=False)
        try:
            if self.fifo:
                feed_pipe(process, os.path.join(self.folder, "in"), *self.fifo)
            stdout, stderr = process.communicate(timeout=SECONDS)
        except subprocess.TimeoutExpired:
            process.kill()
            raise Difference(f"it still runs after {SECONDS} seconds")
        return process.returncode, stdout or b"", stderr


def feed_pipe(process, path: str, content: bytes, readers: int):
    """Gives a pipe at IN its content once it was opened for each pass, so that the first pass alone reads it. Where the
    program ends before, it gets nothing."""
    opened = f"/proc/{process.pid}/fd"
    pipe = None
    for _ in range(SECONDS * 20):
        try:
            # fails as long as nobody reads
            pipe = pipe or os.open(path, os.O_WRONLY | os.O_NONBLOCK)
            ends = [os.path.realpath(os.path.join(opened, name)) for name in os.listdir(opened)]
            if ends.count(os.path.realpath(path)) >= readers:
                os.write(pipe, content)
                break
        except OSError:
            pass
        if process.poll() is not None:
            break
        time.sleep(0.05)
    if pipe is not None:
        os.close(pipe)


def compare(what: str, expected, found):
    if callable(expected):
        if not expected(found):
            raise Difference(f"{what} is not as it has to be: {shown(found)}")
    elif expected != found:
        raise Difference(f"{what}: expected {shown(expected)}, found {shown(found)}")


def shown(value) -> str:
    text = repr(value)
    return text if len(text) < 2000 else text[:2000] + f".. ({len(value)} bytes)"


def told(text: str) -> bytes:
    """A line of standard error."""
    return f"pbfcut: {text}\n".encode()


def counted(nodes: int, ways: int, relations: int) -> bytes:
    return f"nodes {nodes} ways {ways} relations {relations}\n".encode()


def lines(*texts: str) -> bytes:
    return "".join(text + "\n" for text in texts).encode()


BOX = "--box=0,0,1,1"
SMART = ["extract", "-s", "smart", BOX]


# ---- the cases


def words_of_all_kinds(bench: Bench):
    commands = [b"extract", b"convert", b"check", b"show", b"blobs"]

    def helps(*parts):
        needed = [b"Usage: pbfcut", b"raw blobs", b"pbfcutz", b"Example", b"Exit status:", *parts]
        return lambda text: all(part in text for part in needed) and max(map(len, text.splitlines())) <= 80

    def lists_in_order(text: bytes) -> bool:
        return helps(*commands)(text) and re.findall(rb"^  ([a-z]+)  ", text, re.M) == commands

    def refuses(*parts):
        return lambda text: text.startswith(b"error: ") and all(part in text for part in [b"Usage: pbfcut", *parts])

    for asked in ["--help", "-h", "help"]:
        bench.case(f"help of the program by {asked}", [asked], stdout=lists_in_order)
        for command in commands:
            words = ["help", command.decode()] if asked == "help" else [command.decode(), asked]
            parts = [b"Usage: pbfcut " + command, b"<IN>"] + ([b"<OUT>"] if command in commands[:2] else [])
            parts += [b"--dates"] if command == b"show" else []
            parts += [b"--box", b"--bbox", b"--parents", b"--strategy", b"--types", b"degrees", b"west,south,east,north"] if command == b"extract" else []
            bench.case(f"help of {command.decode()} by {asked}", words, stdout=helps(*parts))
    for asked in ["--version", "-V"]:
        bench.case(f"the version by {asked}", [asked], stdout=b"pbfcut 1.0.0 (rattle-kit-13f logic dac8208d650f15bf)\n")
    for words, part in [
        ([], b"subcommand"),
        (["cut", "in"], b"'cut'"),
        (["blobs"], b"<IN>"),
        (["show"], b"<IN>"),
        (["check"], b"<IN>"),
        (["blobs", "in", "in"], b"'in'"),
        (["check", "--dates", "in"], b"'--dates'"),
        (["show", "--date", "in"], b"'--date'"),
        (["convert", "in"], b"<OUT>"),
        (["extract", "in", "out"], b"--box"),
        (["extract", BOX, "in"], b"<OUT>"),
        (["extract", BOX, BOX, "in", "out"], b"--box"),
        (["extract", BOX, "--bbox=0,0,1,1", "in", "out"], b"--box"),
        (["help", "cut"], b"'cut'"),
        (["check", "-o", "in"], b"tip: leave it out: this command writes no file\n"),
        (["extract", BOX, "in", "-o", "out"], b"'-o' found\n\n  tip: OUT is the last argument; leave out the option\n\nUsage: pbfcut extract"),
        (["extract", BOX, "in", "--output=out"], b"'--output' found\n\n  tip: OUT is the last argument; leave out the option\n\nUsage: pbfcut"),
        (["extract", BOX, "in", "-x", "out"], b"tip: to pass '-x' as a value"),
    ]:
        name = f"words that are no command: {words}"
        bench.case(name, words, given=THREE_DENSE, status=2, stderr=refuses(part))
    for words in [[b"check", b"\xff"], [b"\xfe", b"in"], [b"extract", b"--box=\xff", b"in", b"out"]]:
        name = f"words that are not UTF-8: {words}"
        bench.case(name, words, given=THREE_DENSE, status=2, stderr=refuses(b"UTF-8"))
    bench.case("a file whose name is not ASCII", ["check", "höhe"], files={"höhe": THREE_DENSE}, stdout=counted(3, 0, 0))
    bench.case("a file whose name begins with -", ["check", "--", "-h"], files={"-h": THREE_DENSE},
               stdout=counted(3, 0, 0))
    bench.case("a file of the name help", ["check", "help"], files={"help": THREE_DENSE}, stdout=counted(3, 0, 0))


def boxes(bench: Bench):
    for text, fault in [
        ("0,0,1", "Shape"),
        ("", "Shape"),
        ("0,0,1,1,1", "Shape"),
        ("0,0,1.,1", "Digit"),
        ("0,0,+1,1", "Digit"),
        ("0,0,1e0,1", "Digit"),
        ("0,0, 1,1", "Digit"),
        ("0,0,1.0000000000,1", "Digit"),
        ("0,0,181,1", "Range"),
        ("0,0,1,90.000000001", "Range"),
        ("2,0,1,1", "LeftOverRight"),
        ("0,2,1,1", "BottomOverTop"),
        ("2,2,1,1", "LeftOverRight"),
    ]:
        bench.case(f"the box {text!r}", ["extract", f"--box={text}", "in", "out"], given=THREE_DENSE, status=2,
                   stderr=told(f"box: {fault}"))
    bench.case("a box at fault, no IN, and an OUT that exists", ["extract", "--box=1,1,0,0", "in", "out"],
               files={"out": b"old"}, status=2, stderr=told("box: LeftOverRight"), out=b"old")
    london = field(1, scalar(1, zigzag(-500_000_000)) + scalar(2, zigzag(300_000_000))
                   + scalar(3, zigzag(51_700_000_000)) + scalar(4, zigzag(51_250_000_000)))
    edges = "-0.5,51.25,0.3,51.7"
    for box in [[f"--box={edges}"], ["--box", edges], [f"--bbox={edges}"], ["--bbox", edges]]:
        bench.case(f"a box whose first number is negative, as {box}", ["extract", *box, "in", "out"],
                   given=THREE_DENSE, stdout=counted(0, 0, 0), out=frame("OSMHeader", london + PLAIN_HEADER[19:]))
    bench.case("a box of its own that is none", ["extract", "--box", "-x", "in", "out"], given=THREE_DENSE, status=2,
               stderr=lambda text: text.startswith(b"error: "))


def progress(bench: Bench):
    """The report of each command that has one: a number of per cent for each pass, which rises to 100."""
    def reports(passes: int, end: bytes = b"", spared: tuple = ()):
        """Each pass to its end, but those that are spared since the file is sorted by type."""
        def holds(text: bytes) -> bool:
            told, shown = re.fullmatch(rb"((?:\rpass \d of \d: \d+ %  )+)\n(.*)", text, re.S).groups()
            numbers = [tuple(map(int, found)) for found in re.findall(rb"pass (\d) of (\d): (\d+) %", told)]
            complete = [(number, passes, 100) for number in range(1, passes + 1) if number not in spared]
            return numbers == sorted(set(numbers)) and all(last in numbers for last in complete) and shown == end \
                and {number for number, _, _ in numbers} == {number for number, _, _ in complete}
        return holds

    bench.case("progress of a smart extract that adds ways", [*SMART, "--progress", "in", "out"], given=WITH_MEMBERS, stdout=counted(3, 1, 1),
               stderr=reports(3), out=BOX_HEADER + FAR_NODES + FAR_WAY + MULTIPOLYGON)
    for words, passes, out in [
        (["check", "--progress", "in"], 1, None),
        (["show", "--progress", "in"], 2, None),
        (["convert", "--progress", "in", "out"], 2, PLAIN_HEADER + DENSE_FRAME),
        (["extract", "--progress", BOX, "in", "out"], 3, THREE_DENSE_CUT),
        (["extract", "--parents", BOX, "--progress", "in", "out"], 4, THREE_DENSE_CUT),
        ([*SMART, "--progress", "in", "out"], 3, THREE_DENSE_CUT),
    ]:
        bench.case(f"progress of {words}", words, given=THREE_DENSE, stdout=lambda text: len(text) > 0, out=out,
                   stderr=reports(passes, spared=tuple(range(2, passes)) if "extract" in words else ()))
    bench.case("progress of a file that is refused", ["check", "--progress", "in"], given=THREE_DENSE + b"\x00", status=1,
               stderr=reports(1, told(f"refused at {len(THREE_DENSE)}: 10 PrefixCut")))
    bench.case("progress of a pipe", ["check", "--progress", "in"], fifo=(THREE_DENSE, 1), stdout=counted(3, 0, 0),
               stderr=b"\rpass 1 of 1: 0 MB  \n")
    bench.case("no progress of blobs", ["blobs", "--progress", "in"], given=THREE_DENSE, status=2,
               stderr=lambda text: b"'--progress'" in text)


def digest(content: bytes, name: bytes) -> bytes:
    """The line of `sha256sum` for a file."""
    escaped = name.replace(b"\\", b"\\\\").replace(b"\n", b"\\n").replace(b"\r", b"\\r")
    mark = b"" if escaped == name else b"\\"
    return mark + hashlib.sha256(content).hexdigest().encode() + b"  " + escaped + b"\n"


def digests(bench: Bench):
    """The lines after the counts: those of IN, and of OUT where there is one."""
    for words, counts, out in [
        (["check", "--digests", "in"], (3, 0, 0), None),
        (["convert", "--digests", "in", "out"], (3, 0, 0), PLAIN_HEADER + DENSE_FRAME),
        (["extract", "--digests", BOX, "in", "out"], (2, 0, 0), THREE_DENSE_CUT),
        (["extract", BOX, "in", "out", "--parents", "--digests"], (2, 0, 0), THREE_DENSE_CUT),
        ([*SMART, "--digests", "in", "out"], (2, 0, 0), THREE_DENSE_CUT),
    ]:
        shown = counted(*counts) + digest(THREE_DENSE, b"in") + (digest(out, b"out") if out else b"")
        bench.case(f"digests of {words}", words, given=THREE_DENSE, stdout=shown, out=out)
    bench.case("digest of a pipe", ["check", "--digests", "in"], fifo=(THREE_DENSE, 1),
               stdout=counted(3, 0, 0) + digest(THREE_DENSE, b"in"))
    refused_with_digest(bench)
    for command in ["blobs", "show"]:
        bench.case(f"no digests of {command}", [command, "--digests", "in"], given=THREE_DENSE, status=2,
                   stderr=lambda text: b"'--digests'" in text)
    for name in [b"a\\b", b"a\nb", b"a\rb", b"\\\n\\n\r", "Stra\u00dfe \u6c34".encode()]:
        bench.case(f"digest of a file of the name {name}", ["check", "--digests", name], files={name.decode(): THREE_DENSE},
                   stdout=counted(3, 0, 0) + digest(THREE_DENSE, name))
    checked_by_sha256sum(bench)


def refused_with_digest(bench: Bench):
    """Before the refusal, how many bytes were read and their digest: up to the end of what is at fault, whatever stands after it."""
    unknown_text = hexed("00 00 00 0b 0a 07 4f 53 4d 44 61 74 61 18 12 0a 10 0a 02 0a 00 12 0a 1a 08 08 01 12 01 05 1a 01 00")
    first = len(EMPTY_HEADER)
    for given, read, fault in [
        (b"", 0, "0: 22 NoHeader"),
        (THREE_DENSE + b"\x00", len(THREE_DENSE) + 1, f"{len(THREE_DENSE)}: 10 PrefixCut"),
        (EMPTY_HEADER + b"\xff" * 9, first + 4, f"{first}: 11 HeaderLong"),
        (EMPTY_HEADER * 3, first + 4 + 13, f"{first}: 23 SecondHeader"),
        (EMPTY_HEADER + unknown_text + b"more", first + len(unknown_text), "46: 31 StringIndex"),
    ]:
        sum_line = digest(given[:read], f"first {read} bytes of in".encode())
        for words in [["check"], ["convert"], ["extract", BOX], ["extract", "--parents", BOX], SMART]:
            out = [] if words == ["check"] else ["out"]
            bench.case(f"{words} --digests, refused at {fault}", [*words, "--digests", "in", *out], given=given, status=1,
                       stderr=sum_line + told(f"refused at {fault}"), out=b"" if out else None)
    bench.case("a smart extract --digests of what isn't sorted", [*SMART, "--digests", "in", "out"], given=WAY_BEFORE_NODES, status=1, out=b"",
               stderr=digest(WAY_BEFORE_NODES, f"first {len(WAY_BEFORE_NODES)} bytes of in".encode()) + told("refused at 19: 61 Unsorted"))


def checked_by_sha256sum(bench: Bench):
    """One recipe for both programs: `sha256sum -c` says that the files are the ones that were read and written, and that a changed one isn't."""
    town = os.path.join(TOP, "sample", "town.osm.pbf")
    with open(town, "rb") as file:
        sample = file.read()
    os.symlink(bench.program, os.path.join(bench.folder, "pbfcutz"))
    for number, (program, given) in enumerate([(bench.program, sample), (os.path.join(bench.folder, "pbfcutz"), packed(sample))]):
        folder = os.path.join(bench.folder, f"sums{number}")
        os.mkdir(folder)
        names = [os.path.join(folder, name) for name in ("a\\ town\n\r.osm.pbf", "old\\town")]
        with open(names[0], "wb") as file:
            file.write(given)
        words = ["extract", "--digests", "--box=9.997,49.999,10.003,50.003", *map(os.path.basename, names)]
        printed = subprocess.run([program, *words], cwd=folder, capture_output=True, check=True).stdout

        def sound() -> bool:
            recipe = ["sh", "-c", "tail -n +2 | sha256sum -c --strict --quiet"]
            return subprocess.run(recipe, input=printed, cwd=folder, capture_output=True).returncode == 0

        if not sound():
            sys.exit(f"tests/program.py: sha256sum -c refuses the digests of {program}")
        for name in names:
            with open(name, "r+b") as file:
                first = file.read(1)
                file.seek(0)
                file.write(b"\x01")
                file.flush()
                if sound():
                    sys.exit(f"tests/program.py: sha256sum -c accepts the digests of {program} beside a changed {name!r}")
                file.seek(0)
                file.write(first)
        bench.count += 3


def files_that_cannot_be(bench: Bench):
    for command in ["blobs", "show", "check"]:
        bench.case(f"{command} of no file", [command, "in"], status=3, stderr=told("cannot open"))
        bench.case(f"{command} of a folder", [command, "in"], folders=["in"], status=3, stderr=told("read failed"))
        bench.case(f"{command} of a file that may not be read", [command, "in"], given=THREE_DENSE, locked=["in"],
                   status=3, stderr=told("cannot open"))
        bench.case(f"{command} to a full device", [command, "in"], given=THREE_DENSE, output="/dev/full", status=3,
                   stderr=told("write failed"))
    bench.case("help to a full device", ["--help"], output="/dev/full", status=3, stderr=told("write failed"))
    for words in [["convert"], ["extract", BOX], ["extract", "--parents", BOX], SMART]:
        name = " ".join(words)
        bench.case(f"{name} of no file", [*words, "in", "out"], status=3, stderr=told("cannot open"))
        bench.case(f"{name} of a folder", [*words, "in", "out"], folders=["in"], status=3, stderr=told("read failed"),
                   out=b"")
        bench.case(f"{name} to an OUT that exists", [*words, "in", "out"], given=THREE_DENSE, files={"out": b"old"},
                   status=3, stderr=told("OUT exists"), out=b"old", kept=["in"])
        bench.case(f"{name} to an OUT that exists, and no IN", [*words, "in", "out"], files={"out": b"old"}, status=3,
                   stderr=told("OUT exists"), out=b"old")
        bench.case(f"{name} to IN itself", [*words, "in", "in"], given=THREE_DENSE, status=3, stderr=told("OUT exists"),
                   kept=["in"])
        bench.case(f"{name} to a folder", [*words, "in", "there"], given=THREE_DENSE, folders=["there"], status=3,
                   stderr=told("OUT exists"), kept=["in"])
        bench.case(f"{name} to a device", [*words, "in", "/dev/full"], given=THREE_DENSE, status=3,
                   stderr=told("OUT exists"), kept=["in"])
        bench.case(f"{name} into no folder", [*words, "in", "none/out"], given=THREE_DENSE, status=3,
                   stderr=told("cannot open"), kept=["in"])
        bench.case(f"{name} into a folder that may not be written", [*words, "in", "there/out"], given=THREE_DENSE,
                   folders=["there"], locked=["there"], status=3, stderr=told("cannot open"), kept=["in"])
        bench.case(f"{name} to an OUT that may not be read", [*words, "in", "out"], given=THREE_DENSE,
                   files={"out": b"old"}, locked=["out"], status=3, stderr=told("cannot open"), out=b"old", kept=["in"])
        bench.case(f"{name}, whose counts go to a full device", [*words, "in", "out"], given=THREE_DENSE,
                   output="/dev/full", status=3, stderr=told("write failed"), out="any")
    bench.case("extract to a disk that is full after 100 bytes", ["extract", BOX, "in", "out"], given=THREE_DENSE,
               most=100, status=3, stderr=told("write failed"), out=THREE_DENSE_CUT[:100])


def cut_off(words: list, folder: str, begun: bool) -> tuple:
    """Status and standard error of a run if the reader of its text has ended; or ends once it has begun."""
    reading, writing = os.pipe()
    if not begun:
        os.close(reading)
    process = subprocess.Popen(words, cwd=folder, stdin=subprocess.DEVNULL, stdout=writing, stderr=subprocess.PIPE)
    os.close(writing)
    if begun:
        os.read(reading, 1)
        os.close(reading)
    errors = process.communicate(timeout=SECONDS)[1]
    return process.returncode, errors


def texts_that_nobody_reads(bench: Bench):
    """The reader of a text ends before it, as `head` does: both programs say nothing, with the status that a shell has for SIGPIPE."""
    folder = os.path.join(bench.folder, "unread")
    os.mkdir(folder)
    # the long texts don't fit into a buffer and a pipe
    for name, content in [("short", THREE_DENSE), ("long", EMPTY_HEADER + DENSE_FRAME * 20_000)]:
        with open(os.path.join(folder, name), "wb") as file:
            file.write(content)
    texts = [["show", "short"], ["show", "long"], ["blobs", "short"], ["blobs", "long"], ["check", "short"], ["--help"]]
    for name, more in [("pbfcut", []), ("pbfcutz", [["info", "short"]])]:
        program = shutil.copy(bench.program, os.path.join(folder, name))
        for words in texts + more:
            for begun in [False, True] if words[-1] == "long" else [False]:
                bench.count += 1
                compare(f"{name} {words} that nobody reads", (141, b""), cut_off([program, *words], folder, begun))
    bench.count += 1
    compare("counts that nobody reads", (141, b""), cut_off([bench.program, "convert", "short", "out"], folder, False))
    with open(os.path.join(folder, "out"), "rb") as file:
        compare("OUT then", PLAIN_HEADER + DENSE_FRAME, file.read())


def pipes(bench: Bench):
    """A pipe gives its bytes once. A command that reads IN more often refuses one at once, though nothing ever writes to it."""
    bench.case("check of a pipe", ["check", "in"], fifo=(THREE_DENSE, 1), stdout=counted(3, 0, 0))
    bench.case("blobs of a pipe", ["blobs", "in"], fifo=(THREE_DENSE, 1), stdout=lines("0 OSMHeader 2 0", "19 OSMData 25 23"))
    for words in [["show", "in"], ["convert", "in", "out"], ["extract", BOX, "in", "out"], ["extract", "--parents", BOX, "in", "out"], [*SMART, "in", "out"]]:
        bench.case(f"{words} of a pipe", words, fifo=(b"", 1), status=3, stderr=told("IN must be a file, not a pipe"))


def unread(descriptor: int) -> int:
    """How many bytes a pipe holds."""
    return int.from_bytes(fcntl.ioctl(descriptor, termios.FIONREAD, bytes(4)), sys.byteorder)


def files_that_change(bench: Bench):
    """The last byte of IN is another one from pass N on, and OUT is empty if that isn't the pass that writes."""
    path, out = os.path.join(bench.folder, "changing"), os.path.join(bench.folder, "changed")
    extract, parents, mixed = ["extract", BOX, path, out], ["extract", "--parents", BOX, path, out], EMPTY_HEADER + WAY_FRAME + DENSE_FRAME
    smart = [*SMART, path, out]
    # of a file that is sorted by type nothing is read between the first pass and the last, but the ways of a smart extract if it adds some
    for words, given, first, passes in [(["show", path], THREE_DENSE, 2, 2), (["convert", path, out], THREE_DENSE, 2, 2), (extract, mixed, 2, 3),
                                        (extract, THREE_DENSE, 3, 3), (parents, mixed, 2, 4), (parents, THREE_DENSE, 4, 4),
                                        (smart, WITH_MEMBERS, 2, 3), (smart, THREE_DENSE, 3, 3)]:
        for number in range(first, passes + 1):
            status, errors = run_with_change([bench.program, *words, "--progress"], path, given, out, number)
            compare(f"{words}, changed in pass {number}: status", 5, status)
            compare(f"{words}, changed in pass {number}: last line", told(f"input changed in pass {number}"), own_lines(errors).split(b"\n")[-2] + b"\n")
            if os.path.exists(out):
                compare(f"{words}, changed in pass {number}: OUT is empty", number < passes, os.path.getsize(out) == 0)
                os.unlink(out)
            bench.count += 1


def compressed_files_that_change(bench: Bench):
    """The same of pbfcutz, which compares its passes by a keyed hash, or with `--digests` by SHA-256. Then there is no OUT."""
    twin = os.path.join(bench.folder, "changing-pbfcutz", "pbfcutz")
    os.mkdir(os.path.dirname(twin))
    os.symlink(bench.program, twin)
    path, out = os.path.join(bench.folder, "changing"), os.path.join(bench.folder, "changed")
    mixed = EMPTY_HEADER + WAY_FRAME + DENSE_FRAME
    for options in [[], ["--digests"]]:
        extract, convert = ["extract", BOX, *options, path, out], ["convert", *options, path, out]
        parents, smart = ["extract", "--parents", BOX, *options, path, out], [*SMART, *options, path, out]
        show = [] if options else [(["show", path], THREE_DENSE, 2, 2)]
        for words, given, first, passes in [*show, (convert, THREE_DENSE, 2, 2), (extract, mixed, 2, 3), (extract, THREE_DENSE, 3, 3), (parents, mixed, 2, 4),
                                            (smart, WITH_MEMBERS, 2, 3)]:
            for number in range(first, passes + 1):
                for form, content in [("raw", given), ("compressed", packed(given))]:
                    status, errors = run_with_change([twin, *words, "--progress"], path, content, out, number)
                    name = f"pbfcutz {words} of a {form} file, changed in pass {number}"
                    compare(f"{name}: status", 5, status)
                    compare(f"{name}: last line", b"pbfcutz: input changed in pass %d\n" % number, own_lines(errors).split(b"\n")[-2] + b"\n")
                    compare(f"{name}: OUT is there", False, os.path.exists(out))
                    bench.count += 1


def run_with_change(words: list, path: str, given: bytes, out: str, number: int):
    """A run that finds the last byte of IN changed from pass N on. It can't get further before that is done: standard error is a pipe that
    has room for the progress of the passes before, and no more."""
    with open(path, "wb") as file:
        file.write(given)
    usual = subprocess.run(words, stdout=subprocess.DEVNULL, stderr=subprocess.PIPE, timeout=SECONDS).stderr
    if os.path.exists(out):
        os.unlink(out)
    reading, writing = os.pipe()
    fcntl.fcntl(writing, SET_PIPE_SIZE, PAGE)
    os.write(writing, bytes(PAGE - usual.index(b"\rpass %d of" % number) - 1))
    process = subprocess.Popen(words, stdout=subprocess.DEVNULL, stderr=writing)
    os.close(writing)
    while unread(reading) < PAGE - 1 and process.poll() is None:
        time.sleep(0.005)
    with open(path, "r+b") as file:
        file.seek(-1, os.SEEK_END)
        file.write(b"\x02")
    with open(reading, "rb") as file:
        errors = file.read()
    return process.wait(SECONDS), errors


def closed_descriptors(bench: Bench):
    """If standard input, output or error are closed, no file that is opened stands in for them: OUT has the answer and nothing else."""
    folder = os.path.join(bench.folder, "closed")
    os.mkdir(folder)
    given, out = os.path.join(folder, "in"), os.path.join(folder, "out")

    def close(numbers):
        for number in numbers:
            os.close(number)

    for count in (1, 2, 3):
        for closed in itertools.combinations(range(3), count):
            for words, content, answer in [(["convert"], THREE_DENSE, PLAIN_HEADER + DENSE_FRAME), (["extract", BOX], THREE_DENSE, THREE_DENSE_CUT),
                                           (["extract", BOX], THREE_DENSE + b"\x00", b"")]:
                with open(given, "wb") as file:
                    file.write(content)
                done = subprocess.run([bench.program, *words, "--progress", "--digests", given, out], stdin=subprocess.DEVNULL,
                                      stdout=subprocess.DEVNULL, stderr=subprocess.DEVNULL, timeout=SECONDS,
                                      preexec_fn=lambda: close(closed))
                compare(f"{words} with {closed} closed: status", 1 if not answer else 3 if 1 in closed else 0, done.returncode)
                for name, path, wanted in [("IN", given, content), ("OUT", out, answer)]:
                    with open(path, "rb") as file:
                        compare(f"{words} with {closed} closed: {name}", wanted, file.read())
                os.unlink(out)
                bench.count += 1


def refused(bench: Bench, name: str, given: bytes, fault: str, listed=None, whole_listing=None):
    """Of a file that is refused nothing is written, but for the lines of `blobs`, which may find it without a fault."""
    stop = {"status": 1, "stderr": told(f"refused at {fault}")}
    bench.case(f"check of {name}", ["check", "in"], given=given, **stop)
    bench.case(f"show of {name}", ["show", "in"], given=given, **stop)
    if listed is not None:
        bench.case(f"blobs of {name}", ["blobs", "in"], given=given, stdout=listed, **stop)
    if whole_listing is not None:
        bench.case(f"blobs of {name}", ["blobs", "in"], given=given, stdout=whole_listing)
    for words in [["convert"], ["extract", BOX], ["extract", "--parents", BOX], SMART]:
        bench.case(f"{' '.join(words)} of {name}", [*words, "in", "out"], given=given, out=b"", **stop)


def files_that_are_refused(bench: Bench):
    header_line = lines("0 OSMHeader 2 0")
    refused(bench, "an empty file", b"", "0: 22 NoHeader", listed=b"")
    for length, fault in [(3, "0: 10 PrefixCut"), (10, "0: 12 HeaderCut"), (18, "17: 13 BlobCut")]:
        refused(bench, f"a header cut after {length} bytes", EMPTY_HEADER[:length], fault, listed=b"")
    refused(bench, "a file cut inside its second blob", THREE_DENSE[:-1], "34: 13 BlobCut", listed=header_line)
    refused(bench, "two headers", EMPTY_HEADER * 2, "19: 23 SecondHeader", listed=header_line)
    refused(bench, "data before a header", DENSE_FRAME, "0: 24 DataFirst", listed=b"")
    refused(bench, "an unknown frame alone", hexed("000000070a03466f6f1800"), "11: 22 NoHeader",
            listed=lines('0 "Foo" 0 skipped'))
    refused(bench, "a header frame of 65,536 bytes", hexed("00010000") + bytes(65536), "0: 11 HeaderLong", listed=b"")
    prefix = EMPTY_HEADER[:16]
    refused(bench, "a header by zlib", prefix + hexed("021a00"), "17: 17 Zlib", listed=b"")
    refused(bench, "a header raw and by zlib", prefix + hexed("040a001a00"), "19: 17 Zlib", listed=b"")
    refused(bench, "a header by zlib of 5 bytes", prefix + hexed("0510051a0178"), "19: 17 Zlib", listed=b"")
    refused(bench, "a block without a string table", EMPTY_HEADER + hexed("0000000b0a074f534d4461746118020a00"),
            "36: 25 Missing(1)", whole_listing=lines("0 OSMHeader 2 0", "19 OSMData 2 0"))
    history = hexed("0a172215") + b"HistoricalInformation"
    refused(bench, "a header with an unknown feature", prefix + hexed("19") + history, "19: 55 Feature",
            whole_listing=lines("0 OSMHeader 25 23"))
    cut_way = hexed(
        "00 00 00 0b 0a 07 4f 53 4d 44 61 74 61 18 15 0a 13 0a 02 0a 00 12 0d 1a 08 08 01 12 01 05 1a 01 00 1a 01 08"
    )
    refused(bench, "a way cut inside a number, behind one with an unknown text", EMPTY_HEADER + cut_way,
            "54: 1 VarintCut")
    one_way = hexed(
        "00 00 00 0b 0a 07 4f 53 4d 44 61 74 61 18 12 0a 10 0a 02 0a 00 12 0a 1a 08 08 01 12 01 05 1a 01 00"
    )
    refused(bench, "a way with an unknown text", EMPTY_HEADER + one_way, "46: 31 StringIndex")
    two_nodes = hexed("0a 02 02 02 42 02 02 00 4a 02 02 00")
    refused(bench, "two nodes and one end of tags",
            EMPTY_HEADER + data(field(2, field(2, two_nodes + hexed("52 01 00")))), "42: 41 KeysVals")
    big = hexed("0a 0a 80 80 80 80 80 80 80 80 80 01 42 01 02 4a 01 02")
    refused(bench, "a node with the id 2^62", EMPTY_HEADER + data(field(2, field(2, big))), "44: 42 OutOfRange")
    long_payload = field(15, bytes(33_554_427))
    refused(bench, "a payload of 33,554,432 bytes", frame("OSMHeader", long_payload), "20: 16 RawLong", listed=b"")


def files_that_are_accepted(bench: Bench):
    """The commands that write nothing."""

    def accepts(name, given, counts, text=None, listing=None):
        bench.case(f"check of {name}", ["check", "in"], given=given, stdout=counted(*counts), kept=["in"])
        if text is not None:
            bench.case(f"show of {name}", ["show", "in"], given=given, stdout=text)
        if listing is not None:
            bench.case(f"blobs of {name}", ["blobs", "in"], given=given, stdout=listing)

    accepts("an empty header", EMPTY_HEADER, (0, 0, 0), b"", lines("0 OSMHeader 2 0"))
    three = lines("N 10 100 100", "N 11 -100 100", "N 15 100 100")
    accepts("three dense nodes", THREE_DENSE, (3, 0, 0), three, lines("0 OSMHeader 2 0", "19 OSMData 25 23"))
    accepts("three dense nodes whose ids are in three pieces", THREE_DENSE_IN_PIECES, (3, 0, 0), three)
    accepts("a way before its nodes", WAY_BEFORE_NODES, (2, 1, 0),
            lines("W 7 n1 n2 n3", "N 1 100 100", "N 2 -100 100"))
    accepts("a node with an empty key", EMPTY_KEY, (1, 0, 0), lines('N 1 100 100 ""="a"'))
    tagged = 'N 1 100 100 v2 t1234567890000 s"ann" "highway"="stop"'
    accepts("a node with metadata", TAGGED_NODE, (1, 0, 0), lines(tagged))
    dated = tagged.replace("t1234567890000", "t2009-02-13T23:31:30.000Z")
    bench.case("show --dates of a node with metadata", ["show", "--dates", "in"], given=TAGGED_NODE, stdout=lines(dated))
    bench.case("show of a node with metadata, --dates behind", ["show", "in", "--dates"], given=TAGGED_NODE,
               stdout=lines(dated))
    two = field(2, field(2, hexed("0a 02 02 02 42 02 02 00 4a 02 02 00")))
    accepts("two nodes without an end of tags", EMPTY_HEADER + data(two), (2, 0, 0),
            lines("N 1 100 100", "N 2 100 100"))
    accepts("a node with the id 2^62 - 1", EMPTY_HEADER + data(dense([2**62 - 1], [1], [1])), (1, 0, 0),
            lines("N 4611686018427387903 100 100"))
    header = EMPTY_HEADER[4:17] + hexed("7aeeff03") + bytes(65518)
    accepts("a header frame of 65,535 bytes", hexed("0000ffff") + header + hexed("0a00"), (0, 0, 0), b"")
    accepts("a payload of 33,554,431 bytes", frame("OSMHeader", field(15, bytes(33_554_426))), (0, 0, 0), b"")


def extracts(bench: Bench):
    def cuts(name, given, counts, out, *options):
        made = bench.case(f"extract {' '.join(options)} of {name}", ["extract", *options, BOX, "in", "out"],
                          given=given, stdout=counted(*counts), out=out, kept=["in"])
        if made:
            again = ["extract", *options, BOX, "in", "out"]
            bench.case(f"extract {' '.join(options)} of an extract of {name}", again, given=made,
                       stdout=counted(*counts), out=made)
        return made

    cuts("an empty header", EMPTY_HEADER, (0, 0, 0), BOX_HEADER)
    cuts("three dense nodes", THREE_DENSE, (2, 0, 0), THREE_DENSE_CUT)
    cuts("three dense nodes", THREE_DENSE, (2, 0, 0), THREE_DENSE_CUT, "-s", "complete_ways", "--set-bounds", "--fsync", "-fpbf", "-Fpbf",
         "--progress", "--no-progress")
    cuts("three dense nodes whose ids are in three pieces", THREE_DENSE_IN_PIECES, (2, 0, 0), THREE_DENSE_CUT)
    made = cuts("a way before its nodes", WAY_BEFORE_NODES, (2, 1, 0), BOX_HEADER + WAY_FRAME + NODE_FRAME)
    if made:
        text = lines("H bbox 0 0 1000000000 1000000000", 'H required "OsmSchema-V0.6"', 'H required "DenseNodes"',
                     'H program "pbfcut"', "W 7 n1 n2 n3", "N 1 100 100", "N 2 -100 100")
        bench.case("show of an extract", ["show", "in"], given=made, stdout=text)
    cuts("a node with an empty key", EMPTY_KEY, (1, 0, 0), EMPTY_KEY_CUT)
    edge_of_range = dense([-(2**62 - 1), 0, 2**62 - 1], [1, -1, 1], [1, 1, 1])
    column = hexed("0a13fdffffffffffffff7ffcffffffffffffffff01")
    cuts("nodes with the least and the greatest id", EMPTY_HEADER + data(edge_of_range), (2, 0, 0),
         lambda found: column in found)
    same_ids = EMPTY_HEADER + data(dense([1, 1], [1, -1], [1, 1])) + data(way(7, [1]), way(7, [2]))
    cuts("two nodes and two ways with one id", same_ids, (2, 1, 0), lambda found: found.startswith(BOX_HEADER))
    members = EMPTY_HEADER + NODE_IN_BOX + data(relation(8, [(1, 0)]), relation(9, [(8, 2)]))
    cuts("a relation of a relation", members, (1, 0, 1), lambda found: found.startswith(BOX_HEADER + NODE_IN_BOX))
    offset_extracts(bench)
    blocks_that_are_cut(bench)
    parents(bench, cuts)
    smart(bench, cuts)


def offset_extracts(bench: Bench):
    """A node at 999 nanodegrees, on the corner of the box, and one beside it."""
    scale = "8801e8079801ffffffffffffffffff01a001ffffffffffffffffff01"
    words = ["extract", "--box=0.000000999,0.000000999,1,1", "in", "out"]
    kept = EMPTY_HEADER + data(dense([1], [1], [1]), rest=hexed(scale))
    bench.case("extract of a node on the corner", words, given=kept, stdout=counted(1, 0, 0),
               out=lambda found: found.endswith(hexed(scale)))
    beside = scale.replace("9801ff", "9801fe")
    dropped = EMPTY_HEADER + data(dense([1], [1], [1]), rest=hexed(beside))
    bench.case("extract of a node beside the corner", words, given=dropped, stdout=counted(0, 0, 0),
               out=lambda found: b"OSMHeader" in found and b"OSMData" not in found)


def blocks_that_are_cut(bench: Bench):
    for count, frames in [(8000, 2), (8001, 3)]:
        given = EMPTY_HEADER + data(dense(list(range(1, count + 1)), [1] * count, [1] * count))
        made = bench.case(f"extract of {count} nodes", ["extract", BOX, "in", "out"], given=given,
                          stdout=counted(count, 0, 0), out=lambda found: found.startswith(BOX_HEADER))
        if made:
            bench.case(f"blobs of the extract of {count} nodes", ["blobs", "in"], given=made,
                       stdout=lambda text, frames=frames: text.count(b"\n") == frames)
    for length, fits in [(11_999_775, True), (11_999_776, False)]:
        table = field(1, b"") + field(1, b"k") + field(1, bytes(length))
        member = field(2, b"\x01") + field(3, b"\x02") + field(8, b"\x00") + field(9, b"\x02") + field(10, b"\x00")
        group = field(2, field(4, scalar(1, 8) + member))
        given = EMPTY_HEADER + data(group, table=table)
        words = ["convert", "in", "out"]
        if fits:
            bench.case("convert of a relation of the greatest weight", words, given=given, stdout=counted(0, 0, 1),
                       out=lambda found: found.startswith(PLAIN_HEADER))
        else:
            at = len(given) - len(group) + 2
            refused(bench, "a relation over the greatest weight", given, f"{at}: 43 EntityLarge")
    for length, fits in [(12_000_000, True), (12_000_001, False)]:
        given = frame("OSMHeader", field(17, bytes(length)))
        bench.case(f"check of a header with a source of {length} bytes", ["check", "in"], given=given,
                   stdout=counted(0, 0, 0))
        for words in [["convert", "in", "out"], ["extract", BOX, "in", "out"], [*SMART, "in", "out"]]:
            name = f"{words[0]} of a header with a source of {length} bytes"
            if fits:
                bench.case(name, words, given=given, stdout=counted(0, 0, 0), out=lambda found: len(found) > 12_000_000)
            else:
                bench.case(name, words, given=given, status=1, stderr=told("refused at 25: 43 EntityLarge"), out=b"")


def ways_of(rows: list) -> bytes:
    """A block of ways, each an id and two refs."""
    return data(field(2, b"".join(field(3, scalar(1, number) + field(8, deltas([first, last]))) for number, first, last in rows)))


def relations_of(rows: list, role: int, table: bytes) -> bytes:
    """A block of relations, each an id and the id of its one member, a way."""
    rest = field(10, b"\x01")
    made = [field(4, scalar(1, number) + field(8, bytes([role])) + field(9, deltas([member])) + rest) for number, member in rows]
    return data(field(2, b"".join(made)), table=table)


def in_blocks(rows: list) -> list:
    return [rows[begin:begin + 8000] for begin in range(0, len(rows), 8000)]


def millions(bench: Bench):
    """Some millions of entities, made by a rule, so that what is cut out of them is made by another. Of each 16,000 nodes the first 8,000 lie in
    the box and the others outside. 4,000 ways go from a node inside to one outside, and 4,000 have only nodes outside that no other way has;
    half of the relations have a way of the first sort."""
    parts, far = 101, 20_000_000
    given, nodes, ways, relations = [EMPTY_HEADER], [], [], []
    for part in range(parts):
        inside, outside, way_ids = 16_000 * part + 1, 16_000 * part + 8_001, 8_000 * part + 1
        for begin, lon in [(inside, 0), (outside, far)]:
            given.append(data(dense(list(range(begin, begin + 8000)), [0] * 8000, [lon] * 8000)))
        nodes += [(number, 0) for number in range(inside, outside)] + [(number, far) for number in range(outside, outside + 4000)]
        ways.append([(way_ids + i, inside + i, outside + i) for i in range(4000)])
        ways.append([(way_ids + 4000 + i, outside + 4000 + i, outside + 4000 + i) for i in range(4000)])
        relations.append([(4000 * part + i, way_ids + i) for i in range(2000)])
        relations.append([(4000 * part + 2000 + i, way_ids + 4000 + i) for i in range(2000)])
    given += [ways_of(rows) for rows in ways]
    given += [relations_of(rows, 0, b"\x0a\x00") for rows in relations]
    kept_ways, kept_relations = sum(ways[::2], []), sum(relations[::2], [])
    out = [BOX_HEADER]
    out += [data(dense([number for number, _ in rows], [0] * len(rows), [lon for _, lon in rows])) for rows in in_blocks(nodes)]
    out += [ways_of(rows) for rows in in_blocks(kept_ways)]
    out += [relations_of(rows, 1, b"\x0a\x00\x0a\x00") for rows in in_blocks(kept_relations)]
    given, wanted = b"".join(given), hashlib.sha256(b"".join(out)).digest()
    bench.case("check of millions", ["check", "in"], given=given, stdout=counted(16_000 * parts, 8_000 * parts, 4_000 * parts))
    for words in [[], ["--parents"], ["-s", "smart", "--types=any"]]:
        bench.case(f"extract {words} of millions", ["extract", *words, BOX, "in", "out"], given=given, kept=["in"],
                   stdout=counted(12_000 * parts, 4_000 * parts, 2_000 * parts), out=lambda found: hashlib.sha256(found).digest() == wanted)


def many_nodes(ids: range) -> bytes:
    """A block of nodes at one place, with these ids, one after the other."""
    zeros = bytes(len(ids))
    return data(field(2, field(2, field(1, varint(zigzag(ids[0])) + b"\x02" * (len(ids) - 1)) + field(8, zeros) + field(9, zeros))))


def twenty_million(bench: Bench):
    """Twenty million nodes, of which all are kept: no set of ids is too small for them."""
    count, part = 20_000_000, 1_000_000
    given = EMPTY_HEADER + b"".join(many_nodes(range(begin + 1, begin + part + 1)) for begin in range(0, count, part))
    blocks = hashlib.sha256(BOX_HEADER)
    plain = hashlib.sha256(PLAIN_HEADER)
    for begin in range(0, count, 8000):
        block = many_nodes(range(begin + 1, begin + 8001))
        blocks.update(block)
        plain.update(block)
    bench.case("check of twenty million", ["check", "in"], given=given, stdout=counted(count, 0, 0))
    for words, wanted in [(["convert"], plain), (["extract", BOX], blocks), (["extract", "--parents", BOX], blocks)]:
        bench.case(f"{words} of twenty million", [*words, "in", "out"], given=given, stdout=counted(count, 0, 0),
                   out=lambda found, wanted=wanted: hashlib.sha256(found).digest() == wanted.digest())
    path, shown, wanted = os.path.join(bench.folder, "many"), hashlib.sha256(), hashlib.sha256()
    with open(path, "wb") as file:
        file.write(given)
    with subprocess.Popen([bench.program, "show", path], stdout=subprocess.PIPE) as process:
        while piece := process.stdout.read(1 << 20):
            shown.update(piece)
    for begin in range(0, count, 100_000):
        wanted.update("".join([f"N {number} 0 0\n" for number in range(begin + 1, begin + 100_001)]).encode())
    if process.returncode or shown.digest() != wanted.digest():
        sys.exit("tests/program.py: show of twenty million: another text")
    os.unlink(path)
    bench.count += 1


def parents(bench: Bench, cuts):
    given = EMPTY_HEADER + NODE_IN_BOX + TWO_RELATIONS
    cuts("two relations, one in the other", given, (1, 0, 2), BOX_HEADER + NODE_IN_BOX + TWO_RELATIONS_CUT, "--parents")
    cuts("two relations, one in the other", given, (1, 0, 1), lambda found: len(found) == 146)
    chain = data(*[relation(*pair) for pair in [
        (10, [(9, 2)]), (9, [(8, 2)]), (8, [(1, 0)]), (11, [(12, 2)]), (12, [(11, 2)]), (13, [(13, 2)])]])
    made = cuts("relations in a chain and in circles", EMPTY_HEADER + NODE_IN_BOX + chain, (1, 0, 3),
                lambda found: found.startswith(BOX_HEADER + NODE_IN_BOX), "--parents")
    if made:
        bench.case("show of an extract with parents", ["show", "in"], given=made, stdout=lambda text: text.endswith(
            lines("N 1 100 100", 'R 10 r9@""', 'R 9 r8@""', 'R 8 n1@""')))
    twice = data(relation(8, [(1, 0)]), relation(8, [(2, 0)]), relation(9, [(8, 2)]))
    cuts("two relations with one id", EMPTY_HEADER + NODE_IN_BOX + twice, (1, 0, 2),
         lambda found: found.startswith(BOX_HEADER + NODE_IN_BOX), "--parents")


def smart(bench: Bench, cuts):
    cuts("a multipolygon with a way outside", WITH_MEMBERS, (3, 1, 1), BOX_HEADER + FAR_NODES + FAR_WAY + MULTIPOLYGON, "-s", "smart")
    cuts("a multipolygon with a way outside", WITH_MEMBERS, (1, 0, 1), lambda found: found.endswith(MULTIPOLYGON), "-s", "smart", "--types=boundary")
    for name, given, at, fault in [
        ("a node after a way", WAY_BEFORE_NODES, 19, "61 Unsorted"),
        ("a way after a relation", EMPTY_HEADER + NODE_IN_BOX + MULTIPOLYGON + FAR_WAY, 19, "61 Unsorted"),
        ("a node after a relation", frame("Other", b"") + EMPTY_HEADER + MULTIPOLYGON + NODE_IN_BOX, len(frame("Other", b"")) + 19, "61 Unsorted"),
        ("a node after a way, and then a fault", WAY_BEFORE_NODES + b"\x00", len(WAY_BEFORE_NODES), "10 PrefixCut"),
    ]:
        bench.case(f"a smart extract of {name}", [*SMART, "in", "out"], given=given, status=1, stderr=told(f"refused at {at}: {fault}"), out=b"")


def conversions(bench: Bench):
    def converts(name, given, counts, out):
        made = bench.case(f"convert of {name}", ["convert", "in", "out"], given=given, stdout=counted(*counts), out=out,
                          kept=["in"])
        if made:
            bench.case(f"convert of a conversion of {name}", ["convert", "in", "out"], given=made,
                       stdout=counted(*counts), out=made)

    converts("an empty header", EMPTY_HEADER, (0, 0, 0), PLAIN_HEADER)
    converts("a node with metadata", TAGGED_NODE, (1, 0, 0), PLAIN_HEADER + TAGGED_FRAME)
    converts("three dense nodes", THREE_DENSE, (3, 0, 0), PLAIN_HEADER + DENSE_FRAME)
    converts("a way before its nodes", WAY_BEFORE_NODES, (2, 1, 0), PLAIN_HEADER + WAY_FRAME + NODE_FRAME)


def sample(bench: Bench):
    """The town of sample/, whose script writes it again; the numbers are those of sample/README.md."""
    made = os.path.join(bench.folder, "town.osm.pbf")
    subprocess.run([sys.executable, os.path.join(TOP, "sample", "town.py"), made], check=True)
    with open(made, "rb") as file:
        town = file.read()
    with open(os.path.join(TOP, "sample", "town.osm.pbf"), "rb") as file:
        if file.read() != town:
            sys.exit("tests/program.py: sample/town.osm.pbf isn't what sample/town.py writes")
    bench.case("the sample", ["check", "in"], given=town, stdout=counted(272, 64, 13))
    box = "--box=9.997,49.999,10.003,50.003"
    for words, counts, size in [(["convert"], (272, 64, 13), 8742), (["extract", box], (121, 23, 7), 4729),
                                (["extract", "--parents", box], (121, 23, 9), 4861),
                                (["extract", "-s", "smart", "--types=multipolygon,boundary", box], (127, 25, 9), 5047)]:
        name = " ".join(words)
        out = bench.case(f"{name} of the sample", [*words, "in", "out"], given=town, stdout=counted(*counts), out="any")
        if len(out) != size:
            sys.exit(f"tests/program.py: {name} of the sample: OUT has {len(out)} bytes and not {size}")
        bench.case(f"{name} of that", [*words, "in", "out"], given=out, stdout=counted(*counts), out=out)


def main():
    words = sys.argv[1:]
    program = words[0] if words else BUILT
    if len(words) > 1 or not os.access(program, os.X_OK):
        sys.exit(f"tests/program.py: no program at {program}\n{__doc__}")
    folder = tempfile.mkdtemp(prefix="pbfcut-program-")
    try:
        bench = Bench(program, folder)
        for part in [words_of_all_kinds, boxes, progress, digests, files_that_cannot_be, texts_that_nobody_reads, pipes, files_that_change, compressed_files_that_change, closed_descriptors,
                     files_that_are_refused, files_that_are_accepted, extracts, conversions, sample, millions, twenty_million]:
            part(bench)
    except Difference as difference:
        sys.exit(f"tests/program.py: {difference}")
    finally:
        shutil.rmtree(folder)
    print(f"tests/program.py: {bench.count} cases as they have to be")


if __name__ == "__main__":
    main()
