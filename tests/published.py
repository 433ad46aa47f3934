#!/usr/bin/env python3
"""Runs pbfcutz over compressed files, beside pbfcut over the raw files that they mean.

usage: tests/published.py PROGRAM [--all]

What a compressed file means is made here, with Python's zlib and the reference of vectors/, which shares no code with the program: each
frame with its payload raw. pbfcutz has to print and write of the compressed file what pbfcut does of the raw one, and to name the place of
a fault in the compressed one. OUT has to mean the raw file that pbfcut writes, to be it with --raw, and to be absent after a refusal. The files are the cases of vectors/, packed; the cases of the packing itself; the sample at several levels;
and damaged files, 250 or with --all 2,000. Where osmium is installed, it packs the sample, too.
"""

import os
import random
import re
import resource
import shutil
import signal
import subprocess
import sys
import tempfile
import zlib
from concurrent.futures import ThreadPoolExecutor
from dataclasses import dataclass
from typing import Optional

TOP = os.path.dirname(os.path.dirname(os.path.abspath(__file__)))
VECTORS = os.path.join(TOP, "vectors")
SAMPLE = os.path.join(TOP, "sample", "town.osm.pbf")
BOX = "--box=9.997,49.999,10.003,50.003"
SECONDS = 900
sys.dont_write_bytecode = True
sys.path.insert(0, VECTORS)

from packing import frame, spelled, varint
from reference_judge import header_faults, prefix_faults
from reference_wire import BLOB, BLOB_HEADER, RAW_LIMIT, Message
from suite import cases, own_lines
from zlib_cases import zlib_cases

KNOWN = (b"OSMHeader", b"OSMData")
RAW, RAW_SIZE, ZLIB = 1, 2, 3
DATA = {RAW, ZLIB, 4, 5, 6, 7}
LONGEST = 200_000
# by how much a frame gets longer at most if zlib finds nothing: a stored block's 11 bytes, raw_size, and longer numbers
MOST_LONGER = 24
COMMANDS = [["check", "in"], ["show", "--dates", "in"], ["blobs", "in"], ["convert", "in", "out"], ["extract", BOX, "in", "out"],
            ["extract", "--parents", BOX, "in", "out"], ["extract", "-s", "smart", "--types=any", BOX, "in", "out"]]


@dataclass
class Piece:
    """Bytes of a compressed file, and what they mean: where they stand in both files, and where in the raw one the payload stands that
    was unpacked."""

    packed: bytes
    packed_at: int
    raw: bytes = b""
    raw_at: int = 0
    payload_at: Optional[int] = None
    is_damaged: bool = False
    data_at: int = 0


def frame_at(data: bytes, at: int):
    """The type, the blob and the end of the whole frame that begins here; nothing where none does."""
    if prefix_faults(data, at):
        return None
    begin = at + 4 + int.from_bytes(data[at:at + 4], "big")
    header = Message(BLOB_HEADER, data[at + 4:begin], at + 4, at + 4)
    if header_faults(header):
        return None
    end = begin + header.last_number("datasize")
    return None if end > len(data) else (header.last_bytes("type"), Message(BLOB, data[begin:end], begin, begin), end)


def pieces_of(data: bytes):
    """The frames of a file, and last what is no whole frame."""
    at = 0
    while at < len(data):
        found = frame_at(data, at)
        if found is None:
            yield Piece(data[at:], at), b"", None
            return
        kind, blob, end = found
        yield Piece(data[at:end], at), kind, blob
        at = end


def last_of(blob: Message, number: int):
    return next((field for field in reversed(blob.occurrences) if field.number == number), None)


def forms_of(blob: Message) -> set:
    """The forms of data that a blob without a fault has."""
    return {field.number for field in blob.occurrences} & DATA if blob.wire_fault is None else set()


def payload_of(blob: Message) -> Optional[bytes]:
    """The payload of zlib data alone, if they are one whole stream of the length that raw_size says."""
    if forms_of(blob) != {ZLIB}:
        return None
    opener = zlib.decompressobj()
    try:
        payload = opener.decompress(last_of(blob, ZLIB).data, RAW_LIMIT)
    except zlib.error:
        return None
    size = blob.last_number("raw_size")
    is_whole = opener.eof and not opener.unused_data and len(payload) < RAW_LIMIT
    return payload if is_whole and size in (None, len(payload)) else None


def meaning_of(data: bytes) -> list:
    """The pieces of a compressed file with what they mean."""
    found, at = [], 0
    for piece, kind, blob in pieces_of(data):
        payload = payload_of(blob) if kind in KNOWN else None
        piece.raw_at = at
        piece.is_damaged = payload is None and kind in KNOWN and forms_of(blob) == {ZLIB}
        piece.data_at = last_of(blob, ZLIB).place if piece.is_damaged else 0
        piece.raw = piece.packed if payload is None else written(kind, payload)
        if payload is not None:
            piece.payload_at = at + len(piece.raw) - len(payload)
        at += len(piece.raw)
        found.append(piece)
    return found


def written(kind: bytes, payload: bytes) -> bytes:
    return frame(kind, spelled(RAW, payload))


def packed(data: bytes, level: int = 6) -> bytes:
    """The file with each raw blob of a known frame packed."""
    parts = []
    for piece, kind, blob in pieces_of(data):
        if kind in KNOWN and forms_of(blob) == {RAW}:
            payload = last_of(blob, RAW).data
            parts.append(frame(kind, varint(8 * RAW_SIZE) + varint(len(payload)) + spelled(ZLIB, zlib.compress(payload, level))))
        else:
            parts.append(piece.packed)
    return b"".join(parts)


def is_packed(data: bytes, raw: bytes) -> bool:
    """Whether each blob has zlib data, and none is much longer than what it was made of."""
    frames = [frame for frame in meaning_of(data) if frame.packed]
    return all(frame.packed != frame.raw for frame in frames) and len(data) <= len(raw) + MOST_LONGER * len(frames)


def unpacked(data: Optional[bytes]) -> Optional[bytes]:
    """The raw file that these bytes mean."""
    return None if data is None else b"".join(piece.raw for piece in meaning_of(data))


def place_of(offset: int, pieces: list) -> str:
    """How pbfcutz names a byte of the raw file."""
    piece = next((piece for piece in reversed(pieces) if piece.raw_at <= offset), None)
    if piece is None or piece.payload_at is None:
        beyond = offset - piece.raw_at if piece else 0
        return f"refused at {(piece.packed_at if piece else 0) + beyond}"
    if offset < piece.payload_at:
        return f"refused at {piece.packed_at}"
    return f"refused in the blob at {piece.packed_at}, byte {offset - piece.payload_at} of its payload"


def told_by_pbfcutz(said: str, pieces: list) -> str:
    """The line of pbfcut over the raw file, as pbfcutz has it over the compressed one."""
    refused = re.fullmatch(r"pbfcut: refused at (\d+): (.*)\n", said)
    if not refused:
        return said.replace("pbfcut:", "pbfcutz:", 1)
    place = place_of(int(refused[1]), pieces)
    if refused[2] == "17 Zlib":
        place = damaged_place(place, int(refused[1]), pieces)
    return f"pbfcutz: {place}: {refused[2]}\n"


def damaged_place(place: str, offset: int, pieces: list) -> str:
    """Of more than one occurrence of damaged zlib data the last counts, and it is the one that is named."""
    piece = next(piece for piece in reversed(pieces) if piece.raw_at <= offset)
    return f"refused at {piece.data_at}" if piece.is_damaged else place


class Folder:
    """A folder, and the files in it by their names."""

    def __init__(self, folder: str):
        self.folder = folder

    def path(self, name: str) -> str:
        return os.path.join(self.folder, name)

    def read(self, name: str) -> bytes:
        with open(self.path(name), "rb") as file:
            return file.read()

    def write(self, name: str, content: bytes):
        with open(self.path(name), "wb") as file:
            file.write(content)


class Bench:
    """Both programs, and files for one worker at a time."""

    def __init__(self, program: str, folder: str):
        self.pbfcut, self.folder = os.path.abspath(program), folder
        self.pbfcutz = os.path.join(folder, "pbfcutz")
        os.symlink(self.pbfcut, self.pbfcutz)
        self.count = 0

    def run(self, program: str, words: list, data: bytes) -> tuple:
        """Status, standard output, standard error, and OUT."""
        room = tempfile.mkdtemp(dir=self.folder)
        try:
            with open(os.path.join(room, "in"), "wb") as file:
                file.write(data)
            done = subprocess.run([program, *words], cwd=room, capture_output=True, timeout=SECONDS)
            out = os.path.join(room, "out")
            written_bytes = open(out, "rb").read() if os.path.exists(out) else None
            return done.returncode, done.stdout.decode(), own_lines(done.stderr).decode(), written_bytes
        finally:
            shutil.rmtree(room)

    def compare(self, name: str, words: list, data: bytes):
        """Runs both programs, and answers what is out of place."""
        self.count += 1
        pieces = meaning_of(data)
        status, said, line, out = self.run(self.pbfcut, words, b"".join(piece.raw for piece in pieces))
        found = self.run(self.pbfcutz, words, data)
        if "out" in words:
            # only pbfcutz takes away an OUT that isn't whole
            out = None if status else out
            # with --raw OUT is the raw file itself; otherwise it means that file, and each blob of it is packed, if it gets longer by a few bytes too
            raw = self.run(self.pbfcutz, [words[0], "--raw", *words[1:]], data)
            if raw != (*found[:3], out) or not is_packed(found[3] or b"", out or b""):
                return f"{name}: {words} with --raw: found {(raw[0], raw[1][:300], raw[2])!r}, beside {found[:2]!r}"
            found = (*found[:3], unpacked(found[3]))
        line = told_by_pbfcutz(line, pieces)
        # only pbfcutz says why zlib data are damaged
        told = re.sub(r": 17 Zlib: [A-Z]\w+\n$", ": 17 Zlib, damaged\n", found[2])
        if any(piece.is_damaged for piece in pieces):
            line = line.replace(": 17 Zlib\n", ": 17 Zlib, damaged\n")
        if (status, said, line, out) != (*found[:2], told, found[3]):
            return f"{name}: {words}: expected {(status, said[:300], line)!r}, found {(found[0], found[1][:300], told)!r}"
        return None


def suite_files():
    """The cases of the suite, packed, and those of the packing itself."""
    for case in cases([]):
        data = case.input()
        if len(data) <= LONGEST:
            yield case.name, ["check", "in"], packed(data)
            if zlib.crc32(case.name.encode()) % 8 == 0:
                yield case.name, ["show", "in"], packed(data)
                yield case.name, ["blobs", "in"], packed(data)
    for case in zlib_cases([]):
        yield case.name, ["show", "in"], case.data


def sample_files():
    """The sample, packed, through all commands."""
    with open(SAMPLE, "rb") as file:
        sample = file.read()
    for level in (0, 1, 6, 9):
        for words in COMMANDS:
            yield f"sample at level {level}", words, packed(sample, level)
    for words in COMMANDS:
        yield "sample, raw", words, sample
        if shutil.which("osmium"):
            yield "sample, packed by osmium", words, by_osmium()


def by_osmium() -> bytes:
    with tempfile.TemporaryDirectory() as folder:
        made = os.path.join(folder, "made.osm.pbf")
        subprocess.run(["osmium", "cat", SAMPLE, "-o", made], check=True, timeout=SECONDS)
        with open(made, "rb") as file:
            return file.read()


def damaged(data: bytes, chance: random.Random) -> bytes:
    """A file with one or two small faults."""
    spoiled = bytearray(data)
    for _ in range(chance.choice((1, 1, 2))):
        at = chance.randrange(len(spoiled) + 1)
        kind = chance.randrange(5)
        if kind == 0:
            del spoiled[at:]
        elif kind == 1:
            spoiled[at:at] = bytes(chance.randrange(256) for _ in range(chance.choice((1, 2, 9))))
        elif kind == 2:
            del spoiled[at:at + chance.choice((1, 2, 9))]
        else:
            spoiled[at:at + 1] = bytes([chance.randrange(256)])
        if not spoiled:
            break
    return bytes(spoiled)


def damaged_files(number: int):
    """Small cases and the sample with faults; the seed is fixed."""
    chance = random.Random(19)
    with open(SAMPLE, "rb") as file:
        files = [packed(file.read(), level) for level in (1, 6, 9)]
    small = [case.input() for case in cases(["three_dense_nodes_as", "way_with", "relation_of", "header_with_every", "unknown_frame"])]
    files += [packed(data) for data in small if 0 < len(data) < 2_000]
    for index in range(number):
        data = files[chance.randrange(3)] if index % 5 == 0 else chance.choice(files[3:])
        yield f"damaged file {index}", chance.choice(COMMANDS), damaged(data, chance)


def other_lines(bench: Bench):
    """What has no raw file beside it: digests, names and pipes."""
    with open(SAMPLE, "rb") as file:
        sample = file.read()
    data = packed(sample)
    digest = {name: subprocess.run(["sha256sum"], input=of, capture_output=True, check=True).stdout.decode()[:64]
              for name, of in (("packed", data), ("raw", b"".join(piece.raw for piece in meaning_of(data))))}
    _, said, _, _ = bench.run(bench.pbfcutz, ["check", "--digests", "in"], data)
    yield "digests of check", [f"{digest['packed']}  in", f"# unpacked {digest['raw']}"], said.splitlines()[1:]
    _, said, _, out = bench.run(bench.pbfcutz, ["extract", "--digests", BOX, "in", "out"], data)
    of_out, of_meaning = (subprocess.run(["sha256sum"], input=of, capture_output=True, check=True).stdout.decode()[:64] for of in (out, unpacked(out)))
    wanted = [f"{digest['packed']}  in", f"# unpacked {digest['raw']}", f"{of_out}  out", f"# unpacked {of_meaning}"]
    yield "digests of extract", wanted, said.splitlines()[1:]
    yield "all data of the extract compressed", {ZLIB}, {form for _, kind, blob in pieces_of(out) for form in forms_of(blob) if kind == b"OSMData"}
    yield "hardly longer than by zlib's level 1", True, len(out) <= len(packed(unpacked(out), 1)) * 1.05 + 100
    piped = subprocess.run([bench.pbfcutz, "check", "/dev/stdin"], input=data, capture_output=True, timeout=SECONDS)
    yield "check of a pipe", (0, bench.run(bench.pbfcut, ["check", "in"], sample)[1]), (piped.returncode, piped.stdout.decode())
    for words in ["--version"], ["help", "extract"], ["extract", "in"]:
        status, said, line, _ = bench.run(bench.pbfcutz, words, data)
        yield f"the name in {words}", True, "pbfcutz" in said + line and not re.search(r"\bpbfcut [a-z<]", said + line)
    yield "no file", (3, "", "pbfcutz: cannot open\n"), bench.run(bench.pbfcutz, ["check", "absent"], data)[:3]


def limited():
    """A process that can write no file of more than 4,000 bytes."""
    signal.signal(signal.SIGXFSZ, signal.SIG_IGN)
    resource.setrlimit(resource.RLIMIT_FSIZE, (4_000, 4_000))


def whole_or_absent(bench: Bench):
    """OUT of pbfcutz has its name only when it is whole, and nothing stays beside it."""
    with open(SAMPLE, "rb") as file:
        sample = file.read()

    def ends(given: dict, words: list, **how) -> tuple:
        """The status of a run, and the files that are there afterwards."""
        with tempfile.TemporaryDirectory(dir=bench.folder) as room:
            for name, data in given.items():
                with open(os.path.join(room, name), "wb") as file:
                    file.write(data)
            done = subprocess.run([bench.pbfcutz, *words], cwd=room, capture_output=True, timeout=SECONDS, **how)
            return done.returncode, sorted(os.listdir(room))

    cut = ["convert", "in", "out"]
    yield "a whole OUT", (0, ["in", "out"]), ends({"in": sample}, cut)
    yield "a refused IN", (1, ["in"]), ends({"in": sample[:-1]}, cut)
    yield "an OUT that is there", (3, ["in", "out"]), ends({"in": sample, "out": b"kept"}, cut)
    yield "what a killed run left", (0, ["in", "out", "out.1.0.part"]), ends({"in": sample, "out.1.0.part": b"left"}, cut)
    yield "a disk that is full", (3, ["in"]), ends({"in": sample}, ["convert", "--raw", "in", "out"], preexec_fn=limited)


def report(script: str, wrong: list, count: int, well: str):
    """Prints the first lines of what is out of place, and how many runs are; or that all went well."""
    for line in wrong[:20]:
        print(f"{script}: {line}")
    if wrong:
        sys.exit(f"{script}: {len(wrong)} of {count} runs are out of place")
    print(f"{script}: {count} {well}")


def main():
    if len(sys.argv) not in (2, 3) or sys.argv[2:] not in ([], ["--all"]):
        sys.exit(__doc__)
    with tempfile.TemporaryDirectory(prefix="pbfcut-published-") as folder:
        bench = Bench(sys.argv[1], folder)
        number = 2_000 if sys.argv[2:] else 250
        rows = [*suite_files(), *sample_files(), *damaged_files(number)]
        with ThreadPoolExecutor(os.cpu_count() or 1) as pool:
            wrong = [found for found in pool.map(lambda row: bench.compare(*row), rows) if found]
        for name, wanted, found in [*other_lines(bench), *whole_or_absent(bench)]:
            bench.count += 1
            if wanted != found:
                wrong.append(f"{name}: expected {wanted!r}, found {found!r}")
    report("tests/published.py", wrong, bench.count, "comparisons passed")


if __name__ == "__main__":
    main()
