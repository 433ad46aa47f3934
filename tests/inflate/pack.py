#!/usr/bin/env python3
"""Packs inputs of many kinds by the crate deflate, and reads the streams by Python's zlib, by libdeflate if it is there, and by the crate zlib.

usage: tests/inflate/pack.py PROGRAM [--count N] [--seed N]

PROGRAM is the built crate zlib_streams. Of each of N inputs (500) it is tested, too, that

- its stream is not much longer than that of zlib at level 1;
- there is none if there is less room than it takes;
- its stream is the same after other inputs.

Then blocks of map data are packed, which may get little longer than by zlib at level 6; and inputs of each kind that grow: over twice the bytes
packing may take 2.6 times as long, and no kind may take much longer than map data.
"""
import argparse
import ctypes
import os
import random
import struct
import subprocess
import sys
import tempfile
import zlib

BATCH = 500
PARTS = [b"high", b"way", b"name", b"strasse", b"nat", b"ur", b"al", b"in", b"er", b"tree", b"yes", b"se", b"rvice", b"_", b":", b"1", b"2"]
LENGTHS = [0, 1, 2, 3, 4, 7, 8, 9, 100, 257, 258, 259, 260, 4095, 4096, 4097, 32767, 32768, 32769, 65534, 65535, 65536, 65537, 131070, 131071]
SPARE = 8  # so many bytes of room more than a stream takes are enough
HEAD = 100  # and so many does a block with codes of its own take more at most than one with the fixed codes, which zlib chooses for few bytes
MOST_OVER_LEVEL_6 = 0.015
SIZES = (1, 2, 4, 8)
GROWING = 120_000  # bytes of the least size
MOST_GROWTH = 2.6
MOST_OVER_MAP_DATA = 4
LONG_ENOUGH = 0.05  # seconds that the least size takes at least, so that its growth says something
TRIES = 6


def copies(rng: random.Random, length: int, furthest: int) -> bytes:
    """Bytes many of which are copies of earlier ones, up to so far back."""
    out = bytearray(rng.randbytes(rng.randrange(1, 20)))
    while len(out) < length:
        if rng.random() < 0.4:
            out += rng.randbytes(rng.randrange(1, 9))
        else:
            distance = rng.randrange(1, min(len(out), furthest) + 1)
            for _ in range(rng.randrange(3, 300)):
                out.append(out[-distance])
    return bytes(out[:length])


def columns(rng: random.Random, length: int) -> bytes:
    """Small numbers after one another, as in packed columns of map data."""
    out = bytearray()
    while len(out) < length:
        width = rng.choice([0.02, 0.1, 0.5])
        out += bytes(min(int(rng.expovariate(width)), 255) for _ in range(rng.randrange(1, 3000)))
    return bytes(out[:length])


def varints(numbers: list) -> bytes:
    out = bytearray()
    for number in numbers:
        number = number << 1 if number >= 0 else (-number << 1) - 1
        while number > 127:
            out.append(number & 127 | 128)
            number >>= 7
        out.append(number)
    return bytes(out)


def map_block(rng: random.Random) -> bytes:
    """Like a block of 8,000 dense nodes: strings, and then columns of differences."""
    count = 8_000
    strings = b"".join(bytes([10, len(text)]) + text for text in [b"".join(rng.choices(PARTS, k=rng.randrange(1, 5))) for _ in range(600)])
    tags = b"".join(varints([-rng.randrange(300), rng.randrange(300), 0]) if rng.random() < 0.05 else b"\0" for _ in range(count))
    changes = [rng.random() < 0.2 for _ in range(count)]
    versions = [rng.choice([1, 1, 1, 2, 2, 3, 5]) for _ in range(count)]
    others = [varints([rng.randrange(-reach, reach) if is_new else 0 for is_new in changes]) for reach in (20_000_000, 3_000_000, 400_000, 100)]
    ids = [1 if rng.random() < 0.8 else int(rng.paretovariate(0.7)) % 1_000_000 for _ in range(count)]
    places = [varints([int(rng.gauss(0, 2_500 if rng.random() < 0.9 else 200_000)) for _ in range(count)]) for _ in range(2)]
    return b"".join([strings, varints(ids), varints(versions), *others, *places, tags])


def payload(rng: random.Random, words: list) -> bytes:
    length = rng.choice(LENGTHS) if rng.random() < 0.4 else int(rng.paretovariate(0.4) * 20) % 150_000
    kind = rng.randrange(8)
    if kind == 0:
        return rng.randbytes(length)
    if kind == 1:
        return rng.choice([b"\0", b"a", b"ab", b"abc", rng.randbytes(7), rng.randbytes(300)]) * length
    if kind == 2:
        return bytes(rng.choices(b"abcd", k=length))
    if kind == 3:
        return columns(rng, length)
    if kind == 4:
        return copies(rng, length, rng.choice([20, 300, 32768, 40000]))
    if kind == 5:
        return rng.randbytes(length // 2) + bytes(length // 3) + rng.randbytes(length // 5)
    if kind == 6:
        return bytes(place % 256 for place in range(length))
    return b" ".join(rng.choice(words) for _ in range(length // 5))


def items(inputs: list) -> bytes:
    return b"".join(struct.pack("<II", len(data), limit) + data for data, limit in inputs)


def packed(program: str, inputs: list) -> list:
    """The streams that the program makes of inputs with so much room each; empty ones where it makes none."""
    out = subprocess.run([program], input=b"p\x01" + items(inputs), capture_output=True, check=True).stdout
    streams, place = [], 0
    while place < len(out):
        size = struct.unpack_from("<I", out, place)[0]
        streams.append(out[place + 4:place + 4 + size])
        place += 4 + size
    if len(streams) != len(inputs):
        sys.exit(f"tests/inflate/pack.py: {len(streams)} streams for {len(inputs)} inputs")
    return streams


def libdeflate():
    """A reader of streams by libdeflate, or None where there is none."""
    try:
        library = ctypes.CDLL("libdeflate.so.0")
    except OSError:
        return None
    library.libdeflate_alloc_decompressor.restype = ctypes.c_void_p
    decompressor = ctypes.c_void_p(library.libdeflate_alloc_decompressor())

    def means(stream: bytes, data: bytes) -> bool:
        out = ctypes.create_string_buffer(len(data) + 1)
        size, read = ctypes.c_size_t(), ctypes.c_size_t()
        failed = library.libdeflate_zlib_decompress_ex(
            decompressor, stream, ctypes.c_size_t(len(stream)), out, ctypes.c_size_t(len(data)), ctypes.byref(read), ctypes.byref(size))
        return not failed and read.value == len(stream) and out.raw[:size.value] == data

    return means


def zlib_means(stream: bytes, data: bytes) -> bool:
    reader = zlib.decompressobj()
    try:
        return reader.decompress(stream) == data and reader.eof and not reader.unused_data
    except zlib.error:
        return False


def wrong(program: str, inputs: list, other) -> list:
    """What is wrong with the streams of a batch: pairs of a reason and an input."""
    rooms = [len(data) + len(data) // 512 + 32 for data in inputs]
    streams = packed(program, list(zip(inputs, rooms)))
    again = packed(program, [(data, len(stream) + SPARE) for data, stream in zip(inputs[::-1], streams[::-1])])[::-1]
    short = packed(program, [(data, max(0, len(stream) - 1)) for data, stream in zip(inputs, streams)])
    lines = subprocess.run([program], input=b"r\x01" + items([(s, len(d)) for s, d in zip(streams, inputs)]), capture_output=True, check=True)
    found = []
    for data, stream, second, less, line in zip(inputs, streams, again, short, lines.stdout.decode().splitlines()):
        level_1 = len(zlib.compress(data, 1))
        reasons = {
            "zlib reads something else": not zlib_means(stream, data),
            "libdeflate reads something else": other is not None and not other(stream, data),
            "the crate zlib reads something else": line != f"{len(data)} {zlib.adler32(data)}",
            "another stream after other inputs": second != stream,
            "a stream where there is no room": less != b"",
            "much longer than level 1": len(stream) > level_1 + level_1 // 16 + HEAD,
        }
        found += [(reason, data) for reason, holds in reasons.items() if holds]
    return found


def over_level_6(program: str, rng: random.Random) -> float:
    """By which part the streams of map data are longer than those of zlib at level 6."""
    blocks = [map_block(rng) for _ in range(20)]
    streams = packed(program, [(block, 2 * len(block)) for block in blocks])
    return sum(map(len, streams)) / sum(len(zlib.compress(block, 6)) for block in blocks) - 1


def map_data(rng: random.Random, length: int) -> bytes:
    return b"".join(map_block(rng) for _ in range(1 + length // 60_000))[:length]


def zeros(_: random.Random, length: int) -> bytes:
    return bytes(length)


def random_bytes(rng: random.Random, length: int) -> bytes:
    return rng.randbytes(length)


def equal_words(rng: random.Random, length: int) -> bytes:
    return b" ".join(rng.choices(PARTS, k=length // 2))[:length]


def equal_heads(rng: random.Random, length: int) -> bytes:
    """The same four bytes, over and over, each time with others after them: each has many earlier places to try."""
    return b"".join(b"head" + rng.randbytes(rng.randrange(1, 4)) for _ in range(length // 5))[:length]


def long_heads(rng: random.Random, length: int) -> bytes:
    """The same for copies that are nearly long enough to end the search."""
    return b"".join(b"the same twenty-nine bytes for" + rng.randbytes(1) for _ in range(length // 31 + 1))[:length]


def seconds(program: str, data: bytes, rounds: int) -> float:
    """How long the program takes to pack the data so often."""
    with tempfile.TemporaryFile() as file:
        file.write(b"p" + bytes([rounds]) + items([(data, len(data) + len(data) // 512 + 32)]))
        file.seek(0)
        before = os.times()
        subprocess.run([program], stdin=file, stdout=subprocess.DEVNULL, check=True)
        after = os.times()
    return after.children_user + after.children_system - before.children_user - before.children_system


def rounds_of(program: str, data: bytes) -> int:
    """How often the data has to be packed to take long enough."""
    rounds = 4
    while rounds < 255 and seconds(program, data, rounds) < LONG_ENOUGH:
        rounds = min(255, 2 * rounds)
    return rounds


def growth(program: str, make, rng: random.Random) -> tuple:
    """The nanoseconds for a byte of a kind, and how many times as long twice the bytes take at most: of each pair of sizes the least of some
    tries, since other processes may be in the way."""
    inputs = [make(rng, GROWING * size) for size in SIZES]
    rounds = rounds_of(program, inputs[0])
    found, least = [], [float("inf")] * (len(SIZES) - 1)
    for _ in range(TRIES):
        found.append([seconds(program, data, rounds) for data in inputs])
        least = [min(old, more / max(less, 0.001)) for old, less, more in zip(least, found[-1], found[-1][1:])]
        if max(least) <= MOST_GROWTH:
            break
    return min(times[-1] for times in found) / rounds / len(inputs[-1]) * 1e9, max(least)


def slow(program: str, rng: random.Random) -> int:
    """Prints how long each kind takes. Returns how many take too long."""
    kinds = [map_data, zeros, random_bytes, equal_words, equal_heads, long_heads]
    times = {make.__name__.replace("_", " "): growth(program, make, rng) for make in kinds}
    usual = times["map data"][0]
    failed = [name for name, (each, most) in times.items() if most > MOST_GROWTH or each > MOST_OVER_MAP_DATA * usual]
    for name, (each, most) in times.items():
        line = f"{name}: {each:.1f} ns a byte; twice the bytes take at most {most:.2f} times as long"
        print(f"tests/inflate/pack.py: {line}{', which is TOO LONG' if name in failed else ''}")
    return len(failed)


def main():
    parser = argparse.ArgumentParser()
    parser.add_argument("program")
    parser.add_argument("--count", type=int, default=500)
    parser.add_argument("--seed", type=int, default=1)
    given = parser.parse_args()
    rng = random.Random(given.seed)
    words = [rng.randbytes(rng.randrange(1, 9)) for _ in range(300)]
    other, failed = libdeflate(), 0
    for begin in range(0, given.count, BATCH):
        inputs = [payload(rng, words)[:200_000] for _ in range(min(BATCH, given.count - begin))]
        for reason, data in wrong(given.program, inputs, other):
            failed += 1
            print(f"{reason}: {len(data)} bytes, {data[:60].hex()}", file=sys.stderr)
    readers = "zlib, libdeflate and the crate zlib" if other else "zlib and the crate zlib; there is no libdeflate"
    print(f"tests/inflate/pack.py: {given.count} inputs packed, {failed} failures; read by {readers}")
    over = over_level_6(given.program, random.Random(given.seed))
    print(f"tests/inflate/pack.py: map data is {over:+.2%} beside level 6{', which is TOO LONG' if over > MOST_OVER_LEVEL_6 else ''}")
    failed += (over > MOST_OVER_LEVEL_6) + slow(given.program, rng)
    sys.exit(1 if failed else 0)


if __name__ == "__main__":
    main()
