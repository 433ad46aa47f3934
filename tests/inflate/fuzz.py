#!/usr/bin/env python3
"""Compares the crate zlib with Python's zlib on streams that are sound, damaged, cut, followed by more or too long.

usage: tests/inflate/fuzz.py PROGRAM [--count N] [--seed N]

PROGRAM is the built crate zlib_streams. A stream is accepted if zlib takes it, reaches its end, leaves no byte and makes no more than
the limit: then the length and the Adler-32 of what came out have to be zlib's. Every other stream has to be refused.
"""
import argparse
import collections
import random
import struct
import subprocess
import sys
import zlib

BATCH = 1000
STRATEGIES = [zlib.Z_DEFAULT_STRATEGY, zlib.Z_FILTERED, zlib.Z_HUFFMAN_ONLY, zlib.Z_RLE, zlib.Z_FIXED]


def payload(rng: random.Random, words: list) -> bytes:
    """Bytes of a kind that makes zlib take one way or another."""
    kind = rng.randrange(6)
    if kind == 0:
        return rng.randbytes(rng.randrange(400))
    if kind == 1:
        return bytes([rng.choice(b"ab")]) * rng.randrange(3000)
    if kind == 2:
        return bytes(rng.choice(b"abcd") for _ in range(rng.randrange(3000)))
    if kind == 3:
        skewed = [min(int(rng.expovariate(0.03)), 255) for _ in range(rng.randrange(4000))]
        return bytes(skewed)
    return b" ".join(rng.choice(words) for _ in range(rng.randrange(1200)))


def packed(rng: random.Random, data: bytes) -> bytearray:
    window, memory = rng.choice([9, 12, 15]), rng.choice([1, 8, 9])
    packer = zlib.compressobj(rng.choice([0, 1, 6, 9]), zlib.DEFLATED, window, memory, rng.choice(STRATEGIES))
    if data and rng.random() < 0.3:
        half = rng.randrange(len(data))
        flush = rng.choice([zlib.Z_SYNC_FLUSH, zlib.Z_FULL_FLUSH])
        return bytearray(packer.compress(data[:half]) + packer.flush(flush) + packer.compress(data[half:]) + packer.flush())
    return bytearray(packer.compress(data) + packer.flush())


def damaged(rng: random.Random, stream: bytearray, length: int) -> tuple:
    """The stream, whole or damaged, and the limit that it is read with."""
    limit, kind = length, rng.randrange(8)
    if kind < 4:
        limit += 3000
        for _ in range(rng.choice([1, 1, 2, 5])):
            front = min(len(stream), 40) if kind > 1 else len(stream)
            stream[rng.randrange(front)] ^= 1 << rng.randrange(8)
    elif kind == 4:
        del stream[rng.randrange(len(stream) + 1):]
    elif kind == 5:
        stream += rng.randbytes(rng.randrange(1, 4))
    elif kind == 6 and limit:
        limit -= rng.randrange(1, limit + 1)
    return bytes(stream), limit


def wanted(stream: bytes, limit: int) -> str:
    """What the program has to print, or nothing if it has to refuse the stream."""
    reader = zlib.decompressobj()
    try:
        out = reader.decompress(stream)
    except zlib.error:
        return ""
    sound = reader.eof and not reader.unused_data and len(out) <= limit
    return f"{len(out)} {zlib.adler32(out)}" if sound else ""


def main():
    parser = argparse.ArgumentParser()
    parser.add_argument("program")
    parser.add_argument("--count", type=int, default=2000)
    parser.add_argument("--seed", type=int, default=1)
    given = parser.parse_args()
    rng = random.Random(given.seed)
    words = [rng.randbytes(rng.randrange(1, 9)) for _ in range(300)]
    seen, differing = collections.Counter(), 0
    for begin in range(0, given.count, BATCH):
        cases = []
        for _ in range(min(BATCH, given.count - begin)):
            data = payload(rng, words)
            cases.append(damaged(rng, packed(rng, data), len(data)))
        frames = b"".join(struct.pack("<II", len(stream), limit) + stream for stream, limit in cases)
        run = subprocess.run([given.program], input=b"r\x01" + frames, capture_output=True, check=True)
        lines = run.stdout.decode().splitlines()
        if len(lines) != len(cases):
            sys.exit(f"tests/inflate/fuzz.py: {len(lines)} lines for {len(cases)} streams")
        for (stream, limit), line in zip(cases, lines):
            want = wanted(stream, limit)
            accepted = line[0].isdigit()
            seen["accepted" if accepted else line] += 1
            if (line != want) if want else accepted:
                differing += 1
                print(f"{line!r} for {want or 'a refusal'!r}: limit {limit}, {stream.hex()}", file=sys.stderr)
    outcomes = ", ".join(f"{name} {count}" for name, count in sorted(seen.items()))
    print(f"tests/inflate/fuzz.py: {given.count} streams, {differing} differ from zlib: {outcomes}")
    sys.exit(1 if differing else 0)


if __name__ == "__main__":
    main()
