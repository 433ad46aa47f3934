#!/usr/bin/env python3
"""Compares the crate deflate with Python's zlib: the size of the streams, and processor time over the same payloads, in turn.

usage: bench/deflate.py PROGRAM FILE [--rounds N] [--megabytes N]

PROGRAM is the built crate zlib_streams; FILE is a raw file. Each payload of its frames is packed by itself, as in a published file, up to so
many megabytes (20). A round packs all of them by zlib at level 1, by the program and by zlib at level 6. The times are the least of N rounds
(9); the machine may be busy, so the median of the ratios within a round comes beside them.
"""
import argparse
import os
import statistics
import struct
import subprocess
import sys
import tempfile
import time
import zlib

sys.path.insert(0, os.path.dirname(os.path.abspath(__file__)))
import wire  # noqa: E402

LEAST = 20_000_000  # so many bytes are packed in each run at least


def payloads(path: str, most: int) -> list:
    found, size = [], 0
    for _, _, payload in wire.frames(path):
        if size + len(payload) > most:
            break
        found.append(payload)
        size += len(payload)
    return found


def time_here(program: str, path: str) -> float:
    before = os.times()
    with open(path, "rb") as items:
        subprocess.run([program], stdin=items, stdout=subprocess.DEVNULL, check=True)
    return os.times().children_user - before.children_user


def time_zlib(data: list, again: int, level: int) -> float:
    before = os.times()
    for _ in range(again):
        for payload in data:
            zlib.compress(payload, level)
    return os.times().user - before.user


def size_here(program: str, path: str) -> int:
    """How long the streams are, each with its length before it."""
    with open(path, "rb") as items:
        out = subprocess.run([program], stdin=items, stdout=subprocess.PIPE, check=True).stdout
    total = at = 0
    while at < len(out):
        size = struct.unpack_from("<I", out, at)[0]
        total, at = total + size, at + 4 + size
    return total


def main():
    parser = argparse.ArgumentParser()
    parser.add_argument("program")
    parser.add_argument("file")
    parser.add_argument("--rounds", type=int, default=9)
    parser.add_argument("--megabytes", type=int, default=20)
    given = parser.parse_args()
    data = payloads(given.file, given.megabytes * 1_000_000)
    total = sum(map(len, data))
    again = min(200, -(-LEAST // total))
    with tempfile.NamedTemporaryFile() as file:
        file.write(b"p" + bytes([again]))
        file.write(b"".join(struct.pack("<II", len(payload), len(payload) + len(payload) // 512 + 32) + payload for payload in data))
        file.flush()
        times = {"level 1": [], "here": [], "level 6": []}
        for _ in range(given.rounds):
            times["level 1"].append(time_zlib(data, again, 1))
            times["here"].append(time_here(given.program, file.name))
            times["level 6"].append(time_zlib(data, again, 6))
        sizes = {f"level {level}": sum(len(zlib.compress(payload, level)) for payload in data) for level in (1, 6)}
        sizes["here"] = size_here(given.program, file.name)
    print(f"{len(data)} payloads, {total} bytes, {again} times")
    for name, seconds in times.items():
        ratio = statistics.median(first / other for first, other in zip(times["level 1"], seconds))
        print(f"{name}: {sizes[name]} bytes, {sizes[name] / sizes['level 6'] - 1:+.2%} beside level 6; "
              f"{min(seconds) / again / total * 1e9:.1f} ns a byte, {ratio:.2f} of the speed of level 1")


if __name__ == "__main__":
    main()
