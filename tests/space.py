#!/usr/bin/env python3
"""Runs the commands over the largest blocks that a file may have, with only so much memory as is promised.

usage: tests/space.py PROGRAM

A call holds at most 67,108,864 bytes beside the sets of ids; the program and its libraries get 5,000,000 more. With less than it needs, a command
ends with `out of memory`, so a run that succeeds within this limit has kept to it. The box of `extract` has no node, so its sets of ids are empty.
"""
import os
import resource
import subprocess
import sys
import tempfile

TOP = os.path.dirname(os.path.abspath(__file__))
sys.dont_write_bytecode = True
sys.path.insert(0, TOP)

from program import EMPTY_HEADER, PLAIN_HEADER, BOX_HEADER, counted, field, frame

PROMISED = 67_108_864
PROGRAM = 5_000_000
SECONDS = 900


def block(group: bytes, table: bytes) -> bytes:
    return EMPTY_HEADER + frame("OSMData", field(1, table) + field(2, group))


def dense_nodes(count: int) -> bytes:
    """Dense nodes with the ids 1, 2, .. at one place, three bytes each."""
    zeros = bytes(count)
    return field(2, field(1, b"\x02" * count) + field(8, zeros) + field(9, zeros))


def files() -> dict:
    """Each file's name: its bytes, and the number of its nodes."""
    nodes = 11_000_100
    texts = 1_048_576
    return {
        "11,000,100 dense nodes in 33,000,329 bytes": (block(dense_nodes(nodes), b"\x0a\x00"), nodes),
        "a node, and 1,048,576 texts of 29 bytes": (block(dense_nodes(1), (b"\x0a\x1d" + bytes(29)) * texts), 1),
    }


def limit():
    resource.setrlimit(resource.RLIMIT_AS, (PROMISED + PROGRAM, PROMISED + PROGRAM))


def fault(words: list, stdout: bytes, out: str, begins: bytes) -> str:
    """What is out of place with a run, or nothing."""
    done = subprocess.run(words, capture_output=True, timeout=SECONDS, check=False, preexec_fn=limit)
    if (done.returncode, done.stdout, done.stderr) != (0, stdout, b""):
        return f"status {done.returncode}, {done.stdout!r}, {done.stderr!r}"
    if begins:
        with open(out, "rb") as file:
            if file.read(len(begins)) != begins:
                return "OUT begins with other bytes"
    return ""


def main():
    if len(sys.argv) != 2:
        sys.exit(__doc__)
    program, wrong, count = os.path.abspath(sys.argv[1]), [], 0
    with tempfile.TemporaryDirectory() as room:
        path, out = os.path.join(room, "in"), os.path.join(room, "out")
        for name, (given, nodes) in files().items():
            with open(path, "wb") as file:
                file.write(given)
            runs = [(["check", path], nodes, b""), (["convert", path, out], nodes, PLAIN_HEADER),
                    (["extract", "--box=50,50,51,51", path, out], 0, BOX_HEADER[:16]),
                    (["extract", "-s", "smart", "--box=50,50,51,51", path, out], 0, BOX_HEADER[:16])]
            for words, kept, begins in runs:
                if os.path.exists(out):
                    os.unlink(out)
                said = fault([program, *words], counted(kept, 0, 0), out, begins)
                wrong += [f"tests/space.py: {words[0]} of {name}: {said}"] if said else []
                count += 1
    if wrong:
        sys.exit("\n".join(wrong))
    print(f"tests/space.py: {count} runs within {PROMISED + PROGRAM:,} bytes")


if __name__ == "__main__":
    main()
