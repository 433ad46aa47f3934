#!/usr/bin/env python3
"""Prints how many nodes, ways and relations OSM-binary's osmpbf-outline counts in a file."""

import re
import subprocess
import sys


def main(file: str) -> int:
    done = subprocess.run(["osmpbf-outline", file], capture_output=True, check=False)
    counts = dict.fromkeys((b"nodes", b"ways", b"relations"), 0)
    for kind, number in re.findall(rb"^ +(?:dense )?(nodes|ways|relations): (\d+)$", done.stdout, re.MULTILINE):
        counts[kind] += int(number)
    print("nodes {} ways {} relations {}".format(*counts.values()))
    sys.stderr.buffer.write(done.stderr)
    return 128 - done.returncode if done.returncode < 0 else done.returncode


if __name__ == "__main__":
    sys.exit(main(sys.argv[1]))
