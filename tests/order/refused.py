#!/usr/bin/env python3
"""The phases of the selection can't be called out of order: the compiler refuses each call of wrong.rt, and names the missing method.

usage: tests/order/refused.py FOLDER

FOLDER has the built libraries, FOLDER/NAME/out/rlib/NAME.rlib. It needs the toolchain, so tests/run leaves it out, and the gate calls it.
"""

import os
import re
import shutil
import subprocess
import sys
import tempfile

HERE = os.path.dirname(os.path.abspath(__file__))
TOP = os.path.dirname(os.path.dirname(HERE))
sys.dont_write_bytecode = True
sys.path.insert(0, os.path.join(TOP, "tools"))

from build import kit_folder, known_crates
from planted import Crate

# What is called of which type, in the order of the file; a `NodePhase` is an `InArea`.
WRONG = [("take_way", "InArea"), ("take_node", "WayPhase")]


def errors(libraries: str) -> list:
    """What the compiler says against the file as a crate of its own."""
    crates = known_crates() | {"order": ["osm_entity", "osm_ways"]}
    crate = Crate(kit_folder(), crates, "order", libraries, ["order"])
    with tempfile.TemporaryDirectory() as room:
        os.mkdir(os.path.join(room, "src"))
        shutil.copy(os.path.join(HERE, "wrong.rt"), os.path.join(room, "src", "lib.rt"))
        ran = subprocess.run(crate.words(), cwd=room, capture_output=True, text=True, errors="replace", check=False)
    return [line for line in ran.stderr.splitlines() if ": error" in line]


def main():
    if len(sys.argv) != 2:
        sys.exit(__doc__)
    found = errors(os.path.abspath(sys.argv[1]))
    missing = [re.search(r"no method named `(\w+)` found for type `(\w+)", error) for error in found]
    if [each and each.groups() for each in missing] != WRONG:
        sys.exit("\n".join(["tests/order/refused.py: the compiler does not say what it has to:", *found]))
    print(f"tests/order/refused.py: {len(WRONG)} calls out of order do not compile")


if __name__ == "__main__":
    main()
