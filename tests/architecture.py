#!/usr/bin/env python3
"""The map in docs/ARCHITECTURE.md is the tree's: it lists each crate once, with what it is for and its state, and each file of pbf_wire. Each file
of src/ begins with its concept, as the page says. The calls, clauses and definitions that the tables of promises name are in the sources. No
contract and no definition has a limit of the format as a numeral: each is a constant. A name of a free item means one thing in the product, but for
the calls that several layers have and for some short words. So it is with definitions.

usage: tests/architecture.py [PROGRAM]

PROGRAM is not run. Crates of tests and uses are not in the list of crates.
"""

import glob
import os
import re
import sys

TOP = os.path.dirname(os.path.dirname(os.path.abspath(__file__)))
PAGE = os.path.join(TOP, "docs", "ARCHITECTURE.md")


def read(path: str) -> str:
    with open(path, encoding="utf-8") as file:
        return file.read()


def section(text: str, heading: str) -> str:
    found = re.search(rf"^## {heading}\n(.*?)(?=^## |\Z)", text, re.M | re.S)
    if not found:
        sys.exit(f"tests/architecture.py: docs/ARCHITECTURE.md has no part '{heading}'")
    return found[1]


def rows(part: str) -> list:
    """The cells of the tables' rows, without the two lines of the head."""
    lines = [line for line in part.splitlines() if line.startswith("|")]
    return [[cell.strip() for cell in line.strip("|").split("|")] for line in lines[2:]]


def names(cell: str) -> list:
    return re.findall(r"`([^`]+)`", cell)


def twice(listed: list) -> list:
    return sorted({name for name in listed if listed.count(name) > 1})


def files_of(crate: str) -> list:
    return sorted(name for name in os.listdir(os.path.join(TOP, "crates", crate, "src")) if name.endswith(".rt"))


def without_concept(code: set) -> list:
    """The files of src/ that don't begin with their concept."""
    places = [f"crates/{crate}/src/{name}" for crate in sorted(code) for name in files_of(crate)]
    return [f"{place} doesn't begin with its concept, as '//! ..'" for place in places if not read(os.path.join(TOP, place)).startswith("//! ")]


def unlike_rows(table: list) -> list:
    """The rows of the crates that aren't a crate, what it is for, and its state."""
    sound = [len(row) == 3 and len(names(row[0])) == 1 and bool(row[1]) and row[2].startswith(("proved", "safe")) for row in table]
    return [f"crates: '{row[0]}' needs what it is for, and its state: proved or safe" for row, is_sound in zip(table, sound) if not is_sound]


def is_of_tests(name: str) -> bool:
    return name.endswith("tests") or name == "uses"


def words_of_sources(crates: set) -> set:
    found = set(crates)
    for crate in crates:
        for part in ("src", "specs"):
            for folder, _, files in os.walk(os.path.join(TOP, "crates", crate, part)):
                for name in files:
                    found |= set(re.findall(r"\w+", read(os.path.join(folder, name))))
    return found


def unknown_promises(words: set) -> list:
    """What the second and the third column of a table of promises name that no source has."""
    found = []
    for path in [os.path.join(TOP, "docs", "PROMISES.md"), *sorted(glob.glob(os.path.join(TOP, "crates", "*", "PROMISES.md")))]:
        for number, line in enumerate(read(path).splitlines(), 1):
            cells = line.split(" | ")
            if line.startswith("| ") and len(cells) > 2:
                named = re.findall(r"`([\w:]+)`", cells[1] + cells[2])
                found += [f"{os.path.relpath(path, TOP)}, line {number}: no source has '{name}'" for name in named if not set(name.split("::")) <= words]
    return found


def unknown_names(text: str, words: set) -> list:
    """The names that are said to stay, and that no source has."""
    named = {name for row in rows(section(text, "Stable API")) for cell in row for name in names(cell)}
    return [f"docs/ARCHITECTURE.md: no source has '{name}', which is to stay" for name in sorted(named - words) if not name.startswith("_")]


# The limits of the format as they are written in contracts and definitions.
NUMERALS = re.compile(r"2 \^ 62|2 \^ 63|\b(?:33554432|33555455|33620990|61620990|1048575|1048576|28000000|12000000|65536)\b")
# The range of a signed number of 64 bits is no limit of the format.
OF_64_BITS = {"pbf_wire/specs/Signed.antt", "pbf_wire/src/laws.rt", "osm_entity/specs/Ranges.antt"}


def numerals(crates: set) -> list:
    """The lines of contracts and definitions that have a limit as a numeral. The examples spell out what they compute with, and that of
    zlib and deflate is another format."""
    found = []
    for crate in sorted(crates - {"pbf_examples", "zlib", "deflate"}):
        for part in ("src", "specs"):
            folder = os.path.join(TOP, "crates", crate, part)
            for name in sorted(os.listdir(folder)) if os.path.isdir(folder) else []:
                place = f"{crate}/{part}/{name}"
                lines = enumerate(read(os.path.join(folder, name)).splitlines(), 1) if place not in OF_64_BITS else []
                found += [f"crates/{place}, line {number}: a limit of the format as a numeral" for number, line in lines
                          if NUMERALS.search(line) and not line.lstrip().startswith(("//", "--"))]
    return found


# calls that several layers have, each for its own kind of file or command
CALLS_OF_LAYERS = {
    "check", "check_with_receipt", "convert", "convert_with_receipt", "copy_with_receipt", "extract", "extract_parents",
    "extract_parents_sorted_with_receipt", "extract_sorted_with_receipt", "list_blobs", "show", "show_info", "show_with_receipt", "unpack",
}
# this many other names stand in two files or more, most of them short words such as `State`, `Place` and `put`
MOST_SHARED_NAMES = 20
# and this many names of definitions
MOST_SHARED_DEFINITIONS = 3
OF_EXAMPLES = {"digest_pass", "pbf_examples", "pbf_vectors", "run_examples", "zlib_examples", "zlib_streams"}
ITEM = re.compile(r"(?:pub(?:\([a-z]+\))? )?(?:const )?(?:fn|struct|enum|trait|const|static|type) (\w+)")
DEFINITION = re.compile(r"(?:(?:abbrev|unfoldable) pub|pub record|pub data|pub(?! (?:record|data|mod) )) (\S+)")


def shared_names(crates: set, part: str, ending: str, item: re.Pattern, most: int) -> list:
    """The names that stand in two files of a part of the crates or more, if they are too many."""
    places = {}
    for crate in crates:
        for path in glob.glob(os.path.join(TOP, "crates", crate, part, f"*.{ending}")):
            for found in filter(None, map(item.match, read(path).splitlines())):
                places.setdefault(found[1], set()).add(f"{crate}/{part}/{os.path.basename(path)}")
    shared = {name: where for name, where in places.items() if len(where) > 1 and name not in CALLS_OF_LAYERS | {"main"}}
    if len(shared) <= most:
        return []
    return [f"names: '{name}' is in {', '.join(sorted(where))}" for name, where in sorted(shared.items())]


def main():
    text = read(PAGE)
    lines = read(os.path.join(TOP, "crates.txt")).splitlines()
    crates = {line.split(":")[0].split(" ")[0] for line in lines if line.strip() and not line.startswith("#")}
    code = {crate for crate in crates if not is_of_tests(crate)}
    faults = unknown_promises(words_of_sources(crates))
    faults += numerals(code)
    faults += shared_names(code - OF_EXAMPLES, "src", "rt", ITEM, MOST_SHARED_NAMES)
    faults += shared_names(code - OF_EXAMPLES, "specs", "antt", DEFINITION, MOST_SHARED_DEFINITIONS)
    faults += unknown_names(text, words_of_sources(crates))
    link = os.path.join(TOP, "pbfcutz")
    if not os.path.islink(link) or os.readlink(link) != "pbfcut":
        faults.append("pbfcutz is not a link to pbfcut, by which ./pbfcutz runs the same program")

    def differ(what: str, listed: set, there: set):
        faults.extend(f"{what}: '{name}' is on the page, and not there" for name in sorted(listed - there))
        faults.extend(f"{what}: '{name}' is not on the page" for name in sorted(there - listed))

    table = rows(section(text, "The crates"))
    listed = [name for row in table for name in names(row[0])]
    faults += unlike_rows(table) + [f"crates: '{name}' is on the page twice" for name in twice(listed)]
    differ("crates", set(listed), code)
    files = [name for row in rows(section(text, "Files of pbf_wire")) for name in names(row[0])]
    faults += [f"pbf_wire: '{name}' is on the page twice" for name in twice(files)]
    differ("pbf_wire", set(files), {name[:-3] for name in files_of("pbf_wire")} - {"lib"})
    faults += without_concept(code)
    if faults:
        sys.exit("\n".join(f"tests/architecture.py: {fault}" for fault in faults))
    print(f"tests/architecture.py: the map has the {len(code)} crates of the tree, and each of their files begins with its concept")


if __name__ == "__main__":
    main()
