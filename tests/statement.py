#!/usr/bin/env python3
"""What docs/STATEMENT.md quotes is in the sources, word for word, and its counts are those of tools/statement.py.

usage: tests/statement.py [PROGRAM]      compares the page, and tests tools/statement.py
       tests/statement.py --write        writes the counts

PROGRAM is not run. A quote is a block of the page, and it is of the file that the last link above it leads to. Its pieces, between empty lines, are
whole ones of the file, but for a comment above them: a line `..` stands for lines that were left out. Of a file of code a piece may be any lines. A
name that is the text of a link to a file of definitions is defined there. What is under two small calls was counted by hand.
"""

import itertools
import os
import re
import subprocess
import sys

TOP = os.path.dirname(os.path.dirname(os.path.abspath(__file__)))
sys.dont_write_bytecode = True
sys.path.insert(0, os.path.join(TOP, "tools"))

from statement import CALLS, PROMISE, Sources, Statement, definitions_in, listed, printed, read, statements

PAGE = "docs/STATEMENT.md"
SCRIPT = os.path.join(TOP, "tools", "statement.py")
HEAD = f"| Call | Definitions | Lines | Under its clause `{PROMISE}` |\n|---|---|---|---|\n"
BLOCK = re.compile(r"^```\n(.*?)^```$", re.M | re.S)
LINK = re.compile(r"\]\(\.\./(crates/[\w/]+\.(?:antt|rt))\)")
# a page that is to be read in ten minutes has no more lines
MOST_LINES = 250

# by hand: the definitions under two calls, with the lines of each without comments
KNOWN = {
    "pbf_wire::get_varint": {"IsVarint": 5, "EndsOnce": 4, "value_of": 2, "IsCut": 3, "IsLong": 3, "varint_at": 7, "moved_by": 3},
    "osm_text::put_digest_line": {"digest_line": 3, "escape_mark": 2, "is_escaped": 2, "hex_byte": 2, "hex_digit": 2, "path_byte": 6},
}


def fail(what: str):
    sys.exit(f"tests/statement.py: {what}")


def pieces(text: str) -> list:
    """The parts of a text between empty lines, each a list of lines."""
    return [piece.splitlines() for piece in re.split(r"\n\s*\n", text.strip("\n"))]


def all_pieces(text: str):
    """Those of a file, with the comment above a definition and without it."""
    for piece in pieces(text):
        yield piece
        yield [*itertools.dropwhile(lambda line: line.startswith("--"), piece)]


def is_quoted(piece: list, whole: list) -> bool:
    """Whether a piece is this one of the file, but for lines that a line `..` stands for."""
    at, is_gap = 0, False
    for line in piece:
        if line == "..":
            is_gap = True
        else:
            at = whole.index(line, at) if is_gap and line in whole[at:] else at
            if whole[at:at + 1] != [line]:
                return False
            at, is_gap = at + 1, False
    return is_gap or at == len(whole)


def quotes(page: str) -> int:
    """How many pieces the page quotes, each of which is in its file."""
    count = 0
    for block in BLOCK.finditer(page):
        place = LINK.findall(page[:block.start()])[-1]
        text = read(place)
        for piece in pieces(block[1]):
            lines = "\n".join(piece) + "\n"
            if not (lines in text if place.endswith(".rt") else any(is_quoted(piece, whole) for whole in all_pieces(text))):
                fail(f"{PAGE} quotes what {place} doesn't say:\n{lines}")
            count += 1
    return count


def links(page: str) -> int:
    """How many definitions the page links to, each of which is in its file."""
    found = re.findall(r"\[`(\w+)`\]\(\.\./crates/(\w+)/specs/(\w+)\.antt\)", page)
    for name, crate, file in found:
        if name not in definitions_in(f"{crate}.specs.{file}", read("crates", crate, "specs", file + ".antt"))[0]:
            fail(f"{PAGE}: {file} of {crate} doesn't define '{name}'")
    return len(found)


def counts(found: list) -> str:
    """The table of the calls."""
    promises = {statement.call: len(statement.definitions) for statement in found if statement.clause}
    rows = [f"| [`{statement.call}`](../{statement.source}) | {len(statement.definitions)} | {statement.size} | {promises.get(statement.call, '')} |\n"
            for statement in found if not statement.clause]
    return HEAD + "".join(rows).replace("|  |", "| |")


def compare_counts(page: str, made: str):
    found = re.search(re.escape(HEAD) + r"(?:\|.*\n)*", page)
    if not found:
        fail(f"{PAGE} has no table that begins with '{HEAD.splitlines()[0]}'")
    if "--write" in sys.argv:
        with open(os.path.join(TOP, PAGE), "w", encoding="utf-8") as file:
            file.write(page.replace(found[0], made))
    elif found[0] != made:
        fail(f"{PAGE} doesn't have the counts of tools/statement.py: tests/statement.py --write")


def shares(page: str, sources: Sources):
    """Whose the definitions under the law are that says what a user finds after an extract."""
    definitions = Statement(sources, "pbfcut_program::run_of_extract").definitions
    of = {crate: sum(definition.module.startswith(crate + ".") for definition in definitions) for crate in ("pbfcut_program", "pbfcut_cli", "osm_polygon")}
    sentence = f"of the {len(definitions)} definitions under `run_of_extract` {of['pbfcut_program']} are the program's, {of['pbfcut_cli']} the command line's, " \
               f"{of['osm_polygon']} those of polygons"
    if sentence not in " ".join(page.split()):
        fail(f"{PAGE} doesn't say '{sentence}'")


def run(*words: str) -> tuple:
    done = subprocess.run([sys.executable, "-B", SCRIPT, *words], stdout=subprocess.PIPE, stderr=subprocess.PIPE, encoding="utf-8")
    return done.returncode, done.stdout, done.stderr


def known(sources: Sources):
    """What is under the calls that were counted by hand, and in which order."""
    for call, expected in KNOWN.items():
        found = Statement(sources, call)
        sizes = {definition.name: definition.size for definition in found.definitions}
        if sizes != expected:
            fail(f"under {call} are {sizes} and not {expected}")
        places = [(definition.module, definition.name) for definition in found.definitions]
        for place in places:
            if any(places.index(under) < places.index(place) for under in sources.names[place] if under in places):
                fail(f"{call}: a definition comes before '{place[1]}', which names it")
    # `Counting` of pbf_pass passes on what is in `Numbers` of pbf_block
    names = {definition.name: definition.module for definition in Statement(sources, "extract", PROMISE).definitions}
    if names.get("counts_of") != "pbf_block.specs.Numbers" or names.get("IsExtract") != "pbfcut.specs.Theorem" or "written_file" in names:
        fail(f"under the promise of extract counts_of is in {names.get('counts_of')}")


def script(sources: Sources, found: list):
    """What tools/statement.py prints: the list, a call, one clause, and no call that isn't there."""
    if [line.split()[0] for line in listed(found) if f": {PROMISE}" not in line] != list(CALLS):
        fail("tools/statement.py doesn't list the calls")
    status, text, _ = run("pbf_wire::get_varint")
    if status or not text.startswith("==== pbf_wire::get_varint: 7 definitions of 27 lines\n"):
        fail(f"tools/statement.py pbf_wire::get_varint ends with {status} and prints '{text[:80]}'")
    for lines in ("    requires { at ≤ length bytes.now }\n", "\n==== crates/pbf_wire/specs/Varint.antt\n",
                  "-- s is a spelling of v\npub record IsVarint (v : ℕ) (s : List ℕ) : Type 0 where\n  pub ended : EndsOnce s\n",
                  "laws: pbf_wire::laws::shortest_is_shortest\n", "std.specs.List: enumerate_from prefix_len sum_by\n"):
        if lines not in text:
            fail(f"tools/statement.py pbf_wire::get_varint doesn't print '{lines}'")
    text = "\n".join(printed(Statement(sources, "pbf_wire::get_varint", "cut")))
    if not text.startswith("==== pbf_wire::get_varint: cut: 1 definition of 3 lines\n") or "ensures long" in text:
        fail(f"tools/statement.py pbf_wire::get_varint cut prints '{text}'")
    for words in (["pbf_wire::nothing"], ["extract", "nothing"], ["--help"]):
        status, text, said = run(*words)
        if status != 1 or text or not said or "Traceback" in said:
            fail(f"tools/statement.py {' '.join(words)} ends with {status}")


def main():
    page, sources = read(PAGE), Sources()
    found = statements(sources)
    compare_counts(page, counts(found))
    quoted, linked = quotes(page), links(page)
    if page.count("\n") > MOST_LINES:
        fail(f"{PAGE} has more than {MOST_LINES} lines")
    shares(page, sources)
    known(sources)
    script(sources, found)
    print(f"tests/statement.py: {quoted} quotes and {linked} definitions of {PAGE} are in the sources, and {len(CALLS)} calls have its counts")


if __name__ == "__main__":
    main()
