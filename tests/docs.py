#!/usr/bin/env python3
"""Runs each command line that the pages, the manual pages and the help print, with the built program and the sample town.

usage: tests/docs.py PROGRAM

The lines of a block run one after the other, as they stand, in a folder that is laid out as the repository; if a block is marked
'console', what its lines print is compared with what the page says. A command inside a sentence runs by itself, with file names in place
of IN, OUT and the like; those of sample/README.md run in their order, and what its table says that they print is compared. Links between
the pages lead to files, and examples in Rattle are pieces of what the crates CALLERS prove. A command that needs what is not installed is
named and skipped, and so are those of ELSEWHERE.
"""

import os
import re
import shutil
import subprocess
import sys
import tempfile

TOP = os.path.dirname(os.path.dirname(os.path.abspath(__file__)))
SECONDS = 900
BLOCK = re.compile(r"^```(\w*)\n(.*?)^```$", re.M | re.S)
SPAN = re.compile(r"`([^`]+)`")
LITERAL = re.compile(r"^\.Bd -literal.*?\n(.*?)^\.Ed$", re.M | re.S)
COMMANDS = ["extract", "convert", "check", "show", "blobs"]
CALLERS = ["uses", "zlib_examples"]
README_LINES, README_WORDS, USING_WORDS = 81, 860, 2720

# what stands for the words of a command inside a sentence, and the values of a script's variables
GIVEN = ["IN", "RAW", "OUT"]
BOX = "9.997,49.999,10.003,50.003"
POLYGON = "london\n1\n9.997 49.999\n10.003 49.999\n10 50.003\nEND\nEND\n"
AREAS = '{"extracts": [{"output": "a.osm.pbf", "bbox": [%s]}, {"output": "b.osm.pbf", "polygon": {"file_name": "london.poly"}}]}' % BOX
HISTORY = """n1 v1 dV c1 t2010-01-01T00:00:00Z i1 ua x0.5 y0.5
n1 v2 dV c2 t2011-01-01T00:00:00Z i1 ua x0.6 y0.5
n2 v1 dV c1 t2010-01-01T00:00:00Z i1 ua x0.5 y0.5
n2 v2 dD c3 t2012-01-01T00:00:00Z i1 ua
"""

# what a command line begins with that is not run here, and what runs it or what it needs
ELSEWHERE = {
    "apt-get install": "a network",
    "vectors/run.py debian": "the readers of docs/CONFORMANCE.md",
    "vectors/run.py pbfcut": "run by tests/run",
    "PBFCUTZ=": "run by tests/suite.py",
    "bench/": "a large file",
    "python3 tools/build.py": "the toolchain",
    "crates/": "a program that the toolchain builds",
    "python3 tests/inflate/": "run by the gate",
}


def filled(words: list) -> str:
    """A command inside a sentence, with file names: the last word is a file that is made, but for a command that only reads."""
    last = "given.raw.osm.pbf" if {"show", "check", "-c", "tools/draw.py"} & set(words) else "made.osm.pbf"
    names = ["made.osm.pbf" if word == "OUT" else "given.raw.osm.pbf" if word in GIVEN else word for word in words]
    if words[-1] in GIVEN:
        names[-1] = last
    return " ".join(names).replace("COMMAND", "extract").replace("=BOX", "=" + BOX)


def fail(what: str):
    sys.exit(f"tests/docs.py: {what}")


def read(name: str) -> str:
    with open(os.path.join(TOP, name), encoding="utf-8") as file:
        return file.read()


def shell(command: str, folder: str):
    environment = {**os.environ, "box": BOX, "PATH": os.pathsep.join([folder, os.path.join(folder, "tools"), os.environ["PATH"]])}
    environment.pop("PBFCUTZ", None)
    return subprocess.run(["bash", "-o", "pipefail", "-c", command], cwd=folder, env=environment, stdin=subprocess.DEVNULL,
                          stdout=subprocess.PIPE, stderr=subprocess.STDOUT, timeout=SECONDS)


class Pages:
    def __init__(self, program: str, folder: str):
        self.folder, self.count, self.passed_over = folder, 0, set()
        self.model = os.path.join(folder, "model")
        os.mkdir(self.model)
        for name in ["tools", "sample", "docs"]:
            shutil.copytree(os.path.join(TOP, name), os.path.join(self.model, name))
        os.symlink(os.path.join(TOP, "vectors"), os.path.join(self.model, "vectors"))
        self.script("pbfcut", f"exec '{program}' \"$@\"")
        os.symlink(program, os.path.join(self.model, "pbfcutz"))
        self.script("my_reader", "exit 1")  # a reader that refuses all files

    def script(self, name: str, line: str):
        path = os.path.join(self.model, name)
        with open(path, "w", encoding="utf-8") as file:
            file.write(f"#!/bin/sh\n{line}\n")
        os.chmod(path, 0o755)

    def make(self, command: str):
        """Makes a file that the commands read."""
        done = shell(command, self.model)
        if done.returncode:
            fail(f"'{command}' ends with {done.returncode}: {done.stdout.decode()}")

    def runs(self, command: str) -> bool:
        """Whether this command is run here."""
        lacking = [name for name in ["osmium", "man"] if re.search(rf"\b{name} ", command) and not shutil.which(name)]
        self.passed_over.update(lacking)
        return not lacking and not any(command.startswith(start) for start in ELSEWHERE)

    def room(self) -> str:
        self.count += 1
        place = os.path.join(self.folder, f"room{self.count}")
        shutil.copytree(self.model, place, symlinks=True)
        return place

    def block(self, page: str, kind: str, text: str, place: str):
        if kind == "console":
            for part in re.split(r"^\$ ", text, flags=re.M)[1:]:
                command, _, printed = part.partition("\n")
                self.command(page, command, place, printed)
        elif self.runs(text):
            self.count += 1
            done = shell("set -e\n" + text.replace("status=$?", "status=$?; set +e"), place)
            if done.returncode not in ((0, 1) if "my_reader" in text else (0,)):
                fail(f"{page}: the block '{text}' ends with {done.returncode}: {done.stdout.decode()}")

    def command(self, page: str, command: str, place: str, printed=None):
        if not self.runs(command):
            return
        self.count += 1
        done = shell(command, place)
        found = done.stdout.decode()
        if printed is not None and found != printed:
            fail(f"{page}: '{command}' prints {found!r} and not {printed!r}")
        if done.returncode != (1 if printed and printed.startswith("pbfcut: refused") else 0):
            fail(f"{page}: '{command}' ends with {done.returncode}: {found}")

    def blocks(self, name: str, place: str):
        for kind, block in BLOCK.findall(read(name)):
            if kind in ("sh", "console"):
                self.block(name, kind, block, place)

    def page(self, name: str):
        """The blocks and the sentences of a page for users."""
        self.blocks(name, self.room())
        for span in SPAN.findall(BLOCK.sub("", read(name))):
            words = span.split(" ")
            names_file = any(word in GIVEN or word.endswith((".pbf", ".1")) for word in words)
            known = words[0] in ("./pbfcut", "./pbfcutz", "osmium", "man", "tools/draw.py", "tools/preview.py") or "&& ./pbfcut" in span
            if known and (names_file or "--help" in words):
                self.command(name, filled(words), self.room())

    def sample(self, name: str):
        """The commands of the sample's page, in their order."""
        place, text = self.room(), read(name)
        for command, told in re.findall(r"^\| `(\./pbfcut [^`]+)` \| (.*) \|$", text, re.M):
            counts = re.fullmatch(r"`(.*)`", told)
            self.command(name, command, place, counts[1] + "\n" if counts else None)
        for command, printed in re.findall(r"^`(\./pbfcut [^`]+)` prints:\n\n```\n(.*?)^```$", text, re.M | re.S):
            self.command(name, command, place, printed)
        for command in re.findall(r"`(python3 [^`]+)`", text):
            self.command(name, command, place)
        self.blocks(name, place)

    def manual(self, name: str):
        """The examples of a manual page."""
        place, text = self.room(), read(name)
        examples = LITERAL.findall(text[text.index("\n.Sh EXAMPLES"):])
        if not examples:
            fail(f"{name} has no example")
        for example in examples:
            self.block(name, "sh", example.replace("\\-", "-").replace("\\e", "\\"), place)

    def help(self, words: list):
        """The examples of a text of help, asked for by these words; those that make the same file have rooms of their own."""
        name = " ".join([*words, "--help"])
        done = shell(name, self.model)
        found = re.search(r"^Examples?\b.*?(?=^Exit status)", done.stdout.decode(), re.M | re.S)
        if done.returncode or not found:
            fail(f"{name} ends with {done.returncode}, or has no example")
        for example in re.findall(r"(?:^  .*\n)+", found[0], re.M):
            place = self.room()
            if "--raw london.osm.pbf" in example:
                shutil.copy(os.path.join(place, "england.osm.pbf"), os.path.join(place, "london.osm.pbf"))
            self.block(name, "sh", re.sub(r"^  ", "", example, flags=re.M), place)


def inputs(pages: Pages):
    """The files that the pages speak of, all of the sample."""
    for name in ["england", "oceania", "one", "two"]:
        pages.make(f"./pbfcutz convert sample/town.osm.pbf {name}.osm.pbf")
    pages.make("cp sample/town.osm.pbf given.raw.osm.pbf")
    with open(os.path.join(pages.model, "london.poly"), "w", encoding="utf-8") as file:
        file.write(POLYGON)
    with open(os.path.join(pages.model, "areas.json"), "w", encoding="utf-8") as file:
        file.write(AREAS)
    if shutil.which("osmium"):
        with open(os.path.join(pages.model, "history.opl"), "w", encoding="utf-8") as file:
            file.write(HISTORY)
        pages.make("osmium cat history.opl -f osh.pbf -o history.osh.pbf")
        pages.make("osmium add-locations-to-ways -n england.osm.pbf -o located.osm.pbf")


def all_pages() -> list:
    """The pages of the repository."""
    found = []
    for folder, folders, names in os.walk(TOP):
        folders[:] = sorted(name for name in folders if name not in (".git", "out"))
        found += [os.path.relpath(os.path.join(folder, name), TOP) for name in sorted(names) if name.endswith(".md")]
    return found


def callers(names: list):
    """Each example of a call in the page of a crate is proved code, to the letter."""
    proved = [read(os.path.join("crates", crate, "src", file)) for crate in CALLERS for file in os.listdir(os.path.join(TOP, "crates", crate, "src"))]
    for name in names:
        for kind, block in BLOCK.findall(read(name)):
            if kind == "rust" and not any(block in text for text in proved):
                fail(f"{name} shows a caller that no file of {' or '.join(CALLERS)} has: '{block.partition(chr(10))[0]} ..'")


def links(names: list):
    """Each page links to files that are there; README and USING are short."""
    for name in names:
        for link in re.findall(r"\]\(([^)#]+)\)", read(name)):
            if not link.startswith("http") and not os.path.exists(os.path.join(TOP, os.path.dirname(name), link)):
                fail(f"{name} links to '{link}', which is not there")
    for name, most in [("README.md", README_WORDS), ("docs/USING.md", USING_WORDS)]:
        if len(read(name).split()) > most:
            fail(f"{name} has more than {most} words")
    if read("README.md").count("\n") > README_LINES:
        fail(f"README.md has more than {README_LINES} lines")


def main():
    if len(sys.argv) != 2 or not os.access(sys.argv[1], os.X_OK):
        sys.exit(__doc__)
    names = all_pages()
    links(names)
    callers(names)
    with tempfile.TemporaryDirectory(prefix="pbfcut-docs-") as folder:
        pages = Pages(os.path.abspath(sys.argv[1]), folder)
        inputs(pages)
        users = ["README.md", "docs/USING.md"]
        for name in users:
            pages.page(name)
        pages.sample("sample/README.md")
        for name in names:
            if name not in [*users, "sample/README.md"]:
                pages.blocks(name, pages.room())
        for name in ["docs/pbfcut.1", "docs/pbfcutz.1"]:
            pages.manual(name)
        for words in [[name, *command] for name in ("pbfcut", "pbfcutz") for command in [[], *([command] for command in COMMANDS)]]:
            pages.help(words)
    if pages.passed_over:
        print(f"tests/docs.py: not installed, so what needs it was passed over: {', '.join(sorted(pages.passed_over))}")
    print(f"tests/docs.py: {pages.count} commands and blocks run as the pages say")


if __name__ == "__main__":
    main()
