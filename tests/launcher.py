#!/usr/bin/env python3
"""Runs ./pbfcut, install and the release scripts in small copies of the repository, whose release/ has the built program.

usage: tests/launcher.py PROGRAM

The sources of a copy are two crates of one file each, so that a build is never begun by accident; the toolchain and tools/build.py are
scripts that say that they were called.
"""

import gzip
import hashlib
import os
import re
import shutil
import subprocess
import sys
import tempfile

TOP = os.path.dirname(os.path.dirname(os.path.abspath(__file__)))
SECONDS = 900
PACKED = "release/pbfcut-x86_64-linux.gz"
MANIFEST = "release/MANIFEST"
UNPACKED = "release/out/pbfcut"
BUILT = "crates/pbfcut_run/out/pbfcut_run"
SOURCE = "crates/pbf_wire/src/lib.rt"
KIT = "rattle-kit-0 logic 0"

# All that a user's machine must have: bash, gzip, sha256sum and other basic tools; no Python and no toolchain.
TOOLS = ["bash", "env", "awk", "cat", "chmod", "cmp", "cp", "cut", "date", "df", "dirname", "find", "gzip", "ln", "mkdir", "mktemp", "mv", "readlink",
         "rm", "rmdir", "sed", "sha256sum", "sort", "tail", "uname", "xargs"]

NO_TOOLCHAIN = "the Rattle toolchain, which proves and builds it, is not here"
ANNOUNCED = "pbfcut: running the program of release/, proved and built from these sources on 2026-01-02 (SHA-256 "

COUNT = 0


def expect(what: str, wanted, found):
    global COUNT
    COUNT += 1
    if wanted != found:
        sys.exit(f"tests/launcher.py: {what}: expected {str(wanted)[:900]!r}, found {str(found)[:900]!r}")


def write(path: str, content, mode: int = 0o644):
    os.makedirs(os.path.dirname(path), exist_ok=True)
    with open(path, "wb") as file:
        file.write(content if isinstance(content, bytes) else content.encode())
    os.chmod(path, mode)


def read(path: str) -> bytes:
    with open(path, "rb") as file:
        return file.read()


class Copy:
    """A copy of the repository with a release of a program."""

    def __init__(self, folder: str, program: bytes):
        self.folder = tempfile.mkdtemp(dir=folder)
        self.bin = os.path.join(self.folder, "bin")
        os.mkdir(self.bin)
        for name in TOOLS:
            os.symlink(shutil.which(name), os.path.join(self.bin, name))
        for name in ["pbfcut", "install", "tools", "completions", "README.md", "docs/USING.md", "docs/pbfcut.1", "docs/pbfcutz.1"]:
            copy = shutil.copytree if os.path.isdir(os.path.join(TOP, name)) else shutil.copy
            os.makedirs(os.path.dirname(self.path(name)), exist_ok=True)
            copy(os.path.join(TOP, name), self.path(name))
        write(self.path("crates.txt"), "pbfcut_run: pbf_wire\npbf_wire:\nwire_tests: pbf_wire\n")
        write(self.path(SOURCE), "// a source\n")
        write(self.path("crates/pbfcut_run/src/main.rt"), "// another\n")
        self.release(program)

    def path(self, name: str) -> str:
        return os.path.join(self.folder, "repository", name)

    def sources(self) -> str:
        return self.run([self.path("tools/sources.sh")])[1].strip()

    def release(self, program: bytes, **other):
        values = {"program": "pbfcut 1.0.0", "sha256": hashlib.sha256(program).hexdigest(), "sources": self.sources(), "toolchain": KIT,
                  "needs": "Linux on x86-64-v2, glibc 2.34 or later", "date": "2026-01-02", **other}
        write(self.path(PACKED), gzip.compress(program))
        write(self.path(MANIFEST), "".join(f"{name}: {value}\n" for name, value in values.items()))

    def toolchain(self, version: str = KIT):
        """A toolchain, with a build that says so and makes a program that prints `built`."""
        write(os.path.join(self.bin, "rt"), f"#!/bin/sh\necho '{version}'\n", 0o755)
        write(os.path.join(self.bin, "python3"), f'#!/bin/sh\nexec "{sys.executable}" "$@"\n', 0o755)
        self.builder(b"#!/bin/sh\necho built\n")

    def builder(self, program: bytes):
        write(self.path("tools/build.py"), f"""import os, subprocess, sys
print("building", file=sys.stderr)
os.makedirs({os.path.dirname(self.path(BUILT))!r}, exist_ok=True)
open({self.path(BUILT)!r}, "wb").write({program!r})
os.chmod({self.path(BUILT)!r}, 0o755)
open({self.path(BUILT + ".sources")!r}, "w").write(subprocess.run([{self.path("tools/sources.sh")!r}], capture_output=True, text=True).stdout)
""")

    def run(self, words: list, **environment):
        done = subprocess.run(words, cwd=self.folder, env={"PATH": self.bin, "HOME": self.folder, **environment}, stdin=subprocess.DEVNULL,
                              stdout=subprocess.PIPE, stderr=subprocess.PIPE, timeout=SECONDS)
        return done.returncode, done.stdout.decode(), done.stderr.decode()

    def pbfcut(self, *words, **environment):
        return self.run([self.path("pbfcut"), *words], **environment)


def runs_at_once(folder: str, program: bytes):
    copy = Copy(folder, program)
    digest = hashlib.sha256(program).hexdigest()
    status, out, errors = copy.pbfcut("--version")
    expect("first run: status, output", (0, True), (status, out.startswith("pbfcut 1.0.0 (rattle-kit-")))
    expect("first run: its one line", f"{ANNOUNCED}{digest[:8]}..); './pbfcut --prove' makes it again\n", errors)
    expect("what is in release/out", ["pbfcut"], os.listdir(copy.path("release/out")))
    for name in [SOURCE, MANIFEST, PACKED, "pbfcut"]:
        os.utime(copy.path(name))
    write(copy.path("README.md"), "a newer page\n")
    write(copy.path("crates/pbf_wire/must-fail/a.edit"), "a newer planted bug\n")
    write(copy.path("crates/wire_tests/src/lib.rt"), "// a newer test\n")
    expect("run after newer times, pages and tests", (0, out, ""), copy.pbfcut("--version"))
    write(copy.path(UNPACKED), b"#!/bin/sh\necho another\n", 0o755)
    expect("run after the unpacked program was changed", (0, out), copy.pbfcut("--version")[:2])
    os.symlink(copy.path("pbfcut"), os.path.join(copy.bin, "linked"))
    expect("run by a link", (0, out, ""), copy.run([os.path.join(copy.bin, "linked"), "--version"]))
    expect("its exit status is the program's", 2, copy.pbfcut("--nonsense")[0])


def damaged_releases(folder: str):
    script = b"#!/bin/sh\necho told $#\nexit\n" + bytes(range(256)) * 8
    copy = Copy(folder, script)
    packed = read(copy.path(PACKED))
    for place in [0, 3, 10, len(packed) // 2, len(packed) - 8, len(packed) - 1]:
        changed = bytearray(packed)
        changed[place] ^= 1
        write(copy.path(PACKED), bytes(changed))
        status, out, errors = copy.pbfcut("--help")
        if status == 0:  # a byte of gzip's own header that says nothing of the content
            expect(f"byte {place} of the packed program changed", "told 1\n", out)
        else:
            wanted = "pbfcut: release/pbfcut-x86_64-linux.gz is not what MANIFEST says, so it is not run"
            expect(f"byte {place} of the packed program changed", (126, "", wanted), (status, out, errors.split(";")[0]))
        expect("what is left", [], [name for name in os.listdir(copy.path("release/out")) if name != "pbfcut"])
        shutil.rmtree(copy.path("release/out"))
    write(copy.path(PACKED), gzip.compress(b"#!/bin/sh\necho another\n"))
    copy.toolchain()
    status, out, errors = copy.pbfcut()
    expect("another program packed, with a toolchain", (126, "", True), (status, out, "is not what MANIFEST says" in errors))
    os.unlink(copy.path(PACKED))
    expect("no packed program", 126, copy.pbfcut()[0])


def other_sources(folder: str):
    copy = Copy(folder, b"#!/bin/sh\necho handed over\n")
    write(copy.path(SOURCE), "// a source that was changed\n")
    status, out, errors = copy.pbfcut("check", "x")
    expect("other sources, no toolchain", (127, ""), (status, out))
    expect("what is said of it", True, "not those of the program in release/" in errors and NO_TOOLCHAIN in errors)
    copy.toolchain()
    for words in [["--help"], ["help", "check"], ["-V"], ["check", "--help"]]:
        status, out, errors = copy.pbfcut(*words)
        expect(f"other sources, {words}: no proof", (0, "handed over\n", False), (status, out, "building" in errors))
        expect(f"other sources, {words}: what is said of it", True, "built from other sources" in errors or "not those of the program" in errors)
    status, out, errors = copy.pbfcut("check", "x", "--", "--help")
    expect("other sources, with a toolchain", (0, "built\n"), (status, out))
    expect("what is said of it", True, "proving and building it" in errors and "building\n" in errors)
    expect("the program that was built runs at once", (0, "built\n", ""), copy.pbfcut())
    write(copy.path(SOURCE), "// a source\n")
    expect("back at the sources of the release", (0, "handed over\n"), copy.pbfcut()[:2])
    write(copy.path("crates/pbf_wire/specs/New.antt"), "-- a new definition\n")
    expect("a new file of definitions", (0, "built\n"), copy.pbfcut()[:2])
    other_toolchain(folder)
    for content in ["", "sha256: 12\nsources: 34\n", "\0\xff"]:
        copy = Copy(folder, b"#!/bin/sh\necho handed over\n")
        write(copy.path(MANIFEST), content.encode("latin-1"))
        status, out, errors = copy.pbfcut()
        expect(f"the manifest {content!r}", (127, "", True), (status, out, "release/MANIFEST cannot be read" in errors))
        copy.toolchain()
        expect(f"the manifest {content!r}, with a toolchain", (0, "built\n"), copy.pbfcut()[:2])


def other_toolchain(folder: str):
    """Sources that were changed, and a toolchain that proves in another way: nothing is begun unasked."""
    copy = Copy(folder, b"#!/bin/sh\necho handed over\n")
    write(copy.path(SOURCE), "// a source that was changed\n")
    copy.toolchain("rattle-kit-1 logic 1")
    status, out, errors = copy.pbfcut("check", "x")
    expect("another toolchain", (127, "", False), (status, out, "building\n" in errors))
    expect("what is said of it", True, f"this toolchain is 'rattle-kit-1 logic 1', and the sources are proved with '{KIT}'" in errors)
    expect("help, with another toolchain", (0, "handed over\n"), copy.pbfcut("--help")[:2])
    copy.toolchain("rattle-kit-1 logic 0")
    expect("a newer kit that proves alike", (0, "built\n"), copy.pbfcut("check", "x")[:2])


def other_machines(folder: str):
    copy = Copy(folder, b"#!/bin/sh\necho handed over\n")
    os.unlink(os.path.join(copy.bin, "uname"))
    write(os.path.join(copy.bin, "uname"), "#!/bin/sh\necho Linux aarch64\n", 0o755)
    status, out, errors = copy.pbfcut()
    expect("another processor", (126, "", "pbfcut: the program in release/ runs on Linux on x86-64; this is Linux aarch64\n"),
           (status, out, errors))
    old = b"#!/bin/sh\necho 'version GLIBC_2.34 not found' >&2\nexit 1\n"
    copy = Copy(folder, old)
    status, out, errors = copy.pbfcut()
    expect("an older C library", (126, ""), (status, out))
    expect("what is said of it", "pbfcut: the program in release/ cannot be run here: version GLIBC_2.34 not found\n"
           "pbfcut: it needs Linux on x86-64-v2, glibc 2.34 or later\n", errors)
    copy.toolchain()
    expect("an older C library, with a toolchain", (0, "built\n"), copy.pbfcut()[:2])


def no_room(folder: str):
    """Where nothing can be made beside release/, it runs from a temporary folder, and nothing stays there."""
    copy = Copy(folder, b"")
    program = read(PROGRAM)
    copy.release(program)
    write(copy.path("release/out"), "a file in the way\n")
    temporary = os.path.join(copy.folder, "temporary")
    os.mkdir(temporary)
    status, out, _ = copy.pbfcut("--version", TMPDIR=temporary)
    expect("from a temporary folder", (0, True), (status, out.startswith("pbfcut 1.0.0")))
    expect("what stays there", [], os.listdir(temporary))
    status, out, errors = copy.pbfcut("--version", TMPDIR=os.path.join(temporary, "absent"))
    expect("no folder to unpack to", (126, "", True), (status, out, "there is no room to unpack the program" in errors))


def proves(folder: str):
    def after(copy):
        status, out, errors = copy.pbfcut("--prove")
        return status, out, errors.splitlines()[-1]

    program = b"#!/bin/sh\necho built\n"
    copy = Copy(folder, program)
    expect("--prove, no toolchain", 127, copy.pbfcut("--prove")[0])
    copy.toolchain()
    digest = hashlib.sha256(program).hexdigest()
    same = f"pbfcut: proved and built: the same bytes as {PACKED} (SHA-256 {digest})"
    expect("--prove, the same bytes", (0, "", same), after(copy))
    expect("--prove goes alone", (2, "", "pbfcut: '--prove' goes alone\n"), copy.pbfcut("--prove", "x"))
    copy.builder(b"#!/bin/sh\necho other bytes\n")
    unlike = f"pbfcut: proved and built: NOT the same bytes as {PACKED}, though the sources are the same"
    expect("--prove, other bytes", (1, "", unlike), after(copy))
    copy.toolchain("rattle-kit-1 logic 1")
    expect("--prove by another toolchain", True, "this toolchain is 'rattle-kit-1 logic 1'" in copy.pbfcut("--prove")[2])
    write(copy.path(SOURCE), "// a source that was changed\n")
    status, _, last = after(copy)
    expect("--prove, other sources", (0, True), (status, "so there is nothing to compare it with" in last))
    write(copy.path("tools/build.py"), "raise SystemExit(1)\n")
    expect("--prove, not proved", 126, copy.pbfcut("--prove")[0])


def files_below(folder: str) -> set:
    return {os.path.relpath(os.path.join(at, name), folder) for at, _, names in os.walk(folder) for name in names}


INSTALLED = {"bin/pbfcut", "bin/pbfcutz", "share/doc/pbfcut/README.md", "share/doc/pbfcut/USING.md", "share/man/man1/pbfcut.1", "share/man/man1/pbfcutz.1",
             "share/bash-completion/completions/pbfcut", "share/bash-completion/completions/pbfcutz", "share/zsh/site-functions/_pbfcut",
             "share/fish/vendor_completions.d/pbfcut.fish", "share/fish/vendor_completions.d/pbfcutz.fish"}


def installs(folder: str, program: bytes):
    copy = Copy(folder, program)
    root = os.path.join(copy.folder, "root")
    write(os.path.join(root, "opt/x/bin/another"), "")
    install = copy.path("install")
    for _ in range(2):  # also over an older one
        wanted = f"pbfcut is in {root}/opt/x/bin; DESTDIR='{root}' ./install --uninstall /opt/x takes it away again\n"
        expect("install", (0, wanted), copy.run([install, "/opt/x"], DESTDIR=root)[:2])
        expect("what is installed", INSTALLED | {"bin/another"}, files_below(os.path.join(root, "opt/x")))
    status, out, _ = copy.run([os.path.join(root, "opt/x/bin/pbfcut"), "--version"])
    expect("the installed program", (0, True), (status, out.startswith("pbfcut 1.0.0")))
    town = os.path.join(TOP, "sample", "town.osm.pbf")
    cut = [os.path.join(root, "opt/x/bin/pbfcutz"), "extract", "--box=9.997,49.999,10.003,50.003", town, "cut"]
    expect("the installed program by its other name", (0, "nodes 121 ways 23 relations 7\n", ""), copy.run(cut))
    expect("uninstall", 0, copy.run([install, "--uninstall", "/opt/x"], DESTDIR=root)[0])
    expect("what is left", {"bin/another"}, files_below(os.path.join(root, "opt/x")))
    home = os.path.join(copy.folder, "home")
    said = copy.run([install, home])[1]
    expect("what a shell needs", (True, True), (f'export PATH="{home}/bin:$PATH"' in said, f"fpath=({home}/share/zsh/site-functions $fpath)" in said))
    for words in [["--help"], ["-h"]]:
        status, out, errors = copy.run([install, *words])
        expect(f"install {words}", (0, True, ""), (status, out.startswith("usage: ./install [--uninstall] [PREFIX]"), errors))
    narrow = os.path.join(copy.folder, "narrow")
    expect("install with a narrow umask", 0, copy.run(["bash", "-c", 'umask 077; exec "$0" "$1"', install, narrow])[0])
    modes = {oct(os.stat(at).st_mode & 0o777) for at, _, _ in os.walk(narrow)}
    expect("the modes of its folders", {"0o755"}, modes)
    for name in INSTALLED:
        mode = 0o755 if name.startswith("bin/") else 0o644
        expect(f"the mode of {name}", oct(mode), oct(os.stat(os.path.join(narrow, name)).st_mode & 0o777))
    expect("uninstall takes its own folder away", 0, copy.run([install, "--uninstall", narrow])[0])
    expect("the folder of its pages", False, os.path.exists(os.path.join(narrow, "share/doc/pbfcut")))
    for words in [["--nonsense"], ["/a", "/b"], [""]]:
        expect(f"install {words}", 1, copy.run([install, *words], DESTDIR=root)[0])


def prefixes(folder: str):
    """`make install` takes PREFIX in both spellings."""
    make = shutil.which("make")
    if make is None:
        return
    for name in ["PREFIX", "prefix"]:
        said = subprocess.run([make, "-n", "-C", TOP, "install", f"{name}={folder}/x"], stdout=subprocess.PIPE, check=True, timeout=SECONDS)
        expect(f"make install {name}=", True, f"./install '{folder}/x'" in said.stdout.decode())


def completions():
    """The completions have the commands and the options that the help has, and their shells can read them."""
    def options(*words):
        text = subprocess.run([PROGRAM, *words, "--help"], stdout=subprocess.PIPE, check=True, timeout=SECONDS).stdout.decode()
        return set(re.findall(r"^ +(?:-\w, )?(--[a-z-]+)", text, re.M))

    bash = read(os.path.join(TOP, "completions/pbfcut.bash")).decode()
    zsh = read(os.path.join(TOP, "completions/_pbfcut")).decode()
    fish = read(os.path.join(TOP, "completions/pbfcut.fish")).decode()
    for command in ["extract", "convert", "check", "show", "blobs"]:
        wanted = options(command)
        asked = f"source {TOP}/completions/pbfcut.bash; COMP_WORDS=(pbfcut {command} -); COMP_CWORD=2; _pbfcut 2>/dev/null; echo ${{COMPREPLY[@]}}"
        found = subprocess.run(["bash", "-c", asked], stdout=subprocess.PIPE, check=True, timeout=SECONDS).stdout.decode().split()
        expect(f"bash: the options of {command}", wanted, {word.rstrip("=") for word in found})
        expect(f"zsh names {command}", True, f"'{command}:" in zsh)
        expect(f"fish names {command}", True, f"-a {command} " in fish)
        for option in wanted:
            expect(f"zsh names {option}", True, option in zsh)
            expect(f"fish names {option}", True, f"-l {option[2:]} " in fish)
    expect("bash can read its file", 0, subprocess.run(["bash", "-n", "-c", bash], timeout=SECONDS).returncode)
    for shell, name in [("zsh", "_pbfcut"), ("fish", "pbfcut.fish")]:
        if shutil.which(shell):
            path = os.path.join(TOP, "completions", name)
            expect(f"{shell} can read {name}", 0, subprocess.run([shell, "-n", path], timeout=SECONDS).returncode)


def main():
    with tempfile.TemporaryDirectory(prefix="pbfcut-launcher-") as folder:
        program = read(PROGRAM)
        runs_at_once(folder, program)
        damaged_releases(folder)
        other_sources(folder)
        other_machines(folder)
        no_room(folder)
        proves(folder)
        installs(folder, program)
        prefixes(folder)
    completions()
    print(f"tests/launcher.py: {COUNT} cases as they have to be")


if __name__ == "__main__":
    if len(sys.argv) != 2 or not os.access(sys.argv[1], os.X_OK):
        sys.exit(__doc__)
    PROGRAM = os.path.abspath(sys.argv[1])
    main()
