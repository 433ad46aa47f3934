#!/usr/bin/env python3
"""Proves the crates that a program is made of, and builds it, as the gate does.

usage: tools/build.py [--native] [CRATE]        makes crates/CRATE/out/CRATE; CRATE is pbfcut_run, the program pbfcut, if it is left out

The program is built for x86-64-v2, or with --native for this processor, which other machines may not be able to run. Beside it stands
CRATE.sources, the digest of the sources that it was built from (tools/sources.sh).

Crates that don't depend on each other are proved side by side: the longest chain gets all processors, and each crate beside it one. The
judge is that of the gate, `rattle build`, which makes nothing of a crate that is not proved. If a build was stopped, the next one goes on
with the crates that were proved.

Exit status: 0 the program is built; 1 a crate is not proved, the program could not be linked, or the sources changed meanwhile; 2 this kit
is not called in the way that this script knows, and `rt run` has to build the program.
"""
import argparse
import hashlib
import os
import re
import shutil
import subprocess
import sys
import time

TOP = os.path.dirname(os.path.dirname(os.path.abspath(__file__)))
NOT_THIS_KIT = 2

# what a processor must have, in the words of /proc/cpuinfo, to run code for x86-64-v3
VERSION_3 = {"avx", "avx2", "bmi1", "bmi2", "f16c", "fma", "abm", "movbe"}


def kit_folder():
    """The kit's folder, or None where it does not look as this script knows it."""
    try:
        page = subprocess.run(["rt", "doc"], capture_output=True, text=True).stdout.strip()
    except OSError:
        return None
    folder = os.path.dirname(page)
    needed = ["bin/rattle", "bin/rattle-link", "rlibs/std.rlib", "rattle/logic/antt-project.json", "logic_built", "toolchain",
              "c/libos_c.a", "c/liblibc_c.a"]
    return folder if all(os.path.exists(os.path.join(folder, name)) for name in needed) else None


def known_crates():
    """What each crate of this repository stands on, by crates.txt."""
    lines = (line.split("#")[0] for line in open(os.path.join(TOP, "crates.txt")))
    pairs = (line.split(":") for line in lines if ":" in line)
    return {name.strip(): below.split() for name, below in pairs}


def read_crates(program):
    """What each crate of a program stands on."""
    known = known_crates()
    wanted, left = {}, [program]
    while left:
        name = left.pop()
        if name in known and name not in wanted:
            wanted[name] = known[name]
            left += known[name]
    return wanted


def all_below(crates, name):
    """The crates of this repository that a crate stands on, at any distance."""
    found = []
    for other in crates[name]:
        if other in crates:
            found += [deeper for deeper in all_below(crates, other) + [other] if deeper not in found]
    return found


def files_of(name):
    """The files of a crate that its proof reads, in a fixed order."""
    for part in ("src", "specs", "proofs"):
        for folder, folders, files in os.walk(os.path.join(TOP, "crates", name, part)):
            folders.sort()
            yield from (os.path.join(folder, file) for file in sorted(files))


def lines_of(name):
    """How long a crate is: about its proof's share of the time."""
    return sum(open(path, "rb").read().count(b"\n") for path in files_of(name))


def way_up(crates, lines, name):
    """How many lines there are to prove, one crate after another, from this one up to the program."""
    return lines[name] + max((way_up(crates, lines, other) for other in crates if name in crates[other]), default=0)


def source_sum(crates, name):
    """A digest of the sources of a crate and of those below it."""
    digest = hashlib.sha256(subprocess.run(["rt", "version"], capture_output=True).stdout)
    for crate in all_below(crates, name) + [name]:
        for path in files_of(crate):
            digest.update(path[len(TOP):].encode() + b"\0" + open(path, "rb").read())
    return digest.hexdigest()


def digest_of_sources(program):
    """The digest of the sources of a program, as tools/sources.sh prints it."""
    return subprocess.run([os.path.join(TOP, "tools", "sources.sh"), program], check=True, capture_output=True, text=True).stdout


def processor_flags():
    """The flags that have the program compiled for this processor, if that is quicker."""
    try:
        words = set(re.search(r"^flags\s*:(.*)$", open("/proc/cpuinfo").read(), re.M).group(1).split())
    except (OSError, AttributeError):
        return []
    return ["--cpu", "x86-64-v3"] if VERSION_3 <= words else []


def free_gigabytes():
    try:
        return int(re.search(r"^MemAvailable:\s*(\d+)", open("/proc/meminfo").read(), re.M).group(1)) >> 20
    except (OSError, AttributeError):
        return 4


def lanes():
    """How many processors to fill: as many as there are, where each has 3 GB of free memory."""
    return max(1, min(len(os.sched_getaffinity(0)), (free_gigabytes() - 1) // 3))


class Build:
    """Crates on their way: which are proved, which are being proved, and since when."""

    def __init__(self, kit, program, flags):
        self.kit, self.program, self.flags, self.crates = kit, program, flags, read_crates(program)
        self.place = os.path.join(TOP, "crates", program, "out")
        self.room = os.path.join(self.place, "building")
        self.lanes = lanes()
        self.started = time.monotonic()
        self.proved, self.running, self.again = set(), {}, set()
        self.shown = sys.stderr.isatty()
        os.makedirs(self.room, exist_ok=True)
        self.sources = digest_of_sources(program)
        self.sums = {name: source_sum(self.crates, name) for name in self.crates}
        lines = {name: lines_of(name) for name in self.crates}
        self.ways = {name: way_up(self.crates, lines, name) for name in self.crates}

    def result(self, name):
        return os.path.join(self.room, name + (".o" if name == self.program else ".rlib"))

    def command(self, name, jobs):
        rlibs = os.path.join(self.kit, "rlibs")
        root = "src/main.rt" if name == self.program else "src/lib.rt"
        words = [os.path.join(self.kit, "bin/rattle"), "build", "--crate-name", name, root, "--extern", f"std={rlibs}/std.rlib"]
        for other in self.crates[name]:
            words += ["--extern", f"{other}={self.room if other in self.crates else rlibs}/{other}.rlib"]
        words += ["-L", f"dependency={rlibs}", "-L", f"dependency={self.room}", "--links", f"{name}="]
        words += ["--antt-project", f"{self.kit}/rattle/logic/antt-project.json", "--logic-built", f"{self.kit}/logic_built"]
        words += ["--jobs", str(jobs), "-o", self.result(name)]
        if name == self.program:
            return words + ["--toolchain", f"{self.kit}/toolchain"] + self.flags
        return words + ["--statements"]

    def is_kept(self, name):
        """Whether an earlier build that was stopped left the crate proved, and nothing below it has changed."""
        try:
            return open(self.result(name) + ".sum").read() == self.sums[name] and os.path.exists(self.result(name))
        except OSError:
            return False

    def start(self, name, jobs, beside):
        log = open(os.path.join(self.room, name + ".log"), "w")
        first = (lambda: os.nice(10)) if beside else None
        folder = os.path.join(TOP, "crates", name)
        self.running[name] = subprocess.Popen(
            self.command(name, jobs), cwd=folder, stdin=subprocess.DEVNULL, stdout=log, stderr=log, preexec_fn=first
        )

    def start_ready(self):
        """Starts what can be: of the crates that wait, the one with the longest way up first."""
        done = self.proved
        ready = [name for name in self.crates if name not in done and name not in self.running]
        ready = [name for name in ready if all(other in done for other in self.crates[name] if other in self.crates)]
        for name in sorted(ready, key=lambda name: -self.ways[name]):
            if self.is_kept(name):
                self.end(name)
                return self.start_ready()
            if len(self.running) < self.lanes:
                beside = any(self.ways[other] > self.ways[name] for other in self.running)
                self.start(name, 1 if beside or name in self.again else self.lanes, beside)

    def end(self, name):
        with open(self.result(name) + ".sum", "w") as file:
            file.write(self.sums[name])
        self.proved.add(name)
        if not self.shown:
            print(f"pbfcut: {name} is proved, {self.progress()}", file=sys.stderr, flush=True)

    def progress(self):
        seconds = int(time.monotonic() - self.started)
        return f"{len(self.proved)} of {len(self.crates)} crates after {seconds // 60} min {seconds % 60:02} s"

    def show(self):
        if self.shown:
            names = ", ".join(sorted(self.running, key=lambda name: -self.ways[name]))
            print(f"\r\033[Kpbfcut: proving {names}; proved {self.progress()}"[:150], end="", file=sys.stderr, flush=True)

    def collect(self):
        """Takes up what has ended. Answers an exit status, where the build can't go on."""
        for name, process in list(self.running.items()):
            status = process.poll()
            if status is None:
                continue
            del self.running[name]
            if status == 0:
                self.end(name)
            elif status < 0 and name not in self.again:
                self.again.add(name)  # most often memory ran out: once more, with one job
            else:
                return NOT_THIS_KIT if status == 2 else self.fail(name)
        return None

    def fail(self, name):
        log = os.path.join(self.room, name + ".log")
        print(f"\npbfcut: {name} could not be proved; this is the end of {log}:", file=sys.stderr)
        sys.stderr.writelines(open(log, errors="replace").readlines()[-20:])
        return 1

    def run(self):
        try:
            while len(self.proved) < len(self.crates):
                self.start_ready()
                self.show()
                time.sleep(0.5)
                status = self.collect()
                if status is not None:
                    return status
            return self.link()
        finally:
            for process in self.running.values():
                process.kill()
                process.wait()
            if self.shown:
                print("\r\033[K", end="", file=sys.stderr, flush=True)

    def link(self):
        words = [os.path.join(self.kit, "bin/rattle-link"), "--target", "x86_64-unknown-linux-gnu", "--toolchain", f"{self.kit}/toolchain"]
        made = os.path.join(self.room, self.program)
        files = [self.result(self.program), f"{self.kit}/c/libos_c.a", f"{self.kit}/c/liblibc_c.a"]
        linked = subprocess.run(words + ["-o", made, *files], capture_output=True, text=True)
        if linked.returncode:
            print(linked.stderr, file=sys.stderr)
            return NOT_THIS_KIT
        os.replace(made, os.path.join(self.place, self.program))
        shutil.rmtree(self.room)
        return self.record()

    def record(self):
        """Says beside the program which sources it was built from, if they are still what they were at the start."""
        if self.sources != digest_of_sources(self.program):
            print("pbfcut: the sources changed while they were proved: build again", file=sys.stderr)
            return 1
        with open(os.path.join(self.place, self.program + ".sources"), "w") as file:
            file.write(self.sources)
        print(f"pbfcut: built, {self.progress()}", file=sys.stderr)
        return 0


def main():
    arguments = argparse.ArgumentParser(usage="tools/build.py [--native] [CRATE]")
    arguments.add_argument("--native", action="store_true")
    arguments.add_argument("crate", nargs="?", default="pbfcut_run")
    given = arguments.parse_args()
    kit = kit_folder()
    if kit is None:
        return NOT_THIS_KIT
    return Build(kit, given.crate, processor_flags() if given.native else []).run()


if __name__ == "__main__":
    try:
        sys.exit(main())
    except KeyboardInterrupt:
        sys.exit("\npbfcut: stopped; the next build goes on with the crates that were proved")
