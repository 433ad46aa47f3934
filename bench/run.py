#!/usr/bin/env python3
"""Measures the program beside one pass of SHA-256, beside another build of it, and beside Osmium.

usage: bench/run.py PROGRAM FILE [--old PROGRAM] [--times N] BOX..

FILE and the boxes come from bench/make.py. Each command runs N times (5), in turn with the others, on one processor: check, convert, and
extract by each box, of each program; the toolchain's SHA-256 over FILE (crates/digest_pass, which is built where it lacks); and Osmium's
complete-ways extract by the same boxes, where Osmium is installed.

It prints the least and the median of the seconds of a processor, and the greatest memory. `Digests` is the least beside as many passes of
SHA-256 as the command takes over a sorted file (convert and extract two; check takes none, and is shown beside one), `Osmium` the least
beside Osmium's, and `In turn` the median of what each run took beside Osmium's next one, which a machine that is slower for some seconds
changes less. What two builds write has to be the same bytes, and the same as in the last run over FILE, of which FILE.written keeps the digests.
"""
import hashlib
import json
import os
import shutil
import statistics
import subprocess
import sys
import tempfile
import time

TOP = os.path.dirname(os.path.dirname(os.path.abspath(__file__)))
DIGEST_PASS = os.path.join(TOP, "crates", "digest_pass", "out", "digest_pass")
OSMIUM = "Osmium"


def peak(pid: int) -> float:
    """The greatest memory of a process so far, in MB. (What the system tells of an ended one counts the copy of this process too.)"""
    with open(f"/proc/{pid}/status", encoding="ascii") as status:
        return sum(int(line.split()[1]) / 1024 for line in status if line.startswith("VmHWM:"))


def measured(words: list, source: str) -> tuple:
    """The processor's seconds that a command takes with a file as standard input, and its greatest memory in MB."""
    pid = os.fork()
    if pid == 0:
        os.sched_setaffinity(0, {max(os.sched_getaffinity(0))})
        null = os.open(os.devnull, os.O_RDWR)
        os.dup2(os.open(source, os.O_RDONLY), 0)
        for number in (1, 2):
            os.dup2(null, number)
        os.execvp(words[0], words)
    ended, memory = 0, 0.0
    while not ended:
        time.sleep(0.01)
        memory = max(memory, peak(pid))
        ended, status, usage = os.wait4(pid, os.WNOHANG)
    if status:
        sys.exit(f"bench/run.py: {' '.join(words)} ended with status {os.waitstatus_to_exitcode(status)}")
    return usage.ru_utime + usage.ru_stime, memory


def digest(path: str) -> str:
    hasher = hashlib.sha256()
    with open(path, "rb") as file:
        while piece := file.read(1 << 20):
            hasher.update(piece)
    return hasher.hexdigest()


class Row:
    """A command of several programs: what they took, and what they wrote."""

    def __init__(self, name: str, passes: int, commands: dict):
        self.name, self.passes, self.commands = name, passes, commands
        self.seconds = {who: [] for who in commands}
        self.memory = {who: 0.0 for who in commands}
        self.written = {}

    def run(self, file: str, out: str):
        for who, words in self.commands.items():
            if os.path.exists(out):
                os.unlink(out)
            seconds, memory = measured(words, file)
            self.seconds[who].append(seconds)
            self.memory[who] = max(self.memory[who], memory)
            if who != OSMIUM and os.path.exists(out):
                self.written[who] = digest(out)
        if len(set(self.written.values())) > 1:
            sys.exit(f"bench/run.py: {self.name}: two builds write different bytes")

    def least(self, who: str) -> float:
        return min(self.seconds[who])

    def lines(self, one_pass: float):
        for who, seconds in self.seconds.items():
            digests = f"{self.least(who) / (self.passes * one_pass):.2f}"
            osmium = in_turn = ""
            if OSMIUM in self.seconds:
                osmium = f"{self.least(who) / self.least(OSMIUM):.2f}"
                in_turn = f"{statistics.median(own / other for own, other in zip(seconds, self.seconds[OSMIUM])):.2f}"
            yield (f"| {self.name} | {who} | {self.least(who):.2f} | {statistics.median(seconds):.2f} "
                   f"| {digests} | {osmium} | {in_turn} | {self.memory[who]:.0f} |")


def rows(programs: dict, file: str, boxes: list, out: str) -> list:
    def each(*words):
        return {who: [program, *words] for who, program in programs.items()}

    found = [Row("SHA-256", 1, {"digest_pass": [DIGEST_PASS]}), Row("check", 1, each("check", file)),
             Row("convert", 2, each("convert", file, out))]
    for box in boxes:
        commands = each("extract", f"--box={box}", file, out)
        if shutil.which("osmium"):
            commands[OSMIUM] = ["osmium", "extract", "-b", box, "-s", "complete_ways", "-O", "-o", out, "-f", "pbf,pbf_compression=none", file]
        found.append(Row(f"extract {box}", 2, commands))
    return found


def compare_with_last(table: list, file: str):
    """Holds what was written to what the last run over the file wrote."""
    written = {row.name: digest for row in table for digest in row.written.values()}
    kept = file + ".written"
    if os.path.exists(kept):
        with open(kept, encoding="utf-8") as last:
            before = json.load(last)
        for name in written.keys() & before.keys():
            if written[name] != before[name]:
                sys.exit(f"bench/run.py: {name}: it wrote other bytes than in the last run, by {kept}")
        written = before | written
    with open(kept, "w", encoding="utf-8") as last:
        json.dump(written, last, indent=1)


def main(words: list):
    options = {"--old": None, "--times": "5"}
    while len(words) > 1 and any(word in options for word in words):
        place = next(place for place, word in enumerate(words) if word in options)
        options[words[place]] = words[place + 1]
        del words[place:place + 2]
    if len(words) < 2:
        sys.exit(__doc__)
    program, file, *boxes = words
    programs = {"pbfcut": os.path.abspath(program)}
    if options["--old"]:
        programs["before"] = os.path.abspath(options["--old"])
    if not os.path.exists(DIGEST_PASS):
        subprocess.run([sys.executable, os.path.join(TOP, "tools", "build.py"), "digest_pass"], check=True)
    os.environ["OSMIUM_POOL_THREADS"] = "1"
    with tempfile.TemporaryDirectory() as room:
        out = os.path.join(room, "out.osm.pbf")
        table = rows(programs, file, boxes, out)
        for _ in range(int(options["--times"])):
            for row in table:
                row.run(file, out)
    compare_with_last(table, file)
    print(f"{os.path.getsize(file)} bytes, {options['--times']} times each, on one processor\n")
    print("| Command | Program | Least, s | Median, s | Digests | Osmium | In turn | Memory, MB |")
    print("|---|---|---|---|---|---|---|---|")
    for row in table:
        print("\n".join(row.lines(table[0].least("digest_pass"))))


if __name__ == "__main__":
    main(sys.argv[1:])
