"""pbfcut over the suite: each command on each case, and what it prints, writes and answers."""

import concurrent.futures
import hashlib
import os
import subprocess
import tempfile
import time

from suite import CALLS, Case, digest, own_lines, processors, shown

SECONDS = 900
READING = (("blobs",), ("check",), ("show",), ("show", "--dates"))


def refused(fault: dict) -> bytes:
    return b"pbfcut: refused at %d: %d %s\n" % (fault["offset"], fault["number"], fault["reason"].encode())


def counted(counts: list) -> bytes:
    return b"nodes %d ways %d relations %d\n" % tuple(counts)


def lines_of(told) -> bytes:
    return b"".join(line.encode("utf-8", "surrogateescape") + b"\n" for line in told)


def words_of(case: Case, call: str) -> list:
    box = f"--box={case.told['box']}"
    return {"convert": ["convert"], "extract": ["extract", box], "parents": ["extract", "--parents", box]}[call]


def shown_text(case: Case, dates: bool):
    """The text of `show`, or None where case.json has digests in its place."""
    header, entities = case.told["header"], case.told["entities"]
    if isinstance(header, dict) or isinstance(entities, dict):
        return None
    return lines_of(header) + b"".join(shown(entity, dates) for entity in entities)


def wanted(case: Case, words: tuple) -> tuple:
    """Status, standard output and standard error of a command that writes no file."""
    fault = case.told.get("blobs_refused") if words[0] == "blobs" else case.refusal(words[0])
    if words[0] == "blobs":
        text = lines_of(case.told["blobs"])
    elif fault:
        text = b""
    else:
        text = counted(case.told["all"]) if words[0] == "check" else shown_text(case, "--dates" in words)
    return (1, text, refused(fault)) if fault else (0, text, b"")


class Runs:
    """The program, a folder for its files, and what was seen."""

    def __init__(self, program: str, folder: str):
        self.program = os.path.abspath(program)
        self.folder = folder
        self.count = 0
        self.differences = []

    def run(self, words: list):
        self.count += 1
        return subprocess.run([self.program, *words], cwd=self.folder, capture_output=True, timeout=SECONDS)

    def differs(self, case: Case, words: list, what: str):
        self.differences.append(f"{case.name}: {' '.join(words)}: {what}")

    def compare(self, case: Case, words: list, done, status: int, text, error: bytes):
        for name, got, meant in (("status", done.returncode, status), ("standard output", done.stdout, text), ("standard error", own_lines(done.stderr), error)):
            if meant is not None and got != meant:
                self.differs(case, words, f"{name} is {str(got)[:200]}, and not {str(meant)[:200]}")

    def read(self, case: Case):
        """The commands that write no file."""
        for words in READING:
            done = self.run([*words, "in"])
            self.compare(case, list(words), done, *wanted(case, words))

    def write(self, case: Case, call: str, source: str, name: str):
        """A call over a file, which is to write what it writes of the case."""
        words = words_of(case, call)
        out = os.path.join(self.folder, "out")
        done = self.run([*words, source, "out"])
        fault = case.refusal(call)
        meant = (1, b"", refused(fault)) if fault else (0, counted(case.told["counts"][call]), b"")
        self.compare(case, words + [name], done, *meant)
        if not os.path.exists(out):
            self.differs(case, words + [name], "there is no OUT")
            return
        with open(out, "rb") as file:
            if file.read() != case.written(call):
                self.differs(case, words + [name], "OUT has other bytes")
        os.remove(out)

    def case(self, case: Case):
        """Each command over the case; and what a call writes, written again."""
        with open(os.path.join(self.folder, "in"), "wb") as file:
            file.write(case.input())
        self.read(case)
        seen = set()
        for call in CALLS:
            self.write(case, call, "in", "")
            written = case.written(call)
            key = (call == "convert", hashlib.sha256(written).digest())
            if not case.refusal(call) and key not in seen:
                seen.add(key)
                with open(os.path.join(self.folder, "again"), "wb") as file:
                    file.write(written)
                self.write(case, call, "again", "(over what it wrote)")


def many_lines(runs: Runs, case: Case):
    """A case whose lines are told by a digest: the sum of `show` is of as many lines, and a header's text has its digest."""
    if case.told.get("refused") or shown_text(case, False) is not None:
        return
    text = runs.run(["show", "in"]).stdout
    entities = case.told["entities"]
    count = entities["lines"] if isinstance(entities, dict) else len(entities)
    lines = text.splitlines(keepends=True)
    header = case.told["header"]
    meant = header if isinstance(header, dict) else digest(lines_of(header))
    if digest(b"".join(lines[: len(lines) - count])) != meant:
        runs.differs(case, ["show"], "other lines of the header")


def run_case(program: str, case: Case) -> Runs:
    """One case, in a folder of its own."""
    with tempfile.TemporaryDirectory() as folder:
        runs = Runs(program, folder)
        runs.case(case)
        many_lines(runs, case)
    return runs


def run_program(program: str, chosen: list) -> int:
    """All of it, as many cases at a time as there are processors; answers the exit status."""
    began = time.monotonic()
    with concurrent.futures.ThreadPoolExecutor(processors()) as pool:
        done = list(pool.map(lambda case: run_case(program, case), chosen))
    differences = [line for runs in done for line in runs.differences]
    for line in differences:
        print(line)
    took = time.monotonic() - began
    print(f"{len(chosen)} cases, {sum(runs.count for runs in done)} runs, {len(differences)} differences, {took:.0f} seconds")
    return 1 if differences or not chosen else 0
