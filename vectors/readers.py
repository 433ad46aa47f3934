"""Other readers over the suite: what a reader makes of each case."""

import concurrent.futures
import contextlib
import os
import re
import shutil
import signal
import subprocess
import sys
import tempfile
import threading
import xml.etree.ElementTree as ElementTree

from forms import FORMS, difference, meant_entities, shown_entity
from packing import packed
from suite import BROKEN, CHOICE, HARMLESS, SORTS, SOUND, Case, processors

SECONDS = 20
READ, OTHERWISE, REFUSED, CRASHED, LEFT = "read as meant", "read otherwise", "refused", "crashed", "left out"
OUTCOMES = (READ, OTHERWISE, REFUSED, CRASHED, LEFT)
KEPT = 20


class Result:
    """What a reader makes of a case: one of OUTCOMES, a sentence about it, and the entities it printed where they differ."""

    # whether the caller's list of expected failures has the case
    is_known = False

    def __init__(self, case: Case, outcome: str, note: str = "", read=None):
        self.case = case
        self.outcome = outcome
        self.note = note
        self.read = read

    def is_good(self) -> bool:
        """Whether a reader should do this. A file where the format leaves a choice is never wrong, unless the reader crashes."""
        refused = (REFUSED, LEFT)
        wanted = {SOUND: (READ, LEFT), BROKEN: refused, HARMLESS: refused, CHOICE: (READ, OTHERWISE, REFUSED, LEFT)}
        return self.outcome in wanted[self.case.sort()]

    def is_failure(self) -> bool:
        """Whether the run fails by it: it is not good, and nobody expected that."""
        return not self.is_good() and not self.is_known

    def passes_now(self) -> bool:
        """Whether it is good, and the list of expected failures has it."""
        return self.is_known and self.is_good() and self.outcome != LEFT

    def is_plain(self) -> bool:
        """Whether there is nothing to tell: a sound file read as meant, or a broken one refused."""
        return self.outcome == {SOUND: READ, BROKEN: REFUSED, HARMLESS: REFUSED, CHOICE: READ}[self.case.sort()]

    def as_json(self) -> dict:
        told = {"case": self.case.name, "verdict": self.case.sort(), "outcome": self.outcome, "good": self.is_good()}
        if self.is_known:
            told["known"] = True
        if self.note:
            told["note"] = self.note
        if self.read is not None:
            told["read"] = [shown_entity(entity) for entity in self.read[:KEPT]]
        return told


class Batch:
    """A command that reads many files: their names go to its standard input, and after each file it prints `# status N WHY`. After a
    file that ends it, it is started anew."""

    def __init__(self, words: list, seconds: int):
        self.words = words
        self.seconds = seconds
        self.process = None

    def start(self):
        pipe = subprocess.PIPE
        self.process = subprocess.Popen(self.words, stdin=pipe, stdout=pipe, stderr=subprocess.DEVNULL, start_new_session=True)

    def stop(self):
        with contextlib.suppress(ProcessLookupError):
            os.killpg(self.process.pid, signal.SIGKILL)

    def asked(self, file: str) -> subprocess.CompletedProcess:
        """What it prints of a file, with the status of that line; or subprocess.TimeoutExpired."""
        if self.process is None:
            self.start()
        timer = threading.Timer(self.seconds, self.stop)
        timer.start()
        with contextlib.suppress(BrokenPipeError):
            self.process.stdin.write(file.encode() + b"\n")
            self.process.stdin.flush()
        read = []
        for line in self.process.stdout:
            if line.startswith(b"# status "):
                timer.cancel()
                status, _, why = line[9:].strip().partition(b" ")
                return subprocess.CompletedProcess(self.words, int(status), b"".join(read), why)
            read.append(line)
        status = self.process.wait()
        self.process = None
        if timer.finished.is_set():
            raise subprocess.TimeoutExpired(self.words, self.seconds)
        timer.cancel()
        return subprocess.CompletedProcess(self.words, status or 1, b"", b"it ended")


class Reader:
    """A command, and how its output is understood."""

    def __init__(self, command: list, options: dict):
        self.command = command if options.get("batch") or any("{}" in word for word in command) else command + ["{}"]
        self.form = options.get("form", "opl")
        self.packed = options.get("packed", False)
        self.seconds = options.get("seconds", SECONDS)
        self.kinds = options.get("kinds", [])
        self.without = options.get("without", [])
        self.refusal = re.compile(options.get("refusal") or r"\bError\b")
        self.batches = threading.local() if options.get("batch") else None

    def result(self, case: Case) -> Result:
        """What the reader makes of the case. The file stands in a new folder, where the reader may write too."""
        data = case.input()
        if self.packed and not case.is_packed:
            data = packed(data)
            if data is None:
                return Result(case, LEFT, "its frames can't be packed")
        with tempfile.TemporaryDirectory() as folder:
            file = os.path.join(folder, "in.osm.pbf")
            with open(file, "wb") as out:
                out.write(data)
            return self.run(case, file, folder)

    def done(self, file: str, folder: str) -> subprocess.CompletedProcess:
        """The command over a file. In a batch each thread has its own."""
        if self.batches is not None:
            if not hasattr(self.batches, "mine"):
                self.batches.mine = Batch(self.command, self.seconds)
            return self.batches.mine.asked(file)
        words = [word.replace("{}", file) for word in self.command]
        return subprocess.run(words, capture_output=True, cwd=folder, stdin=subprocess.DEVNULL, timeout=self.seconds)

    def run(self, case: Case, file: str, folder: str) -> Result:
        try:
            done = self.done(file, folder)
        except subprocess.TimeoutExpired:
            return Result(case, CRASHED, f"no end within {self.seconds} seconds")
        if done.returncode < 0 or done.returncode in (134, 136, 139):
            return Result(case, CRASHED, f"signal {-done.returncode if done.returncode < 0 else done.returncode - 128}")
        said = done.stderr.decode("utf-8", "replace").strip().split("\n")
        fault = next((line for line in said if self.refusal.search(line)), said[-1])
        if done.returncode or self.refusal.search(fault):
            return Result(case, REFUSED, fault.replace(folder + "/", "")[:120])
        return self.compared(case, done.stdout)

    def compared(self, case: Case, text: bytes) -> Result:
        """A file that was read: its entities beside those of the case."""
        meant = meant_entities(case)
        try:
            read = FORMS[self.form](text)
        except (ValueError, KeyError, AttributeError, IndexError, ElementTree.ParseError) as error:
            return Result(case, OTHERWISE, f"its output can't be understood: {error}"[:120])
        if meant is None:
            said = "a broken file" if read is None else f"{sum(read) if isinstance(read, tuple) else len(read)} entities of a broken file"
            return Result(case, OTHERWISE, f"reads {said}", read if isinstance(read, list) else None)
        what = difference(meant, read, self)
        if what and isinstance(read, list) and isinstance(meant, list):
            return Result(case, OTHERWISE, what[:200], read)
        return Result(case, OTHERWISE, what[:200]) if what else Result(case, READ)


class Progress:
    """A line on a terminal: how many cases are done, and how many of them failed. Standard error that is no terminal gets nothing."""

    def __init__(self, total: int):
        self.total, self.done, self.failed = total, 0, 0
        self.shows = sys.stderr.isatty()

    def add(self, result: Result):
        self.done += 1
        self.failed += not result.is_good()
        if self.shows:
            print(f"\r{self.done:,} of {self.total:,} cases, {self.failed:,} failed", end="", file=sys.stderr, flush=True)

    def end(self):
        if self.shows:
            print(file=sys.stderr)


def results_of(command: list, chosen: list, options: dict) -> list:
    """The reader's results, in the order of the cases; `jobs` of them are worked out at a time."""
    reader, results, progress = Reader(command, options), [], Progress(len(chosen))
    with concurrent.futures.ThreadPoolExecutor(options.get("jobs") or processors()) as pool:
        for result in pool.map(reader.result, chosen):
            results.append(result)
            progress.add(result)
    progress.end()
    return results


def is_here(command: list) -> bool:
    return shutil.which(command[0]) is not None


def counts(results: list) -> dict:
    """How many cases of each sort have each outcome."""
    table = {sort: dict.fromkeys(OUTCOMES, 0) for sort in SORTS}
    for result in results:
        table[result.case.sort()][result.outcome] += 1
    return table
