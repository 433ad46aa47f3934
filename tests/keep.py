#!/usr/bin/env python3
"""How OUT gets its name: runs at once, a system that fails as late as it can, and what is at OUT's name before.

usage: tests/keep.py PROGRAM

tests/faults.c makes calls fail or wait, and cc builds it; where there is no cc, the parts that need it are left out. What only root can
set up is left out for other users.
"""

import os
import pty
import shutil
import socket
import stat
import subprocess
import sys
import tempfile

HERE = os.path.dirname(os.path.abspath(__file__))
sys.dont_write_bytecode = True
sys.path.insert(0, HERE)

from faults import build
from published import SAMPLE, Folder, packed
from suite import own_lines
from terminal import run as on_terminal

BOX = "--box=9.997,49.999,10.003,50.003"
SMART = ["extract", "-s", "smart", "--types=any", BOX]
SECONDS = 900
OLD = b"old"
AREA = b"town\n1\n9.997 49.999\n10.003 49.999\n10 50.003\nEND\nEND\n"
# the number of a user who owns nothing, as of the group
ORDINARY = 65_534


class Bench(Folder):
    """A folder with a compressed file, and the program by both of its names."""

    def __init__(self, program: str, folder: str, elsewhere: str):
        super().__init__(folder)
        self.elsewhere, self.count = elsewhere, 0
        self.names = {}
        # another user runs it too
        os.chmod(elsewhere, 0o755)
        os.chmod(folder, 0o755)
        for name in "pbfcut", "pbfcutz":
            self.names[name] = shutil.copy(program, os.path.join(elsewhere, name))
            os.chmod(self.names[name], 0o755)
        self.library = build(elsewhere)
        with open(SAMPLE, "rb") as file:
            raw = file.read()
        self.write("raw", raw)
        self.write("in", packed(raw))
        self.start_files = set(os.listdir(folder))
        # what OUT has to be
        self.cut = {name: self.made(name) for name in self.names}

    def start(self, words: list, name: str = "pbfcutz", fault: str = "", **how):
        how = {"stdin": subprocess.DEVNULL, "stdout": subprocess.PIPE, "stderr": subprocess.PIPE, "cwd": self.folder, **how}
        environment = {"LD_PRELOAD": self.library, "FAULTS": fault} if fault else {}
        return subprocess.Popen([self.names[name], *words], env=environment, **how)

    def run(self, words: list, name: str = "pbfcutz", fault: str = "", **how) -> tuple:
        """Status, standard output and standard error of a run."""
        self.count += 1
        process = self.start(words, name, fault, **how)
        out, errors = process.communicate(timeout=SECONDS)
        return process.returncode, (out or b"").decode(), own_lines(errors).decode()

    def made(self, name: str) -> bytes:
        """What a run writes, whose OUT goes away."""
        expect("a usual run", (0, ""), self.run(["extract", BOX, given(name), "out"], name)[::2])
        return self.take("out")

    def take(self, name: str) -> bytes:
        content = self.read(name)
        os.unlink(self.path(name))
        return content

    def left(self) -> set:
        """Which files are new."""
        return set(os.listdir(self.folder)) - self.start_files


def given(name: str) -> str:
    """An IN that the program of this name reads."""
    return "in" if name == "pbfcutz" else "raw"


def expect(what: str, wanted, found):
    if wanted != found:
        sys.exit(f"tests/keep.py: {what}: expected {wanted!r:.600}, found {found!r:.600}")


def started_together(bench: Bench, number: int, overwrite: bool, fault: str) -> tuple:
    """So many runs at once with one OUT, each second one raw: how many ended in which way, and OUT."""
    flags = ["-O"] if overwrite else []
    words = [["extract", BOX, *flags, *(["--raw"] if turn % 2 else []), "in", "out"] for turn in range(number)]
    runs = [bench.start(one, fault=fault) for one in words]
    ends = [(run.communicate(timeout=SECONDS), run.returncode) for run in runs]
    bench.count += number
    ended = sorted((status, own_lines(errors)) for (_, errors), status in ends)
    expect(f"{number} runs at once, {flags}, {fault}: the files that are new", {"out"}, bench.left())
    return ended, bench.take("out")


def together(bench: Bench):
    """Two to six runs at once: with --overwrite each ends well, otherwise one. OUT is what one of them writes, whole."""
    bench.run(["extract", BOX, "--raw", "in", "out"])
    answers = [bench.take("out"), bench.cut["pbfcutz"]]
    faults = ["", "slow 4 -1", "slow 20 -1", "link-EPERM 1 -1"] if bench.library else [""]
    for fault in faults:
        for number in [2, 3, 4, 5, 6] * 4:
            for overwrite in True, False:
                if overwrite and number % 2:
                    bench.write("out", OLD)
                ended, out = started_together(bench, number, overwrite, fault)
                lost = {(3, b"pbfcutz: OUT exists\n")}
                well = ended.count((0, b""))
                what = f"{number} runs at once, overwrite {overwrite}, {fault!r}: {ended}"
                expect(what, number if overwrite else 1, well)
                expect(what, True, set(ended[well:]) <= lost)
                expect("OUT is whole", True, out in answers)


def made_meanwhile(bench: Bench):
    """OUT is not there when it is looked for, and there when it is to be made: it stays."""
    if not bench.library:
        return
    expect("OUT that was made meanwhile", (3, "", "pbfcut: OUT exists\n"), bench.run(["extract", BOX, "raw", "out"], "pbfcut", "made 1 -1"))
    expect("the file of another run", b"", bench.take("out"))


def parts(bench: Bench):
    """The name of a part has the number of the process; a file that has it already stays as it is, as do the parts of other runs."""
    script = 'for name in out.$$.0.part out.$$.1.part out.1.0.part out.0.part; do echo left >$name; done; exec "$@"'
    for words, fault in [(["extract", BOX], ""), (["extract", "-O", BOX], ""), (["extract", BOX], "link-EPERM 1 -1")]:
        if "-O" in words:
            bench.write("out", OLD)
        bench.count += 1
        environment = {"LD_PRELOAD": bench.library, "FAULTS": fault} if fault and bench.library else {}
        env = [f"{name}={value}" for name, value in environment.items()]
        run = subprocess.Popen(["sh", "-c", script, "sh", "env", *env, bench.names["pbfcutz"], *words, "in", "out"], cwd=bench.folder, stdout=subprocess.DEVNULL)
        expect(f"{words} beside parts of others", 0, run.wait(timeout=SECONDS))
        wanted = {"out.0.part", "out.1.0.part", f"out.{run.pid}.0.part", f"out.{run.pid}.1.part"}
        expect(f"the files after {words}", {"out"} | wanted, bench.left())
        expect("OUT", bench.cut["pbfcutz"], bench.take("out"))
        for name in wanted:
            expect(f"the part of another run {name}", b"left\n", bench.take(name))


def logged(bench: Bench, words: list, name: str) -> str:
    """The calls of a run that sync, name and print, in their order: a letter each, as tests/faults.c has them."""
    reading, writing = os.pipe()
    try:
        expect(f"{name} {words}", 0, bench.run(words, name, f"log 0 {writing}", pass_fds=(writing,))[0])
        os.close(writing)
        return os.read(reading, 1_000).decode()
    finally:
        os.close(reading)


def synced(bench: Bench):
    """The file and its folder are on the disk before OUT has its name and before the counts are printed; an error then is a failed write."""
    if not bench.library:
        return
    for name, new, old in [("pbfcut", "fdp", ""), ("pbfcutz", "fdludp", "fdrdp")]:
        words = ["extract", BOX, given(name), "out"]
        expect(f"{name}: the order of its calls", new, logged(bench, words, name))
        if old:
            expect(f"{name}: the order of its calls with --overwrite", old, logged(bench, [*words, "-O"], name))
        expect("OUT", bench.cut[name], bench.take("out"))
        failed = (3, "", f"{name}: write failed\n")
        for number, kept in [(1, name == "pbfcut"), (2, name == "pbfcut")] + [(3, True)] * (name == "pbfcutz"):
            for error in "EIO", "ENOSPC", "EDQUOT":
                expect(f"{name}: sync {number} fails", failed, bench.run(words, name, f"sync-{error} {number} -1"))
                expect(f"{name}: what is left after sync {number}", {"out"} if kept else set(), bench.left())
                if kept:
                    expect("OUT", bench.cut[name], bench.take("out"))
        # no such sync, as of some file systems; and close says what sync has said
        for fault in ["sync-EINVAL 1 -1", "sync-EPERM 2 -1", *(f"close-EIO {number} -1" for number in range(1, 10))]:
            expect(f"{name}: {fault}", (0, ""), bench.run(words, name, fault)[::2])
            expect("OUT", bench.cut[name], bench.take("out"))
    for error in "EIO", "ENOSPC":
        bench.write("out", OLD)
        expect("a sync that fails", 3, bench.run(["extract", "-O", BOX, "in", "out"], fault=f"sync-{error} 1 -1")[0])
        expect("the file that was there", OLD, bench.take("out"))


def no_files(bench: Bench):
    """A pipe, a device or a socket at OUT's name is not opened, so no run waits for its other end."""
    os.mkfifo(bench.path("fifo"))
    os.symlink("fifo", bench.path("link"))
    os.symlink("nothing", bench.path("loose"))
    os.mkdir(bench.path("room"))
    with socket.socket(socket.AF_UNIX) as end:
        end.bind(bench.path("socket"))
        for name in bench.names:
            for flags in [[], ["-O"]] if name == "pbfcutz" else [[]]:
                for there in "fifo", "link", "socket", "room", "room/", ".", "/dev/null", "/dev/full", "/dev/tty":
                    found = bench.run(["extract", BOX, *flags, given(name), there], name)
                    expect(f"{name} {flags} to {there}", (3, "", f"{name}: OUT exists\n"), found)
                for absent in "loose", "fifo/out", "nowhere/out", "raw/out", "":
                    found = bench.run(["extract", BOX, *flags, given(name), absent], name)
                    expect(f"{name} {flags} to {absent!r}", (3, "", f"{name}: cannot open\n"), found)
    for there in "fifo", "link", "loose", "socket":
        os.unlink(bench.path(there))
    os.rmdir(bench.path("room"))


def long_names(bench: Bench):
    """Names up to the longest. The name of a part is a short one if OUT's can't get longer."""
    for length in 230, 240, 248, 249, 250, 254, 255:
        for flags in [], ["-O"]:
            for out in "o" * length, "./" + "\u00ef" * (length // 2):
                if flags:
                    bench.write(out, OLD)
                expect(f"OUT of {length} bytes", (0, ""), bench.run(["extract", BOX, *flags, "in", out])[::2])
                expect(f"the files beside OUT of {length} bytes", {os.path.basename(out)}, bench.left())
                expect(f"OUT of {length} bytes", bench.cut["pbfcutz"], bench.take(out))
    for name in bench.names:
        expect("a name of 256 bytes", (3, "", f"{name}: cannot open\n"), bench.run(["extract", BOX, given(name), "o" * 256], name))
    if bench.library:
        expect("a short name, refused", 3, bench.run(["extract", BOX, "in", "o" * 255], fault="sync-EIO 1 -1")[0])
    # pbfcutz writes to standard output by this name, and pbfcut to a file
    expect("pbfcut to -", (0, ""), bench.run(["extract", BOX, "raw", "-"], "pbfcut")[::2])
    expect("the file -", bench.cut["pbfcut"], bench.take("-"))


def as_ordinary():
    """Of root an ordinary user; others stay what they are."""
    if os.getuid() == 0:
        os.setgroups([])
        os.setgid(ORDINARY)
        os.setuid(ORDINARY)


def refused(bench: Bench, what: str, words: list, **how):
    """A run with --overwrite that is refused before IN is read: then no line of progress is there."""
    before = bench.left()
    found = bench.run(["extract", BOX, "-O", "--progress", *words], **how)
    expect(f"OUT that is {what}", (3, "", "pbfcutz: cannot open\n"), found)
    expect(f"the files beside OUT that is {what}", before, bench.left())


def status_of(bench: Bench, name: str) -> tuple:
    found = os.stat(bench.path(name))
    return stat.S_IMODE(found.st_mode), found.st_uid, found.st_gid


def modes(bench: Bench):
    """The file that replaces another has its mode and its owner, as far as the user may give them."""
    user, group = os.getuid(), os.getgid()
    rows = [(mode, user, group) for mode in (0o600, 0o640, 0o644, 0o660, 0o666, 0o755, 0o777, 0o4755, 0o200)]
    if user == 0:
        rows += [(0o640, 1234, 2345), (0o6755, 1234, 2345), (0o444, 0, 0), (0, 1234, 0)]
    for mode, owner, owners in rows:
        for mask in 0o022, 0o077, 0:
            bench.write("out", OLD)
            os.chown(bench.path("out"), owner, owners)
            os.chmod(bench.path("out"), mode)
            expect(f"OUT of mode {mode:o}", 0, bench.run(["extract", BOX, "-O", "in", "out"], preexec_fn=lambda mask=mask: os.umask(mask))[0])
            expect(f"OUT of mode {mode:o}, mask {mask:o}", (mode & 0o777, owner, owners), status_of(bench, "out"))
            os.chmod(bench.path("out"), 0o600)
            expect("OUT", bench.cut["pbfcutz"], bench.take("out"))
    # a file that replaces none
    for mask in 0o022, 0o077, 0:
        for flags in [], ["-O"]:
            bench.run(["extract", BOX, *flags, "in", "out"], preexec_fn=lambda mask=mask: os.umask(mask))
            expect(f"a new OUT, mask {mask:o}", (0o666 & ~mask, user), status_of(bench, "out")[:2])
            bench.take("out")
    bench.write("out", OLD)
    os.chmod(bench.path("out"), 0o444)
    refused(bench, "read-only", ["in", "out"], preexec_fn=as_ordinary)
    expect("what is read-only", OLD, bench.take("out"))


def of_others(bench: Bench):
    """An ordinary user and root's files: what may not be written or replaced is refused before the work, and stays."""
    if os.getuid() != 0:
        return
    os.chmod(bench.folder, 0o777)
    for what, mode, owner, group, end in [
            ("another's", 0o644, 0, 0, None), ("another's of the same group", 0o640, 0, ORDINARY, None),
            ("another's, which the group writes", 0o660, 0, ORDINARY, (0o660, ORDINARY, ORDINARY)),
            ("another's, which all write", 0o666, 0, 4321, (0o606, ORDINARY, ORDINARY)),
            ("another's, which runs as its owner", 0o6777, 0, 4321, (0o707, ORDINARY, ORDINARY))]:
        bench.write("out", OLD)
        os.chown(bench.path("out"), owner, group)
        os.chmod(bench.path("out"), mode)
        if end is None:
            refused(bench, what, ["in", "out"], preexec_fn=as_ordinary)
            expect(what, OLD, bench.take("out"))
        else:
            expect(f"OUT that is {what}", 0, bench.run(["extract", BOX, "-O", "in", "out"], preexec_fn=as_ordinary)[0])
            expect(f"OUT that is {what}", end, status_of(bench, "out"))
            expect("OUT", bench.cut["pbfcutz"], bench.take("out"))
    for mode in 0o555, 0o1777:
        os.mkdir(bench.path("room"))
        bench.write("room/out", OLD)
        os.chmod(bench.path("room/out"), 0o666)
        os.chmod(bench.path("room"), mode)
        refused(bench, f"in a folder of mode {mode:o}", ["in", "room/out"], preexec_fn=as_ordinary)
        expect(f"a folder of mode {mode:o}", ["out"], os.listdir(bench.path("room")))
        expect(f"OUT in a folder of mode {mode:o}", OLD, bench.read("room/out"))
        shutil.rmtree(bench.path("room"))
    # a folder that can't be read can't be synced
    os.mkdir(bench.path("room"))
    os.chmod(bench.path("room"), 0o333)
    for name in bench.names:
        expect(f"{name} into a folder that can't be read", (0, ""),
               bench.run(["extract", BOX, given(name), f"room/{name}"], name, preexec_fn=as_ordinary)[::2])
        expect("OUT there", bench.cut[name], bench.read(f"room/{name}"))
    shutil.rmtree(bench.path("room"))


def mounted(bench: Bench):
    """A file that is mounted by itself can't be replaced."""
    bench.write("out", OLD)
    bench.write("other", OLD)
    script = 'mount --bind other out && exec "$@"'
    words = ["unshare", "-m", "sh", "-c", script, "sh", bench.names["pbfcutz"], "extract", BOX, "-O", "--progress", "in", "out"]
    if os.getuid() == 0 and subprocess.run([*words[:5], "sh", "true"], cwd=bench.folder, capture_output=True).returncode == 0:
        bench.count += 1
        done = subprocess.run(words, cwd=bench.folder, capture_output=True, timeout=SECONDS)
        expect("OUT that is mounted", (3, b"pbfcutz: cannot open\n"), (done.returncode, own_lines(done.stderr)))
        expect("the files beside it", {"out", "other"}, bench.left())
    for name in "out", "other":
        expect("what is mounted", OLD, bench.take(name))


def sources(bench: Bench):
    """What a run reads is not replaced, by whatever name, and nothing is printed into it."""
    content = bench.read("in")
    bench.write("out", content)
    os.link(bench.path("out"), bench.path("hard"))
    os.symlink("out", bench.path("soft"))
    for given_in in "out", "./out", "hard", "soft", os.path.join(bench.folder, "out"):
        for command in ["extract", BOX], SMART, ["convert"], ["pack"], ["unpack"]:
            found = bench.run([*command, "-O", "--progress", given_in, "out"])
            expect(f"{command} of {given_in} to itself", (3, "", "pbfcutz: cannot open\n"), found)
    bench.write("area", AREA)
    found = bench.run(["extract", "-p", "area", "-O", "--progress", "in", "area"])
    expect("an extract to its polygon", (3, "", "pbfcutz: cannot open\n"), found)
    expect("the polygon", AREA, bench.take("area"))
    expect("IN", content, bench.read("out"))
    for name in bench.names:
        bench.write("out", bench.read(given(name)))
        prints_into(bench, name)
    for name in "out", "hard", "soft":
        os.unlink(bench.path(name))


def prints_into(bench: Bench, name: str):
    """A run whose standard output is IN doesn't begin: what it prints would come in again."""
    content = bench.read("out")
    commands = [["check"], ["show"], ["blobs"]] + [["info"]] * (name == "pbfcutz")
    runs = [[*command, path] for command in commands for path in ("out", "hard", "soft", "/dev/stdin")]
    runs += [[*command, "out", "-"] for command in (["pack"], ["unpack"], ["convert"], ["extract", BOX], SMART) if name == "pbfcutz"]
    for words in runs:
        for mode in "ab", "r+b":
            with open(bench.path("out"), mode) as screen, open(bench.path("out"), "rb") as keys:
                expect(f"{name} {words} on {mode}", (3, "", f"{name}: cannot open\n"), bench.run(words, name, stdout=screen, stdin=keys))
            expect(f"IN after {words}", content, bench.read("out"))
    bench.count += 1
    other = bench.path("hard.copy")
    with open(other, "wb") as screen:
        expect("another file with the same bytes", 0, bench.run(["check", "out"], name, stdout=screen)[0])
    os.unlink(other)


def hints(bench: Bench):
    """On a terminal a second line says which two names are one file."""
    try:
        for end in pty.openpty():
            os.close(end)
    except OSError:
        return
    content = bench.read("in")
    bench.write("out", content)
    spoiled = [(["extract", BOX, "-O", "out", "out"], "", "it is a file that this run reads", "name another OUT, and rename it when it is there"),
               (["check", "out"], bench.path("out"), "it is standard output too", "write to another file")]
    for words, to, fact, hint in spoiled:
        bench.count += 1
        status, _, seen = on_terminal(bench.names["pbfcutz"], words, bench.folder, to, None)
        expect(f"{words} on a terminal", (3, f"pbfcutz: cannot open\npbfcutz: out: {fact}\nhint: {hint}\n"), (status, seen))
    bench.take("out")
    # the numbers of a process that has ended, and of one that goes on
    ended = subprocess.Popen(["true"])
    ended.wait()
    for process, told in [(ended.pid, True), (os.getpid(), False)]:
        for name in f"out.{process}.0.part", "out.x.0.part", f"other.{process}.0.part", f"out.{process}.part", f"out.{process}.0.parts":
            bench.write(name, OLD)
        for flags in [], ["-O"]:
            bench.count += 1
            status, _, seen = on_terminal(bench.names["pbfcutz"], ["extract", BOX, *flags, "in", "./out"], bench.folder, "", None)
            hint = f"hint: out.{process}.0.part is what another run wrote: remove it, if that run has ended\n"
            expect("a part that was left", (0, hint if told else ""), (status, seen))
        for name in bench.left():
            bench.take(name)


def main():
    if len(sys.argv) != 2 or not os.access(sys.argv[1], os.X_OK):
        sys.exit(__doc__)
    with tempfile.TemporaryDirectory(prefix="pbfcut-keep-") as folder, tempfile.TemporaryDirectory() as elsewhere:
        bench = Bench(sys.argv[1], folder, elsewhere)
        for part in [parts, made_meanwhile, together, synced, no_files, long_names, modes, of_others, mounted, sources, hints]:
            part(bench)
            expect(f"what {part.__name__} leaves", set(), bench.left())
    print(f"tests/keep.py: {bench.count} runs ended as they have to")


if __name__ == "__main__":
    main()
