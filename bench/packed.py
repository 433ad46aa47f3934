#!/usr/bin/env python3
"""Measures a cut from a compressed file to a compressed one, beside Osmium as a user would run it.

usage: bench/packed.py PROGRAM FILE [--times N] BOX..

FILE is compressed: `pbfcutz pack` makes one of what bench/make.py makes. In turn, N times (3), for each box: PROGRAM as pbfcutz,
and Osmium's complete-ways extract with its default threads, on all processors. It prints the least and the
median of the seconds by the clock, the least beside Osmium's, and the greatest memory of a process. First come `check` by pbfcut of
the raw file, which is made for it, and by pbfcutz of FILE, on one processor each, without digests and with them.
"""
import os
import resource
import shutil
import statistics
import subprocess
import sys
import tempfile
import time



def measured(words: list, processors) -> tuple:
    """The seconds of a command by the clock, and the greatest memory of one of its processes in MB."""
    reading, writing = os.pipe()
    child = os.fork()
    if child == 0:
        os.sched_setaffinity(0, processors)
        began = time.monotonic()
        done = subprocess.run(words, stdout=subprocess.DEVNULL, stderr=subprocess.PIPE, check=False)
        seconds = time.monotonic() - began
        if done.returncode:
            os.write(2, done.stderr)
        memory = resource.getrusage(resource.RUSAGE_CHILDREN).ru_maxrss / 1024
        os.write(writing, f"{seconds} {memory} {done.returncode}".encode())
        os._exit(0)
    os.waitpid(child, 0)
    os.close(writing)
    seconds, memory, status = os.read(reading, 200).decode().split()
    os.close(reading)
    if status != "0":
        sys.exit(f"bench/packed.py: {' '.join(words)} ended with {status}")
    return float(seconds), float(memory)


def show(name: str, runs: list, beside=None):
    seconds = [run[0] for run in runs]
    ratio = f"  {min(seconds) / beside:5.2f}" if beside else ""
    print(f"{name:34} {min(seconds):7.2f} {statistics.median(seconds):7.2f} {max(run[1] for run in runs):7.0f} MB{ratio}", flush=True)
    return min(seconds)


def compare_checks(pbfcut: str, pbfcutz: str, file: str, folder: str, times: int):
    raw = os.path.join(folder, "raw.osm.pbf")
    subprocess.run([pbfcutz, "unpack", file, raw], stdout=subprocess.DEVNULL, check=True)
    one = {max(os.sched_getaffinity(0))}
    pairs = [[("check" + flags + " of the " + kind + " file", [program, *("check" + flags).split(), name])
              for kind, program, name in (("raw", pbfcut, raw), ("compressed", pbfcutz, file))] for flags in ("", " --digests")]
    found = {name: [] for pair in pairs for name, _ in pair}
    for _ in range(times):
        for name, words in (run for pair in pairs for run in pair):
            found[name].append(measured(words, one))
    os.unlink(raw)
    for (of_raw, _), (of_packed, _) in pairs:
        beside = show(of_raw, found[of_raw])
        show(of_packed, found[of_packed], beside)


def compare_cuts(pbfcutz: str, file: str, box: str, folder: str, times: int):
    out = os.path.join(folder, "out.osm.pbf")
    commands = {
        "osmium extract": ["osmium", "extract", "-s", "complete_ways", "-b", box, file, "-o", out],
        "pbfcutz extract": [pbfcutz, "extract", f"--box={box}", file, out],
    }
    processors = os.sched_getaffinity(0)
    found, size = {name: [] for name in commands}, 0
    for _ in range(times):
        for name, words in commands.items():
            found[name].append(measured(words, processors))
            size = os.path.getsize(out)
            os.unlink(out)
    print(f"box {box}, OUT {size / 1e6:.1f} MB")
    beside = show("  osmium extract", found["osmium extract"])
    show("  pbfcutz extract", found["pbfcutz extract"], beside)


def main(words: list):
    times = 3
    if "--times" in words:
        at = words.index("--times")
        times = int(words[at + 1])
        del words[at:at + 2]
    if len(words) < 2 or not shutil.which("osmium"):
        sys.exit(__doc__)
    program, file, *boxes = words
    with tempfile.TemporaryDirectory(dir=os.path.dirname(os.path.abspath(file))) as folder:
        for name in ("pbfcut", "pbfcutz"):
            os.symlink(os.path.abspath(program), os.path.join(folder, name))
        pbfcut, pbfcutz = (os.path.join(folder, name) for name in ("pbfcut", "pbfcutz"))
        print(f"{'':34} {'least':>7} {'median':>7} {'memory':>10}  ratio")
        compare_checks(pbfcut, pbfcutz, file, folder, times)
        for box in boxes:
            compare_cuts(pbfcutz, file, box, folder, times)


if __name__ == "__main__":
    main(sys.argv[1:])
