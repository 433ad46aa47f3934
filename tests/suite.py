#!/usr/bin/env python3
"""Tests the scripts of vectors/ with small readers made here, and pbfcutz with the cases of the packing itself.

usage: tests/suite.py PROGRAM
"""

import json
import os
import pty
import re
import subprocess
import sys
import tarfile
import tempfile
import xml.etree.ElementTree as ElementTree

TOP = os.path.dirname(os.path.dirname(os.path.abspath(__file__)))
VECTORS = os.path.join(TOP, "vectors")
RUN = [sys.executable, os.path.join(VECTORS, "run.py")]
FEW = ["--only", "three_dense_nodes_as", "--only", "three_dense_nodes_with_a_longitude"]
sys.dont_write_bytecode = True
sys.path.insert(0, VECTORS)

import archive
import forms
import known
import reference
from make import written_files
from packing import frames, packed
from recipes import RECIPES
from suite import Case
from zlib_cases import zlib_cases

# Knows two cases by their length, and prints what is to be read of the sound one.
READER = """
import json, os, signal, sys, time
case = json.load(open({case!r}))
def read(name):
    if os.path.getsize(name) != {length}:
        print("fault", file=sys.stderr)
        return 1
    for entity in case["entities"]:
        {change}
        print(json.dumps(entity))
    return 0
"""
ONCE = READER + "sys.exit(read(sys.argv[1]))\n"
MANY = READER + "for name in sys.stdin:\n    print('# status', read(name.strip()), 'said', flush=True)\n"


def require(condition, what: str):
    if not condition:
        sys.exit(f"suite.py: {what}")


def run(*words) -> subprocess.CompletedProcess:
    return subprocess.run([*RUN, *words], capture_output=True, text=True, check=False)


def reader_script(folder: str, text: str, change: str = "pass") -> list:
    sound = Case("three_dense_nodes_as_extracted")
    file = os.path.join(folder, "reader.py")
    with open(file, "w", encoding="utf-8") as out:
        out.write(text.format(case=os.path.join(sound.folder, "case.json"), length=len(sound.input()), change=change))
    return ["--", sys.executable, file]


def a_good_reader(folder: str):
    command = reader_script(folder, ONCE)
    for form in ([], ["--form", "lines", "--jobs", "2", "--list"]):
        done = run("reader", *form, *FEW, *command)
        require(done.returncode == 0, f"a good reader: status {done.returncode}: {done.stdout}{done.stderr}")
    done = run("reader", "--batch", *FEW, *reader_script(folder, MANY))
    require(done.returncode == 0, f"a good reader of many files: {done.stdout}{done.stderr}")


def bad_readers(folder: str):
    """What each does otherwise is named, and the status is 1."""
    changes = {
        "entity['lat'] += 1000": "place is",
        "entity['id'] += 1": "id is",
        "entity['tags'] = [['a', 'b']]": "tags is",
        "continue": "0 entities, and not 2",
        "os.kill(os.getpid(), signal.SIGSEGV)": "signal 11",
        "time.sleep(9)": "no end within 1 seconds",
        "print('{')": "can't be understood",
    }
    for change, said in changes.items():
        for text, batch in ((ONCE, []), (MANY, ["--batch"])):
            # a busy machine may take a second to start any of them
            limit = "1" if "sleep" in change else "900"
            done = run("reader", *batch, "--list", "--seconds", limit, *FEW, *reader_script(folder, text, change))
            require(done.returncode == 1 and said in done.stdout, f"{change} {batch}: {done.returncode} {done.stdout}{done.stderr}")
    done = run("reader", "--batch", "--list", *FEW, "--", "true")
    require(done.returncode == 1 and "it ended" in done.stdout, f"a reader of many files that ends at once: {done.stdout}{done.stderr}")
    leaving = run("reader", "--without", "place,tags", *FEW, *reader_script(folder, ONCE, "entity['lat'] += 1000"))
    require(leaving.returncode == 0, "--without leaves nothing out")


def reports(folder: str):
    command = reader_script(folder, ONCE, "entity['lat'] += 1000")
    places = {name: os.path.join(folder, "report." + name) for name in ("json", "tap", "junit", "html")}
    words = [word for name, place in places.items() for word in ("--" + name, place)]
    require(run("reader", *words, *FEW, *command).returncode == 1, "the status beside reports")
    text = {name: open(place, encoding="utf-8").read() for name, place in places.items()}
    (told,) = json.loads(text["json"])
    require(told["counts"]["sound"]["read otherwise"] == 1 and told["counts"]["broken"]["refused"] == 1, "the counts of --json")
    require([result["case"] for result in told["results"]] == ["three_dense_nodes_as_extracted"], "the results of --json")
    require(text["tap"].startswith("TAP version 13\n1..2\nnot ok 1 - three_dense_nodes_as_extracted\n"), "--tap")
    require("\nok 2 - three_dense_nodes_with_a_longitude_cut\n" in text["tap"], "--tap")
    suite = ElementTree.fromstring(text["junit"])
    require((suite.get("tests"), suite.get("failures"), suite.get("errors")) == ("2", "1", "0"), "--junit")
    require("To be read" in text["html"] and "lat 1100" in text["html"] and text["html"].endswith("</html>\n"), "--html")
    require(run("reader", "--tap", "-", *FEW, *command).stdout == text["tap"], "a report to standard output")


def written(folder: str, name: str, text: str) -> str:
    place = os.path.join(folder, name)
    with open(place, "w", encoding="utf-8") as file:
        file.write(text)
    return place


def expected_failures(folder: str):
    """A case of the list doesn't fail the run, one that passes is named, and a name that no case has is refused."""
    listed = written(folder, "known.txt", "# a comment\n\nthree_dense_nodes_as_extracted  # its latitude\nzlib_plain\n")
    command = reader_script(folder, ONCE, "entity['lat'] += 1000")
    done = run("reader", "--list", "--known", listed, *FEW, *command)
    require(done.returncode == 0 and f"{listed}: 1 of these cases, 0 pass\n" in done.stdout, f"--known: {done.stdout}{done.stderr}")
    require("place is" not in done.stdout, "--list names an expected failure")
    reports = {name: os.path.join(folder, "known." + name) for name in ("json", "tap", "junit", "html")}
    words = [word for name, place in reports.items() for word in ("--" + name, place)]
    require(run("reader", "--known", listed, *words, *FEW, *command).returncode == 0, "reports of expected failures")
    text = {name: open(place, encoding="utf-8").read() for name, place in reports.items()}
    require("not ok 1 - three_dense_nodes_as_extracted # TODO" in text["tap"], "--tap of an expected failure")
    require('failures="0"' in text["junit"] and '<skipped message="an expected failure"/>' in text["junit"], "--junit of an expected failure")
    require("(an expected failure)" in text["html"], "--html of an expected failure")
    require(json.loads(text["json"])[0]["results"][0]["known"] is True, "--json of an expected failure")
    reader_script(folder, ONCE)  # from here on the command reads all as meant
    named = f"passes, and {listed} expects a failure: three_dense_nodes_as_extracted\n"
    for strict, status in (([], 0), (["--strict-known"], 1)):
        done = run("reader", "--known", listed, *strict, *FEW, *command)
        require(done.returncode == status and named in done.stdout, f"an expected failure that passes: {done.returncode} {done.stdout}")
    wrong = written(folder, "wrong.txt", "three_dense_nodes_as_extracted\nnobody  # no case\n")
    for file, said in ((wrong, f"run.py: {wrong}, line 2: no case is named 'nobody'\n"), (folder, f"run.py: {folder} can't be read: Is a directory\n")):
        done = run("reader", "--known", file, *FEW, *command)
        require((done.returncode, done.stdout, done.stderr) == (2, "", said), f"--known {file}: {done.returncode} {done.stdout}{done.stderr}")


def written_failures(folder: str):
    """--write-known writes a file that --known takes: a reader that refuses all files fails by the sound ones, and by no other."""
    listed = os.path.join(folder, "written.txt")
    packed_cases = ["reader", "--set", "zlib", "--jobs", "2"]
    require(run(*packed_cases, "--write-known", listed, "--", "false").returncode == 0, "--write-known")
    names = known.known_names(listed)
    require(names == {case.name for case in zlib_cases([]) if case.sort() == "sound"}, f"--write-known: {names}")
    require("zlib_plain  # sound, refused" in open(listed, encoding="utf-8").read(), "the comments of --write-known")
    require(run(*packed_cases, "--known", listed, "--", "false").returncode == 0, "what --write-known wrote")
    done = run(*packed_cases, "--known", listed, "--form", "status", "--", "true")
    rows = {line[:26].strip(): line[26:].split() for line in done.stdout.splitlines()[1:5]}
    require(done.returncode == 1 and f"{len(names)} pass" in done.stdout, f"a reader that reads all: {done.stdout}")
    require(rows["broken, gives wrong data"][1] == "24" and rows["broken, no harm"][1] == "2", f"broken cases without harm: {done.stdout}")
    done = run("reader", "--set", "all", "--only", "zlib_plain", "--only", "three_dense_nodes_as", "--form", "status", "--", "true")
    require(done.returncode == 0 and done.stdout.splitlines()[1].split()[1] == "2", f"--set all: {done.stdout}")


def read_all(terminal: int) -> bytes:
    """What a terminal has, which may come in pieces, and at the end of which it fails."""
    said = b""
    try:
        while piece := os.read(terminal, 4096):
            said += piece
    except OSError:
        pass
    os.close(terminal)
    return said


def progress(folder: str):
    """A terminal shows how many cases are done; a pipe gets nothing."""
    command = [*RUN, "reader", *FEW, *reader_script(folder, ONCE, "entity['id'] += 1")]
    ours, theirs = pty.openpty()
    done = subprocess.run(command, stdout=subprocess.DEVNULL, stderr=theirs, check=False)
    os.close(theirs)
    said = read_all(ours)
    require(done.returncode == 1 and b"\r2 of 2 cases, 1 failed" in said, f"the line on a terminal: {said}")
    require(run(*command[len(RUN):]).stderr == "", "a line of progress on a pipe")


def the_archive(folder: str):
    """It is the same each time, and runs where nothing of the repository is: here the reference reads cases of ways."""
    places = [os.path.join(folder, name, "pbf-vectors.tar.gz") for name in ("first", "second")]
    for place in places:
        os.mkdir(os.path.dirname(place))
        require(run("archive", place).returncode == 0, "run.py archive")
    first, second = (open(place, "rb").read() for place in places)
    require(first == second, "two archives differ")
    empty = os.path.join(folder, "empty")
    with tarfile.open(places[0]) as found:
        entries = found.getmembers()
        require(all((entry.uid, entry.gid, entry.mtime) == (0, 0, archive.TIME) for entry in entries), "the archive's owners and times")
        names = [entry.name for entry in entries]
        require(names == sorted(names) and not any("__pycache__" in name for name in names), "the archive's names")
        found.extractall(empty)
    links_lead_somewhere(os.path.join(empty, "pbf-vectors"))
    words = ["pbf-vectors/vectors/run.py", "reader", "--batch", "--only", "way_id", "--only", "group_of_", "--list", "--"]
    done = subprocess.run([sys.executable, *words, "pbf-vectors/vectors/adapters/reference_lines.py"], cwd=empty, capture_output=True, text=True,
                          env={"PATH": os.environ["PATH"]}, check=False)
    require(done.returncode == 0 and "broken, no harm" in done.stdout, f"the suite by itself: {done.stdout}{done.stderr}")
    again = os.path.join(folder, "third", "pbf-vectors.tar.gz")
    os.mkdir(os.path.dirname(again))
    subprocess.run([sys.executable, words[0], "archive", again], cwd=empty, check=True)
    require(open(again, "rb").read() == first, "the archive of an archive")


def links_lead_somewhere(folder: str):
    """Each link of a page leads to a file of the archive or the web."""
    pages = [os.path.join(place, name) for place, _, names in os.walk(folder) for name in names if name.endswith(".md")]
    require(len(pages) > 20, f"{len(pages)} pages in the archive")
    for page in pages:
        for link in re.findall(r"\]\(([^)#]+)\)", open(page, encoding="utf-8").read()):
            found = link.startswith("http") or os.path.exists(os.path.join(os.path.dirname(page), link))
            require(found, f"{page} links to '{link}', which is not in the archive")


def prepared_reports():
    """Each report names a case, says what should be read of it as the case does, and quotes docs/FORMAT.md."""
    with open(os.path.join(TOP, "docs", "FORMAT.md"), encoding="utf-8") as file:
        rules = " ".join(file.read().split())
    packed_ones = {case.name: case for case in zlib_cases([])}
    folder = os.path.join(VECTORS, "reports")
    for name in sorted(set(os.listdir(folder)) - {"README.md"}):
        text = open(os.path.join(folder, name), encoding="utf-8").read()
        of = re.search(r"^Case: \[?`?(\w+)", text, re.M)[1]
        case = packed_ones.get(of) or Case(of)
        meant = forms.meant_entities(case)
        block = "".join(forms.shown_entity(entity) + "\n" for entity in meant or [])
        said = "the file is refused." if meant is None else "no entity." if not meant else f"\n\n```text\n{block}```\n"
        require(f"Expected:{'' if said.startswith(chr(10)) else ' '}{said}" in text, f"reports/{name}: what is expected of {case.name}")
        require(" ".join(re.search(r'^The rule: .*?: "(.*)"$', text, re.M)[1].split()) in rules, f"reports/{name}: the rule")
        require(f"--only {case.name} " in text, f"reports/{name}: the command")


def wrong_words():
    require(run("--help").returncode == 0, "--help")
    for words in ([], ["reader"], ["reader", "--form", "none", "--", "true"], ["reader", "--jobs", "0", "--", "true"], ["debian", "nobody"],
                  ["reader", "--", "no-such-program"], ["write"], ["reader", "--unheard-of", "--", "true"], ["archive"], ["archive", "suite.zip"],
                  ["reader", "--strict-known", "--", "true"], ["reader", "--write-known", "-", "--only", "way", "--", "true"],
                  ["debian", "--known", "known.txt"], ["reader", "--set", "none", "--", "true"], ["known"]):
        done = run(*words)
        require(done.returncode == 2 and done.stderr, f"{words}: status {done.returncode}")


def the_forms():
    opl = "n1 v2 dV c3 t2015-01-02T03:04:05Z i4 ua%20%b Tk=v,l=w x1.5 y-0.0000001\nw2 v0 dV c0 t i0 u T Nn1x1y2,n2\nr3 v0 dV c0 t i0 u T Mn1@a,w2@"
    node, way, relation = forms.opl(opl.encode())
    require((node["lat"], node["lon"], node["user"], node["time"]) == (-100, 1_500_000_000, "a b", 1420167845), f"OPL: {node}")
    require(way["refs"] == [1, 2] and way["locations"] == [(2_000_000_000, 1_000_000_000), None], f"OPL: {way}")
    require(relation["members"] == [["n", 1, "a"], ["w", 2, ""]], f"OPL: {relation}")
    told = b'<osm><node id="1" lat="-0.0000001" lon="1.5" version="2"><tag k="k" v="v"/></node><way id="2"><nd ref="1"/></way></osm>'
    node, way = forms.xml(told)
    require((node["lat"], node["tags"], way["refs"]) == (-100, [["k", "v"]], [1]), "XML")
    require(forms.counted(b"Read: Nodes=1 Ways=2 Relations=3") == (1, 2, 3), "counts")


def packed_twins():
    base = Case("three_dense_nodes_as_extracted").input()
    twin = packed(base)
    require(twin != base and packed(twin) is None, "a packed file is packed again")
    names = [case.name for case in zlib_cases([])]
    require(len(names) == len(set(names)) == 45, f"{len(names)} cases of the packing")
    require([kind for kind, _ in frames(base)] == [b"OSMHeader", b"OSMData"], "frames")


def the_reference():
    """It tells what is wrong with a case."""
    case = Case("three_dense_nodes_as_extracted")
    require(reference.differences(case) == [], "the reference and a case")
    for name, value in (("all", [3, 0, 0]), ("entities", []), ("header", []), ("counts", {})):
        case.told = {**case.told, name: value}
    require(len(reference.differences(case)) == 4, "four differences from the reference")
    require([line for recipe in RECIPES for line in written_files(recipe, True)] == [], "recipes.py and the folders")


def packed_files(program: str, folder: str):
    """pbfcutz, which is the program by that name, over the cases of the packing: all sound ones as meant, all broken ones refused."""
    os.environ["PBFCUTZ"] = os.path.join(folder, "pbfcutz")
    os.symlink(os.path.abspath(program), os.environ["PBFCUTZ"])
    adapter = os.path.join(VECTORS, "adapters", "pbfcut_lines.py")
    done = run("reader", "--set", "zlib", "--batch", "--list", "--", sys.executable, adapter)
    require(done.returncode == 0, f"pbfcutz over the packed cases:\n{done.stdout}{done.stderr}")
    written = run("write", "--set", "zlib", os.path.join(folder, "files"))
    require(written.returncode == 0 and len(os.listdir(os.path.join(folder, "files"))) == 90, "run.py write")


def main(program: str):
    with tempfile.TemporaryDirectory() as folder:
        a_good_reader(folder)
        bad_readers(folder)
        reports(folder)
        expected_failures(folder)
        written_failures(folder)
        progress(folder)
        the_archive(folder)
        prepared_reports()
        wrong_words()
        the_forms()
        packed_twins()
        the_reference()
        packed_files(program, folder)
    print("the scripts of vectors/ do what they say")


if __name__ == "__main__":
    if len(sys.argv) != 2:
        sys.exit(__doc__)
    main(sys.argv[1])
