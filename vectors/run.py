#!/usr/bin/env python3
"""Runs the suite of test files for readers of OpenStreetMap's PBF.

    run.py reader [OPTION ...] -- COMMAND ...
                              a reader: COMMAND prints the entities of the file that {} stands for (or that is its last argument)
    run.py debian [OPTION ...] [NAME ...]
                              the readers that debian.py lists, if they are installed: one table for all of them
    run.py write [--set SET] [--packed] FOLDER
                              writes each case as FOLDER/NAME.osm.pbf, and what should be read as FOLDER/NAME.json
    run.py archive NAME.tar.gz
                              packs the suite and its pages; the same files make the same bytes
    run.py pbfcut PROGRAM [WORD ...]
                              pbfcut: each command on each case, byte for byte
    run.py reference [WORD ...]
                              compares what the cases expect with the reference program
    run.py make [--check]     writes the folders of the cases that recipes.py describes, or compares them
    run.py index [--check]    writes CASES.md and `list`, which crates/pbf_vectors reads, or compares them and the folders

Options of `reader`; those from --set to --html are also for `debian`, except --tap and --junit:

    --form FORM       what COMMAND prints: lines (the suite's JSON lines, the default), opl, xml, counts (nodes N ways N
                      relations N), or status (only whether it refuses a file is compared)
    --packed          compress each blob with zlib first, for readers that don't read raw blobs
    --batch           start COMMAND once: it gets the files' names on standard input, and after each file it prints a line
                      `# status N WHY`
    --kinds A,B       compare only these of node, way and relation
    --without A,B     don't compare these: version, time, changeset, uid, user, tags, refs, members, place, locations
    --refusal REGEX   COMMAND refuses a file also if a line of its standard error matches (default: \\bError\\b)
    --set SET         raw (the cases with raw blobs, the default), zlib (those that test compressed blobs), or all
    --only WORD       only cases with WORD in their name (may be repeated)
    --jobs N          run N cases at a time (default: as many as there are processors)
    --seconds N       how long COMMAND may take for a file (default: 20)
    --list            name each case that is not as it should be
    --json FILE, --tap FILE, --junit FILE, --html FILE
                      write a report; FILE may be -
    --known FILE      expected failures: a case named in FILE, one a line, doesn't fail the run. Those that pass are named
    --strict-known    with --known: an expected failure that passes fails the run
    --write-known FILE
                      write the cases that fail as such a file; the run doesn't fail then

WORDs select the cases with one of them in their name. Exit status: 0 if every sound file was read as meant and every broken one was
refused, 1 if not, 2 for a wrong command line, a name in FILE that no case has, or a missing program. Python's standard library is
enough. README.md says more.
"""

import json
import os
import sys

sys.dont_write_bytecode = True
sys.path.insert(0, os.path.dirname(os.path.realpath(__file__)))

import report
from archive import ENDING, run_archive
from debian import READERS, run_debian
from forms import FORMS
from index import run_index
from known import WrongFile, as_known, known_lines, known_names, mark_known
from make import run_make
from packing import packed
from program import run_program
from readers import is_here, results_of
from reference import run_reference
from report_html import as_html
from suite import cases
from zlib_cases import zlib_cases

FLAGS = ("--packed", "--list", "--batch", "--strict-known")
TEXTS = ("--form", "--refusal", "--set", "--json", "--tap", "--junit", "--html", "--known", "--write-known")
SETS = ("raw", "zlib", "all")
# what `debian` doesn't take
OF_ONE_READER = {"tap", "junit", "packed", "known", "write-known", "strict-known"}
NUMBERS = ("--jobs", "--seconds")
LISTS = ("--kinds", "--without", "--only")


class Usage(Exception):
    """Wrong words."""


def options_of(words: list) -> tuple:
    """The options before the first word that is none, and the words from there on."""
    options = {"form": "lines", "set": "raw", "only": []}
    while words and words[0].startswith("--") and words[0] != "--":
        word = words.pop(0)
        name = word[2:]
        if word in FLAGS:
            options[name] = True
            continue
        if word not in TEXTS + NUMBERS + LISTS or not words:
            raise Usage(word)
        value = words.pop(0)
        if word in NUMBERS:
            if not value.isdigit() or int(value) < 1:
                raise Usage(f"{word} {value}")
            options[name] = int(value)
        else:
            options[name] = options.get(name, []) + value.split(",") if word in LISTS else value
    if options["form"] not in FORMS or options["set"] not in SETS:
        raise Usage("--form or --set")
    if "strict-known" in options and "known" not in options:
        raise Usage("--strict-known is for --known")
    if "write-known" in options and options["only"]:
        raise Usage("--write-known is for all cases, without --only")
    return options, words


def chosen_cases(options: dict) -> list:
    """The cases of --set and --only."""
    raw = cases(options["only"]) if options["set"] != "zlib" else []
    return raw + (zlib_cases(options["only"]) if options["set"] != "raw" else [])


def written_reports(options: dict, makers: dict):
    """Each report that is asked for, to its file or standard output."""
    for name, make in makers.items():
        if options.get(name) == "-":
            sys.stdout.write(make())
        elif name in options:
            with open(options[name], "w", encoding="utf-8", errors="backslashreplace") as file:
                file.write(make())


def run_reader(words: list) -> int:
    """The words of `run.py reader`."""
    options, rest = options_of(words)
    if len(rest) < 2 or rest[0] != "--":
        raise Usage("there is no COMMAND after --")
    command = rest[1:]
    if not is_here(command):
        print(f"{command[0]} is not here", file=sys.stderr)
        return 2
    known = known_names(options["known"]) if "known" in options else set()
    chosen = chosen_cases(options)
    results = results_of(command, chosen, options)
    mark_known(results, known)
    told = [report.told_of(command[0], " ".join(command), results)]
    written_reports(options, {
        "json": lambda: report.as_json(told), "html": lambda: as_html(told, chosen), "tap": lambda: report.as_tap(results),
        "junit": lambda: report.as_junit(results), "write-known": lambda: as_known(results)})
    if "-" not in options.values():
        sys.stdout.write((report.listed(results) if options.get("list") else "") + report.table(results))
        sys.stdout.write(known_lines(results, options["known"]) if "known" in options else "")
    return status_of(results, options)


def status_of(results: list, options: dict) -> int:
    """The exit status of a run."""
    if "strict-known" in options and any(result.passes_now() for result in results):
        return 1
    return 0 if "write-known" in options and results else report.status_of(results)


def run_readers(words: list) -> int:
    """The words of `run.py debian`."""
    options, names = options_of(words)
    if OF_ONE_READER & set(options):
        raise Usage(f"--{sorted(OF_ONE_READER & set(options))[0]} is for one reader")
    unknown = set(names) - {reader.name for reader in READERS}
    if unknown:
        raise Usage(f"no reader of debian.py is named {', '.join(sorted(unknown))}")
    chosen = chosen_cases(options)
    told = run_debian(names, chosen, options)
    written_reports(options, {"json": lambda: report.as_json(told), "html": lambda: as_html(told, chosen)})
    if "-" not in options.values():
        sys.stdout.write((report.listed_of(told) if options.get("list") else "") + report.rows(told))
    return 0 if told else 2


def run_write(words: list) -> int:
    """The words of `run.py write`: what a runner in another language needs."""
    options, rest = options_of(words)
    if len(rest) != 1:
        raise Usage("there is no FOLDER")
    os.makedirs(rest[0], exist_ok=True)
    for case in chosen_cases(options):
        data = packed(case.input()) if options.get("packed") and not case.is_packed else case.input()
        if data is None:
            continue
        told = {name: case.told[name] for name in ("odd", "rule", "topic", "verdict", "harmless", "choice", "entities") if name in case.told}
        place = os.path.join(rest[0], case.name)
        with open(place + ".osm.pbf", "wb") as file:
            file.write(data)
        with open(place + ".json", "w", encoding="utf-8") as file:
            json.dump(told, file, ensure_ascii=False, indent=1)
    return 0


def main(words: list) -> int:
    sys.stdout.reconfigure(errors="backslashreplace")
    if words in (["--help"], ["-h"]):
        print(__doc__)
        return 0
    if len(words) >= 2 and words[0] == "pbfcut":
        return run_program(words[1], cases(words[2:]))
    if words and words[0] == "reader":
        return run_reader(words[1:])
    if words and words[0] == "debian":
        return run_readers(words[1:])
    if len(words) == 2 and words[0] == "archive" and words[1].endswith(ENDING):
        return run_archive(words[1])
    if words and words[0] == "reference":
        return run_reference(cases(words[1:]))
    if words and words[0] == "write":
        return run_write(words[1:])
    if words in (["make"], ["make", "--check"]):
        return run_make("--check" in words)
    if words in (["index"], ["index", "--check"]):
        return run_index("--check" in words)
    raise Usage("")


if __name__ == "__main__":
    try:
        sys.exit(main(sys.argv[1:]))
    except WrongFile as wrong:
        print(f"run.py: {wrong}", file=sys.stderr)
        sys.exit(2)
    except Usage as usage:
        print(__doc__ + (f"\nwrong: {usage}" if str(usage) else ""), file=sys.stderr)
        sys.exit(2)
