"""Expected failures: the cases that a reader is known to fail, one a line in a file, so that a run in continuous integration fails only
by what is new."""

import os

from report import printable
from suite import HERE
from zlib_cases import zlib_cases

HEAD = "# The cases that this reader fails, one a line. What follows a # is a comment.\n"


class WrongFile(Exception):
    """A file of expected failures that can't be read, or has a name that no case has."""


def unknown_names(names: set) -> set:
    """Those that no case of either set has. The cases of zlib are made for it only if there are such names, since that takes a second."""
    others = {name for name in names if not os.path.exists(os.path.join(HERE, name, "case.json"))}
    return others - {case.name for case in zlib_cases([])} if others else others


def known_names(path: str) -> set:
    """The names in a file of expected failures."""
    try:
        with open(path, encoding="utf-8") as file:
            lines = file.read().splitlines()
    except (OSError, UnicodeDecodeError) as error:
        raise WrongFile(f"{path} can't be read: {getattr(error, 'strerror', None) or error}") from error
    found = [line.partition("#")[0].strip() for line in lines]
    unknown = unknown_names(set(filter(None, found)))
    for number, name in enumerate(found, 1):
        if name in unknown:
            raise WrongFile(f"{path}, line {number}: no case is named '{name}'")
    return set(filter(None, found))


def mark_known(results: list, known: set):
    for result in results:
        result.is_known = result.case.name in known


def as_known(results: list) -> str:
    """The file of expected failures of these results."""
    bad = [result for result in results if not result.is_good()]
    lines = [f"{result.case.name}  # {result.case.sort()}, {result.outcome}: {result.note}".rstrip(": ") for result in bad]
    return HEAD + "".join(printable(line) + "\n" for line in lines)


def known_lines(results: list, path: str) -> str:
    """What a run says of them: how many failed as expected, and the name of each that passes."""
    known = [result for result in results if result.is_known]
    passed = [result.case.name for result in results if result.passes_now()]
    text = f"expected failures in {path}: {len(known)} of these cases, {len(passed)} pass\n"
    return text + "".join(f"passes, and {path} expects a failure: {name}\n" for name in passed)
