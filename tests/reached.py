#!/usr/bin/env python3
"""Each function of the crates is reached from a program, a test, an example, a law or a trait.

usage: tests/reached.py [PROGRAM]

PROGRAM is not run. It goes by names: a function is reached if its name stands in the body of one that is. So a name that two functions share may
hide one that nothing calls, and what is named here is called by nothing.
"""

import os
import re
import sys

TOP = os.path.dirname(os.path.dirname(os.path.abspath(__file__)))
CRATES = os.path.join(TOP, "crates")
FUNCTION = re.compile(r"^( *)((?:#\[[^\n]*\]\n *)*)(?:pub(?:\(crate\))? )?fn (\w+)", re.M)
TRAIT = re.compile(r"^(?:impl\b[^{;]*?\bfor\b|(?:pub(?:\(crate\))? )?trait\b)[^{;]*\{.*?^\}", re.M | re.S)
EXAMPLES = {"uses", "pbf_examples", "run_examples", "zlib_examples"}


class Function:
    """A function of a crate: its name, the words of its body, and whether the search begins with it."""

    def __init__(self, crate: str, file: str, name: str, body: str, is_first: bool):
        self.crate, self.file, self.name, self.is_first = crate, file, name, is_first
        self.words = set(re.findall(r"\w+", body))


def without_comments(text: str) -> str:
    return "\n".join("" if line.lstrip().startswith("//") else line for line in text.split("\n"))


def functions_of(crate: str, file: str) -> list:
    with open(os.path.join(CRATES, crate, "src", file), encoding="utf-8") as source:
        text = without_comments(source.read())
    traits = [found.span() for found in TRAIT.finditer(text)]
    found = []
    for function in FUNCTION.finditer(text):
        indent, marks, name = function.groups()
        # below clauses the body begins on a line of its own
        _, _, body = text[function.end():text.find(f"\n{indent}}}", function.end())].rpartition(f"\n{indent}{{\n")
        is_first = (
            name == "main" or "#[test]" in marks or file.endswith("laws.rt") or crate in EXAMPLES
            or any(start <= function.start() < stop for start, stop in traits)
        )
        found.append(Function(crate, file, name, body, is_first))
    return found


def reached(functions: list) -> set:
    """The names that are reached."""
    named = {}
    for function in functions:
        named.setdefault(function.name, []).append(function)
    names = {function.name for function in functions if function.is_first}
    left = [function for function in functions if function.name in names]
    while left:
        for name in left.pop().words & named.keys() - names:
            names.add(name)
            left += named[name]
    return names


def main():
    functions = []
    for crate in sorted(os.listdir(CRATES)):
        folder = os.path.join(CRATES, crate, "src")
        for file in sorted(os.listdir(folder)) if os.path.isdir(folder) else []:
            functions += functions_of(crate, file) if file.endswith(".rt") else []
    names = reached(functions)
    lost = [function for function in functions if function.name not in names]
    if lost:
        sys.exit("\n".join(f"tests/reached.py: nothing calls {it.name} of crates/{it.crate}/src/{it.file}" for it in lost))
    print(f"tests/reached.py: each of {len(functions)} functions is called")


if __name__ == "__main__":
    main()
