#!/usr/bin/env python3
"""Prints how large the program is: what is read, believed and proved, and how many functions have many parameters.

usage: tools/figures.py [CRATE..]        the crates of the program pbfcut, if none is named
"""
import os
import re
import sys

from build import TOP, read_crates

# a function has at most four parameters, a definition at most seven, or it is counted
MOST_OF_FUNCTION, MOST_OF_DEFINITION = 4, 7


def files_of(crate: str, part: str, ending: str) -> list:
    """The texts of one part of a crate."""
    found = []
    for folder, folders, names in os.walk(os.path.join(TOP, "crates", crate, part)):
        folders.sort()
        for name in sorted(names):
            if name.endswith(ending):
                with open(os.path.join(folder, name), encoding="utf-8") as file:
                    found.append(file.read())
    return found


def parameters_of(text: str, place: int) -> int:
    """How many parameters the list has whose opening bracket comes before this place."""
    depth, count, is_empty = 1, 0, True
    while depth:
        byte = text[place]
        depth += byte in "([{<"
        depth -= byte in ")]}" or (byte == ">" and text[place - 1] != "-")
        if depth == 1 and byte == ",":
            count, is_empty = count + 1, True
        elif depth and not byte.isspace():
            is_empty = False
        place += 1
    return count + (not is_empty)


def functions_in(text: str) -> list:
    """The number of parameters of each function of a file, `self` among them."""
    heads = re.finditer(r"^ *(?:pub(?:\([a-z]+\))? )?(?:const )?fn \w+(?:<(?:[^<>]|<[^<>]*>)*>)?\(", text, re.M)
    return [parameters_of(text, head.end()) for head in heads]


def definitions_in(text: str) -> list:
    """The number of explicit parameters of each definition of a file: the names that its first equation has."""
    found = []
    for head in re.finditer(r"^(?:unfoldable |abbrev )*pub (\w+) :", text, re.M):
        equation = re.compile(rf"^{head[1]} ([^=\n]*?) ?=", re.M).search(text, head.end())
        found.append(len(re.findall(r"\((?:[^()]|\([^()]*\))*\)|[^\s()]+", equation[1])) if equation else 0)
    for head in re.finditer(r"^pub record \w+((?: *[({][^(){}]*(?:\([^()]*\)[^(){}]*)*[)}])*) :", text, re.M):
        found.append(sum(len(group.split()) for group in re.findall(r"\(([^():]*):", head[1])))
    return found


def main():
    crates = sys.argv[1:] or list(read_crates("pbfcut_run"))
    sources = [text for crate in crates for text in files_of(crate, "src", ".rt")]
    specs = [text for crate in crates for text in files_of(crate, "specs", ".antt")]
    proofs = [text for crate in crates for text in files_of(crate, "proofs", ".antt")]
    functions = [count for text in sources for count in functions_in(text)]
    definitions = [count for text in specs for count in definitions_in(text)]
    rows = {
        "crates": len(crates),
        "lines of source": sum(text.count("\n") for text in sources),
        "lines of definitions": sum(text.count("\n") for text in specs),
        "lines of proofs": sum(text.count("\n") for text in proofs),
        "functions": len(functions),
        f"functions with more than {MOST_OF_FUNCTION} parameters": sum(count > MOST_OF_FUNCTION for count in functions),
        f"definitions with more than {MOST_OF_DEFINITION} parameters": sum(count > MOST_OF_DEFINITION for count in definitions),
        "inline attributes": sum(len(re.findall(r"#\[inline", text)) for text in sources),
    }
    for name, count in rows.items():
        print(f"{count:7} {name}")


if __name__ == "__main__":
    main()
