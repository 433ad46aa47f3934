#!/usr/bin/env python3
"""The table of each crates/CRATE/PROMISES.md is what the sources say of the public calls of that crate that have a contract.

usage: tests/promises.py [PROGRAM]      compares the tables
       tests/promises.py --write        writes them

PROGRAM is not run. The table is all that comes below the line `<!-- calls: FILE .. -->` of a page, and what is above it is written by hand. FILE is a
file of the crate's src/, in the order of the table, and FILE/CALL a private function; with no FILE the table has all files. An item of the page,
'- `CALL`: TEXT' or '- `CALL`, `CLAUSE`: TEXT', says more of a call or of one of its clauses, which has to be there; the table then says so. Each
public call with a contract is in a table, except those of tests and of the crates WITHOUT.
"""

import os
import re
import sys

TOP = os.path.dirname(os.path.dirname(os.path.abspath(__file__)))
sys.dont_write_bytecode = True
sys.path.insert(0, os.path.join(TOP, "tools"))

from statement import Scope, read

PAGE = "PROMISES.md"
# crates for examples and uses, and one whose calls are only safe; those of tests, too, have no page
WITHOUT = ["pbf_examples", "run_examples", "zlib_examples", "uses", "pbfcut_files"]
HEAD = "| In words | Call | Clause |\n|---|---|---|"
MARK = re.compile(r"^<!-- calls:(.*) -->\n", re.M)
FUNCTION = re.compile(r"^ *(pub |pub\(crate\) )?fn (\w+)")
CLAUSE = re.compile(r"^ +(requires|ensures)\*?(?: (\w+))? \{(.*)$")
ITEM = re.compile(r"^- `([\w:]+)`(?:, `(\w+)`)?: ", re.M)


def fail(what: str):
    sys.exit(f"tests/promises.py: {what}")


def joined(lines: list) -> str:
    """The text of comments, in which links to items are names."""
    text = " ".join(line.strip() for line in lines if line.strip()).replace("# Errors", "Errors:")
    return re.sub(r"\[(`[^`]+`)\](\([^)]*\))?", r"\1", text).replace("|", "\\|")


class Clause:
    def __init__(self, kind: str, name: str, comment: str, text: str):
        self.kind, self.name, self.comment, self.text = kind, name, comment, text


class Call:
    """A function with a contract: the comment above it, and its clauses with the comments above them."""

    def __init__(self, crate: str, file: str, name: str, words: str):
        self.crate, self.file, self.words, self.clauses = crate, file, words, []
        self.name = f"{file}::{name}" if file.endswith("laws") else name

    def read_contract(self, lines: list):
        """A comment is of the clause below it; in a contract with empty lines it is of all clauses up to the next one."""
        is_grouped, comment, words, last = "" in map(str.strip, lines), [], "", None
        for line in lines:
            begun = CLAUSE.match(line)
            if begun:
                words = joined(comment) if comment else words if is_grouped else ""
                last, comment = Clause(begun[1], begun[2] or "", words, begun[3]), []
                self.clauses.append(last)
            elif line.strip().startswith("//"):
                comment, last = [*comment, line.strip()[2:]], None
            elif not line.strip():
                words, last = "", None
            elif last:
                last.text += " " + line.strip()

    def shown(self, clauses: list, scope: Scope, crates: list) -> str:
        """The names of clauses, and in brackets the definitions that they name."""
        return ", ".join(filter(None, [self.shown_kind("ensures", clauses, scope, crates), self.shown_kind("requires", clauses, scope, crates)]))

    def shown_kind(self, kind: str, clauses: list, scope: Scope, crates: list) -> str:
        of_kind = [clause for clause in clauses if clause.kind == kind]
        names = [f"`{clause.name}`" for clause in of_kind if clause.name]
        found = [name for clause in of_kind for name in named(clause.text, scope, crates)]
        words = ", ".join(names) or ("its contract" if of_kind else "")
        if kind == "requires" and of_kind:
            words = f"if {words}" if names else "on a condition"
        return words + (" (" + ", ".join(f"`{name}`" for name in dict.fromkeys(found)) + ")" if found else "")


def named(text: str, scope: Scope, crates: list) -> list:
    """The definitions of the repository that a clause names, in their order."""
    found = {name for module, name in scope.found_in(text) if module.split(".")[0] in crates and not re.search(r"\.(declared|contracts)\.", module)
             and not name.endswith("Spec")}
    bound = set(" ".join(re.findall(r"λ ([^.]*)\.", text)).split())
    words = [part for word in re.split(r"[\s(){}\[\];,]+", text) for part in word.rstrip(".").split(".")]
    return sorted((found & set(words)) - bound, key=words.index)


def owner(line: str):
    """The type or trait whose items a line begins, or None if they are those of a trait for a type."""
    rest = re.sub(r"^(pub )?(impl|trait)", "", line)
    depth = 0
    for at, char in enumerate(rest):
        depth += {"<": 1, ">": -1}.get(char, 0) if rest[at - 1:at + 1] != "->" else 0
        if depth == 0 and char in " >":
            rest = rest[at + 1:]
            break
    return None if " for " in rest else re.match(r"\s*(\w+)", rest)[1]


def end_of(lines: list, at: int) -> int:
    """The last line of the signature that begins there: that of a body's brace, or of the semicolon of a trait's function."""
    indent = lines[at][:len(lines[at]) - len(lines[at].lstrip())]
    last = re.compile(indent + r"(\{\}?|\) (-> .*)?\{\}?)|.*\};")
    return next(i for i in range(at, len(lines)) if last.fullmatch(lines[i]) or i == at and lines[i].endswith(("{", "{}", ";")))


def calls_in(crate: str, file: str) -> list:
    """The functions of a file that have a contract, with whether each is public, as its crate exports names."""
    lines = read("crates", crate, "src", file + ".rt").splitlines()
    library = read("crates", crate, "src", "lib.rt")
    exported = {name for names in re.findall(r"^pub use \w+::\{?([^;]*?)\}?;", library, re.M | re.S) for name in re.findall(r"\w+", names)}
    is_open = re.search(rf"^pub mod {file};", library, re.M) is not None
    found, comment, context, is_trait = [], [], "", False
    for at, line in enumerate(lines):
        if re.match(r"(pub )?(impl|trait)\b", line):
            context, is_trait = owner(line), "trait" in line.split("{")[0].split()
        elif line == "}":
            context, is_trait = "", False
        begun = FUNCTION.match(line)
        if begun and context is not None:
            end = end_of(lines, at)
            call = Call(crate, file, f"{context}::{begun[2]}" if context else begun[2], joined(comment))
            call.read_contract(lines[at + 1:end + 1])
            is_public = (begun[1] == "pub " or is_trait) and (is_open or (context or begun[2]) in exported)
            if call.clauses:
                found.append((call, bool(is_public)))
        if line.strip().startswith("///"):
            comment.append(line.strip()[3:])
        elif not line.strip().startswith("#["):
            comment = []
    return found


def files_of(crate: str) -> list:
    """The files of a crate that its library names. A program has none."""
    if not os.path.exists(os.path.join(TOP, "crates", crate, "src", "lib.rt")):
        return []
    return re.findall(r"^(?:pub )?mod (\w+);", read("crates", crate, "src", "lib.rt"), re.M)


def calls_of(crate: str, words: list) -> list:
    """The calls of a page, which its line names by files and private functions."""
    found = []
    for word in words or files_of(crate):
        file, _, private = word.partition("/")
        chosen = [call for call, is_public in calls_in(crate, file) if (call.name == private if private else is_public)]
        if private and not chosen:
            fail(f"crates/{crate}/{PAGE}: there is no {word} with a contract")
        found += chosen
    shown = {(call.file, call.name) for call in found}
    for file in files_of(crate):
        for call, is_public in calls_in(crate, file):
            if is_public and (file, call.name) not in shown:
                fail(f"crates/{crate}/{PAGE} has no place for {call.name} of {file}")
    return found


def rows_of(call: Call, has_more: bool, crates: list):
    """A row for the call, with the clauses that have no comment of their own, and a row for each comment."""
    scope = Scope(read("crates", call.crate, "src", call.file + ".rt").splitlines())
    groups = {}
    for clause in call.clauses:
        groups.setdefault(clause.comment, []).append(clause)
    plain = groups.pop("", [])
    more = ", [more](#more)" if has_more else ""
    yield f"| {call.words} | [`{call.name}`](src/{call.file}.rt){more} | {call.shown(plain, scope, crates) or 'the rows below'} |"
    for comment, clauses in groups.items():
        yield f"| {comment} | `{call.name}` | {call.shown(clauses, scope, crates)} |"


def table(crate: str, words: list, by_hand: str, crates: list) -> str:
    calls = calls_of(crate, words)
    clauses = {call.name: {"", *(clause.name for clause in call.clauses)} for call in calls}
    more = set()
    for name, clause in ITEM.findall(by_hand):
        if clause not in clauses.get(name, ()):
            fail(f"crates/{crate}/{PAGE} says more of `{name}`{f', `{clause}`' if clause else ''}, which is no public call or clause")
        more.add(name)
    return "\n".join([HEAD, *(row.replace("|  |", "| |") for call in calls for row in rows_of(call, call.name in more, crates))]) + "\n"


def settle(crate: str, crates: list):
    """Writes the table of a page with --write; otherwise compares it."""
    page = read("crates", crate, PAGE)
    mark = MARK.search(page)
    if not mark:
        fail(f"crates/{crate}/{PAGE} has no line '<!-- calls: FILE .. -->'")
    by_hand = page[:mark.end()]
    made = by_hand + table(crate, mark[1].split(), by_hand, crates)
    if "--write" in sys.argv:
        with open(os.path.join(TOP, "crates", crate, PAGE), "w", encoding="utf-8") as file:
            file.write(made)
    elif made != page:
        fail(f"crates/{crate}/{PAGE} is not what the sources say: tests/promises.py --write")


def main():
    crates = [line.split(":")[0] for line in read("crates.txt").splitlines() if re.match(r"\w+:", line)]
    pages = [crate for crate in crates if os.path.exists(os.path.join(TOP, "crates", crate, PAGE))]
    for crate in crates:
        if crate in pages:
            settle(crate, crates)
        elif crate not in WITHOUT and not crate.endswith("tests") and any(is_public for file in files_of(crate) for _, is_public in calls_in(crate, file)):
            fail(f"crates/{crate} has public calls with a contract, and no {PAGE}")
    index = re.findall(r"\(\.\./crates/(\w+)/PROMISES\.md\)", read("docs", PAGE))
    if sorted(set(index)) != sorted(pages):
        fail(f"docs/{PAGE} doesn't link to the page of {', '.join(sorted(set(index) ^ set(pages)))}")
    print(f"tests/promises.py: the tables of {len(pages)} crates are what the sources say")


if __name__ == "__main__":
    main()
