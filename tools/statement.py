#!/usr/bin/env python3
"""What has to be believed to believe a public call: its contract, and the definitions under it.

usage: tools/statement.py                        lists calls and laws, and how many definitions are under each
       tools/statement.py CALL [CLAUSE]          prints the contract of CALL, or only its clause, and what is under it

CALL is one of the list, or CRATE::NAME for any other public function, laws included. A definition is under a contract if the contract names it, or
a definition under it does. Each comes after those that name it, except where definitions name one another, with the file and line that it is in and
the laws that name it: a law (a function of `src/laws.rt`) compares it with another definition, such as reading with writing. After them come the
constants of the code that they name, and what they have from outside the repository. Under a law of files is not what the call `run` ensures and the
law requires: nobody has to believe it. It reads only `specs/` and the contracts in `src/`. Types of the code (structs and enums) and the traits `Feed`,
`Drain` and `Host` are not printed.
"""

import os
import re
import signal
import sys

TOP = os.path.dirname(os.path.dirname(os.path.abspath(__file__)))
# Each public call, with the crate and the file that have it.
CALLS = {
    # the program itself, and what a user finds after a run
    "pbfcut_program::run": ("pbfcut_program", "program"),
    "pbfcut_program::run_of_extract": ("pbfcut_program", "file_laws"), "pbfcut_program::failure_of_extract": ("pbfcut_program", "file_laws"),
    "pbfcut_program::run_of_extracts": ("pbfcut_program", "file_laws"), "pbfcut_program::run_of_convert": ("pbfcut_program", "file_laws"),
    "pbfcut_program::run_of_copy": ("pbfcut_program", "file_laws"),
    # what `pbfcutz` calls for `show`, `convert`, `pack`, `unpack` and `extract`
    "pbf_published::run_published": ("pbf_published", "running"),
    "extract": ("pbfcut", "extracting"), "convert": ("pbfcut", "converting"), "show": ("pbfcut", "showing"), "check": ("pbf_pass", "checking"),
}
# The calls with a clause of this name, which says what the answer means, and what is refused.
PROMISE = "promise"
PROMISED = ("extract", "convert")
# what `run` ensures, and a law of files requires
ENSURED = {"IsRun", "RunSettles"}
MODIFIERS = ("abbrev", "unfoldable", "pub", "record", "data")


def read(*parts: str) -> str:
    with open(os.path.join(TOP, *parts), encoding="utf-8") as file:
        return file.read()


def pieces_of(text: str):
    """The words of a term, and where they are; `a.b` stands for itself, for `a` and for `b`."""
    for at, word in enumerate(re.split(r"[\s(){}\[\];,]+", text)):
        word = word.rstrip(".")
        for piece in [word, *word.split(".")]:
            yield at, piece


class Scope:
    """What the imports of a file bring in: names, and short names of modules."""

    def __init__(self, lines: list):
        self.names, self.modules = {}, {}
        # an import on several lines is as one on one line
        text = re.sub(r"(?<=\.)\{\n([^}]*)\}(?=;)", lambda found: "{" + ", ".join(found[1].replace(",", " ").split()) + "}", "\n".join(lines))
        for line in text.splitlines():
            found = re.match(r"\s*(?:ghost |pub )?use Rattle\.([\w.-]+?)(?:\.\{(.*)\}| as (\w+));?$", line)
            if not found:
                continue
            module, names, short = found.groups()
            if short:
                self.modules[short] = module
            for name in names.split(", ") if names else []:
                self.names[name] = (module, name)

    def found_in(self, text: str) -> list:
        """The definitions that a term names, each by its module and its name, in the order in which they are named."""
        first, found = {}, {}
        for at, piece in pieces_of(text):
            first.setdefault(piece, at)
            short, _, rest = piece.partition(".")
            if rest and short in self.modules:
                found.setdefault((self.modules[short], rest.split(".")[0]), at)
        for name, place in self.names.items():
            parts = [part for part in name.split("◌") if part]
            if name in first or ("◌" in name and all(part in first for part in parts)):
                found.setdefault(place, min(first[part] for part in [name, *parts] if part in first))
        return sorted(found, key=lambda place: (found[place], place))


class Definition:
    def __init__(self, module: str, name: str, line: int, comment: list):
        self.module, self.name, self.line, self.comment, self.lines = module, name, line, comment, []
        self.laws = set()  # the laws that name it

    @property
    def file(self) -> str:
        crate, _, file = self.module.split(".")
        return f"crates/{crate}/specs/{file}.antt"

    @property
    def code(self) -> list:
        """Its lines without comments."""
        return [line.split(" -- ")[0] for line in self.lines if line.strip() and not line.lstrip().startswith("--")]

    @property
    def size(self) -> int:
        return len(self.code)

    def shown(self) -> str:
        return "\n".join([*self.comment, *self.lines]).rstrip()


def begun(line: str):
    """The name of the definition that a line begins, if it begins one."""
    words = line.split()
    modifiers = [word for word in words if word in MODIFIERS]
    rest = words[len(modifiers):]
    if not line.startswith(" ") and rest and words[:len(modifiers)] == modifiers and (modifiers or rest[1:2] == [":"]):
        return rest[0]
    return None


def definitions_in(module: str, text: str) -> tuple:
    """The definitions of a file in their order, and its scope."""
    lines, found, comment, last = text.splitlines(), {}, [], None
    scope = Scope(lines)
    for number, line in enumerate(lines, 1):
        if line.startswith("--"):
            comment = [] if line.startswith("-- --") else [*comment, line]
            last = None
        elif not line.strip():
            comment = []
        elif not line.startswith(("use ", "pub use ", "pub mod", "infix", "mod ")):
            name = begun(line)
            if name:
                last = found[name] = Definition(module, name, number - len(comment), comment)
                scope.names.setdefault(name, (module, name))
                comment = []
            if last:
                last.lines.append(line)
    return found, scope


class Sources:
    """All definitions of the repository, and what each names."""

    def __init__(self):
        self.crates = [line.split(":")[0] for line in read("crates.txt").splitlines() if re.match(r"\w+:", line)]
        self.all, self.names, scopes = {}, {}, {}
        for crate in self.crates:
            folder = os.path.join(TOP, "crates", crate, "specs")
            for file in sorted(os.listdir(folder)) if os.path.isdir(folder) else []:
                module = f"{crate}.specs.{file.removesuffix('.antt')}"
                found, scopes[module] = definitions_in(module, read("crates", crate, "specs", file))
                for name, definition in found.items():
                    self.all[module, name] = definition
        self.scopes = scopes
        for (module, name), definition in self.all.items():
            self.names[module, name] = [place for place in self.found_in(module, "\n".join(definition.code)) if place != (module, name)]

    def home(self, place: tuple) -> tuple:
        """Where a name is defined that a file may only pass on."""
        module, name = place
        while (module, name) not in self.all and name in getattr(self.scopes.get(module), "names", {}):
            module, name = self.scopes[module].names[name]
        return module, name

    def found_in(self, module: str, text: str) -> list:
        return [self.home(place) for place in self.scopes[module].found_in(text)]

    def closure(self, first: list, but: set = frozenset()) -> list:
        """These places and all that are under them, each after those that name it, but not what has one of these names and is only under it."""
        done, order = {place for place in self.all if place[1] in but}, []

        def visit(place: tuple):
            done.add(place)
            for under in reversed(self.names.get(place, [])):
                if under not in done:
                    visit(under)
            order.append(place)

        for place in reversed(first):
            if place not in done:
                visit(place)
        return order[::-1]

    def note_laws(self):
        """Notes which laws name which definitions."""
        for crate in self.crates:
            if os.path.exists(os.path.join(TOP, "crates", crate, "src", "laws.rt")):
                for law in re.findall(r"^pub fn (\w+)", read("crates", crate, "src", "laws.rt"), re.M):
                    for place in self.under_contract(crate, "laws", law):
                        if place in self.all:
                            self.all[place].laws.add(f"{crate}::laws::{law}")

    def under_contract(self, crate: str, file: str, call: str, clause: str = "") -> list:
        """The definitions that the contract of a function names, or its clause of this name."""
        text = read("crates", crate, "src", file + ".rt")
        return [self.home(place) for place in Scope(text.splitlines()).found_in("\n".join(clauses_of(text, call, clause)))]


def signature(text: str, call: str) -> str:
    """The head of a function, with its comment and its contract, and without its body."""
    found = re.search(rf"^((?:(?:///|#\[)[^\n]*\n)*)(pub fn {call.split('::')[-1]}\b.*?)\n\{{", text, re.M | re.S)
    return re.sub(r"^#.*\n", "", found[1], flags=re.M) + found[2] if found else ""


def clauses_of(text: str, call: str, clause: str = "") -> list:
    named = rf" {clause}\b" if clause else ""
    return re.findall(rf"^    (?:requires|ensures)\*?{named}.*?\}}$", signature(text, call) + "\n", re.M | re.S)


def fail(what: str):
    sys.exit(f"tools/statement.py: {what}")


def home_of(call: str) -> tuple:
    """The crate and the file of a public function."""
    if call in CALLS:
        return CALLS[call]
    crate, _, name = call.partition("::")
    folder = os.path.join(TOP, "crates", crate, "src")
    if name and os.path.isdir(folder):
        for file in sorted(os.listdir(folder)):
            if file.endswith(".rt") and (file == "laws.rt" or not name.startswith("laws::")) and clauses_of(read("crates", crate, "src", file), name):
                return crate, file.removesuffix(".rt")
    return fail(f"there is no call '{call}' with a contract: 'tools/statement.py' lists the calls")


class Statement:
    """What is under a call, or under one clause of it."""

    def __init__(self, sources: Sources, call: str, clause: str = ""):
        self.call, self.clause, (self.crate, self.file) = call, clause, home_of(call)
        self.text = read("crates", self.crate, "src", self.file + ".rt")
        if not clauses_of(self.text, call, clause):
            fail(f"'{call}' has no clause '{clause}'")
        self.ensured = ENSURED if self.file == "file_laws" else set()
        places = sources.closure(sources.under_contract(self.crate, self.file, call, clause), self.ensured)
        self.definitions = [sources.all[place] for place in places if place in sources.all]
        others = [place for place in places if place not in sources.all]
        self.constants = sorted(place for place in others if place[0].endswith(".TheConstants"))
        self.foreign = sorted(place for place in others if place[0].split(".")[0] not in sources.crates)

    @property
    def size(self) -> int:
        return sum(definition.size for definition in self.definitions)

    @property
    def source(self) -> str:
        return f"crates/{self.crate}/src/{self.file}.rt"

    def title(self) -> str:
        return f"{self.call}: {self.clause}" if self.clause else self.call

    def counts(self) -> str:
        return f"{len(self.definitions)} definition{'s' * (len(self.definitions) != 1)} of {self.size} lines"


def statements(sources: Sources) -> list:
    """What is under each call of the list, and under its promise."""
    found = []
    for call in CALLS:
        found += [Statement(sources, call, PROMISE)] if call in PROMISED else []
        found.append(Statement(sources, call))
    return found


def listed(found: list):
    for statement in found:
        yield f"{statement.title():54} {statement.counts():32} {statement.source}"


def constant(module: str, name: str) -> tuple:
    """The file of a constant, and its lines with the comment above them."""
    crate, path = re.fullmatch(r"(\w+)\.specs\.declared\.(.+)\.TheConstants", module).groups()
    file = f"crates/{crate}/src/{path.replace('.', '/')}.rt"
    lines = read(file).splitlines()
    first = end = next(number for number, line in enumerate(lines) if re.match(rf"pub(\(crate\))? const {name}:", line))
    while lines[first - 1].startswith("///"):
        first -= 1
    while not lines[end].endswith(";"):
        end += 1
    return file, "\n".join(lines[first:end + 1])


def printed(statement: Statement):
    """A statement as a text."""
    whole = "\n".join(clauses_of(statement.text, statement.call, statement.clause)) if statement.clause else signature(statement.text, statement.call)
    yield f"==== {statement.title()}: {statement.counts()}"
    if statement.ensured:
        yield f"\nWithout what `run` ensures: {', '.join(sorted(statement.ensured))}"
    yield f"\n==== {statement.source}\n\n{whole}"
    file = None
    for definition in statement.definitions:
        if definition.file != file:
            file = definition.file
            yield f"\n==== {file}"
        laws = f"    laws: {', '.join(sorted(definition.laws))}" if definition.laws else ""
        yield f"\n-- line {definition.line}{laws}\n{definition.shown()}"
    for place in statement.constants:
        named, text = constant(*place)
        if named != file:
            file = named
            yield f"\n==== {file}: constants\n"
        yield text
    yield "\n==== from outside the repository: what is trusted of std and of the toolchain's crates\n"
    modules = {}
    for module, name in statement.foreign:
        modules.setdefault(module, []).append(name)
    for module, names in modules.items():
        yield f"{module}: {' '.join(names)}"


def main():
    words = sys.argv[1:]
    if len(words) > 2 or any(word.startswith("-") for word in words):
        sys.exit(__doc__)
    signal.signal(signal.SIGPIPE, signal.SIG_DFL)  # for `| head`
    sources = Sources()
    if not words:
        print("\n".join(listed(statements(sources))))
        return
    statement = Statement(sources, *words)
    sources.note_laws()
    print("\n".join(printed(statement)))


if __name__ == "__main__":
    main()
