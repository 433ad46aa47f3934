#!/usr/bin/env python3
"""Tries planted bugs: the prover must refuse each.

usage: tools/planted.py [--set must-fail|more-edits|all] [--all] [--sample N --seed WORD] [--write FILE] [--libraries FOLDER]
       [--beside PID --log FILE] [--lanes N] [CRATE..]

The set is that of crates/NAME/must-fail/, where no other is named. Of its bugs those are not tried that release/REFUSED lists, as long as all
that their trials depend on is what it was: the kit, this script, the edit, its crate, and what is public of the crates below. With --all
they are tried, too. With --sample N of the listed bugs are tried again, and N of those that are not of the set; WORD chooses them. The
edits that are not tried are read all the same: each has to fit the files that it changes. --write makes FILE the list that is now right.

The prover judges each function by the contracts of those that it calls, and names each function that it refuses. So one check of a
crate tries many bugs, one in a function, and asks for the proofs of these functions alone: the others have a hole instead of one, and
an endless loop as their body. A bug counts as refused where the prover leaves open a goal of the function that it stands in. One that
it does not refuse so is tried by itself, and then has to be refused in some place. That a proof cites a name which the bug took away is
no refusal.

FOLDER has the built libraries, FOLDER/NAME/out/rlib/NAME.rlib; with none they are those of this tree, built where they lack. With
--beside each crate waits for the libraries that it depends on, until `rt ci`, the process PID, says in FILE that they are proved, or ends.
N checks run at a time: as many as there are processors, where nothing else is said and memory allows; once PID has ended more of them,
as both allow.

Exit status: 0 each bug was refused; 1 one was not, or cannot be tried; 2 this kit is not called in the way that this script knows,
and `rt must-fail` and tests/more_edits.sh have to try them, one check for each.
"""
import argparse
import difflib
import hashlib
import os
import re
import shutil
import signal
import subprocess
import sys
import tempfile
import threading
import time
from concurrent.futures import ThreadPoolExecutor
from dataclasses import dataclass

from build import NOT_THIS_KIT, TOP, all_below, free_gigabytes, kit_folder, known_crates, lanes

FOLDERS = ("must-fail", "more-edits")
SETS = {"must-fail": FOLDERS[:1], "more-edits": FOLDERS[1:], "all": FOLDERS}
PARTS = ("src", "specs", "proofs")
LIST = os.path.join(TOP, "release", "REFUSED")

# What the prover says where a proof cannot be read since a name is gone, or waits for another: no refusal of a goal.
OF_NAMES = re.compile(r"has no field|is not in scope|has no `|was not admitted|was not checked|is not proved")
# The proof of a function that is not asked for: what cites it goes by the contract.
HOLE = """use {module}.Statement.{{statement}}

pub {name}_spec : {{M : Type 1}} → statement M
{name}_spec = ?
"""
# What it says where an edited text itself cannot be read.
UNREAD = re.compile(r"is not in scope|has no field|is no name|operand is missing|expected the end|cannot continue")


@dataclass
class Change:
    """A piece of a file, and what the planted bug has in its place."""

    file: str
    begin: int
    end: int
    text: str
    function: str  # the function that holds the piece, or whose contract alone names the definition that holds it; or nothing
    home: str  # the file of that function
    homes: tuple  # patterns of the folders that the proofs of that file's functions lie in

    def is_in(self, path):
        """Whether it may stand in a function of this folder."""
        return any(re.fullmatch(home, path) for home in self.homes)


@dataclass
class Bug:
    """A planted bug: all that one .edit file changes."""

    name: str  # of the folder and the file
    changes: list

    def functions(self):
        return {(change.home, change.function) for change in self.changes}

    def is_placed(self):
        """Whether all that it changes stands in functions."""
        return all(change.function for change in self.changes)


def text_of(crate, file):
    with open(os.path.join(crate, file), encoding="utf-8") as it:
        return it.read()


def write(path, text):
    os.makedirs(os.path.dirname(path), exist_ok=True)
    with open(path, "w", encoding="utf-8") as made:
        made.write(text)


class Unusable(Exception):
    """An edit that cannot be tried, or a check that gave no verdict."""


def module_of(file):
    """The path of the modules of a file of src/, as the folders of proofs/ have it."""
    path = file.removeprefix("src/").removesuffix(".rt").removesuffix("/mod")
    return "" if path in ("lib", "main") else path


def function_at(text, place):
    """The name of the function that holds a place of a file, by the layout that `rt fmt` gives: the body of a function ends with a
    brace below its first word."""
    for found in reversed(list(re.finditer(r"^( *)(?:pub(?:\([a-z]+\))? )?(?:const )?fn (\w+)", text[:place], re.M))):
        end = re.compile(rf"^{found[1]}(?:\}}|\{{\}})$", re.M).search(text, found.end())
        if end and place < end.end():
            return found[2]
    return ""


def files_in(crate):
    """The files of a crate that are read for its proof, each by its path below the crate."""
    for part in PARTS:
        for folder, _, names in os.walk(os.path.join(crate, part)):
            yield from (os.path.relpath(os.path.join(folder, name), crate) for name in sorted(names))


def contract_of(crate, text, place):
    """The file and the name of the function whose contract names the definition that holds a place of a file of specs/, where nothing else
    names it: then that function alone is judged by it."""
    names = re.findall(r"^(?:(?:pub|abbrev|unfoldable|record|data) )+(\w+)", text[:place], re.M)
    if not names:
        return "", ""
    named = re.compile(rf"^(?!(?:ghost )?use |(?:(?:pub|abbrev|unfoldable|record|data) )+{names[-1]}\b).*(?<![\w.]){names[-1]}\b", re.M)
    found = [(file, it.start()) for file in files_in(crate) for it in named.finditer(text_of(crate, file))]
    if len(found) != 1 or not found[0][0].startswith("src/"):
        return "", ""
    file, begin = found[0]
    return file, function_at(text_of(crate, file), begin + 1)


def functions_of(file, text):
    """The functions of a file of src/, each with the folder of its proof and the place of its first line: those of the module itself, and
    the methods of the types that it declares. The methods of traits are not among them."""
    module, owner, place = module_of(file), "", 0
    for line in text.split("\n"):
        if line.startswith("impl"):
            name = re.match(r"impl\b(?:<.*>)? ?(\w+)", line)[1]
            is_here = re.search(rf"^(?:pub(?:\([a-z]+\))? )?(?:struct|enum) {name}\b", text, re.M)
            # an impl for given types has a folder of another name
            is_general = not re.match(r"impl \w+<(?:[^<>]*, )?[A-Z]", line)
            owner = name if is_here and is_general and " for " not in line else None
        elif line.startswith("}"):
            owner = ""
        found = re.match(r"( *)(?:pub(?:\([a-z]+\))? )?(?:const )?fn (\w+)", line)
        if found and owner is not None and len(found[1]) == (4 if owner else 0):
            yield found[2], "/".join(it for it in (module, owner, found[2]) if it), place
        place += len(line) + 1


def without_body(text, place):
    """A file's text with an endless loop as the body of the function whose first line is at this place, by the layout of `rt fmt`: a body
    begins with the first brace that ends a line which is indented as the first is."""
    indent = re.compile(" *").match(text, place)[0]
    begin = re.compile(rf"^{indent}(?:\S.* )?\{{(\}}?)$", re.M).search(text, place)
    if begin[1]:
        return text
    end = re.compile(rf"^{indent}\}}$", re.M).search(text, begin.end())
    return f"{text[: begin.end()]}\n{indent}    loop {{}}\n{text[end.start() :]}"


def without_bodies(crate, asked=frozenset()):
    """Each file of src/ of a crate, its text with endless loops as the bodies of the functions that are not asked for, and the names of
    these, each by the folder of its proof. A constant may be computed by a `const fn`, so those stay as they are."""
    for file in [file for file in files_in(crate) if file.startswith("src/")]:
        text, left_out = text_of(crate, file), {}
        if (file, "") not in asked:
            for name, folder, place in reversed(list(functions_of(file, text))):
                if (file, name) not in asked and "const fn" not in text[place : text.index("\n", place)]:
                    text, left_out[folder] = without_body(text, place), name
        yield file, text, left_out


def leave_out(crate, name, asked=frozenset()):
    """Replaces the proof of each function of a copy of the crate by a hole and its body by an endless loop, unless it is asked for, by its
    file and name, or by its file: the prover reads a body and all that it calls, even where the proof is a hole."""
    for file, text, left_out in list(without_bodies(crate, asked)):
        for folder, function in left_out.items():
            proof = os.path.join(crate, "proofs", folder)
            shutil.rmtree(proof, ignore_errors=True)
            module = f"Rattle.{name}.proofs.{folder.replace('/', '.')}"
            write(os.path.join(proof, "Proof.antt"), HOLE.format(module=module, name=function))
        write(os.path.join(crate, file), text)


def digest_of(texts):
    """A digest of named texts, in the order of the names."""
    digest = hashlib.sha256()
    for name, text in sorted(texts.items()):
        digest.update(f"{name}\0{len(text)}\0{text}".encode())
    return digest.hexdigest()


def public_digest(crate):
    """A digest of what the crates above read of a crate: contracts, definitions and lemmas, without bodies and the proofs of functions."""
    texts, proofs = {}, []
    for file, text, left_out in without_bodies(crate):
        texts[file] = text
        proofs += [f"proofs/{folder}/" for folder in left_out]
    for file in files_in(crate):
        if file not in texts and not file.startswith(tuple(proofs)):
            texts[file] = text_of(crate, file)
    return digest_of(texts)


def trial_digests(top, crates, version):
    """A digest of what the trial of each planted bug depends on, by the bug's crate, folder and file: the version of the kit, this script, the
    edit, the crate, and what is public of the crates below."""
    public = {name: public_digest(os.path.join(top, "crates", name)) for name in crates}
    script, digests = text_of("", os.path.abspath(__file__)), {}
    for name in crates:
        folder = os.path.join(top, "crates", name)
        own = digest_of({file: text_of(folder, file) for file in files_in(folder)})
        below = " ".join(f"{other} {public[other]}" for other in all_below(crates, name))
        shared = {"version": version, "script": script, "crate": own, "uses": " ".join(crates[name]), "below": below}
        for bug in [f"{it}/{edit}" for it in FOLDERS for edit in edits_of(folder, it)]:
            digests[f"{name}/{bug}"] = digest_of(shared | {"edit": text_of(folder, bug)})
    return digests


def read_list(path):
    """The lines of a list of refused bugs: the digest of each by its name."""
    try:
        lines = open(path, encoding="utf-8").read().split("\n")
    except OSError:
        return {}
    return {name: digest for digest, _, name in (line.partition("  ") for line in lines) if name}


def write_list(path, digests):
    write(path, "".join(f"{digest}  {name}\n" for name, digest in sorted(digests.items())))


def homes_of(file, text):
    """Patterns of the folders of proofs/ for the functions of a file: that of its module, and that of each type that it has an `impl`
    of, wherever the type is declared."""
    module = module_of(file)
    types = re.findall(r"^ *(?:unsafe )?impl\b(?:<.*?>)? ?(?:[\w:<>', ]+ for )?&?(?:'\w+ )?(\w+)", text, re.M)
    return (re.escape(module) + r"(/.*)?", *(rf"(.*/)?{name}" for name in types))


def changes_of(crate, file, new):
    """What makes of a file's text the new one: the runs of lines that differ."""
    text = text_of(crate, file)
    old_lines, new_lines = text.splitlines(True), new.splitlines(True)
    starts = [0]
    for line in old_lines:
        starts.append(starts[-1] + len(line))
    found = []
    for kind, begin, end, first, last in difflib.SequenceMatcher(None, old_lines, new_lines, False).get_opcodes():
        if kind != "equal":
            place = starts[begin]
            inside = place + len(old_lines[begin]) - len(old_lines[begin].lstrip()) if begin < end else place
            home, function = (file, function_at(text, inside)) if file.startswith("src/") else contract_of(crate, text, inside)
            homes = homes_of(home, text_of(crate, home)) if home else ()
            found.append(Change(file, place, starts[end], "".join(new_lines[first:last]), function, home, homes))
    return found


def read_bug(crate, folder, name):
    """Reads an .edit file: lines 'file: PATH', and pairs of lines 'old: TEXT' and 'new: TEXT', done one after another."""
    texts, file, old = {}, "", None
    for line in open(os.path.join(crate, folder, name), encoding="utf-8").read().split("\n"):
        word, _, rest = line.partition(":")
        rest = rest.removeprefix(" ")
        if word == "file":
            file = rest.strip()
            texts.setdefault(file, text_of(crate, file))
        elif word == "old":
            old = rest
        elif word == "new":
            if texts[file].count(old) != 1:
                raise Unusable(f"{name}: an 'old:' text is in {file} {texts[file].count(old)} times, and not once")
            texts[file] = texts[file].replace(old, rest)
    changes = [change for file, new in texts.items() for change in changes_of(crate, file, new)]
    if not changes:
        raise Unusable(f"{name}: it changes nothing")
    return Bug(f"{folder}/{name}", changes)


def edits_of(crate, folder):
    path = os.path.join(crate, folder)
    names = sorted(os.listdir(path)) if os.path.isdir(path) else []
    return [name for name in names if name.endswith(".edit")]


def read_bugs(crate):
    return [read_bug(crate, folder, name) for folder in FOLDERS for name in edits_of(crate, folder)]


def sample_of(names, count, seed):
    """So many of these names: other ones for another seed."""
    return set(sorted(names, key=lambda name: hashlib.sha256(f"{seed} {name}".encode()).digest())[:count])


def is_of(name, folders):
    """Whether a bug, by its crate, folder and file, is in one of these folders."""
    return name.split("/")[1] in folders


def choose(given, names, fresh):
    """Of the bugs with these names those that are tried, and those that are not, since they are among the fresh ones of the list."""
    wanted = {name for name in names if is_of(name, SETS[given.set])}
    known = set() if given.all else wanted & fresh
    again, others = (sample_of(it, given.sample, given.seed) for it in (known, names - wanted))
    return wanted - known | again | others, known - again


def apart(bugs):
    """Of these bugs as many as one check can try: each in functions of its own."""
    chosen, taken = [], set()
    for bug in bugs:
        if not taken & bug.functions():
            chosen.append(bug)
            taken |= bug.functions()
    return chosen


def edited(crate, bugs):
    """The files that the bugs change, as they are with all of them."""
    changes = {}
    for bug in bugs:
        for change in bug.changes:
            changes.setdefault(change.file, []).append(change)
    texts = {}
    for file, parts in changes.items():
        text = text_of(crate, file)
        for change in sorted(parts, key=lambda change: -change.begin):
            text = text[: change.begin] + change.text + text[change.end :]
        texts[file] = text
    return texts


@dataclass
class Verdict:
    """What a check said."""

    is_proved: bool
    functions: set  # what was checked: module and function
    refused: dict  # by module and function: the first goal that was left open
    elsewhere: str  # the first refusal of whatever kind, but of names
    unread: str  # the first line on a text that cannot be read

    def refusal_of(self, bug):
        """The goal that was left open in a function that the bug changes, if one was."""
        for change in bug.changes:
            for (path, name), goal in self.refused.items():
                if name == change.function and change.is_in(path):
                    return f"{name}: {goal}"
        return None


def goal_in(line):
    found = re.search(r"`([^`]*)`", line)
    return found[1] if found else "its proof"


def read_verdict(room, status, said, texts):
    """Reads the lines of a check of a copy of a crate, in which these texts are edited."""
    functions = {(path.replace("::", "/"), name) for path, name in re.findall(r"^fn \w+::(?:(\S+)::)?(\w+): ", said, re.M)}
    refused, elsewhere, unread = {}, "", ""

    def refuse(path, name, line):
        refused.setdefault((path, name), goal_in(line))

    for line in said.split("\n"):
        wrong = re.match(r"(?:\./)?(\S+?):(\d+):\d+: error: (?:(`[^`]*`): )?(.*)", line)
        if wrong and (wrong[1] in texts or wrong[1].startswith(("src/", "specs/"))):
            if not wrong[3] or UNREAD.search(re.sub(r"`[^`]*`", "", wrong[4])):
                unread = unread or line
        if wrong and not OF_NAMES.search(wrong[4]) and not wrong[1].endswith("/Proof.antt"):  # those are holes
            elsewhere = elsewhere or line
            proof = re.fullmatch(r"proofs/(?:(\S+)/)?(\w+)/\w+\.antt", wrong[1])
            if proof:
                refuse(proof[1] or "", proof[2], line[line.index("error: ") :])
        open_goal = re.match(r"note: (src/\S+):(\d+):\d+: it is not proved that .*\((`.*)", line)
        if open_goal:
            elsewhere = elsewhere or line
            name = function_below(text_of(room, open_goal[1]), int(open_goal[2]))
            if name:
                refuse(module_of(open_goal[1]), name, open_goal[3])
        searched = re.match(r"fn \S+: no proof: expected answers in \./proofs/(?:(\S+)/)?(\w+)/Answers\.antt; (`search` did not prove .*)", line)
        if searched:
            elsewhere = elsewhere or line
            refuse(searched[1] or "", searched[2], searched[3].removeprefix("`search`"))
    last = said.rstrip("\n").rpartition("\n")[2]
    if status not in (0, 1) or (status == 1 and not unread and not last.startswith(("logic=not-proved", "only=", "holes="))):
        raise Unusable("the check gave no verdict:\n" + "\n".join(said.split("\n")[-6:]))
    return Verdict(status == 0, functions, refused, elsewhere, unread)


def function_below(text, line):
    """The function that a line stands in, or, where the line is one of its attributes, above it."""
    lines = text.split("\n")
    while line < len(lines) and lines[line - 1].lstrip().startswith(("#[", "///", "//")):
        line += 1
    return function_at(text, sum(len(it) + 1 for it in lines[:line]) - 1)


class Crate:
    """A crate whose planted bugs are tried."""

    def __init__(self, kit, crates, name, libraries, left):
        self.kit, self.crates, self.name, self.libraries, self.left = kit, crates, name, libraries, left
        self.folder = os.path.join(TOP, "crates", name)
        self.functions = set()  # those that the checks named
        self.checks = 0

    def library(self, name):
        return os.path.join(self.libraries, name, "out", "rlib", f"{name}.rlib")

    def below(self):
        return all_below(self.crates, self.name)

    def words(self):
        rlibs = os.path.join(self.kit, "rlibs")
        root = "src/main.rt" if os.path.exists(os.path.join(self.folder, "src/main.rt")) else "src/lib.rt"
        words = [os.path.join(self.kit, "bin/rattle"), "check", "--crate-name", self.name, root, "--extern", f"std={rlibs}/std.rlib"]
        for other in self.crates[self.name]:
            words += ["--extern", f"{other}={self.library(other) if other in self.crates else f'{rlibs}/{other}.rlib'}"]
        words += ["-L", f"dependency={rlibs}"]
        for other in self.below():
            words += ["-L", f"dependency={os.path.dirname(self.library(other))}"]
        words += ["--antt-project", f"{self.kit}/rattle/logic/antt-project.json", "--logic-built", f"{self.kit}/logic_built"]
        # the last crates share the processors that no other crate needs
        return words + ["--jobs", str(max(1, len(os.sched_getaffinity(0)) // len(self.left)))]

    def paths_of(self, change):
        """What the prover is asked to check for a change: the functions that it may stand in, by the names that a check before told, or
        else by the folders of their proofs, or else the module."""
        named = [(path, name) for path, name in self.functions if name == change.function and change.is_in(path)]
        folders = functions_of(change.home, text_of(self.folder, change.home))
        known = [f"{path}/{name}".lstrip("/") for path, name in named] or [folder for name, folder, _ in folders if name == change.function]
        return {path.replace("/", "::") for path in known or [module_of(change.home)]}

    def check(self, bugs, kept, is_whole=False):
        """Checks a copy of the crate that has these bugs, over what the checks before it proved: the functions that they stand in, and what has
        no hole of what those call, or all of the crate. Of a bug that stands in no function the whole of its file is asked for."""
        changes = [change for bug in bugs for change in bug.changes]
        homes = {(change.home or change.file, change.function) for change in changes}
        paths = {module_of(file).replace("/", "::") for file, function in homes if not function}
        paths = sorted(paths.union(*[self.paths_of(change) for change in changes if change.function]))
        is_whole = is_whole or not all(paths) or not all(file.startswith("src/") for file, _ in homes)
        only = [] if is_whole else [word for path in paths for word in ("--only", path)] + ["--allow-holes", "--short-goals"]
        texts = edited(self.folder, bugs)
        with tempfile.TemporaryDirectory(prefix="planted-") as room:
            for part in PARTS:
                if os.path.isdir(os.path.join(self.folder, part)):
                    shutil.copytree(os.path.join(self.folder, part), os.path.join(room, part))
            for file, text in texts.items():
                write(os.path.join(room, file), text)
            if not is_whole:
                leave_out(room, self.name, homes)
            how = {"cwd": room, "stdin": subprocess.DEVNULL, "stdout": subprocess.PIPE, "stderr": subprocess.STDOUT, "errors": "replace"}
            ran = subprocess.run(self.words() + only + ["--incremental", kept], **how)
            if ran.returncode == -signal.SIGKILL:  # most often memory ran out: once more
                ran = subprocess.run(self.words() + only + ["--incremental", kept], **how)
            verdict = read_verdict(room, ran.returncode, ran.stdout, texts)
        self.checks += 1
        self.functions |= verdict.functions
        return verdict

    def try_alone(self, bug, kept):
        """Tries one bug by itself, with holes and then in the whole crate. Answers whether it is refused, and where."""
        for is_whole in (False, True):
            verdict = self.check([bug], kept, is_whole)
            if verdict.unread:
                return False, f"it cannot be read: {verdict.unread}"
            found = verdict.refusal_of(bug) or verdict.elsewhere
            if found:
                return True, found
        return False, "THE CRATE IS STILL PROVED" if verdict.is_proved else "refused for a name alone"

    def try_all(self, names):
        """Tries the bugs of the crate that have these names. Answers for each its name, whether it is refused, and where."""
        told, bugs = [], [bug for bug in read_bugs(self.folder) if f"{self.name}/{bug.name}" in names]
        left, alone = [bug for bug in bugs if bug.is_placed()], [bug for bug in bugs if not bug.is_placed()]
        with tempfile.TemporaryDirectory(prefix="planted-kept-") as kept:
            while len(left) > 1:
                chosen = apart(left)
                verdict = self.check(chosen, kept) if len(chosen) > 1 else None
                refused = {} if verdict is None or verdict.unread else {bug.name: verdict.refusal_of(bug) for bug in chosen}
                told += [(name, True, found) for name, found in refused.items() if found]
                if not any(refused.values()):
                    alone += chosen
                    left = [bug for bug in left if bug not in chosen]
                else:
                    left = [bug for bug in left if not refused.get(bug.name)]
                    # the next check begins with those that this one had in it, and did not refuse
                    left.sort(key=lambda bug: bug not in chosen)
            for bug in left + alone:
                told.append((bug.name, *self.try_alone(bug, kept)))
        return told


class Gate:
    """The run of `rt ci` beside which the bugs are tried: its process, and the file that has what it says; or none."""

    def __init__(self, process, log):
        self.process, self.log = process, log

    def goes_on(self):
        return bool(self.process) and os.path.exists(f"/proc/{self.process}")

    def proved(self):
        """The crates that it says are proved, or were by an earlier run."""
        try:
            with open(self.log, encoding="utf-8", errors="replace") as log:
                return set(re.findall(r"^rt: (\w+) (?:proved$|is kept: )", log.read(), re.M))
        except OSError:
            return set()

    def wait_for(self, crate):
        """Waits, as long as it goes on, until the libraries below a crate are there. Answers whether they are."""
        below = set(crate.below())
        while self.goes_on() and not below <= self.proved():
            time.sleep(2)
        return all(os.path.exists(os.path.join(crate.library(name), "format")) for name in below)


class Lanes:
    """How many crates are tried at a time: so many, and more once the process beside has ended, as processors and memory allow."""

    def __init__(self, most, gate):
        self.most, self.waits, self.gate = most, gate.goes_on(), gate
        self.taken, self.changed = 0, threading.Condition()

    def is_free(self):
        if self.waits and not self.gate.goes_on():
            # counted once, at that time: checks that have just begun don't have their memory yet
            self.waits = False
            self.most = min(len(os.sched_getaffinity(0)), self.most + max(0, (free_gigabytes() - 1) // 3))
        return self.taken < self.most

    def __enter__(self):
        with self.changed:
            while not self.is_free():
                self.changed.wait(5)
            self.taken += 1

    def __exit__(self, *_):
        with self.changed:
            self.taken -= 1
            self.changed.notify()


def try_crate(crate, names, gate, lanes):
    try:
        if not any(name.startswith(f"{crate.name}/") for name in names):
            return crate.try_all(names)  # its edits are read
        if not gate.wait_for(crate):
            return [("each", False, "the libraries that its crate stands on are not built")]
        with lanes:
            return crate.try_all(names)
    except Unusable as why:
        return [("each", False, str(why))]
    finally:
        crate.left.discard(crate.name)


def build_libraries(crates, names):
    """Builds what the crates stand on, over the work that is kept in this tree."""
    wanted = {other for name in names for other in all_below(crates, name)}
    for name in [name for name in crates if name in wanted]:
        if subprocess.run(["rt", "lib"], cwd=os.path.join(TOP, "crates", name), stdout=subprocess.DEVNULL).returncode:
            sys.exit(f"planted: {name} is not proved")


def arguments():
    asked = argparse.ArgumentParser(usage=__doc__.split("usage: ")[1].split("\n\n")[0])
    asked.add_argument("--set", choices=SETS, default="must-fail")
    asked.add_argument("--all", action="store_true")
    asked.add_argument("--sample", type=int, default=0)
    asked.add_argument("--seed", default="")
    asked.add_argument("--write")
    asked.add_argument("--libraries")
    asked.add_argument("--beside", type=int)
    asked.add_argument("--log")
    asked.add_argument("--lanes", type=int, default=lanes())
    asked.add_argument("crates", nargs="*")
    return asked.parse_args()


def try_crates(given, tried, names):
    """Tries the bugs of these names, each in its crate, and prints how each trial ended. Answers which are refused, and how many aren't."""
    refused, failed = set(), 0
    gate = Gate(given.beside, given.log)
    room = Lanes(given.lanes, gate)
    with ThreadPoolExecutor(len(tried)) as pool:
        for crate, told in zip(tried, pool.map(lambda crate: try_crate(crate, names, gate, room), tried)):
            for bug, is_refused, found in told:
                print(f"planted {crate.name}/{bug}: {'refused, as it must be' if is_refused else 'NOT REFUSED'}: {found[:160]}", flush=True)
                failed += not is_refused
                refused |= {f"{crate.name}/{bug}"} if is_refused else set()
    return refused, failed


def main():
    given = arguments()
    kit, crates = kit_folder(), known_crates()
    if kit is None:
        return NOT_THIS_KIT
    digests = trial_digests(TOP, crates, subprocess.run(["rt", "version"], capture_output=True, text=True).stdout)
    known = {bug.split("/")[0] for bug in digests}
    names = given.crates or [name for name in crates if name in known]
    if set(names) - known:
        sys.exit(f"planted: no bugs in {', '.join(sorted(set(names) - known))}")
    listed = read_list(LIST)
    fresh = {bug for bug in digests if listed.get(bug) == digests[bug]}
    wanted, spared = choose(given, {bug for bug in digests if bug.split("/")[0] in names}, fresh)
    if not given.libraries:
        build_libraries(crates, names)
    left, started = set(names), time.monotonic()
    tried = [Crate(kit, crates, name, given.libraries or os.path.join(TOP, "crates"), left) for name in names]
    refused, failed = try_crates(given, tried, wanted)
    if given.write:
        write_list(given.write, {bug: digests[bug] for bug in fresh - wanted | refused})
    count = len(refused) + failed
    print(f"planted: {sum(crate.checks for crate in tried)} checks in {(time.monotonic() - started) / 60:.0f} minutes")
    print(f"planted: {len(refused) + len(spared)} of {count + len(spared)} planted bugs refused: {count} tried in this run", end="")
    print(f", {len(spared)} as release/REFUSED lists them" if spared else "")
    return 1 if failed else 0


if __name__ == "__main__":
    sys.exit(main())
