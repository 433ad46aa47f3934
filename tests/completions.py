#!/usr/bin/env python3
"""Presses the tab key in bash and zsh on a terminal: completions/ has to complete commands, options and files.

usage: tests/completions.py PROGRAM

PROGRAM is not run: what is completed comes from completions/. A shell that is not here is left out; with neither, the status is 77.
"""

import os
import pty
import re
import select
import shutil
import sys
import tempfile
import time

TOP = os.path.dirname(os.path.dirname(os.path.abspath(__file__)))
COMPLETIONS = os.path.join(TOP, "completions")
SECONDS = 200

# what is typed before the tab key, and what the line is then, or has to have in it
CASES = [
    ("pbfcut ext", "pbfcut extract "),
    ("pbfcut con", "pbfcut convert "),
    ("pbfcut help sh", "pbfcut help show "),
    ("pbfcutz inf", "pbfcutz info "),
    ("pbfcutz unp", "pbfcutz unpack "),
    ("pbfcut extract --par", "pbfcut extract --parents "),
    ("pbfcut extract --prog", "pbfcut extract --progress "),
    ("pbfcut extract --str", "pbfcut extract --strategy="),
    ("pbfcut extract --strategy=sm", "pbfcut extract --strategy=smart "),
    ("pbfcutz extract -s sm", "pbfcutz extract -s smart "),
    ("pbfcut extract --ty", "pbfcut extract --types="),
    ("pbfcutz extract -s smart --types=an", "pbfcutz extract -s smart --types=any "),
    ("pbfcut extract --bo", "pbfcut extract --box="),
    ("pbfcut extract --po", "pbfcut extract --polygon="),
    ("pbfcut extract --polygon=ar", "pbfcut extract --polygon=area.poly "),
    ("pbfcut extract -p ar", "pbfcut extract -p area.poly "),
    ("pbfcutz extract --con", "pbfcutz extract --config="),
    ("pbfcutz extract --config=ar", "pbfcutz extract --config=area.poly "),
    ("pbfcutz extract -c ar", "pbfcutz extract -c area.poly "),
    ("pbfcutz extract --dir", "pbfcutz extract --directory="),
    ("pbfcut extract --con", "pbfcut extract --con"),
    ("pbfcutz extract --ra", "pbfcutz extract --raw "),
    ("pbfcutz extract --output=ne", "pbfcutz extract --output=new.osm.pbf "),
    ("pbfcutz extract -o ne", "pbfcutz extract -o new.osm.pbf "),
    ("pbfcut extract --box=1,2,3,4 to", "pbfcut extract --box=1,2,3,4 town.osm.pbf "),
    ("pbfcut check to", "pbfcut check town.osm.pbf "),
    ("pbfcut show --da", "pbfcut show --dates "),
    ("pbfcutz info --js", "pbfcutz info --json "),
    ("pbfcut check with", "pbfcut check with\\ space.osm.pbf "),
]
# the same in a folder that has only one file
IN_FOLDER = [
    ("pbfcut extract --polygon=", "pbfcut extract --polygon=one.poly "),
    ("pbfcutz extract --output=", "pbfcutz extract --output=one.poly "),
    ("pbfcut extract --box=", "pbfcut extract --box="),
    ("pbfcut check ", "pbfcut check one.poly "),
]
FILES = ["area.poly", "new.osm.pbf", "town.osm.pbf", "with space.osm.pbf"]

# what each shell reads first: the completion, a prompt that is easily found, and no other setting
START = {
    "bash": "PS1='> '; bind 'set bell-style none'; bind 'set enable-bracketed-paste off'; source {folder}/pbfcut.bash\n",
    "zsh": "PS1='> '; PS2=; RPS1=; unsetopt zle_bracketed_paste prompt_sp beep 2>/dev/null; unset zle_bracketed_paste; "
           "fpath=({folder} $fpath); autoload -Uz compinit; compinit -u -d {folder}/dump; bindkey '^I' complete-word\n",
}
WORDS = {"bash": ["bash", "--norc", "--noprofile", "-i"], "zsh": ["zsh", "-f", "-i"]}


class Shell:
    """A shell on a terminal."""

    def __init__(self, name: str, folder: str, home: str):
        self.name = name
        child, self.terminal = pty.fork()
        if child == 0:
            os.chdir(home)
            environment = {"PATH": os.environ["PATH"], "TERM": "dumb", "HOME": home, "COLUMNS": "200", "LC_ALL": "C"}
            os.execvpe(WORDS[name][0], WORDS[name], environment)
        self.child = child
        self.send(START[name].format(folder=folder) + "echo re''ady\n")
        self.until("ready\r\n")
        self.seen()

    def send(self, text: str):
        os.write(self.terminal, text.encode())

    def seen(self, seconds: float = 0.3) -> str:
        """What comes until nothing has come for so long."""
        text = b""
        while select.select([self.terminal], [], [], seconds)[0]:
            text += os.read(self.terminal, 4096)
        return text.decode("utf-8", "replace")

    def until(self, wanted: str) -> str:
        """What comes until this has come."""
        text, end = "", time.monotonic() + SECONDS
        while wanted not in text and time.monotonic() < end:
            text += self.seen(0.1)
        return text

    def completed(self, typed: str) -> str:
        """The line after the tab key. The line is then made a word of a command that prints it, between two marks."""
        self.send("\x15" + typed + "\t")
        self.seen(0.5)
        self.send("\x01printf '<%s>\\n' '\x05'\n")
        text = self.until(">\r\n")
        self.seen(0.1)
        found = re.findall(r"^<(.*)>\r$", text, re.M)
        return found[-1] if found else repr(text)

    def close(self):
        self.send("\x15exit\n")
        os.close(self.terminal)
        os.waitpid(self.child, 0)


def tried(name: str) -> list:
    """What is out of place in a shell."""
    wrong = []

    def compare(shell: Shell, typed: str, wanted: str):
        found = shell.completed(typed)
        # zsh takes the = away again if the line goes on without a value
        if found.rstrip(" =") != wanted.rstrip(" ="):
            wrong.append(f"{name}: {typed!r} becomes {found!r}, and not {wanted!r}")

    with tempfile.TemporaryDirectory(prefix="pbfcut-completions-") as folder:
        home = os.path.join(folder, "home")
        os.makedirs(os.path.join(home, "folder"))
        for file in [*FILES, "folder/one.poly"]:
            with open(os.path.join(home, file), "wb"):
                pass
        shutil.copytree(COMPLETIONS, os.path.join(folder, "completions"))
        shell = Shell(name, os.path.join(folder, "completions"), home)
        for typed, wanted in CASES:
            compare(shell, typed, wanted)
        shell.send("cd folder\n")
        shell.seen()
        for typed, wanted in IN_FOLDER:
            compare(shell, typed, wanted)
        shell.close()
    return wrong


def main():
    shells = [name for name in WORDS if shutil.which(name)]
    try:
        for end in pty.openpty():
            os.close(end)
    except OSError:
        shells = []
    if not shells:
        print("tests/completions.py: there is neither bash nor zsh here, or no terminal")
        sys.exit(77)
    wrong = [line for name in shells for line in tried(name)]
    for line in wrong:
        print(f"tests/completions.py: {line}")
    if wrong:
        sys.exit(1)
    print(f"tests/completions.py: {len(CASES) + len(IN_FOLDER)} cases each in {' and '.join(shells)} as they have to be")


if __name__ == "__main__":
    if len(sys.argv) != 2:
        sys.exit(__doc__)
    main()
