#!/usr/bin/env python3
"""Names the lines of pbf_examples that are wrong: the prover by itself names only the table that has one.

usage: tools/wrong_lines.py              prints each line that is not proved: TABLE.line, and where it stands
       tools/wrong_lines.py --spoilt      spoils the last digit of each line, and prints each that is proved all the same

It makes a lemma of each line of a table, and has `rt check` prove the crate with them. Exit status: 0 nothing was printed; 1 something was.
"""
import os
import re
import subprocess
import sys

from build import TOP

CRATE = os.path.join(TOP, "crates", "pbf_examples")
SPECS, PROOFS = os.path.join(CRATE, "specs"), os.path.join(CRATE, "proofs")
MODULE = "LinesOf"  # what the files of lemmas are called, before the name of their chapter


def read(*path):
    with open(os.path.join(*path), encoding="utf-8") as file:
        return file.read()


def write(text, *path):
    with open(os.path.join(*path), "w", encoding="utf-8") as file:
        file.write(text)


def lines_of(text):
    """The lines of the tables of a file: of each its table, its name, the number of its first line, and what it says."""
    table, found = None, []
    for number, line in enumerate(text.split("\n"), 1):
        begun = re.match(r"pub record (\w+) ", line)
        named = re.match(r"  pub (\w+) :(.*)", line)
        if begun:
            table = begun[1]
        elif line and not line.startswith(" "):
            table = None
        elif table and named:
            found.append([table, named[1], number, [named[2].strip()]])
        elif table and line.startswith("      "):
            found[-1][3].append(line)
    return found


def spoilt(says):
    """What a line says, with another last digit; None where it has no digit."""
    text = "\n".join(says)
    last = re.search(r"\d(?=\D*$)", text)
    return text and last and (text[:last.start()] + str((int(last[0]) + 1) % 10) + text[last.end():]).split("\n")


def lemmas(chapter, text, spoil):
    """A file of lemmas, and what stands at each of its own lines."""
    names = re.findall(r"^(?:abbrev pub|unfoldable pub) (\S+) :", text, re.M)
    uses = [line for line in text.split("\n") if line.startswith("use ")]
    if names:
        uses.append(f"use Rattle.pbf_examples.specs.{chapter}.{{{', '.join(names)}}}")
    made, places = [*uses, "use Rattle.std.specs.Prelude.{refl}", "use Rattle.pbf_examples.proofs.Computing.{pbf_on_literals}"], {}
    for table, name, number, says in lines_of(text):
        says = spoilt(says) if spoil else says
        if not says:
            continue
        first = len(made)
        proof = "(refl, refl)" if re.search(r"\b(means|has_header)\b", " ".join(says)) else "refl"
        made += ["", f"{table}-{name} :", "      " + says[0], *says[1:], "unfolding pbf_on_literals", f"{table}-{name} = {proof}"]
        places.update(dict.fromkeys(range(first + 1, len(made) + 1), f"{table}.{name}, line {number} of specs/{chapter}.antt"))
    return "\n".join(made) + "\n", places


def main(spoil):
    chapters = [name for name in re.findall(r"^pub mod (\w+)$", read(SPECS, "Lib.antt"), re.M) if lines_of(read(SPECS, name + ".antt"))]
    library, places = read(PROOFS, "Lib.antt"), {}
    try:
        for chapter in chapters:
            text, places[chapter] = lemmas(chapter, read(SPECS, chapter + ".antt"), spoil)
            write(text, PROOFS, MODULE + chapter + ".antt")
        write(library + "".join(f"mod {MODULE}{chapter}\n" for chapter in chapters), PROOFS, "Lib.antt")
        ran = subprocess.run(["rt", "check"], cwd=CRATE, capture_output=True, text=True)
    finally:
        write(library, PROOFS, "Lib.antt")
        for chapter in chapters:
            os.unlink(os.path.join(PROOFS, MODULE + chapter + ".antt"))
    said = ran.stdout + ran.stderr
    wrong = dict.fromkeys(places[chapter].get(int(number), f"{chapter}: {what}")
                          for chapter, number, what in re.findall(rf"proofs/{MODULE}(\w+)\.antt:(\d+):\d+: error: (.*)", said))
    if ran.returncode and not wrong:
        sys.exit(said[-3000:])
    all_lines = dict.fromkeys(place for found in places.values() for place in found.values())
    odd = [line for line in all_lines if line not in wrong] if spoil else list(wrong)
    for line in odd:
        print("proved all the same:" if spoil else "wrong:", line)
    print(f"{len(wrong)} of {len(all_lines)} {'spoilt ' if spoil else ''}lines are wrong")
    return 1 if odd else 0


if __name__ == "__main__":
    words = sys.argv[1:]
    if words not in ([], ["--spoilt"]):
        sys.exit(__doc__.strip())
    sys.exit(main(bool(words)))
