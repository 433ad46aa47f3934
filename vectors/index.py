"""CASES.md, the page of the cases, and the list that crates/pbf_vectors reads: both are made of nothing but the cases."""

import os

from make import run_make
from suite import BROKEN, CALLS, CHOICE, HARMLESS, HERE, SOUND, Case, cases, count_of_sorts, nanodegrees

# what a sort of case is in the tables
KINDS = {SOUND: "sound", BROKEN: "broken", HARMLESS: "broken, no harm", CHOICE: "choice"}


def mark(case: Case) -> str:
    fault = case.told.get("refused") or case.told.get("unwritten")
    if not fault:
        return "read"
    return f"{'' if case.told.get('refused') else 'read; to write: '}{fault['number']} {fault['reason']} at {fault['offset']:,}"


def page(found: list) -> str:
    """CASES.md: the cases by what they test."""
    topics = {}
    for case in found:
        topics.setdefault(case.told["topic"], []).append(case)
    count = count_of_sorts(found)
    text = "# The cases\n\nFor authors of readers who look for a case. [README.md](README.md) says how to run them. `run.py index` writes this page.\n\n"
    text += f"{len(found):,} cases: {count[SOUND]} sound; {count[BROKEN] + count[HARMLESS]} broken, {count[BROKEN]} of them with wrong data for a reader that"
    text += f" reads them and {count[HARMLESS]} without harm; and {count[CHOICE]} where the format leaves a choice. `case.json` says why a file does no"
    text += " harm, or what is left to choose.\n"
    text += "".join(f"\n- [{topic}](#{topic.replace(' ', '-')}): {len(topics[topic])}" for topic in sorted(topics)) + "\n"
    for topic in sorted(topics):
        text += f"\n## {topic}\n\n| Case | What is odd | Kind | pbfcut |\n|---|---|---|---|\n"
        for case in topics[topic]:
            odd = case.told["odd"].replace("|", "\\|")
            text += f"| [{case.name}]({case.name}/case.json) | {odd} | {KINDS[case.sort()]} | {mark(case)} |\n"
    return text


def row(case: Case) -> str:
    """A line of the list: the name, the box in nanodegrees, and the fault, or what each call counts and the file that it writes; where the
    file is sound and can't be written, the fault and the counts of all. A file of the rule is spelled out: its units in hex, each with its
    times."""

    def place(file: str) -> str:
        if file not in case.made:
            return file
        return "*" + "+".join(f"{unit}x{times}" for unit, times in case.made[file])

    edges = " ".join(str(nanodegrees(edge)) for edge in case.told["box"].split(","))
    fault = case.told.get("refused") or case.told.get("unwritten")
    line = f"{case.name} {edges} {place('in.osm.pbf')}"
    if fault:
        told = f"{fault['offset']} {fault['number']} {missing(fault)}"
        if case.told.get("refused"):
            return f"{line} refused {told}"
        return f"{line} unwritten {told} " + " ".join(str(count) for count in case.told["all"])
    for call in CALLS:
        line += " " + " ".join(str(count) for count in case.told["counts"][call]) + " " + place(case.told["writes"][call])
    return line


def missing(fault: dict) -> int:
    """The field that is missing, of a reason like Missing(8); else 0."""
    reason = fault["reason"]
    return int(reason[8:-1]) if reason.startswith("Missing(") else 0


def run_index(check: bool) -> int:
    """Writes both, or says which of them isn't as the cases are."""
    found = cases([])
    wanted = {"CASES.md": page(found), "list": "".join(row(case) + "\n" for case in found)}
    stale = run_make(True)
    for name, text in wanted.items():
        path = os.path.join(HERE, name)
        if check:
            with open(path, encoding="utf-8") as file:
                if file.read() != text:
                    print(f"{name} is not as the cases are: run.py index writes it")
                    stale = 1
        else:
            with open(path, "w", encoding="utf-8") as file:
                file.write(text)
    return stale
