"""The results of readers: as tables, JSON, TAP and JUnit's XML."""

import json
import xml.sax.saxutils as saxutils

from readers import CRASHED, LEFT, OTHERWISE, OUTCOMES, READ, REFUSED, counts
from suite import BROKEN, CHOICE, HARMLESS, SOUND

# a line of the table of one reader
ROWS = {SOUND: "sound", BROKEN: "broken, gives wrong data", HARMLESS: "broken, no harm", CHOICE: "choice"}


def table(results: list) -> str:
    """The table of one reader."""
    found = counts(results)
    text = f"{'':26}" + "".join(f"{name:>16}" for name in OUTCOMES) + "\n"
    for sort, row in found.items():
        mark = " (not counted)" if sort == CHOICE else ""
        text += f"{ROWS[sort]:26}" + "".join(f"{count:16,}" for count in row.values()) + mark + "\n"
    return text


def listed(results: list) -> str:
    """A line for each case that fails, but for the expected ones."""
    return "".join(f"{r.case.sort()}: {r.case.name}: {r.outcome}: {r.note}\n" for r in results if r.is_failure())


def told_of(title: str, command: str, results: list) -> dict:
    """One reader's results as `--json` writes them: those that say something. A broken file that is refused says nothing, for one."""
    told = {"title": title, "command": command, "counts": counts(results)}
    return {**told, "results": [result.as_json() for result in results if not result.is_plain()]}


def as_json(measured: list) -> str:
    return json.dumps(measured, ensure_ascii=False, indent=1) + "\n"


def as_tap(results: list) -> str:
    """Test Anything Protocol, version 13. An expected failure is a TODO of it."""
    text = f"TAP version 13\n1..{len(results)}\n"
    for number, result in enumerate(results, 1):
        skipped = result.outcome == LEFT or (result.case.sort() == CHOICE and result.is_good())
        why = " # SKIP " + (result.note if result.outcome == LEFT else "the format leaves a choice") if skipped else ""
        why = " # TODO an expected failure" if result.is_known and not skipped else why
        text += f"{'ok' if result.is_good() else 'not ok'} {number} - {result.case.name}{why}\n"
        if not result.is_good():
            text += f"  ---\n  verdict: {result.case.sort()}\n  outcome: {result.outcome}\n"
            text += f"  note: {json.dumps(result.note)}\n  ...\n"
    return text


def as_junit(results: list) -> str:
    """The XML that most servers of continuous integration read. An expected failure is skipped."""
    bad = [result for result in results if result.is_failure()]
    crashed = sum(1 for result in bad if result.outcome == CRASHED)
    text = '<?xml version="1.0" encoding="UTF-8"?>\n'
    text += f'<testsuite name="pbf-vectors" tests="{len(results)}" failures="{len(bad) - crashed}" errors="{crashed}">\n'
    for result in results:
        name, topic = (saxutils.quoteattr(word) for word in (result.case.name, result.case.told["topic"]))
        text += f"  <testcase name={name} classname={topic}"
        if not result.is_failure():
            skipped = "<skipped/>" if result.outcome == LEFT else "" if result.is_good() else '<skipped message="an expected failure"/>'
            text += f">{skipped}</testcase>\n" if skipped else "/>\n"
            continue
        kind = "error" if result.outcome == CRASHED else "failure"
        said = saxutils.quoteattr(printable(f"{result.case.sort()} file {result.outcome}: {result.note}"))
        text += f"><{kind} message={said}/></testcase>\n"
    return text + "</testsuite>\n"


def printable(text: str) -> str:
    """A text without what XML forbids."""
    return "".join(letter if letter.isprintable() else "?" for letter in text)


def status_of(results: list) -> int:
    """0: every sound file is read as meant, and every broken one refused, but for the expected failures; 1: not so; 2 is for wrong options."""
    return 0 if results and not any(result.is_failure() for result in results) else 1


# ---- several readers, as the tables of docs/CONFORMANCE.md


def listed_of(measured: list) -> str:
    """A line for each reader and case that isn't as it should be."""
    return "".join(
        f"{reader['name']}: {result['verdict']}: {result['case']}: {result['outcome']}: {result.get('note', '')}\n"
        for reader in measured for result in reader["results"] if not result["good"])


HEADS = ("Sound: read as meant", "read otherwise", "refused", "crashed", "Broken: refused", "read, wrong data", "read, no harm", "crashed")


def cells(found: dict) -> list:
    """The numbers under HEADS, of one reader's counts."""
    sound, broken, harmless = found[SOUND], found[BROKEN], found[HARMLESS]
    first = [sound[READ], sound[OTHERWISE], sound[REFUSED], sound[CRASHED], broken[REFUSED] + harmless[REFUSED]]
    return first + [broken[OTHERWISE], harmless[OTHERWISE], broken[CRASHED] + harmless[CRASHED]]


def rows(measured: list) -> str:
    """`measured` is a list of {"name", "counts"}; a row for each."""
    text = "| Reader | " + " | ".join(HEADS) + " |\n" + "|---" * (len(HEADS) + 1) + "|\n"
    for reader in measured:
        text += f"| {reader['name']} | " + " | ".join(str(cell) for cell in cells(reader["counts"])) + " |\n"
    return text
