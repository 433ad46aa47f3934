"""The results of readers as one page: reader by reader the cases that differ, with what is to be read beside what was read."""

import html
import itertools
import re

from forms import meant_entities, shown_entity
from readers import CRASHED, KEPT, OTHERWISE, REFUSED
from report import HEADS, cells
from suite import BROKEN, CHOICE, HARMLESS, SOUND, count_of_sorts

STYLE = """
:root { color-scheme: light dark; --line: #8884; --soft: #8881; --bad: #d84343; --mark: #f9a82540; }
body { font: 15px/1.45 system-ui, sans-serif; max-width: 1180px; margin: 2rem auto; padding: 0 1rem; }
h1 { font-size: 1.6rem; } h2 { font-size: 1.25rem; margin-top: 2.5rem; border-bottom: 1px solid var(--line); }
code, pre { font: 12.5px/1.5 ui-monospace, monospace; }
table { border-collapse: collapse; margin: 1rem 0; display: block; overflow-x: auto; }
th, td { padding: .3rem .7rem; border-bottom: 1px solid var(--line); text-align: right; }
th:first-child, td:first-child { text-align: left; }
th { font-weight: 600; vertical-align: bottom; } td.silent { font-weight: 700; color: var(--bad); }
details { border: 1px solid var(--line); border-radius: 6px; margin: .35rem 0; }
summary { cursor: pointer; padding: .35rem .7rem; }
details > div { padding: 0 .9rem .8rem; } .what { opacity: .8; }
.sides { display: grid; grid-template-columns: 1fr 1fr; gap: 3px .8rem; } .sides h4 { margin: .4rem 0; }
.sides pre { margin: 0; padding: .35rem .5rem; background: var(--soft); white-space: pre-wrap; overflow-wrap: anywhere; min-height: 1.5em; }
pre.differs { background: var(--mark); } mark { background: var(--mark); color: inherit; }
"""
OUTCOME_TITLES = (
    (SOUND, OTHERWISE, "Sound files read otherwise, without a word"),
    (SOUND, CRASHED, "Sound files that end the reader by a signal, or that it doesn't end"),
    (SOUND, REFUSED, "Sound files refused"),
    (BROKEN, CRASHED, "Broken files that end the reader by a signal, or that it doesn't end"),
    (BROKEN, OTHERWISE, "Broken files read, with wrong data and without a word"),
    (HARMLESS, CRASHED, "Broken files without harm that end the reader by a signal, or that it doesn't end"),
    (HARMLESS, OTHERWISE, "Broken files read, without harm"),
)
# the columns of the table whose numbers are wrong data without a word
SILENT = (1, 5)


def safe(text: str) -> str:
    return html.escape(text.encode("utf-8", "backslashreplace").decode())


def spelled_code(text: str) -> str:
    """A sentence whose code stands between backticks."""
    return re.sub(r"`([^`]*)`", r"<code>\1</code>", safe(text))


def summary_table(measured: list) -> str:
    text = "<table><tr>" + "".join(f"<th>{head}</th>" for head in ("Reader", *HEADS)) + "</tr>\n"
    for number, reader in enumerate(measured):
        text += f'<tr><td><a href="#reader{number}">{safe(reader["title"])}</a> {safe(reader.get("version", ""))}</td>'
        for place, count in enumerate(cells(reader["counts"])):
            text += f'<td{" class=silent" if place in SILENT and count else ""}>{count:,}</td>'
        text += "</tr>\n"
    return text + "</table>\n"


def marked(line: str, other: str) -> str:
    """A line with its parts marked that the other line doesn't have."""
    if not line:
        return ""
    others = set(other.split("  "))
    return "  ".join(safe(part) if part in others else f"<mark>{safe(part)}</mark>" for part in line.split("  "))


def side_by_side(meant: list, read: list) -> str:
    text = '<div class="sides"><h4>To be read</h4><h4>Read</h4>'
    for one, other in itertools.zip_longest(meant, read, fillvalue=""):
        differs = "" if one == other else " class=differs"
        text += f"<pre{differs}>{marked(one, other)}</pre><pre{differs}>{marked(other, one)}</pre>"
    return text + "</div>"


def meant_lines(case) -> list:
    meant = meant_entities(case)
    if meant is None:
        return ["nothing: the file is to be refused"]
    if isinstance(meant, tuple):
        return ["{} nodes, {} ways, {} relations".format(*meant)]
    return [shown_entity(entity) for entity in meant[:KEPT]]


def detail(result: dict, case) -> str:
    note = result.get("note", "") + (" (an expected failure)" if result.get("known") else "")
    text = f'<details><summary><code>{safe(case.name)}</code> <span class="what">{spelled_code(case.told["odd"])}</span></summary><div>'
    text += f"<p>{safe(note)}</p>"
    if "read" in result:
        text += side_by_side(meant_lines(case), result["read"])
    return text + "</div></details>\n"


def section(number: int, reader: dict, cases: dict) -> str:
    text = f'<h2 id="reader{number}">{safe(reader["title"])} {safe(reader.get("version", ""))}</h2>\n'
    text += f"<p><code>{safe(reader['command'])}</code></p>\n"
    for verdict, outcome, title in OUTCOME_TITLES:
        found = [result for result in reader["results"] if (result["verdict"], result["outcome"]) == (verdict, outcome)]
        if found:
            text += f"<h3>{title}: {len(found)}</h3>\n" + "".join(detail(result, cases[result["case"]]) for result in found)
    if not any(result["verdict"] != CHOICE for result in reader["results"] if not result["good"]):
        text += "<p>Every sound file is read as meant, and every broken one refused.</p>\n"
    return text


def as_html(measured: list, chosen: list) -> str:
    """The page. `measured` is a list of what `--json` writes for a reader."""
    cases = {case.name: case for case in chosen}
    count = count_of_sorts(chosen)
    text = '<!doctype html>\n<html lang="en"><head><meta charset="utf-8"><meta name="viewport" content="width=device-width, initial-scale=1">\n'
    text += f"<title>Readers of OpenStreetMap's PBF</title><style>{STYLE}</style></head><body>\n"
    text += f"<h1>Readers of OpenStreetMap's PBF</h1>\n<p>{len(chosen):,} files: {count[SOUND]:,} sound ones, which a reader should read as"
    text += f" meant, and {count[BROKEN] + count[HARMLESS]:,} broken ones, which it should refuse; {count[HARMLESS]:,} of these do no harm if they are"
    text += f" read. Where the format leaves a choice ({count[CHOICE]:,}), nothing is counted. Below, each case that differs opens to what is to be read beside what was read.</p>\n"
    text += summary_table(measured)
    return text + "".join(section(number, reader, cases) for number, reader in enumerate(measured)) + "</body></html>\n"
