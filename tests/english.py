#!/usr/bin/env python3
"""Counts phrases that read as if translated word by word, and says what a native writes in their place.

usage: tests/english.py [--list] [PROGRAM]

PROGRAM is not run. The pages for users and the comments of sources, definitions and proofs have none of them, the other pages no more than they
had when this was written. --list prints each line that has one; a comment of many lines is one, with the number of its first. Code and the names in it
are not counted. It is a reminder, and no judge of style: a page is finished when nobody has to read a sentence twice.
"""

import os
import re
import sys

TOP = os.path.dirname(os.path.dirname(os.path.abspath(__file__)))
USERS = ["README.md", "CHANGELOG.md", "CONTRIBUTING.md", "docs/USING.md", "docs/FORMAT.md", "docs/pbfcut.1", "docs/pbfcutz.1",
         "sample/README.md", "crates/pbfcut_cli/src/help.rt"]
# made of other files
MADE = ["vectors/CASES.md"]
MOST_ELSEWHERE = 1
MOST_IN_COMMENTS = 0

PHRASES = {
    r"[;,] (and )?else\b|\bElse\b": "otherwise",
    r"\b(is|are|was) told\b|\btold (at|where|of|only)\b": "reported",
    r"\b(is|are) looked (at|into)\b|\blooks? into\b": "validated, read",
    r"\bsays? no\b": "rejects",
    r"\bunlike\b": "different",
    r"\balone\b": "only, nothing but",
    r"\b[Ww]here (it (has|had|can|may|isn't)|they (have|can)|there|that|no|none|one|all|both|memory|IN|OUT|an? \w+ (has|is|was)|the \w+ (has|is \w+ed)|their)\b":
        "if, when",
    r"\bends? in\b(?! (the|a) )": "fails with",
    r"\banswers?\b(?! to\b)(?= (its|the|a|by|it|of|whether|exactly|is)\b)|\b(is|are) answered\b": "returns",
    r"\bstands? (in\b(?! for)|on\b|over\b|above\b|below\b|by\b|for itself|beside)|\bstood\b": "is in, depends on, is built on",
    r"\basks? (nothing|for|no)\b": "has no precondition, requires",
    r"\btakes? no memory\b": "does not allocate",
    r"\bAs \[`|\bThe work of \[`": "Like `X`, but ..",
    r"\bstrangers\b": "the input is untrusted",
    r"\bwhoever\b": "the caller, the constructor",
    r"\bof late\b|\blaid\b": "recently, appended",
    r"\bno stated content\b": "unspecified",
    r"\bbeginning of (the|that|this|its|a|bytes|what)\b|\bfronts?\b": "prefix",
    r"\bat fault\b": "invalid",
    r"\bhands? (on|in|over)\b|\bhanded (on|in)\b": "passes, passed in",
    r"\bpass(es)? (it|its|these|them|\S+) on\b": "re-exports",
    r"\b[Rr]eads? past\b|\b[Pp]ass(es|ed) over\b": "skip",
}

# those that pages may have, with another meaning
COMMENT_PHRASES = {
    r"\bstand(s|ing)?\b(?! for\b)": "is, comes",
    r"\bbehind\b": "after",
    r"\bask(s|ed)? (for|of)\b": "requests, requires, looks up",
    r"\b(was|were) met\b|\bmet (other|its|the end|no)\b": "read, reached",
    r"\btells?\b": "says, returns, reports",
    r"\bgone over\b|\blook(s|ed)? at\b": "read",
    r"\bowes?\b|\bsees that\b": "must prove",
    r"\bhanded\b": "passed, by value",
    r"\bno meaning\b": "unspecified",
    r"\bmemory is (taken|asked)\b": "allocates",
    r"\bc[ao]mes? late\b": "out of order",
    r"\b(exactly|only|also|none|or the greatest number) where (?!in the file|the next)": "if",
    r"\banew\b": "again",
    r"\bor else\b|\b[Aa]ll else\b": "otherwise, the rest",
    r"\bhave alike\b": "have in common",
}


def text_of(name: str) -> str:
    """A page without its code: blocks, names in backquotes, and what links lead to; and without the table that is made of comments."""
    with open(os.path.join(TOP, name), encoding="utf-8") as file:
        text = file.read()
    if name.endswith((".rt", ".antt")):
        return text
    text = re.sub(r"^<!-- calls:.*", "", text, flags=re.M | re.S)
    text = re.sub(r"^```.*?^```$", lambda found: "\n" * found[0].count("\n"), text, flags=re.M | re.S)
    return re.sub(r"\]\([^)]*\)", "]", re.sub(r"`[^`\n]*`", "`X`", text))


def pages() -> list:
    found = []
    for folder, folders, names in os.walk(TOP):
        folders[:] = sorted(name for name in folders if name not in (".git", "out"))
        found += [os.path.relpath(os.path.join(folder, name), TOP) for name in sorted(names) if name.endswith(".md")]
    return [name for name in found if name not in MADE + USERS]


def sources() -> list:
    """The files of the crates that have comments: sources, definitions and proofs."""
    found = []
    for folder, folders, names in os.walk(os.path.join(TOP, "crates")):
        folders[:] = sorted(name for name in folders if name != "out")
        found += [os.path.relpath(os.path.join(folder, name), TOP) for name in sorted(names) if name.endswith((".rt", ".antt"))]
    return [name for name in found if name not in USERS]


def comments_of(text: str):
    """The comments of a source, each with the number of its first line: lines that follow one another are one comment. Code in it is left out."""
    lines, first = [], 0
    for number, line in enumerate([*text.splitlines(), ""], 1):
        found = re.match(r"\s*(//[/!]?|--)( (.*))?$", line)
        if found:
            first = first if lines else number
            lines.append(found[3] or "")
        elif lines:
            yield first, re.sub(r"`[^`]*`", "`X`", " ".join(lines))
            lines = []


def found_in(name: str):
    """Each phrase of a page or of a source's comments, with its line and what is better."""
    is_source = name.endswith((".rt", ".antt")) and name not in USERS
    phrases = {**PHRASES, **COMMENT_PHRASES} if is_source else PHRASES
    for number, line in comments_of(text_of(name)) if is_source else enumerate(text_of(name).splitlines(), 1):
        if line.startswith("#"):
            continue
        for phrase, better in phrases.items():
            for match in re.finditer(phrase, line):
                yield f"{name}:{number}: '{match[0]}' ({better}): ..{line[max(0, match.start() - 60):match.end() + 60].strip()}.."


def main():
    users = [line for name in USERS for line in found_in(name)]
    others = [line for name in pages() for line in found_in(name)]
    comments = [line for name in sources() for line in found_in(name)]
    if "--list" in sys.argv:
        print("\n".join(users + others + comments))
    if users:
        sys.exit("\n".join(["tests/english.py: pages for users have such phrases:", *users]))
    if len(others) > MOST_ELSEWHERE:
        sys.exit(f"tests/english.py: {len(others)} such phrases in the other pages, and there were {MOST_ELSEWHERE}: see tests/english.py --list")
    if len(comments) > MOST_IN_COMMENTS:
        sys.exit(f"tests/english.py: {len(comments)} such phrases in comments, and at most {MOST_IN_COMMENTS} may be: see tests/english.py --list")
    print(f"tests/english.py: no such phrase in the pages for users, {len(others)} in the others, {len(comments)} in comments")


if __name__ == "__main__":
    main()
