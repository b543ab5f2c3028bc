#!/usr/bin/env python3
"""definitions.py [--check]: writes into docs/DEFINITIONS.md the list of the definitions that the headline rests on, and how many lines these have.

They are the files of specs/ that `use` lines reach from START, in an order in which each file stands after those that it
uses. Each begins with MARK, and no other file does; what a file defines is the rest of its first comment.
"""

import re

from crate_list import ROOT, text_of
from pages import item, write_or_check

PAGE = ROOT / "docs" / "DEFINITIONS.md"
START = "dbus_stream/specs/Headline.antt"
MARK = "-- Trusted by the headline.\n"
USE = re.compile(r"^\s*(?:pub )?use Rattle\.(\w+)\.specs\.(\w+)", re.M)
NO_LINE = re.compile(r"\s*(--.*|(pub )?use .*)?$")
LIST = re.compile(r"(?:\* `\w+/specs/\w+[.]antt`: .*\n(?:  .*\n)*)+")
COUNT = re.compile(r"these \d+ files, about [\d,]+ lines")


def reach(file, found):
    """Adds to `found` the files that this one uses, each after those that it uses, and then the file. Types of the code are no such files."""
    for crate, module in USE.findall(text_of(file)):
        used = f"{crate}/specs/{module}.antt"
        if used not in found and (ROOT / "crates" / used).exists():
            reach(used, found)
    found[file] = None


def row(file):
    """What the first sentence of the file says."""
    comment = re.match(r"(?:--.*\n)+", text_of(file).removeprefix(MARK))[0]
    said = re.sub(r"\n?-- ?", " ", comment).strip()
    return item(f"`{file}`: {re.match(r'.*?(?=[.]( |$)|$)', said)[0]}") + "\n"


if __name__ == "__main__":
    found = {}
    reach(START, found)
    # Imports, comments and blank lines are none.
    lines = sum(not NO_LINE.match(line) for it in found for line in text_of(it).splitlines())
    page = LIST.sub("".join(row(file) for file in found), PAGE.read_text())
    page = COUNT.sub(f"these {len(found)} files, about {round(lines, -1)} lines", page)
    named = {it: it.relative_to(ROOT / "crates").as_posix() for it in (ROOT / "crates").glob("*/specs/*.antt")}
    bare = {path: text_of(name).removeprefix(MARK) for path, name in named.items()}
    marked = {it: (MARK if named[it] in found else "") + text for it, text in bare.items()}
    write_or_check({PAGE: page} | marked, "docs/DEFINITIONS.md or a file's mark is not current: make definitions writes both")
