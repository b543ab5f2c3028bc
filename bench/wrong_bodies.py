#!/usr/bin/env python3
"""wrong_bodies.py [--due | --all] [NAME..]: prints or tries the wrong bodies that the prover has to refuse (bench/edits.py, bench/trying.py).

Without an option it prints them, crate by crate, with what refuses each. With --due it tries those that the gate would
try (docs/CHANGING.md), with --all all of them; with names, only of these crates. The first line of a crate's file then
says on what all of them were refused.

The exit status is 1 if a block has a fault (bench/edits.py), or if one that was tried was not refused at the goal that it names.
"""

import subprocess
import sys
import textwrap

from crate_list import ROOT, folder_of, libraries_below, read_crates
from edits import all_edits, find_faults
from trying import due_edits, try_edits


def main(*words):
    how, names = words[0] if words[:1] in (("--due",), ("--all",)) else "", [it for it in words if it[:2] != "--"]
    edits = [it for it in (due_edits() if how == "--due" else all_edits()) if not names or it.crate in names]
    faults = find_faults(edits)
    print(*(f"{it}\n" for it in faults), sep="", end="", file=sys.stderr)
    if how:
        uses = read_crates()
        below = {it for edit in edits for it in libraries_below(edit.crate, uses)}
        # The libraries below them are built, as far as they are not.
        is_built = all(not subprocess.run(["rt", "lib"], cwd=folder_of(it)).returncode for it in uses if it in below)
        return 0 if not faults and is_built and not try_edits(edits, ROOT / "crates") else 1
    for edit in edits:
        print(f"{edit.name}\n{textwrap.indent(edit.text.partition(chr(10))[2], '    ')}\n")
    print(f"{len(edits)} wrong bodies")
    return 1 if faults else 0


if __name__ == "__main__":
    sys.exit(main(*sys.argv[1:]))
