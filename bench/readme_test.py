#!/usr/bin/env python3
"""readme_test.py: runs the commands that README.md, cases/README.md and docs/RECIPES.md show with their output.

A command is a line `$ ..` of an indented block, and the next line too if it ends in a backslash or within single quotes; what it writes, on standard
output and standard error, are the lines after it. `dbus-wire` is the program that was built by `make build`. Without it README's commands are run by
`rt try`, which builds the program without proofs for each run: some minutes in all. A command with `jq` is passed over if there is none. The exit status is 1 if a command writes something else, or if code of
docs/GUIDE.md that is said to be from an example is not there.
"""

import difflib
import os
import pathlib
import re
import shutil
import subprocess
import sys
import tempfile

from crate_list import ROOT, folder_of

README, CASES = ROOT / "README.md", ROOT / "cases" / "README.md"
RECIPES, GUIDE = ROOT / "docs" / "RECIPES.md", ROOT / "docs" / "GUIDE.md"
BUILT, TRIED = folder_of("dbus_wire") / "out" / "dbus_wire", ROOT / "bench" / "try_dbus_wire.sh"


def shown(text):
    """Each command of the page, with the lines that it writes there."""
    for block in re.findall(r"(?:^ {4}.*\n)+", text, re.M):
        # A command goes on after a backslash.
        lines = [line[4:] for line in re.sub(r"\\\n +", "", block).splitlines()]
        starts = [at for at, line in enumerate(lines) if line.startswith("$ ")]
        for start, end in zip(starts, [*starts[1:], len(lines)]):
            last = next(at for at in range(start, end) if "\n".join(lines[start : at + 1]).count("'") % 2 == 0)
            yield "\n".join(lines[start : last + 1]).removeprefix("$ "), lines[last + 1 : end]


def bare(code):
    """Code without its layout."""
    return re.sub(r",(?=[)}\]])", "", re.sub(r"\s+", "", code))


def misquoted(text):
    """The files of examples from which the page says that the block after their name is, if it is not."""
    for file, block in re.findall(r"^\w+, `((?:examples|rust)/[\w/.]+)`:\n\n((?: {4}.*\n|\n(?= {4}))+)", text, re.M):
        if bare(block) not in bare((ROOT / file).read_text()):
            yield file


def is_as_shown(command, wanted, folder):
    if re.search(r"\bjq\b", command) and not shutil.which("jq"):
        print(f"no jq: {command}")
        return True
    how = {"stdin": subprocess.DEVNULL, "stdout": subprocess.PIPE, "stderr": subprocess.STDOUT, "errors": "replace"}
    how |= {"cwd": ROOT, "env": os.environ | {"PATH": f"{folder}:{os.environ['PATH']}"}}
    got = subprocess.run(["bash", "-c", command], **how).stdout.splitlines()
    print(f"{'as shown' if got == wanted else 'OTHERWISE'}: {command}", flush=True)
    for line in difflib.unified_diff(wanted, got, "shown", "written", lineterm=""):
        print(line)
    return got == wanted


def main():
    text = "".join(page.read_text() for page in ((README, CASES, RECIPES) if BUILT.exists() else (README, CASES)))
    misquotes = list(misquoted(GUIDE.read_text()))
    print(*(f"the code from {file} is not there\n" for file in misquotes), sep="", end="")
    with tempfile.TemporaryDirectory() as folder:
        (pathlib.Path(folder) / "dbus-wire").symlink_to(BUILT if BUILT.exists() else TRIED)
        right = [is_as_shown(command, wanted, folder) for command, wanted in shown(text)]
    return 0 if all(right) and not misquotes else 1


if __name__ == "__main__":
    sys.exit(main())
