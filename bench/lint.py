#!/usr/bin/env python3
"""lint.py: what pyflakes, shellcheck and eslint, as Debian has them, find in the scripts. The exit status is 1 if one
found something. One that is not installed is named and fails nothing.

Notes of shellcheck are left out, since scripts split words on purpose. web/.eslintrc.json says what eslint looks for.
"""

import subprocess
import sys

from crate_list import ROOT

FOLDERS = ("bench", "cases", "completions", "examples", "packaging", "python", "samples", "web")
# Each tool, by the package that has it, and what it reads.
TOOLS = {
    "python3-pyflakes": ("pyflakes3", ".py"),
    "shellcheck": ("shellcheck --severity=warning --external-sources --source-path=SCRIPTDIR --format=gcc", ".sh"),
    "eslint": ("eslint --format=unix", ".js"),
}
# Where a Node that is not Debian's finds the modules of Debian's eslint.
MODULES = "NODE_PATH=/usr/share/nodejs"


def scripts(*endings):
    """The scripts whose names end so."""
    return sorted(it for folder in FOLDERS for it in (ROOT / folder).rglob("*") if it.suffix in endings)


def run(*words):
    """The status of a command, and what it writes. One that is not there has a status too."""
    how = {"cwd": ROOT, "stdin": subprocess.DEVNULL, "stdout": subprocess.PIPE, "stderr": subprocess.STDOUT}
    ran = subprocess.run(["env", MODULES, *words], text=True, **how)
    return ran.returncode, ran.stdout


def lint():
    """Prints what the tools find, and returns of each that is there whether it found nothing."""
    found = []
    for package, (words, ending) in TOOLS.items():
        tool = words.split()[0]
        if run(tool, "--version")[0]:
            print(f"{tool} is not installed: Debian has it in {package}")
            continue
        status, said = run(*words.split(), *scripts(ending))
        print(f"{said}{tool}: {'found something' if status else 'found nothing'}", flush=True)
        found.append(status == 0)
    return found


if __name__ == "__main__":
    sys.exit(not all(lint()))
