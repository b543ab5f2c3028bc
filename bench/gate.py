#!/usr/bin/env python3
"""gate.py [--all]: the gate. Runs `rt ci` over a copy of the repository. Over what that builds it meanwhile tries the
wrong bodies of the crates that are due, those that are always tried and those that the tree draws; with --all, all of
them (bench/trying.py). Before that it checks the blocks of these, and the pages that scripts write. Then it asks the
programs that answer questions on the cases, makes the runs that are stored in runs/ of programs, and has dbus-wire read
captures, list messages, refuse lines and pass over damaged messages, as each of two compilers built these
(cases/README.md). Last it reads the scripts (bench/lint.py) and weighs the product (bench/weight.py).

Before all that it looks at what is promised (bench/promises.py). The last line says how many of all these passed, and how
many failed; the exit status is 1 if one did.
"""

import pathlib
import re
import shutil
import subprocess
import sys
import tempfile

import weight
from crate_list import ROOT, asked_programs, folder_of, read_crates
from edits import all_edits, find_faults
from guards import unguarded
from lint import lint
from promises import promise_faults, promises
from trying import Rounds, due_edits

NOT_COPIED = shutil.ignore_patterns(".git", "out", "target", "__pycache__")
# What compares dbus-wire with the cases: of captures, listed messages, refused lines and damaged messages.
READERS = ("captures", "lines", "refused_lines", "damaged")
# What says whether the pages that scripts write are current, and the pages of options; and whether each call has a
# comment and a contract.
PAGES = "graph.py definitions.py worked_examples.py reasons.py api.py options.py ../cases/specification.py".split()
COUNT = re.compile(r"(\d+) passed, (\d+) failed")


def run_in(copy, *words, note=lambda line: None):
    """Runs a command there, prints and notes what it says as it comes, and returns its status and what it counts last."""
    # What the prover writes to the other stream comes between, as when it is run by itself.
    how = {"cwd": copy, "stdin": subprocess.DEVNULL, "stdout": subprocess.PIPE, "stderr": subprocess.STDOUT}
    counted = None
    with subprocess.Popen(words, text=True, errors="replace", **how) as ran:
        for line in ran.stdout:
            note(line)
            counted = COUNT.fullmatch(line.rstrip("\n"))
            if not counted:
                print(line, end="", flush=True)
    return ran.returncode, [int(it) for it in counted.groups()] if counted else [0, 1]


def built(copy, name):
    """The program as each compiler built it, by the names that `rt ci` gives them."""
    return [copy / "crates" / name / "out" / it for it in (name, f"{name}.by-rattle")]


def finds_right(copy, *words):
    """Whether a script of the cases finds the program right that is its last word."""
    program = words[-1]
    is_well = program.exists() and run_in(copy, *words)[0] == 0
    print(f"{program.name}: {words[0]} finds it {'right' if is_well else 'wrong, or not there'}", flush=True)
    return is_well


def make(program, run):
    """Whether a program ends well on a stored run, and writes what it has to. Of the run NAME is the input, and NAME.args
    has the arguments, a word a line."""
    words = [program, *run.with_suffix(".args").read_text().splitlines()]
    with run.open("rb") as given:
        how = {"stdin": given, "stdout": subprocess.PIPE, "stderr": subprocess.DEVNULL}
        ran = subprocess.run(words, **how) if program.exists() else None
    is_well = ran and ran.returncode == 0 and ran.stdout == run.with_suffix(".stdout").read_bytes()
    print(f"{program.name} {run.name}: {'right' if is_well else 'wrong, or is not there'}", flush=True)
    return bool(is_well)


def main(*words):
    if words not in ((), ("--all",)):
        print(__doc__, file=sys.stderr)
        return 2
    old = [f"bench/{it} --check fails" for it in PAGES if subprocess.run([ROOT / "bench" / it, "--check"]).returncode]
    if broken := find_faults(all_edits()) + old + promise_faults():
        print(*broken, f"0 passed, {len(broken)} failed", sep="\n")
        return 1
    edits = all_edits() if words else due_edits()
    with tempfile.TemporaryDirectory(prefix="dbus-wire-") as room:
        copy = shutil.copytree(ROOT, pathlib.Path(room) / "repository", ignore=NOT_COPIED)
        rounds = Rounds(edits, copy / "crates")
        status, (passed, failed) = run_in(copy, "rt", "ci", note=rounds.note)
        asked = [("cases/run.py", "--ask", name, "--", program) for name in asked_programs() for program in built(copy, name)]
        read = [(f"cases/{it}.py", program) for it in READERS for program in built(copy, "dbus_wire")]
        answered = [finds_right(copy, *it) for it in asked + read]
        # The runs that are stored in runs/ beside a program's src/, as `rt try --cases` has them.
        runs = [(name, it) for name in read_crates() for it in sorted(folder_of(name).glob("runs/*.stdout"))]
        answered += [make(program, it.with_suffix("")) for name, it in runs for program in built(copy, name)]
        missed = rounds.missed()
    answered += [*lint(), *weight.check()]
    passed += answered.count(True) + len(edits) - missed
    failed += answered.count(False) + missed
    print(f"{len(promises())} promises, {unguarded()} public clauses not guarded")
    print(f"{passed} passed, {failed} failed")
    return 1 if status or failed else 0


if __name__ == "__main__":
    sys.exit(main(*sys.argv[1:]))
