#!/usr/bin/env python3
"""refused_memory.py PROGRAM SAMPLE: runs dbus-wire failing each of its allocations in turn.

Each command line of bench/refused_memory.txt is run once with nothing refused, and then once for each allocation. If an allocation fails, the program
must end with status 3 and the line `out of memory`, and what it writes before that must be a front of what it is otherwise. The exit status is 1
if a run ended in another way, or if more runs than that file says ended as if nothing had been refused.

Those that do are of allocations that the kit's libraries do without: one in each run, room that is asked for ahead when the words of
the command line are collected; room for sorting a table; and if an option is wrong, those of the search for a similar one, after which none is
proposed.
"""

import itertools
import os
import shlex
import subprocess
import sys
import tempfile

from crate_list import ROOT

LAST = b"out of memory\n"


def run(program, words, sample, **environment):
    """The status of a run, what it wrote, and what it told."""
    with open(sample, "rb") as held:
        how = {"stdin": held, "capture_output": True, "env": os.environ | environment, "timeout": 60}
        done = subprocess.run([program, *words], **how)
    return done.returncode, done.stdout, done.stderr


def try_words(program, words, sample, library, folder):
    """How many allocations a run makes, the failures of which passed unseen, and at which it went wrong."""
    mark = os.path.join(folder, "refused")
    plain = run(program, words, sample)
    unseen, wrong = [], []
    for number in itertools.count(1):
        done = status, out, told = run(program, words, sample, LD_PRELOAD=library, REFUSE_NTH=str(number), REFUSED=mark)
        if not os.path.exists(mark):
            if done != plain:
                wrong.append(number)
            return number - 1, unseen, wrong
        os.remove(mark)
        if done == plain:
            unseen.append(number)
        elif status != 3 or not told.endswith(LAST) or not plain[1].startswith(out) or not plain[2].startswith(told[: -len(LAST)]):
            wrong.append(number)


def main():
    program, sample = (os.path.abspath(name) for name in sys.argv[1:3])
    failed = False
    with tempfile.TemporaryDirectory() as folder:
        library = os.path.join(folder, "refuse_nth.so")
        compiler = [os.environ.get("CC", "cc"), "-O2", "-shared", "-fPIC", "-o", library]
        subprocess.run([*compiler, ROOT / "bench" / "refuse_nth.c"], check=True)
        # The number of failures that pass unseen, and the words of each command line.
        lines = (ROOT / "bench" / "refused_memory.txt").read_text().splitlines()
        for most, *words in filter(None, (shlex.split(it, comments=True) for it in lines)):
            growths, unseen, wrong = try_words(program, words, sample, library, folder)
            failed = failed or bool(wrong) or len(unseen) > int(most)
            named = " ".join(["dbus-wire", *words])
            print(f"{named}: {growths} growths refused in turn; unseen: {unseen}, of {most}; wrong: {wrong}", flush=True)
    return 1 if failed else 0


if __name__ == "__main__":
    sys.exit(main())
