#!/usr/bin/env python3
"""quick_test.py [--all] [NAME..]: runs the tests and the programs with stored output, or the crates named, without proofs.

A crate with tests is run by `rt try --test`. A program beside whose src/ is a file stdout is run by `rt try` with its files args and stdin,
and has to write what stdout has and to end well. A program that answers questions is asked on some of the cases (cases/run.py), which the commit's hash draws, since unproved programs run some 300 times slower; with
--all on all of them, which takes an hour. What is stored in a program's runs/ is run too. As many runs go side by side as there are
processors. The exit status is 1 if one failed, or did not end within the time limit: the last line names those, and says how many questions were asked.
"""

import collections
import concurrent.futures as futures
import difflib
import random
import re
import subprocess
import sys
import tempfile
import time
from pathlib import Path

from crate_list import ROOT, asked_programs, folder_of, lanes, read_crates
from history import git

sys.dont_write_bytecode = True
sys.path.insert(0, str(ROOT / "cases"))

from run import asked_of, differences, lines_of  # noqa: E402

# As long as the gate gives a proved program.
SECONDS = "120"
LINES_SHOWN = 20
NO_ANSWER = 6
TOO_LONG = f"no end within {SECONDS} s with checks: make test runs it proved"
# `rt try` hands over at most 1 MiB of what a run writes, and a share has to end within the time limit, on a busy machine too.
MOST_ANSWERED = 50_000
# How many shares a program is asked that is not asked all.
SHARES_DRAWN = 6
# The cases that take an unproved program too long.
PROVED_ALONE = {"hostile.txt"}


def stored(folder, name):
    file = folder / name
    return file.read_bytes() if file.exists() else b""


def tried(folder, *words, given=b""):
    """The status of `rt try` with these words, what it writes, and what it tells."""
    ran = subprocess.run(["rt", "try", "--seconds", SECONDS, *words], cwd=folder, input=given, capture_output=True)
    return ran.returncode, ran.stdout.decode(errors="replace"), ran.stderr.decode(errors="replace")


def try_tests(folder):
    """Whether the tests passed, and what is to be said."""
    status, written, told = tried(folder, "--test")
    passed = re.search(r"test result: ok\. (\d+) passed", written)
    if status == 0 and passed:
        return "passed", f"{passed[1]} tests"
    bad = [line for line in written.splitlines() if not line.endswith("... ok")]
    return "failed", "\n".join([*bad, told])


def try_whole(folder):
    """Whether the program did what it should, and what is to be said."""
    status, written, told = tried(folder, "--", *stored(folder, "args").splitlines(), given=stored(folder, "stdin"))
    if status == NO_ANSWER and "within the time limit" in told:
        return "too long", TOO_LONG
    if status:
        return "failed", f"{written}{told}status {status}, wanted 0"
    stdout = stored(folder, "stdout").decode(errors="replace")
    if written == stdout:
        return "passed", f"{len(stdout.splitlines())} lines written"
    texts = (stdout.splitlines(), written.splitlines())
    return "failed", "\n".join([*difflib.unified_diff(*texts, "wanted", "written", lineterm="")][:LINES_SHOWN])


def shares_of(asked):
    """The cases in shares, with answers of some 50,000 characters each. What is not known beforehand is as long as the question."""
    shares, size = [[]], 0
    for it in asked:
        size += sum(len(question.wanted if isinstance(question.wanted, str) else question.words) + 1 for question in it.questions)
        if size > MOST_ANSWERED and shares[-1]:
            shares.append([])
            size = 0
        shares[-1].append(it)
    return shares


def try_questions(folder, is_whole):
    """Whether the program gave right answers on the cases, or on some of them, and what is to be said. Each share of them is an input of its own."""
    asked = [it for it in asked_of(folder.name) if it.file not in PROVED_ALONE]
    random.Random(git("rev-parse", "HEAD").strip()).shuffle(asked)
    every = shares_of(asked)
    shares = every if is_whole else every[:SHARES_DRAWN]
    with tempfile.TemporaryDirectory() as room:
        for n, share in enumerate(shares):
            Path(room, f"{n:03}").write_text(lines_of(share))
        status, written, told = tried(folder, "--cases", room)
    if status == NO_ANSWER:
        return "too long", TOO_LONG
    outputs = re.split(r"^== \d+\n", written, flags=re.MULTILINE)[1:]
    if len(outputs) != len(shares):
        return "failed", f"{written[-1000:]}{told}"
    differ = [line for share, output in zip(shares, outputs) for line in differences(share, output.split("\n")[:-1])]
    if differ:
        return "failed", "\n".join(differ[:LINES_SHOWN])
    counts = (sum(len(it.questions) for share in its for it in share) for its in (shares, every))
    return "passed", "{} of {} questions".format(*counts)


def run(name, is_whole):
    folder, began = folder_of(name), time.monotonic()
    if name in asked_programs():
        how, said = try_questions(folder, is_whole)
    else:
        how, said = (try_whole if (folder / "src" / "main.rt").exists() else try_tests)(folder)
    if how == "passed" and (folder / "runs").exists():
        status, *told = tried(folder, "--cases", "runs")
        how, said = ("failed", "".join(told)) if status else ("passed", "its stored runs too")
    print(f"{name} {how} in {time.monotonic() - began:.0f} s: {said}", flush=True)
    return how, said if name in asked_programs() else ""


def main(*words):
    is_whole = words[:1] == ("--all",)
    names = words[is_whole:]
    if unknown := [it for it in names if it not in read_crates()]:
        print(f"crates.txt has no {', '.join(unknown)}", file=sys.stderr)
        return 2
    texts = {it: [file.read_text() for file in folder_of(it).glob("src/**/*.rt")] for it in read_crates()}
    tested = {name for name, its in texts.items() if any("#[test]" in it for it in its)}
    names = names or [it for it in read_crates() if (folder_of(it) / "stdout").exists() or it in tested]
    with futures.ThreadPoolExecutor(lanes()) as pool:
        outcomes = [*zip(names, pool.map(run, names, [is_whole] * len(names)))]
    counts = collections.Counter(how for _, (how, _) in outcomes)
    not_run = [name for name, (how, _) in outcomes if how == "too long"]
    asked = [f"{name} {said}" for name, (how, said) in outcomes if how == "passed" and said]
    print(
        f"nothing proved; {counts['passed']} passed, {counts['failed']} failed, {len(not_run)} too long"
        + (f" and so not run to the end: {', '.join(not_run)}" if not_run else "")
        + (f"; asked: {', '.join(asked)}" if asked else "")
    )
    return 1 if counts["failed"] or not_run else 0


if __name__ == "__main__":
    sys.exit(main(*sys.argv[1:]))
