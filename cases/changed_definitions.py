#!/usr/bin/env python3
"""changed_definitions.py N [SEED]: whether the prover notices a definition that says something else.

Of N rows of specification.txt, which SEED draws, what the row cites of a definition is changed, in a copy of its crate,
by the first rule of definition_changes.py that fits and leaves it well typed. Then the prover checks, until one is not
proved, the functions of the crate whose results rest on it most directly, the crate with its worked examples, and such
functions of the nearest crate above, over the changed crate and what lies between. A change of which all is proved is
named, and the next one is tried. `rt lib` builds the libraries below that are not built. The exit status is 1 if no
change of some row is noticed, or a row could not be asked for want of a library below its crate.
"""

import functools
import itertools
import os
import pathlib
import random
import re
import subprocess
import sys
import tempfile

from definition_changes import changes
from specification import path_of, read_rows

from crate_list import copy_parts, folder_of, libraries_below, read_crates
from meanings import links_of, node
from promises import promise
from sources import all_items
from trying import ALL_PROVED, ENDED, check_words

# How many functions of a crate are asked, and how many changes of a row are tried until one is noticed.
FUNCTIONS, CHANGES = 2, 6
# In what a function is that is checked: nothing, or a type without parameters, which a path names.
IN = re.compile(r"(?:impl (\w+))?")
# What the prover says of a definition that is not well typed.
NOT_TYPED = re.compile(r"^\./(?:specs|src)/\S+: error", re.M)


def below(crate):
    return libraries_below(crate, read_crates())


@functools.cache
def rests(crate):
    """How far from what each function of the crate ensures the definitions are on which it rests."""
    found = {}
    for item in (it for it in all_items(crate, True) if it.kind == "fn" and it.clauses and IN.fullmatch(it.owner)):
        far = dict.fromkeys(links_of(promise(item._replace(premises=()))), 1)
        for key in (left := [*far]):
            new = [it for it in links_of(node(key)) if it not in far]
            far |= dict.fromkeys(new, far[key] + 1)
            left += new
        found["::".join(filter(None, (item.file.removesuffix(".rt"), IN.fullmatch(item.owner)[1], item.name)))] = far
    return found


def changing(crate, changed):
    """The libraries below a crate that change if one of them does."""
    return [it for it in below(crate) if changed in (it, *below(it))]


def asked_of(crate, file, name):
    """What is asked in turn: the nearest functions of the crate, all of it, and those of the nearest above it."""
    key = (crate, "" if file.endswith(".rt") else file, name)

    @functools.cache
    def nearest(it):
        return sorted((far[key], function) for function, far in rests(it).items() if key in far)[:FUNCTIONS]

    def price(it):
        return len(changing(it, crate))

    yield from ((crate, function) for _, function in nearest(crate))
    yield crate, None
    above = sorted((it for it in read_crates() if crate in below(it)), key=price)
    groups = (sorted((nearest(it), it) for it in its if nearest(it)) for _, its in itertools.groupby(above, price))
    yield from ((it, function) for its, it in next(filter(None, groups), [])[:1] for _, function in its)


@functools.cache
def is_built(library):
    return not subprocess.run(["rt", "lib"], cwd=folder_of(library), stdout=sys.stderr).returncode


def lacking(crate, changed=""):
    """The first library below a crate that is not built and does not get so, of those that do not change."""
    return next((it for it in below(crate) if it not in changing(crate, changed) and not is_built(it)), None)


def lay(room, crate):
    """Copies a crate to where it is checked, over what checks of it kept."""
    kept, out = folder_of(crate) / "out" / "incremental", room / crate / "out"
    copy_parts(crate, room / crate)
    for it in (kept, out / "rlib"):
        it.mkdir(parents=True, exist_ok=True)
    (out / "incremental").symlink_to(kept)


def prove(room, crate, function=None):
    """Whether a function is proved, or all of the crate, which then is built; nothing if a definition is not well
    typed, or the prover comes to no end."""
    for it in (it for it in below(crate) if not (room / it).exists()):
        (room / it).symlink_to(folder_of(it))
    words = check_words(crate, room)
    if function:
        words += ["--only", function]
    else:
        words[words.index("check")] = "build"
        words += ["-o", room / crate / "out" / "rlib" / f"{crate}.rlib"]
    how = {"stdin": subprocess.DEVNULL, "stdout": subprocess.PIPE, "stderr": subprocess.STDOUT}
    told = subprocess.run(words, cwd=room / crate, text=True, errors="replace", **how).stdout
    last = next((it for it in reversed(told.splitlines()) if ENDED.match(it) or ALL_PROVED.match(it)), None)
    return bool(ALL_PROVED.match(last)) if last and not NOT_TYPED.search(told) else None


def answers(room, crate, asked):
    """What `prove` says of what is asked, and before that of the crates between."""
    for above, function in (it for it in asked if not lacking(it[0], crate)):
        for it in (it for it in [*changing(above, crate), above] if not (room / it).exists()):
            lay(room, it)
        for it in (it for it in changing(above, crate) if not (room / it / f"out/rlib/{it}.rlib").exists()):
            yield it, prove(room, it)
        yield "::".join(filter(None, (above, function))), prove(room, above, function)


def try_row(crate, file, name, *words):
    """Whether a change of what a row cites was noticed, and what is said of it."""
    if library := lacking(crate):
        return None, f"NOT ASKED for want of the library {library}"
    missed = []
    for said, line, text in itertools.islice(changes(crate, file, name, *words), CHANGES):
        with tempfile.TemporaryDirectory(prefix="changed-definition-") as folder:
            room = pathlib.Path(folder)
            lay(room, crate)
            (room / path_of(crate, file)).write_text(text)
            found = []
            for by, is_proved in answers(room, crate, asked_of(crate, file, name)):
                found.append((by, is_proved))
                if not is_proved:
                    break
        if found[-1][1] is False:
            return True, "; ".join([f"noticed by {found[-1][0]}: {said}: {line}", *missed])
        if found[-1][1]:
            missed.append(f"NOT NOTICED by {', '.join(by for by, _ in found)}: {said}: {line}")
    return False, "; ".join(missed) or "NO CHANGE that is well typed"


def main(count, seed="0"):
    rows, missed = [it for it in read_rows([])[2] if it.by], 0
    for row in random.Random(seed).sample(rows, min(int(count), len(rows))):
        before = os.times()
        is_noticed, told = try_row(*row.by[0])
        missed += not is_noticed
        seconds = sum(os.times()[2:4]) - sum(before[2:4])
        print(f"{row.at}: {' '.join(row.by[0])}: {told} ({seconds:.0f} s)", flush=True)
    sys.exit(1 if missed else 0)


if __name__ == "__main__":
    main(*sys.argv[1:])
