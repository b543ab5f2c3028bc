"""Tries wrong bodies in rounds. A round is one check of a copy of a crate with at most one wrong body of each function. A function is proved by its
own body and the contracts of what it calls, so a wrong body leaves goals open in its own function alone, and the check names all of them. It is
refused if the goals that its lines `left:` and `also:` name are among them. One of which a round does not show that is tried once more, alone. Twins, which are right
bodies, are in rounds of their own, which have to leave no goal open."""

import concurrent.futures as futures
import functools
import hashlib
import itertools
import pathlib
import re
import subprocess
import tempfile

from crate_list import copy_parts, folder_of, lanes, libraries_below, read_crates, read_lines
from edits import all_edits, edited, edits_in, file_of, function_at, functions_changed, goals_of, is_twin, text_of, twin_of
from history import git
from interfaces import state

# How the name of a folder begins in which a round is checked. bench/gate_times.py knows rounds by it.
ROOM = "wrong-bodies-"
# A goal that is left open, by its place in a source file; and an answer or a lemma that no longer holds.
OPEN = re.compile(r"note: src/(\w+)\.rt:(\d+):\d+: .*?\(`([^`]*)`")
ANSWER = re.compile(r"\./proofs/(\S*?)(?:/Answers|/Invariants|/Proof)?\.antt:\d+:\d+: error: `([^`]*)`(.*)")
# What is said of an answer that names what is gone, or what rests on an answer that no longer holds.
NAMES = re.compile(r"has no field|is not in scope|has no `|was not admitted")
# The last line of a check that came to its end and did not prove all.
ENDED = re.compile(r"logic=not-proved|only=\d+ proved=\d+")
# That of one that did.
ALL_PROVED = re.compile(r"logic=proved|only=(\d+) proved=\1\b")
# What `rt ci` says of a crate that is proved.
PROVED = re.compile(r"rt: (\w+) (?:proved|is kept)\b")
# How much is told of what a check says.
MOST_TOLD = 400
# How many each run of the gate draws.
DRAWN = 20


@functools.cache
def logic():
    return subprocess.run(["rt", "version"], capture_output=True, text=True, check=True).stdout.split()[-1]


def state_of(crate):
    """The file's first line: the crate, what it sees of the libraries below, the kit's logic, the number of blocks."""
    return " ".join(["TRIED:", *state(crate), logic(), str(len(edits_in(crate)))])


def due_edits():
    """Those of crates whose first line is not current, those that are always tried, and those that the tree draws."""
    due = {it for it in read_crates() if edits_in(it) and file_of(it).read_text().partition("\n")[0] != state_of(it)}
    # What names the tree of the commit, or else the contents of the crates.
    edits, drawn_by = all_edits(), git("rev-parse", "HEAD^{tree}") or repr([state(it) for it in read_crates()])
    drawn = sorted(edits, key=lambda it: hashlib.sha256((drawn_by + it.name).encode()).digest())[:DRAWN]
    return [it for it in edits if it.crate in due or it.always or it in drawn]


def check_words(crate, crates):
    """A check of the crate as rt calls it, over the libraries that were built in the folder `crates`, and over what checks there kept."""
    kit = pathlib.Path(subprocess.run(["rt", "doc"], capture_output=True, text=True, check=True).stdout.strip()).parent
    built = {it: crates / it / "out" / "rlib" / f"{it}.rlib" for it in libraries_below(crate, read_crates())}
    root = next(it for it in ("main", "lib") if (folder_of(crate) / "src" / f"{it}.rt").exists())
    kind, _, uses = read_lines()[crate].partition(":")
    words = ["nice", kit / "bin/rattle", "check", f"src/{root}.rt", "--crate-name", crate, "-L", f"dependency={kit}/rlibs"]
    for name in ("std", *uses.split()):
        words += ["--extern", f"{name}={built.get(name, kit / 'rlibs' / f'{name}.rlib')}"]
    for rlib in built.values():
        words += ["-L", f"dependency={rlib.parent}"]
    if "staticlib" in kind:
        words += ["--crate-type", "staticlib"]
    words += ["--antt-project", kit / "rattle/logic/antt-project.json", "--logic-built", kit / "logic_built"]
    return [*words, "--incremental", crates / crate / "out" / "incremental"]


def function_of(edit):
    """The function that the edit leaves open, or the cycle of calls that is proved with it."""
    return edit.left.split()[0]


def paths_of(edits):
    """What a round checks, with what that calls: the functions that its edits leave open, or the modules of methods; nothing for the whole crate."""
    paths = set()
    for edit in edits:
        file, _, function = function_of(edit).partition("::")
        text = text_of(edit, f"src/{file}.rt")
        if file in ("lib", "main") or not text:
            return []
        is_free = re.search(rf"^(\S.*)?\bfn {re.escape(function)}\b", text, re.M)
        paths.add(f"{file}::{function}" if is_free else file)
    return paths


def goals_in(room, lines):
    """The goals that a check says it leaves open, as a line `left:` has them."""
    for line in lines:
        if found := OPEN.match(line):
            file, number, goal = found.groups()
            yield f"{file}::{function_at((room / 'src' / f'{file}.rt').read_text(), int(number))} {goal}"
        elif (found := ANSWER.match(line)) and not NAMES.search(found[3]):
            file, *inside = found[1].split("/")
            yield f"{'::'.join([file, *inside[-1:]])} {found[2]}"


def texts_with(edits):
    """The texts of the files that the edits change, in turn."""
    texts = {}
    for edit in edits:
        texts |= edited(edit, texts)
    return texts


def check(edits, crates):
    """Checks a copy of the crate with these edits. Returns the goals that it leaves open, and what it says."""
    words = check_words(edits[0].crate, crates)
    for path in paths_of(edits):
        words += ["--only", path]
    with tempfile.TemporaryDirectory(prefix=ROOM) as name:
        room = pathlib.Path(name)
        copy_parts(edits[0].crate, room)
        for file, text in texts_with(edits).items():
            (room / file).write_text(text)
        how = {"cwd": room, "stdin": subprocess.DEVNULL, "stdout": subprocess.PIPE, "stderr": subprocess.STDOUT}
        lines = subprocess.run(words, text=True, errors="replace", **how).stdout.splitlines()
        return set(goals_in(room, lines)) if lines and ENDED.match(lines[-1]) else set(), lines


def functions_of(edit):
    """The names of the functions that the edit leaves open and changes, nothing for what it changes outside of functions."""
    return {function_of(edit).split("::")[-1], *functions_changed(edit)}


def fits(edit, others):
    """Whether a check can tell the edit from these: each changes only the body of the function that it leaves open, so that
    it touches no other function's goals."""
    touched = ((function_of(it), functions_of(it)) for it in [edit, *others])
    is_apart = all(len(names) == 1 or "+" in left and "" not in names for left, names in touched)
    is_another = is_apart and function_of(edit) not in map(function_of, others)
    return is_another and None not in texts_with([*others, edit]).values()


def rounds_of(edits):
    """The edits in rounds, in each of which a check can tell them from each other."""
    rounds = []
    for edit in edits:
        if one := next((it for it in rounds if fits(edit, it)), None):
            one.append(edit)
        else:
            rounds.append([edit])
    return rounds


def missed_in(edits, crates):
    """Those of the edits of a round that are not refused where they should be, or not proved if they are twins, each with
    what is left open or else with what the check says."""
    goals, lines = check(edits, crates)
    elsewhere = {re.split("::| ", it)[-2] for it in goals} - {name for it in edits for name in functions_of(it)}
    told = sorted(goals) or [it for it in lines if "error" in it] or lines[-1:]
    if is_twin(edits[0]):
        missed = [] if lines and ALL_PROVED.match(lines[-1]) else edits
    else:
        missed = [it for it in edits if not goals_of(it) <= goals or elsewhere and len(edits) > 1]
    return [(it, "; ".join(told)[:MOST_TOLD]) for it in missed]


def try_crate(edits, crates):
    """Tries edits of one crate. Returns those that are not refused where they should be, or whose twins are not proved."""
    crate, faults, twins = edits[0].crate, {}, [twin_of(it) for it in edits if it.twin]
    rounds = rounds_of(edits) + rounds_of(twins)
    # They become more meanwhile.
    for tried in rounds:
        missed = missed_in(tried, crates)
        if len(tried) > 1:
            rounds += [[it] for it, _ in missed]
        else:
            for it, told in missed:
                how = "its twin is not proved" if is_twin(it) else "not refused where it should be"
                faults[it.name] = f"{it.name}: {how}; left open: {told}"
    print(*faults.values(), f"{crate}: {len(edits) - len(faults)} of {len(edits)} wrong bodies refused where they should be", sep="\n", flush=True)
    if not faults and len(edits) == len(edits_in(crate)):
        text = re.sub("^TRIED:.*", "", file_of(crate).read_text()).lstrip()
        file_of(crate).write_text(f"{state_of(crate)}\n\n{text}")
    return faults


def of_crates(edits):
    """The edits of each crate, which stand together."""
    return {crate: [*its] for crate, its in itertools.groupby(edits, lambda it: it.crate)}


def try_edits(edits, crates):
    """Tries edits over the libraries that were built in the folder `crates`, those of several crates side by side, notes on what all of a crate were
    refused, and returns the number of those that were not refused where they should be."""
    with futures.ThreadPoolExecutor(lanes()) as pool:
        return sum(map(len, pool.map(lambda it: try_crate(it, crates), sorted(of_crates(edits).values(), key=len, reverse=True))))


class Rounds:
    """Edits that are tried while crates are proved in the folder `crates`: those of a crate as soon as it and the libraries below it are. Until all are
    proved they take half of the processors, and of these what the proofs leave."""

    def __init__(self, edits, crates):
        self.crates, self.uses = crates, read_crates()
        self.waiting, self.tried, self.proved = of_crates(edits), [], set()
        self.pool = futures.ThreadPoolExecutor(max(1, lanes() // 2))

    def note(self, line):
        """Notes what `rt ci` says."""
        if found := PROVED.match(line):
            self.proved.add(found[1])
            ready = [it for it in self.waiting if self.proved.issuperset([it, *libraries_below(it, self.uses)])]
            for edits in map(self.waiting.pop, ready):
                self.tried.append((edits, self.pool.submit(try_crate, edits, self.crates)))

    def missed(self):
        """The number of those that were not refused where they should be, once all crates were proved. Those of a crate that was not say nothing."""
        left = [edits for edits, run in self.tried if run.cancel()]
        missed = try_edits([it for edits in left for it in edits], self.crates)
        missed += sum(len(run.result()) for _, run in self.tried if not run.cancelled())
        return missed + sum(map(len, self.waiting.values()))
