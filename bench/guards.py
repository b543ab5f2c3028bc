"""Which public clauses are guarded: the goal of a wrong body at their own function is the clause, or the clause follows from a guarded one of a callee.

For the latter a line stands in crates/NAME/wrong.edits, `follows: MODULE::FUNCTION CLAUSE = CRATE::CALLEE CLAUSE`: the function calls the callee, and
its clause is word for word what that of the callee says there. FUNCTION and CALLEE may have the name of a type before them; the CLAUSE of an only one
is `the only one`. `= CRATE::TYPE model` is of a clause that holds of each value of a type, by its model or its ghost fields: no body can break it.
`holds: MODULE::FUNCTION CLAUSE (WHY)` is of another clause that no body can break. Nothing checks that: `make promises`
prints these lines for the reader to judge."""

import functools
import re

from api import calls
from crate_list import ROOT, folder_of, read_crates
from edits import edits_in, text_in, text_of
from sources import all_items, impl_of, owner_of, plain

# The calls of which the gate asks that all clauses are guarded.
LIST = ROOT / "bench" / "guarded.txt"
LINE = re.compile(r"(?:follows: (?=.* = )|holds: (?=.*\)$))(\S+) (.+?)(?: = (\w+)::(\S+) (.+)| \(.+\))")
ONLY = "the only one"


@functools.cache
def functions(crate):
    """All functions of a crate, also those that are private."""
    return [it for it in all_items(crate, also_private=True) if it.kind == "fn"]


def named(crate, path):
    """The functions that a path means, by the name of a file, of a type or trait, or of the file of a type before the last."""
    *before, name = path.split("::")
    files = {it.name: it.file.removesuffix(".rt") for it in all_items(crate) if it.kind == "struct"}
    return [it for it in functions(crate) if it.name == name and set(before) <= {it.file.removesuffix(".rt"), owner_of(it), files.get(owner_of(it))}]


def clauses_of(item):
    """The names of the clauses of a function: those of its trait, if it has none of its own."""
    trait = plain(impl_of(item.owner)[1]) if item.owner and not item.clauses else ""
    of_trait = [it for it in named(item.crate, f"{trait}::{item.name}") if it.owner.startswith("trait ")] if trait else []
    return [name or ONLY for name, _ in [*of_trait, item][0].clauses]


def bodies_of(item):
    """The functions that have the clauses of this one: of a trait's method also those of its impls, in any crate."""
    crates = read_crates() if item.owner.startswith("trait ") else []
    others = [it for crate in crates for it in functions(crate) if it.name == item.name and not it.clauses]
    return [item, *(it for it in others if plain(impl_of(it.owner)[1]) == owner_of(item))]


def left_by(edit):
    """The function whose goals the edit leaves open, and the clauses that they are; nothing if they are steps towards one, or premises of a callee."""
    path, goal = edit.left.split(" ", 1)
    # Of functions that call each other the goal begins with the name of its own.
    names = [it.name for it in functions(edit.crate)] if "+" in path else [path.split("::")[-1]]
    if function := next((it for it in names if goal.startswith(f"{it}-returns")), ""):
        path, goal = f"{path.split('::')[0]}::{function}", goal.removeprefix(f"{function}-")
    if not goal.startswith("returns") or "requires" in goal:
        return None, []
    there = named(edit.crate, path)
    file, old, _ = edit.changes[0]
    line = text_of(edit, file).partition(old)[0].count("\n") + 1
    # Of methods with one name in a file it is the one that the edit changes.
    before = [it for it in there if f"src/{it.file}" == file and it.line <= line]
    clause = re.search(r"-clause-(\w+)", goal)
    # A goal without the name of a clause is of all of them, and the block says which its body breaks.
    broken = [clause[1], *edit.also.split(", ")] if clause else [ONLY, *edit.clause.split(", ")]
    return there[0] if len(there) == 1 else before[-1] if before else None, broken


def lines_in(crate, words=("follows:", "holds:")):
    """The lines of a crate that say what a clause follows from, or that it holds."""
    return [it for it in text_in(crate).splitlines() if it.startswith(words)]


@functools.cache
def guarded_in(crate):
    """Each clause that is guarded, as the file and the line of its function, and its name."""
    found = {(item.file, item.line, clause) for item, clauses in map(left_by, edits_in(crate)) if item for clause in clauses}
    touched = {it[:2] for it in found}
    found |= {(it.file, it.line, *clauses_of(it)) for it in functions(crate) if (it.file, it.line) in touched and len(clauses_of(it)) == 1}
    said = [it for line in lines_in(crate) if (it := LINE.fullmatch(line))]
    return found | {(it.file, it.line, one[2]) for one in said for it in named(crate, one[1])}


def is_guarded(item, clause):
    return any((it.file, it.line, clause) in guarded_in(it.crate) for it in bodies_of(item))


def fault_of_line(crate, line):
    """What is wrong with a line that says what a clause follows from, or that it holds, or nothing."""
    said = LINE.fullmatch(line)
    here, there = (named(crate, said[1]), said[3] in read_crates() and named(said[3], said[4])) if said else ([], [])
    if len(here) != 1 or said[2] not in clauses_of(here[0]):
        return "no such function and clause"
    if not said[3]:
        return None
    if said[5] == "model":
        sources = (folder_of(said[3]) / "src").glob("*.rt")
        states = re.compile(rf"^impl.* Model for {said[4]}\b|^pub struct {said[4]}\b[^}}]*\n    ghost ", re.M)
        return None if any(states.search(it.read_text()) for it in sources) else "no such model"
    if not there or len(there) != 1 or said[5] not in clauses_of(there[0]):
        return "no such callee and clause"
    lines = (folder_of(crate) / "src" / here[0].file).read_text().splitlines()[here[0].line :]
    body = lines[: lines.index("    }" if here[0].owner else "}")]
    if not any(re.search(rf"\b{there[0].name}\b", it) for it in body):
        return "it does not call that"
    return None if is_guarded(there[0], said[5]) else "that clause of the callee is not guarded"


def unguarded_calls(which):
    """Each call with clauses that are not guarded, and these: of `all`, of a crate, or of those that are `listed` in LIST."""
    listed = LIST.read_text().splitlines() if which == "listed" else []
    for _, name, item in calls():
        left = [it for it in clauses_of(item) if not is_guarded(item, it)]
        if left and (which in ("all", item.crate) or f"{item.crate}::{name}" in listed):
            yield f"{item.crate}::{name}", item, left


def unguarded():
    """The number of public clauses that are not guarded."""
    return sum(len(left) for *_, left in unguarded_calls("all"))


def guard_faults():
    """What is wrong with the lines that say what a clause follows from, and the clauses of the calls in LIST that are not guarded."""
    known = {f"{item.crate}::{name}" for _, name, item in calls()}
    faults = [f"{crate}: {line}: {it}" for crate in read_crates() for line in lines_in(crate) if (it := fault_of_line(crate, line))]
    faults += [f"{LIST.name}: no call {it}" for it in LIST.read_text().splitlines() if it[:1] != "#" and it not in known]
    return faults + [f"{name} ({item.file}) is not guarded: {', '.join(left)}" for name, item, left in unguarded_calls("listed")]
