"""The wrong bodies: the blocks of crates/NAME/wrong.edits, each with one mistake that the prover has to refuse.

They are in the order of their names. The lines of a block:

    name:    the function, a dash, and what is wrong
    calls:   the public calls whose meaning it turns, as crate::function
    clause:  the clause that refuses it, or the definition in it; `CLAUSE of STEP` if it is that of a step below the call
    left:    what the prover leaves open, as it prints it: the function, as FILE::FUNCTION, and the goal.
    also:    further clauses whose goals, which differ from that one by the name of the clause, it leaves open too
    both:    why one mistake takes two changes, if it does
    always:  why each run of the gate tries it, if each does
    file:    the file that it changes
    old:     a text that stands once in that file
    new:     what stands there in its place
    after:   a text that stands once in that file, if `old:` stands more often: the first one from there on is meant
    twin:    what makes a right body of the same shape in place of the last `new:`, if the goal has an answer in proofs/

The first line, `TRIED:`, says on what all were refused, and lines `follows:` and `holds:` which clauses need none.
"""

import collections
import re

from crate_list import ROOT, folder_of, read_crates

# `name` is CRATE/NAME of the block `text`, and `path` its file.
Edit = collections.namedtuple("Edit", "crate name path calls clause left also changes both always after twin text")
Change = collections.namedtuple("Change", "file old new")

FUNCTION = re.compile(r"( *).*?\bfn (\w+)")
# The words that stand in a block once, and for each change.
ONCE, OFTEN = ("name", "calls", "clause", "left", "also", "both", "always", "after", "twin"), ("file", "old", "new")
# The lines that are no part of a block.
HEAD = re.compile(r"^(?:TRIED|follows|holds):.*\n", re.M)
# What a body may not bring: then the clause that refuses it may be its own.
CLAUSES = re.compile(r"\b(?:ensures|requires|ghost)\b")
# How many blocks a crate has, in bench/promises.txt.
PROMISED = re.compile(r"^(\w+) wrong-bodies (\d+)$", re.M)


def file_of(crate):
    return folder_of(crate) / "wrong.edits"


def text_in(crate):
    return file_of(crate).read_text() if file_of(crate).exists() else ""


def read_edit(crate, block):
    said, changes = {}, []
    for line in block.splitlines():
        word, _, text = line.partition(":")
        said[word] = text.removeprefix(" ")
        if word == "new":
            changes.append(Change(said.get("file"), said.pop("old", ""), said["new"]))
    calls = [it for it in said.get("calls", "").split(", ") if it]
    texts = {it: said.get(it, "") for it in ONCE[2:]}
    return Edit(crate, f"{crate}/{said.get('name')}", file_of(crate), calls, changes=changes, text=block, **texts)


def edits_in(crate):
    """The edits of a crate, in the order of its file."""
    blocks = re.split(r"^(?=name:)", HEAD.sub("", text_in(crate)), flags=re.M)
    return [read_edit(crate, it.strip()) for it in blocks if it.strip()]


def all_edits():
    return [edit for crate in read_crates() for edit in edits_in(crate)]


def goals_of(edit):
    """The goals that the edit leaves open."""
    others = [it for it in edit.also.split(", ") if it]
    return {edit.left, *(re.sub(r"-clause-\w+", f"-clause-{it}", edit.left) for it in others)}


def twin_of(edit):
    """The edit with its right body, which leaves no goal."""
    *others, last = edit.changes
    return edit._replace(left=edit.left.split()[0], changes=[*others, last._replace(new=edit.twin)])


def is_twin(edit):
    return " " not in edit.left


def text_of(edit, file):
    path = folder_of(edit.crate) / str(file)
    return path.read_text() if path.is_file() else ""


def place_of(text, old, after):
    """Where in a text a change is made, or -1 if that is not one place."""
    once = after or old
    return text.find(old, text.find(once)) if old and text.count(once) == 1 else -1


def steps_of(edit, before=None):
    """The file of each change, the text that it is made in, its place there, and the text that it leaves, or None: then
    no other comes. `before` has the texts that other edits changed. A change is made in what an earlier one left."""
    texts = dict(before or {})
    for file, old, new in edit.changes:
        text = texts.get(file) or text_of(edit, file)
        at = place_of(text, old, edit.after)
        texts[file] = text[:at] + new + text[at + len(old) :] if at >= 0 else None
        yield file, text, at, texts[file]
        if at < 0:
            return


def edited(edit, before=None):
    """The texts of the files that the edit changes, as it leaves them, or None for one that it cannot change."""
    return {file: left for file, _, _, left in steps_of(edit, before)}


def faults_of(edit):
    """What is wrong with the block itself."""
    words = collections.Counter(it.partition(":")[0] for it in edit.text.splitlines())
    most = dict.fromkeys(ONCE, 1) | dict.fromkeys(OFTEN, len(edit.changes))
    yield from (f"a line `{it}:` too many" for it in words if words[it] > most.get(it, 0))
    needed = ("name: .", "calls: .", "clause: .", "left: .", "new:")
    yield from (f"no line `{it.rstrip(' .')}`" for it in needed if not re.search(f"^{it}", edit.text, re.M))
    bodies = {*functions_changed(edit), *(name for it in edit.changes for _, name in FUNCTION.findall(it.new))}
    if max(len(edit.changes), len(bodies)) > 1 and not edit.both:
        yield f"it changes {', '.join(sorted(bodies))}, and has no line `both:`"
    if any(map(CLAUSES.search, [edit.twin, *(it.new for it in edit.changes)])):
        yield "it brings a clause"
    for crate, *between, function in (it.split("::") for it in edit.calls):
        sources = (it.read_text() for it in (folder_of(crate) / "src").glob("*.rt"))
        if not any(re.search(rf"\bfn {function}\b", it) for it in sources):
            yield f"no call {'::'.join([crate, *between, function])}"
    for file, text in edited(edit).items():
        if not re.fullmatch(r"src/\w+\.rt", str(file)):
            yield f"{file} is no file of src/"
        if text is None:
            yield f"a text that it changes does not stand in {file} once"


def find_faults(edits):
    """What is wrong with these blocks, with the order in their files, and with any file's number of them."""
    found = [f"{it.name}: {fault}" for it in edits for fault in faults_of(it)]
    promises = ROOT / "bench" / "promises.txt"
    promised = dict(PROMISED.findall(promises.read_text())) if promises.exists() else {}
    for crate in {**dict.fromkeys(it.crate for it in edits), **promised}:
        names = [it.name for it in edits_in(crate)]
        if names != sorted({*names}):
            found.append(f"{crate}: the blocks are not in the order of their names")
        if len(names) < int(promised.get(crate, 0)):
            found.append(f"{crate}: {len(names)} blocks, of {promised[crate]}")
    return found


def function_at(text, line):
    """The name of the function that this line of a source file is in or begins, or nothing."""
    lines = text.splitlines()
    # A function begins with its attributes.
    while line < len(lines) and lines[line - 1].lstrip().startswith("#["):
        line += 1
    for begin in range(line, 0, -1):
        if found := FUNCTION.match(lines[begin - 1]):
            is_over = found[1] + "}" in lines[begin : line - 1]
            return "" if is_over else found[2]
    return ""


def functions_changed(edit):
    """The names of the functions that the edit changes, and nothing for what it changes outside of them."""
    for _, text, at, _ in steps_of(edit):
        yield function_at(text, text.count("\n", 0, max(at, 0)) + 1)
