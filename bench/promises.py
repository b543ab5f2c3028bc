#!/usr/bin/env python3
"""promises.py [--check | --diff REV | --unguarded [CRATE | all]]: writes bench/promises.txt, what is promised.

It has a line for each public function of the libraries and for each law: its crate, its name, and a checksum of its
signature and clauses with all definitions that they use (bench/meanings.py); and for each crate the number of its wrong
bodies. With --check nothing is written, and the exit status is 1 if the file is not current; if a commit since the last
release changed a line of it, and its message does not tell of that (docs/CHANGING.md); or if a clause of a call in
bench/guarded.txt is not guarded (bench/guards.py). --diff prints which lines differ from those of a commit, and the
definitions by which they do. --unguarded prints the clauses that are not guarded: of the calls in bench/guarded.txt, of a
crate, or all.
"""

import collections
import concurrent.futures as futures
import difflib
import functools
import json
import re
import shutil
import subprocess
import sys
import tempfile

from api import calls, laws
from crate_list import ROOT, folder_of, lanes, read_crates
from edits import edits_in
from guards import guard_faults, lines_in, unguarded_calls
from history import commits_since, git, is_whole, last_tag, message_of, parents_of
from meanings import Node, checksum_of, checksums, links_of, names_in_source, node, normal, words_of
from sources import all_items, all_types, owner_of

FILE = "bench/promises.txt"
PAGE = ROOT / FILE
HEAD = "# What is promised (docs/CHANGING.md): bench/promises.py writes it.\n"
SAID = re.compile(r"^promise (\S+): (wider|narrower|same|new|gone)\b", re.M)


def promise(item):
    """What a call promises, as a node."""
    names = names_in_source(folder_of(item.crate) / "src" / item.file)
    head = f"{item.owner} {item.signature}"
    params = [it for it in dict.fromkeys(re.findall(r"[(<,]\s*(?:mut )?(\w+): ", head)) if it not in names]
    known = {name: f"#{n}" for n, name in enumerate(params, 1)}
    found, texts = normal(words_of(head), names, known, binds=False)[0], [item.signature]
    for word, listed in (("ghost", item.ghosts), ("requires", item.premises), ("ensures", item.clauses)):
        for name, text in listed:
            found += ["\n", word, name, *normal(words_of(text), names, known)[0]]
            texts.append(f"    {word} {name} {{ {text} }}".replace("  {", " {"))
    return Node(found, "\n".join(texts))


def own_of_traits():
    """The methods of traits that a public type has with clauses of its own."""
    for item in (it for crate in read_crates() for it in all_items(crate) if it.clauses and " for " in it.owner):
        if item.kind == "fn" and owner_of(item) in all_types():
            yield f"{item.crate}::{owner_of(item)}::{item.name}", item


@functools.cache
def promises():
    """The function of each promise by its name, in order."""
    named = dict(own_of_traits()) | {f"{item.crate}::{name}": item for _, name, item in calls()}
    named |= {f"{crate}::{name}": item for crate, name, item in laws()}
    return dict(sorted(named.items()))


@functools.cache
def node_of(key):
    return promise(promises()[key]) if isinstance(key, str) else node(key)


def page():
    """The text of the file."""
    sums = checksums(list(promises()), node_of)
    lines = [f"{name.replace('::', ' ', 1)} {sums[name]}" for name in promises()]
    lines += [f"{crate} wrong-bodies {len(edits_in(crate))}" for crate in read_crates() if edits_in(crate)]
    return HEAD + "".join(f"{it}\n" for it in sorted(lines))


def page_at(commit):
    """The checksum of each promise by its name, as a commit has them."""
    rows = [it.split() for it in git("show", f"{commit}:{FILE}").splitlines() if it[:1] != "#"]
    return {f"{crate}::{name}": checksum for crate, name, checksum in rows if name != "wrong-bodies"}


def changed(old, new):
    """The names of the promises that two tables have not alike."""
    return sorted(name for name in old | new if old.get(name) != new.get(name))


def graph(*names):
    """Of these promises, or all, and of each definition that they use: its name, a checksum of its own words, as it is
    written, the definitions that it uses, and its checksum with all these."""
    told = {}
    for key, checksum in checksums([it for it in names or promises() if it in promises()], node_of).items():
        one = node_of(key)
        name, joined = (key, key) if isinstance(key, str) else (f"{key[0]}::{key[2]}", "/".join(key))
        own = checksum_of([it if isinstance(it, str) else f"{it.key[2]}.{it.after}" for it in one.words])
        told[joined] = [name, own, one.text, ["/".join(it) for it in links_of(one)], checksum]
    return told


def graph_at(revision, names=()):
    """The graph of a commit, as the scripts of this tree see it."""
    with tempfile.TemporaryDirectory(prefix="promises-") as room:
        sources = "crates.txt ':(glob)crates/*/src/**' ':(glob)crates/*/specs/**'"
        subprocess.run(f"git archive {revision} {sources} | tar -x -C {room}", shell=True, cwd=ROOT, check=True)
        shutil.copytree(ROOT / "bench", f"{room}/bench", ignore=shutil.ignore_patterns("__pycache__"))
        told = subprocess.run([f"{room}/bench/promises.py", "--graph", *names], stdout=subprocess.PIPE, check=True)
    return json.loads(told.stdout)


def behind(told, name):
    """All that a promise uses, and itself, each by its name: the checksum of its own words, and how it is written."""
    found, left = {}, [name] if name in told else []
    while left:
        key = left.pop()
        if key not in found:
            found[key] = told[key]
            left += told[key][3]
    kept = collections.defaultdict(list)
    for one, own, text, *_ in found.values():
        kept[one].append((own, text))
    return {one: sorted(it) for one, it in kept.items()}


def reasons(old, new, name):
    """The definitions by which a promise changed, itself among them if its own clauses did, each with how it is written in both trees. One that is new
    is used by another that changed."""
    was, is_now = behind(old, name), behind(new, name)
    both = [it for it in was if it in is_now and [own for own, _ in was[it]] != [own for own, _ in is_now[it]]]
    found = (both or {*was} ^ {*is_now} or [name]) if was and is_now else [name]
    return {it: [[line for _, text in side.get(it, []) for line in text.splitlines()] for side in (was, is_now)] for it in found}


def sums_of(told):
    return {key: it[4] for key, it in told.items() if "/" not in key}


def print_diff(revision):
    """Prints which promises differ from those of a commit, and through which definitions."""
    old, new = graph_at(revision), graph()
    names, found = changed(sums_of(old), sums_of(new)), {}
    for name in names:
        for one, texts in reasons(old, new, name).items():
            found.setdefault(one, (texts, []))[1].append(name)
    for one, (texts, by_it) in sorted(found.items()):
        print(f"{one}, by which changed: {', '.join(by_it)}")
        print(*(f"    {line}" for line in difflib.ndiff(*texts) if line[0] != "?"), sep="\n")
    print(f"{len(names)} promises changed, by {len(found)} definitions or clauses of their own")


def unnamed(commit, told):
    """The promises that a commit changed against each of its parents, and that its message names neither by themselves nor
    by their crates."""
    new, olds = page_at(commit), [it for it in map(page_at, parents_of(commit)) if it]
    names = [it for it in changed(olds[0], new) if all(old.get(it) != new.get(it) for old in olds)] if new and olds else []
    how = {it: "gone" if it not in new else "" if it in olds[0] else "new" for it in names}
    return [it for it in names if it not in told and told.get(it.split("::")[0]) != how[it]]


def untold(names, told, old, new):
    """Those of these promises that changed by definitions of which a message names one neither with its crate nor without."""
    # What the scripts themselves changed needs no line.
    by = {it: reasons(old, new, it) for it in names if it in changed(sums_of(old), sums_of(new))}
    return [name for name in by if any(it not in told and (it == name or it.split("::")[-1] not in told) for it in by[name])]


def history_faults():
    """The commits since the last release that changed promises and do not tell of them."""
    if not is_whole():
        print("promises: this clone has no history, so the messages of commits are not looked at")
        return []
    told = {it: dict(SAID.findall(message_of(it))) for it in commits_since(last_tag(), FILE)}
    names = {it: left for it in told if (left := unnamed(it, told[it]))}
    # The file of the commit before is that of the last one that changed it.
    before = {it: commits_since("", FILE, parents_of(it)[0])[0] for it in names}
    needed = collections.defaultdict(set)
    for commit, its in names.items():
        needed[commit].update(its)
        needed[before[commit]].update(its)
    with futures.ThreadPoolExecutor(lanes()) as pool:
        graphs = dict(zip(needed, pool.map(graph_at, needed, needed.values())))
    found = {it: untold(its, told[it], graphs[before[it]], graphs[it]) for it, its in names.items()}
    said = "and its message has no line `promise NAME: ..` for that"
    return [f"{it} changed {', '.join(its)}, {said}" for it, its in found.items() if its]


def promise_faults():
    """What the gate fails at."""
    is_current = PAGE.exists() and PAGE.read_text() == page()
    return ([] if is_current else [f"{FILE} is not current: bench/promises.py writes it"]) + history_faults() + guard_faults()


def main(*words):
    if words[:1] == ("--graph",):
        json.dump(graph(*words[1:]), sys.stdout)
    elif words[:1] == ("--diff",):
        print_diff(*(words[1:] or ("HEAD",)))
    elif words[:1] == ("--unguarded",):
        left = list(unguarded_calls(*(words[1:] or ("listed",))))
        print(*(f"{name} ({item.file}:{item.line}): {', '.join(it)}" for name, item, it in left), f"{sum(len(it) for *_, it in left)} not guarded", sep="\n")
    elif words == ("--check",):
        found = promise_faults()
        print(*found, sep="\n", end="\n" if found else "", file=sys.stderr)
        return 1 if found else 0
    else:
        PAGE.write_text(page())
        print(*(f"{crate}: {it}" for crate in read_crates() for it in lines_in(crate, "holds:")), sep="\n")
    return 0


if __name__ == "__main__":
    sys.exit(main(*sys.argv[1:]))
