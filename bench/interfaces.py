"""What the wrong bodies of a crate rest on, as two checksums: of its own files and its line of crates.txt, and of what
it sees of the libraries below it. Comments count in neither.

It sees the definitions, types, traits and constants that its files name, and the public functions that its sources
name, methods if it sees their types. What these use is seen too (bench/meanings.py), and what a type derives or has by
a trait, since that is called without its name."""

import functools
import re

from crate_list import folder_of, libraries_below, read_crates, read_lines
from edits import edits_in
from meanings import Link, Node, blocks, checksum_of, checksums, links_of, names_in_source, node, words_of
from promises import promise
from sources import NAME, all_items, owner_of

OWN = ("src/*.rt", "specs/*.antt", "proofs/**/*.antt")
COMMENTS = {".rt": re.compile(r"^ *//.*\n", re.M), ".antt": re.compile(r"^ *--.*\n", re.M)}
DOTTED = re.compile(r"(\w+)\.([\w'-]+)")
DERIVES = re.compile(r"^#\[derive.*", re.M)


@functools.cache
def own_files(crate):
    """The files of a crate, each with its text without comments."""
    files = sorted(path for pattern in OWN for path in folder_of(crate).glob(pattern))
    return {path: COMMENTS[path.suffix].sub("", path.read_text()) for path in files}


@functools.cache
def functions_of(crate):
    """The public functions of a crate, and the methods of its traits and by traits, each with what it is of."""
    return [(it, (crate, "", owner_of(it))) for it in all_items(crate) if it.kind == "fn"]


@functools.cache
def node_of(key):
    """A public function, or what a definition or a type is, with what it derives and has by traits."""
    if not isinstance(key[-1], str):
        return promise(key)
    crate, module, name = key
    derived = [it for _, path, _ in (() if module else blocks(crate)[name]) for it in DERIVES.findall(path.read_text())]
    methods = [Link(it, "") for it, of in functions_of(crate) if of == key and " for " in it.owner]
    return Node([*node(key).words, *derived, *methods], "")


@functools.cache
def named_by(crate):
    """What the files of a crate name, functions aside."""
    found = set()
    for path, text in own_files(crate).items():
        names = names_in_source(path)
        found |= {names.get(it) for it in {*words_of(text)}}
        found |= {names[one](other) for one, other in {*DOTTED.findall(text)} if callable(names.get(one))}
    return {it.key for it in found if isinstance(it, Link)}


@functools.cache
def sums():
    """The checksum of all that a crate can see, each with all that it uses."""
    crates = read_crates()
    return checksums([key for it in crates for key in (*named_by(it), *dict(functions_of(it)))], node_of)


def seen_by(crate):
    """What a crate sees of the libraries below it, and what that uses."""
    texts = [text for path, text in own_files(crate).items() if path.suffix == ".rt"]
    words = set(NAME.findall("\n".join([*texts, *(it.text for it in edits_in(crate))])))
    below = [it for library in libraries_below(crate, read_crates()) for it in functions_of(library)]
    seen, left, called = set(), named_by(crate), [(it, of) for it, of in below if it.name in words]
    while left:
        while left:
            seen |= left
            left = {other for key in left for other in links_of(node_of(key))} - seen
        left = {it for it, of in called if not it.owner or of in seen} - seen
    return seen


def state(crate):
    """That of its own files, and that of what it sees."""
    own = [(path.relative_to(folder_of(crate)).as_posix(), text) for path, text in own_files(crate).items()]
    own += [(it.name, it.text) for it in edits_in(crate)]
    return [checksum_of([own, read_lines()[crate]]), checksum_of(sorted(sums()[it] for it in seen_by(crate)))]
