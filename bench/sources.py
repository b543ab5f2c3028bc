"""What the crates declare, read from their sources as `rt fmt` lays them out: public items and methods, their doc comments, re-exports."""

import collections
import functools
import re

from crate_list import folder_of, read_crates

# `kind` is the word that declares it, `doc` the lines of its comment, `line` its line in the file, from 1. `owner` is the head of the impl or the trait
# that it stands in. `clauses` are what a function ensures, and `premises` what it requires, each as its name, if it has one, and its text; `ghosts` are
# its ghost lines.
Item = collections.namedtuple("Item", "kind name crate file line signature doc owner clauses premises ghosts")

DECLARES = re.compile(r"( *)(pub )?(?:pub\(\w+\) )?(?:const |unsafe |extern \"C\" )*(fn|struct|enum|trait|type|impl)\b")
CLAUSE = re.compile(r"(?:\n\s*//.*)*\n\s+(ghost|requires|ensures)\*?(?: (\w+):?)? \{")
HEAD_ENDS = re.compile(r"\n\s+(?:ghost|requires|ensures)\*?(?: \w+:?)? \{|[{;}]$", re.M)
ENDS = re.compile(r"^\s*(ensures|requires|ghost|\{|//)|\{$|;$")
BRACKET = re.compile(r'"(?:\\.|[^"\\])*"|[{}]')
NAME = re.compile(r"\w+")
TYPES = ("struct", "enum", "type", "trait")


def declaration(lines):
    """What is declared from the first line on, without its clauses, in one line."""
    ends = (n for n, it in enumerate(lines, 1) if ENDS.search(it) or ENDS.match("".join(lines[n : n + 1])))
    text = " ".join(it.strip() for it in lines[: next(ends, None)]).removesuffix("{").strip(" ;,")
    text = text.removeprefix("pub ").removeprefix("unsafe ").removeprefix('extern "C" ')
    return text.replace("( ", "(").replace(", )", ")")


def clauses(lines):
    """What a function that begins on the first line ensures, what it requires, and its ghost lines."""
    text, found = "\n".join(lines), {"ensures": [], "requires": [], "ghost": []}
    at = HEAD_ENDS.search(text).start()
    while clause := CLAUSE.match(text, at):
        depth, brackets = 1, BRACKET.finditer(text, clause.end())
        while depth:
            bracket = next(brackets)
            depth += {"{": 1, "}": -1}.get(bracket[0], 0)
        at = bracket.end()
        found[clause[1]].append((clause[2] or "", text[clause.end() : at - 1].strip()))
    return tuple(found["ensures"]), tuple(found["requires"]), tuple(found["ghost"])


@functools.cache
def read_file(crate, file, also_private=False):
    """The public items of a file and all methods that callers may call by them, in their order; or also those that are private."""
    lines = (folder_of(crate) / "src" / file).read_text().splitlines()
    items, doc, owner = [], [], ""
    for at, line in enumerate(lines):
        stripped = line.strip()
        if stripped.startswith("///"):
            doc.append(stripped.removeprefix("///").removeprefix(" "))
        elif found := DECLARES.match(line):
            indent, public, kind = found.groups()
            text = declaration(lines[at:])
            name = "".join(NAME.findall(text.split(kind, 1)[1])[:1])
            if not indent:
                owner = text if kind in ("impl", "trait") else ""
            # A method of a trait is as public as the trait.
            called = kind == "fn" and len(indent) == 4 and owner and (public or " for " in owner or owner.startswith("trait"))
            if called or (public and not indent) or (also_private and kind == "fn"):
                said = clauses(lines[at:]) if kind == "fn" else ((), (), ())
                items.append(Item(kind, name, crate, file, at + 1, text, tuple(doc), owner if indent else "", *said))
        if not stripped.startswith(("///", "#[")):
            doc = []
    return items


@functools.cache
def all_items(crate, also_private=False):
    files = sorted((folder_of(crate) / "src").glob("*.rt"))
    return [item for file in files for item in read_file(crate, file.name, also_private)]


@functools.cache
def all_types():
    """The types of all libraries by their names; of two with one name, the one of the lower crate."""
    found = {}
    for crate in read_crates():
        for item in all_items(crate):
            if item.kind in TYPES and (folder_of(crate) / "src" / "lib.rt").exists():
                found.setdefault(item.name, item)
    return found


@functools.cache
def exports(crate):
    """What other crates may name of a crate: each name, with its item and the modules before it. Modules of laws are left out."""
    text = (folder_of(crate) / "src" / "lib.rt").read_text()
    found = {}
    for module in re.findall(r"^pub mod (\w+);", text, re.M):
        if not module.endswith("laws"):
            found |= {it.name: (it, f"{module}::") for it in read_file(crate, f"{module}.rt") if not it.owner}
    for path, names in re.findall(r"^pub use (\w+)::\{?([\w\s,]+)\}?;", text, re.M):
        if path in read_crates():
            there = exports(path)
        else:
            there = {it.name: (it, "") for it in read_file(crate, f"{path}.rt") if not it.owner}
        found |= {name: there[name] for name in NAME.findall(names) if name in there}
    return found


def impl_of(owner):
    """The type that an impl is of, and its trait or nothing."""
    text = re.sub(r"^impl(<.*?>)? (?=[A-Z&(\[])", "", owner.split(" where ")[0])
    trait, _, kind = text.rpartition(" for ")
    return kind, trait


def plain(kind):
    return kind.split("<")[0]


def owner_of(item):
    """The type or the trait of a method, or nothing."""
    is_impl = item.owner.startswith(("impl", "unsafe impl"))
    return plain(impl_of(item.owner)[0]) if is_impl else "".join(re.findall(r"trait (\w+)", item.owner))


def methods(item):
    """The methods of a type or trait that is named so, each with the name of the type that it is called on."""
    there = [it for it in all_items(item.crate) if it.owner]
    if item.kind == "trait":
        yield from (by_impl(it, item.name) for it in there if re.match(rf"trait {item.name}\b", it.owner))
        return
    aliased = {it.signature.partition(" = ")[2]: it.name for it in all_items(item.crate) if it.kind == "type"}
    for it in there:
        kind, trait = impl_of(it.owner)
        if aliased.get(kind, plain(kind)) == item.name and (not trait or (trait == "Iterator" and it.name == "next")):
            yield item.name, it


def by_impl(method, trait):
    """A trait's method, called on the trait. If one type alone has the trait in this file, it is called on that type."""
    impls = [it for it in read_file(method.crate, method.file) if it.name == method.name and impl_of(it.owner)[1] == trait]
    kinds = [impl_of(it.owner)[0] for it in impls]
    if len(kinds) == 1 and kinds[0][0].isupper():
        return plain(kinds[0]), impls[0]._replace(doc=method.doc)
    return trait, method


def cases(item):
    """The cases of an enum, each with the lines of its doc comment."""
    lines = (folder_of(item.crate) / "src" / item.file).read_text().splitlines()
    body = "\n".join(lines[item.line : lines.index("}", item.line)])
    for doc, case in re.findall(r"((?:^    ///.*\n)*)(?:^    #.*\n)*^    ([A-Z]\w*)", body, re.M):
        yield case, [it.strip().removeprefix("///").strip() for it in doc.splitlines()]
