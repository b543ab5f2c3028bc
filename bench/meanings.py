"""What a clause means: the definitions of specs/ and the types, traits and constants of src/ as nodes of a graph, each with its text in a normal form.

That is a row of words. Comments, layout and imports are left out. A name that is bound in the text is a number, by the place where it is bound. One that
names another node is a link, so that what that is called or where it stands counts only there. What the kit defines is its name."""

import collections
import functools
import hashlib
import json
import re
import sys

from crate_list import folder_of, read_crates
from sources import impl_of, plain

# A word is a text or a `Link`. Of a link `after` is the constructor or the member of that node that is meant. The text of a node is as it is written.
Node = collections.namedtuple("Node", "words text")
Link = collections.namedtuple("Link", "key after")

WORD = re.compile(r"""--(?: .*)?$|//.*$|b?'(?:\\.[^']*|[^'\\])'|"(?:\\.|[^"\\])*"|\.?[\w'][\w'-]*|[(){}\[\],;.]|[^\s\w(){}\[\],;."]+""", re.M)
USE = re.compile(r"^\s*(?:ghost )?(pub )?use ([\w.]+?)(?:\.\{([^}]*)\})?(?: as (\w+))?;?$", re.M)
RUST_USE = re.compile(r"^\s*(?:pub )?use ([\w:]+)::(?:\{([^}]*)\}|(\w+(?: as \w+)?));", re.M)
DECLARES = re.compile(r"(?:(?:abbrev|unfoldable|pub|data|record) )+(\S+)|(\S+) :(?= |$)")
BLOCK = re.compile(r"(?:pub(?:\(\w+\))? )?(?:unsafe )?(struct|enum|trait|type|const|static|impl)\b(?: (?!fn)(?:mut )?(\w+))?")
PART = re.compile(r"\s*(abbrev|unfoldable|pub|data|record|module|infix\w?)\b")
BODY = re.compile(r"^(?!.*ghost)(    (?:[^ \n].*)?\{)(?:\n(?!    \}$).*)*\n    \}$", re.M)
GHOST = re.compile(r"^ +(?:ghost (?!use)|(?:pub )?const (?!fn)|type )", re.M)


def words_of(text):
    return [it for it in WORD.findall(text) if not it.startswith(("//", "--"))]


def is_name(word):
    return bool(re.match(r"[^\W\d]", word)) and word not in ("λ", "let", "in", "elim", "as", "record", "pub", "Type", "_")


def bound_at(words, is_equation):
    """The places where names are bound, each with how many brackets are open around what they are bound in. No name in a pattern begins with a capital."""
    found, depth = {}, 0

    def pattern(begin, end):
        return {n: depth for n in range(begin, end) if not words[n][0].isupper()}

    end = words.index("=") if is_equation and "=" in words else 0
    for at, word in enumerate(words):
        if word == "λ":
            found |= {n: depth for n in range(at + 1, words.index(".", at))}
        elif word == "let":
            found[at + 1] = depth
        elif word == "←":
            found[at - 1] = depth
        elif word == "↦":
            begin = max(n for n in range(at) if words[n] in ("[", "|"))
            found |= pattern(begin + 1, at)
        elif word in ("(", "{", ","):
            colon = next((n for n in range(at + 1, len(words)) if not is_name(words[n]) and words[n] != "_"), at)
            if words[colon] == ":":
                found |= {n: depth - (word == ",") for n in range(at + 1, colon)}
        depth += (word in ("(", "[", "{")) - (word in (")", "]", "}"))
    return found | pattern(0, end)


def normal(words, names, known=(), is_equation=False, binds=True):
    """The words in the normal form, under names that are bound before; and all that are bound at the end."""
    scopes, count, found = [dict(known)], len(known), []
    bound = bound_at(words, is_equation) if binds else {}
    for at, word in enumerate(words):
        target, after = names.get(word), words[at + 1] if at + 1 < len(words) else ""
        if word in ("(", "[", "{"):
            scopes.append({})
        elif word in (")", "]", "}") and len(scopes) > 1:
            scopes.pop()
        elif word == "|":
            scopes[-1].clear()
        is_label = (after == "=" and len(scopes) > 1 and words[at - 1] != "let") or words[at - 1] in ("requires", "ensures", "fn")
        if callable(names.get(words[at - 1])) and at and word.startswith("."):
            found[-1] = names[words[at - 1]](word[1:])
        elif isinstance(target, (Link, str)) and not is_label:
            found.append(target)
        elif at in bound and is_name(word):
            count += 1
            scopes[min(bound[at], len(scopes) - 1)][word] = f"#{count}"
            found.append(f"#{count}")
        else:
            numbers = [it[word] for it in scopes if word in it]
            found.append(numbers[-1] if numbers and not is_label else word)
    return found, {name: number for it in scopes for name, number in it.items()}


# What a definition uses is looked at before it.
sys.setrecursionlimit(10_000)


def spec_path(crate, module):
    return folder_of(crate) / "specs" / f"{module.replace('.', '/')}.antt"


@functools.cache
def uses_in(path):
    """The imports of a file: whether it passes them on, the path, and the names or the name that it gives the module."""
    return [(bool(it[1]), it[2], it[3], it[4]) for it in USE.finditer(path.read_text())] if path.exists() else []


def chunks(lines):
    """Lines in parts, of which each begins at the left. A bracket that closes there begins none."""
    least = min((len(it) - len(it.lstrip()) for it in lines), default=0)
    found = []
    for line in lines:
        if len(line) - len(line.lstrip()) == least and line.lstrip()[0] not in ")]}" or not found:
            found.append([])
        found[-1].append(line)
    return found


def declared(lines, around=()):
    """The definitions in these lines: the name of each, and its parts, the heads of the modules around it and how its operator groups first."""
    found, groups = [], {}
    for part in chunks(lines):
        head = part[0].strip()
        if re.match(r"(unfoldable |abbrev )?mutual$|module ", head):
            size = 1 + next(n for n, line in enumerate(part) if line.endswith((" where", "mutual")))
            found += declared(part[size:], (*around, "\n".join(part[:size])) if head.startswith("module") else around)
        elif head.startswith("infix"):
            groups[head.split()[-1]] = part
        elif one := DECLARES.match(head):
            found.append((one[1] or one[2], [*around, *groups.get(one[1] or one[2], []), "\n".join(part)]))
        elif found and not head.startswith(("use ", "pub use ", "pub mod ", "unfolding ")):
            found[-1][1].append("\n".join(part))
    return found


@functools.cache
def declared_in(path):
    """The parts of each definition of a file of specs/; and of each name that the file declares its definition, and which constructor of that it is."""
    lines = [it for it in path.read_text().splitlines() if it.strip() and not it.lstrip().startswith("--")]
    parts, names = collections.defaultdict(list), {}
    for name, texts in declared(lines):
        parts[name] += texts
        for part in chunks(texts[-1].splitlines()[1:]) if re.match(r"\s*(pub )?data ", texts[-1]) else []:
            listed = re.match(r"\s*([\w' -]+) :(?: |$)", part[0])
            names |= {it: (name, it) for it in (listed[1].split() if listed else ())}
    return parts, names | {name: (name, "") for name in parts}


def linked(path, name):
    """What a path of an import means by a name: a link, or the name if the kit has it."""
    first, *parts = path.split(".")
    if first != "Rattle" or parts[0] not in read_crates() or parts[1] != "specs":
        return name
    crate, parts = parts[0], parts[2:]
    if parts[0] in ("declared", "contracts"):
        owner = name if parts[-1] == "TheConstants" else parts[-2] if parts[-1].startswith("The") else parts[-1]
        return rust_link(crate, owner, "" if owner == name else name) or f"{crate}.{name}"
    # The path of a constructor has its type after the file.
    if len(parts) > 1 and not spec_path(crate, ".".join(parts)).exists():
        parts = parts[:-1]
    file = spec_path(crate, ".".join(parts))
    if file.exists() and name in declared_in(file)[1]:
        owner, after = declared_in(file)[1][name]
        return Link((crate, parts[-1], owner), after)
    for is_passed, other, listed, _ in [*uses_in(file), *uses_in(spec_path(crate, "Lib"))]:
        if is_passed and other != path and (name in re.split(r"[,\s]+", listed or "") or not listed and other.split(".")[-1] == parts[-1]):
            return linked(other, name)
    return f"{crate}.{name}"


@functools.cache
def imported(path):
    """What each name means that a file imports for its clauses or definitions."""
    names = {}
    for _, module, listed, alias in uses_in(path):
        if listed is None:
            names[alias or module.split(".")[-1]] = functools.partial(linked, module)
        for one in filter(None, re.split(r",\s*", (listed or "").strip())):
            name, _, other = one.partition(" as ")
            target = linked(module, name)
            parts = [part for part in (other or name).split("◌") if part]
            names |= {part: target if isinstance(target, Link) or other else part for part in parts}
    return names


@functools.cache
def blocks(crate):
    """The types, traits and constants of a crate, and the impls of types and traits: of each name the parts of its text, with their files."""
    found = collections.defaultdict(list)
    for path in sorted((folder_of(crate) / "src").glob("*.rt")):
        lines = [it for it in path.read_text().splitlines() if it.strip() and not re.match(r"\s*(//|#!?\[|(ghost )?use )", it)]
        at = 0
        while at < len(lines):
            end = next(n for n in range(at, len(lines)) if n == len(lines) - 1 or lines[n][0] not in " \t" and lines[n].endswith((";", "}")))
            if kind := BLOCK.match(lines[at]):
                found[kind[2] if kind[1] != "impl" else "impl"].append((kind[1], path, lines[at : end + 1]))
            at = end + 1
    for kind, path, lines in found.pop("impl", []):
        head = " ".join(it.strip() for it in lines[: next(n for n, it in enumerate(lines) if it.endswith(("{", "}"))) + 1]).strip(" {}")
        of, trait = impl_of(head.removeprefix("unsafe "))
        members = [it for it in chunks(lines[1:-1]) if GHOST.match(it[0])]
        if members:
            found[plain(of) if plain(of) in found else plain(trait)].append(("impl", path, [head, *(line for it in members for line in it)]))
    return found


@functools.cache
def rust_link(crate, name, after=""):
    if name in blocks(crate):
        return Link((crate, "", name), after)
    root = folder_of(crate) / "src" / "lib.rt"
    for path, listed, one in RUST_USE.findall(root.read_text()) if root.exists() else []:
        if path in read_crates() and path != crate and name in re.findall(r"\w+", listed or one):
            return rust_link(path, name, after)
    return None


@functools.cache
def names_in_source(path):
    """What each name means in a source file: in its clauses what they import, else what the crate declares or the file uses."""
    crate = path.parent.parent.name
    names = {name: Link((crate, "", name), "") for name in blocks(crate)}
    for where, listed, one in RUST_USE.findall(path.read_text()):
        of = crate if where.split("::")[0] in ("crate", "super") else where.split("::")[0]
        for name, other in re.findall(r"(\w+)(?: as (\w+))?", listed or one) if of in read_crates() else []:
            if link := rust_link(of, name):
                names[other or name] = link
    return names | imported(path)


@functools.cache
def names_in_definitions(crate, module):
    """What each name means in a file of specs/."""
    own = declared_in(spec_path(crate, module))[1]
    named = {one: Link((crate, module, name), after) for one, (name, after) in own.items()}
    return imported(spec_path(crate, module)) | named | {part: link for one, link in named.items() for part in one.split("◌") if part}


@functools.cache
def node(key):
    """What a definition of specs/ is, or a type, a trait or a constant, with the ghost lines of impls."""
    crate, module, name = key
    found, texts, known = [], [], {}
    if module:
        names = names_in_definitions(crate, module)
        for text in declared_in(spec_path(crate, module))[0][name]:
            is_head, is_equation = text.lstrip().startswith("module "), not PART.match(text) and not text.lstrip().startswith(f"{name} :")
            words, bound = normal(words_of(text), names, known, is_equation)
            known = bound if is_head else known
            found += [*words, "\n"]
            texts.append(text)
    for kind, path, lines in () if module else blocks(crate)[name]:
        # A trait counts without the bodies of its functions.
        is_trait = kind == "trait"
        texts.append(BODY.sub(r"\1", "\n".join([lines[0].rstrip("{"), *lines[1:-1]])) if is_trait else "\n".join(lines))
        found += [*normal(words_of(texts[-1]), names_in_source(path), binds=kind in ("trait", "impl"))[0], "\n"]
    return Node(found, "\n".join(texts))


def links_of(one):
    return list(dict.fromkeys(it.key for it in one.words if isinstance(it, Link)))


def cycles(keys, nodes):
    """The keys and all that they link to, each with those that link to each other: what is linked to comes first."""
    order, low, stack, found = {}, {}, [], []

    def visit(key):
        order[key] = low[key] = len(order)
        stack.append(key)
        for other in links_of(nodes(key)):
            if other not in order:
                visit(other)
            if other in stack:
                low[key] = min(low[key], low[other])
        if low[key] == order[key]:
            found.append([stack.pop()])
            while found[-1][-1] != key:
                found[-1].append(stack.pop())

    for key in keys:
        if key not in order:
            visit(key)
    return found


def checksum_of(words):
    return hashlib.sha256(json.dumps(words).encode()).hexdigest()[:16]


def checksums(keys, nodes):
    """The checksum of each key, closed over all that it links to."""
    sums = {}
    for cycle in cycles(keys, nodes):

        def own(key):
            return [it if isinstance(it, str) else [sums.get(it.key, "itself" if it.key == key else it.key[2]), it.after] for it in nodes(key).words]

        texts = {key: own(key) for key in cycle}
        all_of = sorted(checksum_of(it) for it in texts.values())
        sums |= {key: checksum_of([texts[key], all_of]) for key in cycle}
    return sums
