#!/usr/bin/env python3
"""api.py [--check]: writes out/api.html, the calls of the libraries by what a caller wants to do, out of the sources.
With --check it makes the page, but writes nothing.

A call is a public function, or a method of a public type or trait, that a crate of CALLERS declares or re-exports. A
law is a function without a body in a module `laws`. The exit status is 1 if what `faults` says of them is not so.
"""

import inspect
import re
import sys
from html import escape

from crate_list import ROOT, read_crates
from pages import write_or_check
from sources import TYPES, all_items, all_types, cases, exports, methods

PAGE = ROOT / "out" / "api.html"
# Its head, and what goes before the calls.
FRAME = (ROOT / "bench" / "api.html.in").read_text()

# What a program names in its line of crates.txt, and each heading with the crates, and the files of crates, whose calls
# stand below it in this order.
LISTED = re.findall(r"^([^#\n].*?): (.*)", (ROOT / "bench" / "api.txt").read_text(), re.M)
(_, CALLERS), *HEADINGS = ((heading, places.split()) for heading, places in LISTED)
# What tests are made of.
NOT_CALLED = ("_tests", "case_questions", "refusing_alloc")
# What no crate of CALLERS has, which our crates call of one another.
OWN = "Between the crates"


def calls():
    """Each call once: the crate that a caller names, how it is called there, and its item."""
    seen = set()
    libraries = [it for it in read_crates() if (ROOT / "crates" / it / "src" / "lib.rt").exists()]
    for caller in dict.fromkeys(it for it in (*CALLERS, *libraries) if it in libraries and not it.endswith(NOT_CALLED)):
        for item, path in exports(caller).values():
            if item in seen:
                continue
            seen.add(item)
            if item.kind == "fn":
                yield caller, path + item.name, item
            elif item.kind in TYPES:
                yield from ((caller, f"{kind}::{it.name}", it) for kind, it in methods(item))


def laws():
    """The laws of all libraries, lowest crate first, each as `calls` has a call."""
    libraries = (it for it in read_crates() if (ROOT / "crates" / it / "src" / "lib.rt").exists())
    found = (it for crate in libraries for it in all_items(crate) if it.kind == "fn" and it.file.endswith("laws.rt"))
    return [(it.crate, f"{it.file.removesuffix('.rt')}::{it.name}", it) for it in found]


def outer_parts(text, mark, brackets):
    """The parts of a text, which marks part outside of brackets. Of each pair of these the second one closes."""
    parts, depth = [""], 0
    for letter in text:
        depth += (letter in brackets[::2]) - (letter in brackets[1::2])
        if letter == mark and depth == 0:
            parts.append("")
        else:
            parts[-1] += letter
    return parts


def error_of(item):
    """The error type, if the call returns a Result. One that hands back its arguments has them in a pair with it."""
    found = re.search(r"-> .*?\bResult<(.*)>", item.signature)
    last = outer_parts(found[1], ",", "<>()[]")[-1].strip(" ()") if found else ""
    return outer_parts(last, ",", "<>()[]")[-1].strip() or None


def errors(listed):
    """The error types of ours, in the order of the calls that return them."""
    names = dict.fromkeys(it for *_, item in listed if (it := error_of(item)) in all_types())
    # (a fault is a place and a reason)
    return [all_types()[it] for it in (*names, *(["Reason"] if "Fault" in names else []))]


def cases_of(item):
    return cases(item) if item.kind == "enum" else ()


def heading_of(caller, item):
    """The heading of a call, by its file, else by its crate, and the number of that below the heading."""
    for key in (f"{item.crate}/{item.file}", item.crate):
        for heading, places in HEADINGS:
            if caller in CALLERS and key in places:
                return heading, places.index(key)
    return OWN, [*read_crates()].index(item.crate)


def faults(listed):
    """What is wrong of the calls, the laws, the errors and bench/api.txt."""
    called = [(name, it) for caller, name, it in listed if caller in CALLERS]
    for name, it in (*called, *((name, it) for _, name, it in laws())):
        if not it.doc:
            yield f"{it.crate}/src/{it.file}: {name} has no doc comment"
        if not (it.clauses or " for " in it.owner or it.owner.startswith("trait")):
            yield f"{it.crate}/src/{it.file}: {name} has no contract"
    cased = ((it, case) for it in errors(listed) for case, doc in cases_of(it) if not doc)
    yield from (f"{it.crate}/src/{it.file}: {it.name}::{case} has no doc comment" for it, case in cased)
    named = {place for _, it in called for place in (it.crate, f"{it.crate}/{it.file}")}
    yield from (f"bench/api.txt: {it} is no crate" for it in CALLERS if it not in read_crates())
    yield from (f"bench/api.txt: {it} has no calls" for _, places in HEADINGS for it in places if it not in named)
    missed = (call for call in listed if call[0] in CALLERS and heading_of(call[0], call[2])[0] == OWN)
    yield from (f"bench/api.txt: no heading has {name} of {it.crate}/{it.file}" for _, name, it in missed)


def inline(text):
    """A text with its code, without its links."""
    text = re.sub(r"\[(`[^`]*`|[^]]*(?=\]\())\](\([^)]*\))?", r"\1", text)
    return re.sub(r"`([^`]*)`", r"<code>\1</code>", escape(text, quote=False))


def comment(doc):
    """A doc comment's paragraphs, lists and fenced code."""
    for number, part in enumerate(re.split(r"^```.*\n?", "\n".join(doc), flags=re.M)):
        if number % 2:
            yield f"<pre>{escape(part.rstrip())}</pre>"
            continue
        for block in re.split(r"\n\s*\n", part.strip()):
            head, *items = re.split(r"^- ", block, flags=re.M)
            yield f"<p>{inline(head.strip())}</p>" if head.strip() else ""
            yield f"<ul>{''.join(f'<li>{inline(it.strip())}</li>' for it in items)}</ul>" if items else ""


def contract(item):
    """The clauses of a call, as its source has them."""
    both = [*(("requires", *it) for it in item.premises), *(("ensures", *it) for it in item.clauses)]
    heads = ((f"{word} {name}".strip(), text) for word, name, text in both)
    return "".join(f"<pre><b>{head}</b> {{\n{escape(inspect.cleandoc(it))}\n}}</pre>\n" for head, it in heads)


def entry(caller, name, item):
    error = error_of(item)
    told = f'; errors: <a href="#{error}"><code>{error}</code></a>' if error in all_types() else ""
    signature = name + item.signature.split("fn ", 1)[1].removeprefix(item.name)
    said = "\n".join(filter(None, comment(item.doc)))
    place = f"<p>crate <code>{caller}</code>, in <code>crates/{item.crate}/src/{item.file}</code>{told}</p>"
    promised = contract(item) or "<p>Its contract is its trait's.</p>\n"
    return f'<h3 id="{caller}.{name}"><code>{escape(signature)}</code></h3>\n{said}\n{promised}{place}\n'


def error_entry(item):
    rows = (f"<dt><code>{case}</code></dt><dd>{inline(' '.join(doc))}</dd>\n" for case, doc in cases_of(item))
    said = "\n".join(filter(None, comment(item.doc)))
    place = f"<p>in <code>crates/{item.crate}/src/{item.file}</code></p>"
    return f'<h3 id="{item.name}"><code>{item.name}</code></h3>\n{said}\n<dl>{"".join(rows)}</dl>\n{place}\n'


def page(listed):
    files = list(dict.fromkeys((item.crate, item.file) for *_, item in listed))
    found = {it: [] for it in (*dict(HEADINGS), OWN)}
    placed = ((heading_of(it[0], it[2]), files.index((it[2].crate, it[2].file)), it[2].line, it) for it in listed)
    for (heading, _), *_, call in sorted(placed):
        found[heading].append(call)
    found["Laws"] = laws()
    parts = {it: [(f"{call[0]}.{call[1]}", call[1], entry(*call)) for call in its] for it, its in found.items()}
    parts["Errors"] = [(it.name, it.name, error_entry(it)) for it in errors(listed)]
    contents, text = "", ""
    for number, (heading, entries) in enumerate(parts.items()):
        links = "\n".join(f'<a href="#{it}"><code>{name}</code></a>' for it, name, _ in entries)
        head = f'<a href="#part{number}">{heading}</a> ({len(entries)})'
        contents += f"<details><summary>{head}</summary>\n{links}\n</details>\n"
        text += f'<h2 id="part{number}">{heading}</h2>\n' + "".join(it for *_, it in entries)
    return FRAME.replace("@CONTENTS@\n", contents).replace("@CALLS@\n", text)


if __name__ == "__main__":
    listed = list(calls())
    made = {PAGE: page(listed)}
    PAGE.parent.mkdir(exist_ok=True)
    write_or_check({} if sys.argv[1:] == ["--check"] else made, "", faults(listed))
