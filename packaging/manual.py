#!/usr/bin/env python3
"""manual.py: prints the manual page dbus_wire(3), which it makes of include/dbus_wire.h: what all calls have in common, each call, each struct and
each list of numbers, with their comments. manual.py --calls prints the names of the calls, also of those that are inline, a line each. The page has the
date of dbus-wire(1).

It ends with an error if the page would lack a call that the header declares.
"""

import pathlib
import re
import sys

ROOT = pathlib.Path(__file__).resolve().parent.parent
HEADER, PROGRAM_PAGE = ROOT / "include/dbus_wire.h", ROOT / "man/dbus-wire.1"
# A comment that begins a line, and the code up to the next empty line, if there is any.
BLOCK = re.compile(r"^/\* ((?:.|\n)*?) ?\*/\n((?:.+\n)*)", re.M)
ATTRIBUTES = re.compile(r"DBUS_WIRE_(?:ANSWERS|NOT_NULL\(\(.*?\)\))\s*")
DECLARED = re.compile(r"^(?:DBUS_WIRE_\w+ ?(?:\(\(.*\)\) )?)*(?:void|\w+_t) (dbus_wire_\w+)\([^;{]*\);", re.M)
# A function that is inline: its declaration, its name and its code.
INLINE = re.compile(r"^static inline ([\w ]+?[ *]+(dbus_wire_\w+)\([^;{]*\)) \{\n(?:.*\n)*?\}\n", re.M)
# Of a comment an item of a list: what a call returns, or after a hyphen.
ITEM = re.compile(r"  (- |DBUS_WIRE_\w+)(.*)")
SUMMARY = "check, take apart, build, byteswap and match D-Bus messages"


def escaped(text):
    """Text as groff prints it, which takes a backslash, a hyphen and an apostrophe, and a line's first period, for something else."""
    text = text.replace("\\", "\\e").replace("-", "\\-").replace("'", "\\(aq")
    return "\\&" + text if text.startswith(".") else text


def prose(comment):
    """A comment's text as paragraphs and items."""
    for line in re.sub(r"^ \* ?", "", comment, flags=re.M).split("\n"):
        if not line.strip():
            yield ".PP"
        elif item := ITEM.match(line):
            head, rest = item[1], item[2].strip()
            yield from [".IP \\(bu 2"] if head == "- " else [".TP", f".B {escaped(head)}"]
            yield escaped(rest)
        else:
            # A line at the margin ends a list.
            if not line.startswith(" "):
                yield "\\&MARGIN"
            yield escaped(line.strip())


def paragraphs(comment):
    """The same, with a paragraph after each list."""
    within = False
    for line in prose(comment):
        if line == "\\&MARGIN":
            if within:
                yield ".PP"
            within = False
        else:
            within = within or line.startswith((".IP", ".TP"))
            yield line


def code(text):
    text = INLINE.sub(r"\1;\n", ATTRIBUTES.sub("", text))
    return [".PP", ".nf", *(escaped(line) for line in text.rstrip("\n").split("\n")), ".fi"]


def names_in(body):
    """The calls that the code declares, or the functions that are inline there."""
    return DECLARED.findall(body) + [name for _, name in INLINE.findall(ATTRIBUTES.sub("", body))]


def sections(blocks):
    """The page's parts: of each its title, and its blocks."""
    is_call = [bool(names_in(body)) or not body for _, body in blocks]
    calls = [it for it, wanted in zip(blocks, is_call) if wanted]
    structs = [it for it in blocks if it[1].startswith("struct")]
    numbers = [it for it in blocks if it[1].startswith(("enum", "#define DBUS_WIRE_")) and "__attribute__" not in it[1]]
    return [("CALLS", calls), ("STRUCTURES", structs), ("NUMBERS", numbers)]


def date():
    """The date of dbus-wire(1)."""
    return re.match(r'\.TH \S+ 1 "(.*?)"', PROGRAM_PAGE.read_text(encoding="utf-8"))[1]


def without_empty(lines):
    """The lines without a paragraph that a head begins anyway."""
    before = ""
    for line in lines:
        if not (line == ".PP" and before.startswith((".SH ", ".SS "))):
            yield line
        before = line


def page(header, calls):
    """The lines of the page."""
    version = ".".join(re.findall(r"define DBUS_WIRE_VERSION_(?:MAJOR|MINOR|PATCH) (\d+)", header))
    (intro, _), *blocks = BLOCK.findall(header)
    yield f'.TH DBUS_WIRE 3 "{date()}" "dbus-wire {version}" "Library Calls"'
    yield from [".SH NAME", f"{', '.join(['dbus_wire', *calls])} \\- {SUMMARY}"]
    yield from [".SH SYNOPSIS", ".nf", ".B #include <dbus_wire.h>", ".PP", "Link with \\fB\\-ldbus_wire\\fP.", ".fi"]
    yield from [".SH DESCRIPTION", *paragraphs(intro.replace("dbus_wire.h: checks", "The library checks", 1))]
    for title, of_part in sections(blocks):
        yield f".SH {title}"
        for comment, body in of_part:
            if names := names_in(body) or re.findall(r"^struct (\w+) \{", body, re.M):
                yield from [".SS " + ", ".join(names)]
            yield from [*code(body), ".PP", *paragraphs(comment)] if body else [".SS Bodies", *paragraphs(comment)]
    yield from [".SH SEE ALSO", ".BR dbus\\-wire (1)"]


def main(*words):
    # What follows are inline functions that take the place of calls, by their names.
    header = HEADER.read_text(encoding="utf-8").split("/* From here on each name")[0]
    calls = names_in(header)
    if words == ("--calls",):
        print(*calls, sep="\n")
        return 0
    lines = [*without_empty(page(header, calls))]
    heads = {name for line in lines if line.startswith(".SS ") for name in line[4:].split(", ")}
    if missing := [it for it in calls if it not in heads]:
        print(f"the page has no {', '.join(missing)}", file=sys.stderr)
        return 1
    print(*lines, sep="\n")
    return 0


if __name__ == "__main__":
    sys.exit(main(*sys.argv[1:]))
