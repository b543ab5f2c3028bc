#!/usr/bin/env python3
"""reasons.py [--check]: writes the tables of reasons in code, definitions, libraries and pages. bench/reasons.txt has the
reasons, and says where the tables are. Lines of code are as `rt fmt` has them.

The manual page also has what an input may be by its first byte, out of the definitions of dbus_explain.
"""

import re
import sys
import textwrap

from crate_list import ROOT, text_of
from pages import write_or_check

# Without comments, and a text that goes on in one line.
LISTED = re.sub(r"^#.*\n|\n {7}(?= )", "", (ROOT / "bench/reasons.txt").read_text(), flags=re.M)
# The pages that have lists of reasons.
LISTS = ("docs/WIRE-FORMAT.md", "docs/MATCH-RULES.md", "man/dbus-wire.1")
ROW = re.compile(r"^(\w+)::(\w+)(?:\((\w+)\))?(?: = (\d+))?\n((?:    .*\n)+)", re.M)
# What a row says besides the comment of its case.
TEXT = re.compile(r"    (told|if|at|rule|section|of|code|definition|note): (.*)\n")
LOOKS = text_of("dbus_explain/specs/Looks.antt").partition("look_by b =")[2].partition("else []")[0]
OTHER = "other printable ASCII, a tab, CR or LF"


class Reason:
    """A reason, by all that lines of tables have of it."""

    told = at = rule = section = of = code = definition = note = ""

    def __init__(self, kind, name, part="", number="", said=""):
        doc = TEXT.sub("", said)
        plain = " ".join(doc.split())
        plain = plain[:1].lower() + plain[1:-1]
        self.kind, self.name, self.part, self.number = kind, name, part, int(number or 0)
        vars(self).update({"told": plain.replace("`", "'"), "if": plain} | dict(TEXT.findall(said)))
        self.upper = re.sub(r"(?<=[a-z])(?=[A-Z])", "_", name).upper()
        self.doc = re.sub("^ +", "/// ", doc, flags=re.M).replace("\n", "\n    ")
        # What is no case has a constant for its number.
        self.index = self.number if doc else self.upper
        its = [f"{name}({it})" if part else name for it in (part, "code", "_", "CODE", "3", "255")]
        self.label, self.bound, self.any, self.named = its[:4]
        self.tried = f'"),\n    ({kind}::'.join(f'{it}, "{it}' for it in (its[4:] if part else [name]))
        self.plain, self.term = (f"({it}{name} code)" if part else it + name for it in ("", "reason."))
        self.codes = f'codes "{name}(" ++ (decimal code ++ codes ")")' if part else f'codes "{name}"'
        self.shown = f'write!(f, "{name}({{code}})")' if part else f'f.write_str("{name}")'
        self.step = f'else if nat_eq n {number} then codes "{name}"'
        self.noted = f" /* {self.note} */" * bool(self.note)
        place, at_place = ("; P is " + self.at, "; at " + self.at) if self.at else ("", "")
        self.refused = re.sub("`(.*?)`", r"\\fB\1\\fP", filled(f"{self['if'][:1].upper()}{self['if'][1:]}{place}."))
        self.item = wrapped(f"* `{self.bound}`: {self['if']}{at_place}", 100, "  ")[2:]

    def __getitem__(self, key):
        return getattr(self, key)

    by_name = property(lambda self: self.arm(self.part if self.kind == "Missing" else f"{self.kind}::{self.bound}"))
    by_rest = property(lambda self: self.arm("_"))
    ruled = property(lambda self: filled(self.worded('"')))

    @property
    def rules(self):
        """The reasons that have its rule: itself, or that of messages, and for a name that of its length too."""
        found = [self] if self.rule else [it for it in ALL if (it.kind, it.name) == ("Reason", self.name)]
        return found + [it for it in ALL if it.name == "NameTooLong" and found[0].of == "name" and not self.rule]

    @property
    def defined(self):
        """The definition of its rule."""
        ruled = f'ruled (codes "{self.rule}") (codes "{self.section}")' if self.section else f'codes "{self.rule}"'
        also = " ++ also_short" * (len(self.rules) - 1)
        return self.definition or (ruled if self.rule else f"rule_text {self.term.replace('reason', 'broken')}{also}")

    def worded(self, mark):
        """Its rule with the section."""
        section = f" (D-Bus Specification, {mark}{{0.section}}{mark})"
        return "; ".join(it.rule + section.format(it) * bool(it.section) for it in self.rules)

    def arm(self, head):
        """What a match has of its rule, behind this."""
        is_line = self.kind == "JsonReason"
        words = [f'"{it}"' for it in ([self.worded('\\"')] if is_line else [self.rule, self.section])]
        if is_line and not self.rule:
            return f"{head} => Rule::Of{'Name' if self.rules[1:] else 'Message'}(Reason::{self.bound}),"
        if self.code and head != "_" or not is_line and not self.section:
            return f"{head} => {self.code or words[0]},"
        function, inner, comma = "Rule::Own" if is_line else "rule!", ",\n            ".join(words), "," * is_line
        line = f"{head} => {function}({', '.join(words)}),"
        is_short = len(", ".join(words)) <= 60 and len(line) <= 92
        return line if is_short else f"{head} => {function}(\n            {inner}{comma}\n        ),"


def wrapped(text, width, indent=""):
    return textwrap.fill(text, width, subsequent_indent=indent, break_long_words=False, break_on_hyphens=False)


def filled(text):
    """A text as the source of a page, in lines none of which is a request or ends a sentence."""
    source = wrapped(text.replace("\\", "\\e").replace("-", "\\-").replace('"', "\\(dq"), 94)
    return re.sub(r"^(?=[.'])|(?<=[.?!])$", r"\\&", source, flags=re.M)


def looks():
    """What an input may be, by the byte that it begins with."""
    for condition, said in re.findall(r'if (.*) then codes "(.*)"', LOOKS):
        first = " or ".join(f"{int(it, 0):02x}" for it in re.findall(r"nat_eq b (\w+)", condition))
        yield Reason("Look", first or OTHER, said=f"    rule: {said}\n")


def chosen(which):
    """The reasons that a table is of, as bench/reasons.txt says."""
    kind, mark, part = re.fullmatch(r"(\w+)(\W*)(.*)", which).groups()
    rows = [it for it in ALL if it.kind == kind]
    if mark in ("/", "::"):
        return [it for it in rows if part == (it.of if mark == "/" else it.name)]
    if "#" in mark:
        found = {it.number: it for it in reversed(ALL) if it.kind == kind or kind + it.kind == "ReasonJsonReason"}
        return [found[it] for it in sorted(found) if mark == "#" or found[it].told != "reserved"]
    cases = sorted([it for it in rows if it.doc] or rows, key=lambda it: it.number * (kind != "JsonReason"))
    return [it for it in cases if not (mark and it.part)]


def table(before, which, line, last=""):
    """A pattern for a table, with what stands before it, and its text."""
    rows, line = [it for one in which.split() for it in chosen(one)], line.replace("\\n", "\n")
    names = ", ".join(it.name for it in (rows[:-1] if last else rows))
    lines = [line.format(names=names)] if "{names}" in line else [line.format_map(it) for it in rows]
    if last.isdigit():
        some = range(0, len(lines), int(last))
        lines = ["\n".join("    " + " ".join(it.strip() for it in lines[at : at + some.step]) for at in some)]
        lines = [lines[0].replace("else ", "", 1) + " else []"]
    elif last != "-":
        lines[len(lines) - ("{" in last) :] = [last.format_map(rows[-1])] * bool(last)
    more = {".": r"(?:[^.\n].*\n)*", "*": r"(?:  .*\n)*"}.get(line[0], "")
    front = rf".*{re.escape(before)}(?:.*\n)*?" if before else ""
    return re.compile(rf"^({front})(?:{re.escape(line.split('{')[0])}.*\n{more})+", re.M), "\n".join(lines) + "\n"


def tables():
    """The tables: of each the file, its pattern and its text."""
    return [(file, *table(*said)) for file, *said in (it.split(" | ") for it in re.findall(r"^.* \| .*", LISTED, re.M))]


def rules():
    """Each reason of a match rule or a message with what is said of it, and the section."""
    of_rules = [(it.label, (f"refused if {it['if']}", "Match Rules")) for it in chosen("RuleReason")]
    return of_rules + [(it.label, (it.rule, it.section)) for it in chosen("Reason-") + chosen("Missing")]


ALL = [*(Reason(*it) for it in ROW.findall(LISTED)), *looks()]

if __name__ == "__main__":
    texts = {}
    for file, pattern, text in tables():
        old = texts.get(ROOT / file) or (ROOT / file).read_text()
        texts[ROOT / file], count = pattern.subn(lambda it: it[1] + text, old, count=1)
        if not count:
            sys.exit(f"{file} has no table {pattern.pattern}")
    old = {path: text for path, text in texts.items() if text != path.read_text()}
    write_or_check(old, "bench/reasons.py has to write: " + " ".join(map(str, old)))
