"""Changes of definitions that say something else, by a table of rules."""

import functools
import itertools
import re

from specification import path_of

from crate_list import text_of

DEFINES = r"^ *(?:(?:abbrev|unfoldable|mutual|pub|const|record|data) +)*{}\b"


def closing(text):
    """The brackets that the text closes and does not open."""
    return ")" * (text.count(")") - text.count("("))


def another_name(line, text):
    """A name becomes the next one of those that stand behind the same word, that the same line imports as constants, or
    that have the same type."""
    constants = (re.findall(r"\b[A-Z][A-Z0-9_]+\b", it) for it in re.findall(r"^use .*\{(.+)\}", text, re.M))
    behind = dict.fromkeys(re.findall(r"\b([a-z]+\.)(?=[A-Z])", text))
    behind = ([*dict.fromkeys(re.findall(rf"\b{re.escape(it)}[A-Z]\w*", text))] for it in behind)
    typed = re.findall(r"^(?:(?:abbrev |unfoldable |pub )*|  )(\w+) : (.+)$", text, re.M)
    alike = ([name for name, of in typed if of == it] for it in dict.fromkeys(it for _, it in typed))
    groups = [it for it in itertools.chain(constants, behind, alike) if len(it) > 1]
    others = {name: other for it in groups for name, other in zip(it, it[1:] + it[:1])}
    for found in re.finditer(r"(?<![\w.])(?:[a-z]+\.)?\w+(?![\w.])", line):
        if found[0] in others and found.start() > line.find(" = "):
            yield line[: found.start()] + others[found[0]] + line[found.end() :]


def next_case(line, text):
    """A case of a definition becomes the next one that differs."""
    head, _, value = line.partition(" = ")
    alike = re.compile(rf"{re.escape(head.split()[0])} .* = \S")
    cases = [it.partition(" = ")[2] for it in text.split("\n") if alike.match(it)]
    after = cases[cases.index(value) :] + cases if value in cases else []
    yield from (f"{head} = {it}" for it in dict.fromkeys(after) if it != value)


# What is said of a change of a line; what it changes, and to what; or what gives the lines that it makes.
RULES = (
    ("a text ends otherwise", r'codes "([^"]*)[^"x]"', r'codes "\1x"'),
    ("a number is one more", r"(?<![\w.^#{])(\d[\d_]*)(?![\w.])", lambda it: str(int(it[1]) + 1)),
    ("another name", another_name, None),
    ("always, in place of never", r"(?<= = )⊥$", "Unit {0}"),
    ("never, in place of always", r"(?<= = )Unit \{0\}$", "⊥"),
    ("below, in place of at most", "≤", "<"),
    ("at most, in place of below", r"(?<= )<(?= )", "≤"),
    ("false, in place of true", r"\btrue$", "false"),
    ("true, in place of false", r"\bfalse$", "true"),
    ("or, in place of and", "&&", "||"),
    ("and, in place of or", r"\|\|", "&&"),
    ("the branches of an if change places", r"\bthen (.+) else (.+)$", r"then \2 else \1"),
    ("the last of some facts is left out", r"( = .*×) (.+)$", lambda it: f"{it[1]} Unit {{0}}{closing(it[2])}"),
    ("the last of some choices is left out", r"( = .*⊎) (.+)$", lambda it: f"{it[1]} ⊥{closing(it[2])}"),
    ("a premise is left out", r"(?<= : )[^():→]+(?= →.*→)", "Unit {0}"),
    ("a member is left out", r"^(  (?:pub )?\w+ :) .+$", r"\1 Unit {0}"),
    ("the last part of a text is left out", r"( = .*) \+\+ (.+)$", lambda it: it[1] + closing(it[2])),
    ("the next case", next_case, None),
    ("a fact is left out", r"( =) .+$", r"\1 Unit {0}"),
)


def lines_of(lines, name, words):
    """The numbers of the lines of a definition which have the words, with those that go on from them."""
    begin = next(n for n, it in enumerate(lines) if re.match(DEFINES.format(name), it))
    end = next((n for n in range(begin, len(lines)) if not lines[n]), len(lines))
    for n in range(begin, end):
        is_equation = "=" in lines[n] or f"{name} :" not in lines[n]
        if is_equation and all(re.search(rf"(?<!\w){re.escape(it)}(?!\w)", lines[n]) for it in words):
            deeper = " " * (len(lines[n]) - len(lines[n].lstrip()) + 1)
            yield from (n, *itertools.takewhile(lambda it: lines[it].startswith(deeper), range(n + 1, end)))


def changes(crate, file, name, *words):
    """What is said of each change of the definition, the line that it makes, and the text of the file with it."""
    text = text_of(path_of(crate, file))
    lines = text.split("\n")
    for (said, what, new), n in itertools.product(RULES, dict.fromkeys(lines_of(lines, name, words))):
        line = lines[n]
        if callable(what):
            made = what(line, text)
        else:
            by = new if callable(new) else functools.partial(re.Match.expand, template=new)
            made = (line[: it.start()] + by(it) + line[it.end() :] for it in re.finditer(what, line))
        yield from ((said, it.strip(), "\n".join([*lines[:n], it, *lines[n + 1 :]])) for it in made)
