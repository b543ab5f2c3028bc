#!/usr/bin/env python3
"""worked_examples.py [--check]: writes docs/WORKED-EXAMPLES.md out of the proofs that compute the examples.

An example is a comment, with the section of the D-Bus Specification in brackets at its end, and then bytes beside what
the definitions say of them.
"""

import re
import textwrap

from crate_list import ROOT, text_of
from pages import item, write_or_check

PAGE = ROOT / "docs" / "WORKED-EXAMPLES.md"
VALUES = "dbus_value_model/proofs/WorkedExamples.antt"
MESSAGES = "dbus_header/proofs/WorkedExamples.antt"
EXAMPLE = re.compile(r"    -- (.*) \(\"(.*)\"\)\n    \((.*)\) ∷\n")
COMMENT = re.compile(r"(?:    -- .*\n)+")
BYTES = re.compile(r"((?:\d+ ∷ )*)\[\]")
MOST = 72


def hexadecimal(text):
    """The bytes of a list; of a long one the first and the last."""
    items = [f"{int(it):02x}" for it in re.findall(r"\d+", text)]
    shown = items if len(items) <= MOST else items[: MOST - 16] + [".."] + items[-15:]
    return " ".join(shown)


def answer(text):
    """What bytes are answered, in words."""
    if whole := re.fullmatch(r"Whole (\w+) (\d+)", text):
        return f"a message of {whole[2]} bytes"
    if fault := re.fullmatch(r"Refused \(fault (\d+) \(?reasons\.(\w+)(?: (\d+))?\)?\)", text):
        return f"refused at {fault[1]}: `{fault[2]}`" + (f" {fault[3]}" if fault[3] else "")
    return "more bytes are wanted"


def examples(file):
    """The examples of the file, each comment joined to one line."""
    joined = COMMENT.sub(lambda it: "    -- " + " ".join(line[7:] for line in it[0].splitlines()) + "\n", text_of(file))
    return EXAMPLE.findall(joined)


def told(said, shown, section, answered=None):
    """An example: what the bytes are and what is answered, and then the bytes, indented."""
    line = item(f"{said} ({section})" + (f": {answered}" if answered else ""))
    code = textwrap.indent(textwrap.fill(shown, 72), " " * 6)
    return "\n".join((line, "", code, "") if shown else (line, ""))


if __name__ == "__main__":
    values = (told(said, hexadecimal(BYTES.search(pair)[1]), section) for said, section, pair in examples(VALUES))
    bytes_of = ((BYTES.match(pair), *it, pair) for *it, pair in examples(MESSAGES))
    given = ((said, hexadecimal(it[1]), section, answer(pair[it.end() + 2 :])) for it, said, section, pair in bytes_of)
    messages = (told(*it) for it in given)
    head = PAGE.read_text().partition("\n## ")[0]
    page = "\n".join((head, "## Values\n", *values, "## Messages\n", *messages)).rstrip("\n") + "\n"
    write_or_check({PAGE: page}, "docs/WORKED-EXAMPLES.md is not current: make definitions writes it")
