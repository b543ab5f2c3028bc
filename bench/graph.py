#!/usr/bin/env python3
"""graph.py [--check]: writes into docs/ARCHITECTURE.md which crate of the product uses which, by the headings of crates.txt.

A library that another one on the line uses is left out: the other line has it.
"""

import re

from crate_list import ROOT, libraries_below, read_crates
from pages import write_or_check

PAGE = ROOT / "docs" / "ARCHITECTURE.md"
PICTURE = re.compile(r"(## Which crate uses which\n(?:.*\n)*?```text\n)(?:.*\n)*?(```\n)")
# What comes after this heading is no part of the product.
TESTS = "Tests"
WIDTH = 22


def read_layers():
    """The crates under each heading of crates.txt."""
    parts = (ROOT / "crates.txt").read_text().split("# ---- ")[1:]
    layers = {it.partition("\n")[0]: re.findall(r"^\w+", it.partition("\n")[2], re.M) for it in parts}
    return {heading: crates for heading, crates in layers.items() if not heading.startswith(TESTS)}


def line_of(crate, uses):
    """The crate, and the libraries that it uses and that none of its others uses."""
    reached = {below for it in uses[crate] for below in libraries_below(it, uses)}
    direct = (it.removeprefix("dbus_") for it in dict.fromkeys(uses[crate]) if it not in reached)
    return f"  {crate:<{WIDTH}}{' '.join(direct)}".rstrip()


if __name__ == "__main__":
    layers = ("\n".join([head, *(line_of(it, read_crates()) for it in its)]) for head, its in read_layers().items())
    picture = "\n\n".join(layers) + "\n"
    page = PICTURE.sub(lambda it: it[1] + picture + it[2], PAGE.read_text())
    write_or_check({PAGE: page}, "docs/ARCHITECTURE.md is not current: make graph writes which crate uses which")
