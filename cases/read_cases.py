#!/usr/bin/env python3
"""read_cases.py FILE..: says how many cases each file has. Other scripts import it to read the cases; cases/README.md has the format."""

import pathlib
import re
import shlex
import sys

# Where the files are.
DATA = pathlib.Path(__file__).resolve().parent / "data"
CHOICE = " choice"
ITEM = re.compile(r'(?:(\d+)\*)?(?:"((?:[^"\\]|\\.)*)"|((?:[0-9a-f]{2})+))(?:\s+|$)')
ESCAPE = re.compile(rb'\\(?:x([0-9a-f]{2})|(["\\]))')


def read_lines(path):
    """The columns of each case as they are written."""
    with open(path, encoding="utf-8") as file:
        lines = [line.strip() for line in file]
    return [[it.strip() for it in re.split(r" \|(?= |$)", line)] for line in lines if line and line[0] != "#"]


def read_cases(path):
    """The columns of each case, of which the first is its name."""
    return [[name.removesuffix(CHOICE), *columns] for name, *columns in read_lines(path)]


def choices(path):
    """The names of the cases whose answer the specification leaves open."""
    return {name.removesuffix(CHOICE) for name, *_ in read_lines(path) if name.endswith(CHOICE)}


def read_bytes(column):
    """The bytes that a column spells, or None if it spells none."""
    found, at = b"", 0
    while at < len(column):
        item = ITEM.match(column, at)
        if not item:
            return None
        times, text, digits = item.groups()
        plain = text is not None and ESCAPE.sub(lambda it: bytes.fromhex(it[1].decode()) if it[1] else it[2], text.encode())
        found += int(times or 1) * (bytes.fromhex(digits) if digits else plain)
        at = item.end()
    return found


def read_words(column):
    """The words of a command line."""
    return shlex.split(column)


def read_parts(column, folder):
    """The bytes that a column of a run spells, with what it names of the folder; or None if it is `unread`."""
    if column == "unread":
        return None
    parts = dict(read_cases(pathlib.Path(folder, "parts.txt")))
    items, *named = column.split("@")
    found = read_bytes(items)
    for name, _, items in (it.partition(" ") for it in named):
        found += pathlib.Path(folder, name).read_bytes() if "." in name else read_bytes(parts[name])
        found += read_bytes(items)
    return found


def main(*paths):
    for path in paths:
        cases = read_cases(path)
        spelled = [it for it in (read_bytes(column) for case in cases for column in case[1:] if column) if it is not None]
        assert len({case[0] for case in cases}) == len(cases) and len({len(case) for case in cases}) == 1, path
        total = sum(map(sum, spelled)) % 2**32
        print(f"{path}: {len(cases)} cases of {len(cases[0])} columns, {len(spelled)} of them bytes, whose sum is {total}")


if __name__ == "__main__":
    main(*sys.argv[1:])
