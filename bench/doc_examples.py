#!/usr/bin/env python3
"""doc_examples.py: compiles and runs the examples in the doc comments of the crates, without proofs.

An example is a block of a doc comment, fenced by ```rust and ```. It is the body of a function that has the allocator `alloc`, the host `rt` and
`bytes`, one message of samples/session.dbus, and that ends well. The functions become a program out/doc_examples, one file each, which is
tried by `rt try`, and removed if it ends well: `rt ci` refuses a repository with a second crates.txt. The exit status is 1 if it is not built or does
not end well.
"""

import os
import re
import shutil
import subprocess
import sys
import textwrap

from crate_list import ROOT, copy_parts, folder_of, read_crates, read_lines

NAME = "doc_examples"
APART = ROOT / "out" / NAME
SECONDS = "120"

EXAMPLES = re.compile(r"^( *//[/!]) ?```rust\n((?: *//[/!].*\n)*?) *//[/!] ?```$", re.M)
# The module of an example, and the program that calls all of them.
EXAMPLE, MAIN = ((ROOT / "bench" / it).read_text() for it in ("doc_example.rt.in", "doc_examples.rt.in"))


def examples_in(file):
    """The number of the line above each example, and its lines."""
    text = file.read_text()
    for found in EXAMPLES.finditer(text):
        yield text.count("\n", 0, found.start(1)) + 1, re.sub(r"(?m)^\s*//[/!] ?", "", found[2]).splitlines()


def module_of(place, lines):
    """The text of an example's module."""
    uses = sorted(["use anyhow::Result;", "use std::alloc::Global;", *(it for it in lines if it.startswith("use "))])
    body = "\n".join(it for it in lines if not it.startswith("use ")).strip("\n")
    return EXAMPLE.format(place=place, uses="\n".join(uses), body=textwrap.indent(body, "    "))


def write_program():
    """Lays out the crates and the program, and returns the places of the examples."""
    shutil.rmtree(APART, ignore_errors=True)
    libraries = [it for it in read_crates() if (folder_of(it) / "src" / "lib.rt").exists() and "staticlib" not in read_lines()[it].split(":")[0]]
    for name in libraries:
        copy_parts(name, APART / "crates" / name, copy_function=os.link)
    sources = APART / "crates" / NAME / "src"
    sources.mkdir(parents=True)
    lines = [read_lines()[it] for it in libraries]
    (APART / "crates.txt").write_text("\n".join([*lines, f"{NAME}: {' '.join(libraries)} anyhow"]) + "\n")
    found = {}
    for file in (it for name in libraries for it in sorted((folder_of(name) / "src").glob("*.rt"))):
        for number, example in examples_in(file):
            place = f"{file.relative_to(ROOT / 'crates')}:{number}"
            found[place] = re.sub(r"\W+", "_", place)
            (sources / f"{found[place]}.rt").write_text(module_of(place, example))
    modules = "\n".join(f"mod {it};" for it in found.values())
    calls = "\n".join(f"    {it}::example(&rt, alloc, &bytes)?;" for it in found.values())
    (sources / "main.rt").write_text(MAIN.format(modules=modules, calls=calls))
    return list(found)


def main():
    places = write_program()
    # The first message, in little endian: 16 bytes, the header fields, padding to a multiple of 8, and the body.
    stream = (ROOT / "samples" / "session.dbus").read_bytes()
    body, fields = (int.from_bytes(stream[at : at + 4], "little") for at in (4, 12))
    message = stream[: 16 + (fields + 7) // 8 * 8 + body]
    words = ["rt", "try", "--seconds", SECONDS]
    ran = subprocess.run(words, cwd=APART / "crates" / NAME, input=message, capture_output=True)
    if ran.returncode:
        print(ran.stderr.decode(errors="replace"), f"{len(places)} examples: not built, or one did not end well", sep="\n")
        return 1
    shutil.rmtree(APART)
    print(f"{len(places)} examples of doc comments are built and run")
    return 0


if __name__ == "__main__":
    sys.exit(main())
