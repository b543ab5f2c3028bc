#!/usr/bin/env python3
"""copy_crates.py NAME.. FOLDER: copies the crates named, and those that they use, to another repository in Rattle, with their lines of crates.txt.

A crate that is there already is copied anew. Copied are the sources, the definitions and the proofs: the tests and the wrong bodies stay here.
"""

import pathlib
import shutil
import sys

sys.path.insert(0, str(pathlib.Path(__file__).resolve().parent.parent / "bench"))
from crate_list import copy_parts, libraries_below, read_crates, read_lines


def main(*words):
    *names, to = words
    uses = read_crates()
    wanted = dict.fromkeys(it for name in names for it in (*libraries_below(name, uses), name))
    file = pathlib.Path(to) / "crates.txt"
    lines = file.read_text().splitlines() if file.exists() else []
    for name in wanted:
        shutil.rmtree(pathlib.Path(to) / "crates" / name, ignore_errors=True)
        copy_parts(name, pathlib.Path(to) / "crates" / name)
    kept = [it for it in lines if it.split(":")[0].split()[:1] not in [[name] for name in wanted]]
    file.write_text("\n".join([*kept, *(read_lines()[name] for name in wanted)]) + "\n")
    print(f"copied {len(wanted)} crates: {' '.join(wanted)}")
    return 0


if __name__ == "__main__":
    sys.exit(main(*sys.argv[1:]))
