#!/usr/bin/env python3
"""notices.py FILE CRATE..: writes the licences of what is linked into these crates: of the kit's crates that they use, as the kit has them."""

import pathlib
import subprocess
import sys

sys.path.insert(0, str(pathlib.Path(__file__).resolve().parent.parent / "bench"))
from crate_list import read_crates, read_lines  # noqa: E402


def kit_folder():
    """The kit's folder of sources, where each crate has its licence."""
    page = subprocess.run(["rt", "doc"], capture_output=True, text=True, check=True).stdout.split()[0]
    return pathlib.Path(page).parent / "rattle"


def kit_crates(names):
    """The kit's crates that these crates use, and those below them."""
    own, lines, seen, found = read_crates(), read_lines(), set(), set()
    left = list(names)
    while left:
        name = left.pop()
        if name not in seen:
            seen.add(name)
            left += own[name]
            found |= set(lines[name].split(":")[1].split()) - set(own)
    return sorted(found)


def notices(crates):
    """The licences, each below the name of its crate and its file. A crate that was not ported from elsewhere may have none."""
    for name in kit_crates(crates):
        licences = sorted((kit_folder() / name).glob("LICENSE*"))
        if not licences:
            yield f"{name}\n\nA part of the Rattle kit, which has no licence file of this crate.\n\n"
        for licence in licences:
            yield f"{name}, {licence.name}\n\n{licence.read_text().strip()}\n\n"


if __name__ == "__main__":
    pathlib.Path(sys.argv[1]).write_text("".join(notices(sys.argv[2:])))
