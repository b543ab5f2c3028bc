#!/usr/bin/env python3
"""module.py OUT: proves and builds the module of the page, of the crate dbus_page, for wasm64. The libraries below
it are built already.

In the list of crates dbus_page is a static library, which is proved for this machine. Here it stands in a
folder of its own, whose list says that it is for wasm64, so that `rt lib` proves it for that and links a
module.
"""

import os
import pathlib
import shutil
import subprocess
import sys
import tempfile

HERE = pathlib.Path(__file__).resolve().parent
sys.dont_write_bytecode = True
sys.path.insert(0, str(HERE.parent / "bench"))

from crate_list import PARTS, ROOT, copy_parts, libraries_below, read_crates, read_lines  # noqa: E402

NAME = "dbus_page"
# Bytes of the stack. The samples and cases take 72,416 of them at most.
STACK = 1_048_576


def main(out):
    (ROOT / "out").mkdir(exist_ok=True)
    libraries, lines = libraries_below(NAME, read_crates()), read_lines()
    with tempfile.TemporaryDirectory(dir=ROOT / "out") as room:
        room = pathlib.Path(room)
        for it in (*libraries, NAME):
            copy_parts(it, room / "crates" / it, (*PARTS, "out/rlib"), symlinks=True, copy_function=os.link)
        lines[NAME] = lines[NAME].replace(f"{NAME} staticlib:", f"{NAME} wasm64 stack={STACK}:")
        (room / "crates.txt").write_text("".join(f"{lines[it]}\n" for it in (*libraries, NAME)))
        subprocess.run(["rt", "lib"], cwd=room / "crates" / NAME, check=True)
        shutil.copyfile(room / "crates" / NAME / "out" / f"{NAME}.wasm", out)


if __name__ == "__main__":
    if len(sys.argv) != 2:
        sys.exit(__doc__)
    main(*sys.argv[1:])
