#!/usr/bin/env python3
"""export.py [FOLDER]: writes the cases for other implementations to a folder, which is out/ if none is given: dbus-cases-1.jsonl, a line of JSON for
each question of run.py, and dbus-cases-1.tar.gz, that file with the cases, what reads and asks them, a version file and the licence. The same sources
give the same bytes."""

import gzip
import io
import json
import pathlib
import sys
import tarfile

sys.dont_write_bytecode = True

from ask_plain import FILES  # noqa: E402
from read_cases import DATA  # noqa: E402
from report import lines, rules  # noqa: E402

VERSION = 1
NAME = f"dbus-cases-{VERSION}"
CASES = DATA.parent
ROOT = CASES.parent
READERS = ("read_cases.py", "read_cases.pl", "rewritten.py")
ASKERS = ("run.py", "report.py", "ask_plain.py", "questions.py", "handshakes.py", "seen.py", "streams.py")
DOCS = ("AUTHENTICATION", "DECISIONS", "FAULTS", "MATCH-RULES", "PEERS", "SPECIFICATION", "WIRE-FORMAT")
PEERS = ("answer.py", "peer.h", "main.c", "libdbus.c", "gdbus.c", "sdbus.c")
IN_PYTHON = ("with_jeepney.py", "with_dbus_next.py", "with_dbus_fast.py")
# What is behind this in README.md is not about the archive, which has no folder `cases`.
OURS, FOLDER = "## In this repository", "cases/"


def files(cases):
    """The files of the archive by their names, in order."""
    yield "LICENSE", (ROOT / "LICENSE").read_bytes()
    yield "VERSION", f"{VERSION}\n".encode()
    text = (CASES / "README.md").read_text().partition(OURS)[0].replace(FOLDER, "")
    yield "README.md", f"{text.rstrip()}\n".encode()
    yield "cases.jsonl", cases
    yield "rules.json", json.dumps(rules(), indent=1).encode()
    names = [*ASKERS, *READERS, *(f"data/{it}" for it in FILES), *(f"peers/{it}" for it in PEERS + IN_PYTHON)]
    yield from ((name, (CASES / name).read_bytes()) for name in sorted(names))
    yield from ((f"docs/{name}.md", (ROOT / "docs" / f"{name}.md").read_bytes()) for name in DOCS)


def archive(cases):
    packed = io.BytesIO()
    with gzip.GzipFile("", "wb", 9, packed, mtime=0) as zipped, tarfile.open(fileobj=zipped, mode="w", format=tarfile.USTAR_FORMAT) as tar:
        for name, data in files(cases):
            member = tarfile.TarInfo(f"{NAME}/{name}")
            member.size, member.mode = len(data), 0o755 if data[:2] == b"#!" else 0o644
            tar.addfile(member, io.BytesIO(data))
    return packed.getvalue()


def main(folder=ROOT / "out"):
    folder = pathlib.Path(folder)
    folder.mkdir(parents=True, exist_ok=True)
    cases = "".join(lines()).encode()
    (folder / f"{NAME}.jsonl").write_bytes(cases)
    (folder / f"{NAME}.tar.gz").write_bytes(archive(cases))
    print(f"{cases.count(10)} lines in {folder / NAME}.jsonl and .tar.gz")


if __name__ == "__main__":
    main(*sys.argv[1:])
