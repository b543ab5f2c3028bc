#!/usr/bin/env python3
"""seeds.py FOLDER: writes messages for a fuzzer to begin with, a file each: those of the captures in samples/, and the cases of messages."""

import pathlib
import sys

ROOT = pathlib.Path(__file__).resolve().parent.parent.parent
CASES = ROOT / "cases/data"
sys.dont_write_bytecode = True
sys.path[:0] = [str(ROOT / "cases"), str(ROOT / "examples")]
from compare import SAMPLES, capture, messages  # noqa: E402
from read_cases import read_bytes, read_cases  # noqa: E402


def seeds():
    for sample in SAMPLES:
        yield from messages(capture(ROOT / "samples", sample))
    for file in ("messages.txt", "faults.txt"):
        for _, _, little, big, _ in read_cases(CASES / file):
            yield from (read_bytes(column) for column in (little, big) if column)


def main(folder):
    folder = pathlib.Path(folder)
    folder.mkdir(parents=True, exist_ok=True)
    for number, seed in enumerate(seeds()):
        (folder / f"{number:04}").write_bytes(seed)


if __name__ == "__main__":
    main(*sys.argv[1:])
