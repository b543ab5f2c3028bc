#!/usr/bin/env python3
"""speed.py PROGRAM [PEER..]: MB per second of user and system time of each command of PROGRAM, of a check in plain C
(plain_check.c), and of each PEER, a build of libdbus.c or gdbus.c.

The streams are the sample captures and the shapes of shapes.py, each repeated to about 32 MB, and one message of 64 MB. Each
command line is run once to warm up and then five times; a row has the median of these and, in brackets, the best.
"""

import os
import resource
import statistics
import subprocess
import sys
import tempfile
from pathlib import Path

from crate_list import ROOT
from shapes import header, streams

HERE = ROOT / "bench"
SIZE, LONG = 32_000_000, 64_000_000
RUNS = 5
COMMANDS = {"check": ("check",), "filter": ("filter", "type='signal'")}
COMMANDS |= {f"swap {it}": ("swap", "--to", it) for it in "lB"}
COMMANDS |= {it: (it,) for it in ("show", "json", "list", "count", "calls")}
# A method return whose body is one array of bytes.
LONG_HEADER = header("ay", 4 + LONG, fields=[(5, ("u", 1))], kind=2) + LONG.to_bytes(4, "little")


def write_streams(folder):
    """The paths of the streams, by name."""
    sources = {it: (ROOT / "samples" / f"{it}.dbus").read_bytes() for it in ("session", "big-endian")}
    sources |= streams()
    for name, stream in sources.items():
        (folder / name).write_bytes(stream * (SIZE // len(stream)))
    (folder / "one message").write_bytes(LONG_HEADER + bytes(LONG))
    return {name: folder / name for name in (*sources, "one message")}


def seconds(command_line, path):
    """The user and system time of one run."""
    before = resource.getrusage(resource.RUSAGE_CHILDREN)
    with open(path, "rb") as stream:
        subprocess.run(command_line, stdin=stream, stdout=subprocess.DEVNULL, check=True)
    after = resource.getrusage(resource.RUSAGE_CHILDREN)
    return after.ru_utime - before.ru_utime + after.ru_stime - before.ru_stime


def speed(command_line, path):
    """The median and the best of the runs."""
    seconds(command_line, path)
    megabytes = os.path.getsize(path) / 1e6
    speeds = [megabytes / seconds(command_line, path) for _ in range(RUNS)]
    return f"{statistics.median(speeds):.0f} ({max(speeds):.0f})"


def main():
    program, *peers = sys.argv[1:]
    command_lines = {name: (program, *words) for name, words in COMMANDS.items()}
    with tempfile.TemporaryDirectory() as room:
        plain = f"{room}/plain"
        subprocess.run(["cc", "-O2", HERE / "plain_check.c", "-o", plain], check=True)
        command_lines["plain C"] = (plain,)
        command_lines.update({os.path.basename(peer): (peer,) for peer in peers})
        print(f"{'MB/s':14}" + "".join(f"{name:>14}" for name in command_lines))
        for name, path in write_streams(Path(room)).items():
            print(f"{name:14}" + "".join(f"{speed(line, path):>14}" for line in command_lines.values()), flush=True)


if __name__ == "__main__":
    main()
